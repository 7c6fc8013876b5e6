/* One drawing of a scene: the sheet or the helm's picture, gathered, then written. */
#include "page.h"
#include <stdlib.h>
#include <string.h>

static size_t least(size_t a, size_t b) { return a < b ? a : b; }

static void begin(page *p, const scene *s, const view *v, drawn *d) {
    memset(d, 0, sizeof *d);
    p->s = s;
    p->v = v;
    p->d = d;
    p->ink = v->night ? &by_night : &by_day;
    text_clean(p->title, sizeof p->title, s->title && *s->title ? s->title : "Chart overlay");
    text_clean(p->id, sizeof p->id, s->id ? s->id : "");
    for (int chart = 0; chart < CHARTS; chart++) p->triangles[chart] = least(s->charts[chart].triangles, MOST);
    p->pairs = s->overlay.number == 0 ? least(s->overlay.pairs, JIRD_MOST_PAIRS) : 0;
}

const char *draw_scene(const scene *s, const view *v, const char *path, drawn *d) {
    page *p = calloc(1, sizeof *p);
    sink out = { NULL, 0, 0 };
    if (!p) return "out of memory";
    begin(p, s, v, d);
    const char *fault = v->layout == LAYOUT_SHEET ? draw_sheet(p, &out) : draw_helm(p, &out);
    if (!fault) fault = sink_write(&out, path);
    free(out.at);
    free(p);
    return fault;
}
