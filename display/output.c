/* output.c: draws a scene to a file, and tells if it cannot, or if a window was refused. draw_scene writes beside the file and puts it in
 * its place. */
#include "output.h"
#include "say.h"
#include <stddef.h>

/* Each refusal is told once: --watch asks anew for every picture. */
static int tell_windows(const drawn *d) {
    static const char *const charts[] = { [BED] = "bed", [DESIGN] = "design" };
    static uint32_t told[CHARTS];
    int status = WELL;
    for (int c = 0; c < CHARTS; c++) {
        uint32_t number = d->windowed[c].number;
        if (number && number != told[c])
            say("window %s: refused %u: %s; the plan is drawn without it", charts[c], (unsigned)number, jird_words(number));
        if (number) status = REFUSED;
        told[c] = number;
    }
    return status;
}

int write_picture(const scene *s, const view *v, const char *path, drawn *d) {
    const char *why = draw_scene(s, v, path ? path : "/dev/null", d);
    if (!why) return tell_windows(d);
    say("error: %s", why);
    bool no_such_page = v->layout == LAYOUT_SHEET && v->form != FORM_PDF && d->pages > 0 && v->page > d->pages;
    return no_such_page ? WRONG : FAILED;
}
