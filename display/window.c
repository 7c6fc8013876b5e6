/* What the plan needs of each chart: the triangles that the proved window call lists for the rectangle that the plan shows. Of the others
 * nothing is drawn in it. */
#include "page.h"
#include <math.h>
#include <stdio.h>

/* How far beyond the frame something lies at most that is drawn in it, by half its width: a side, a corner, the band under a side. */
static double reach(const page *p) { return fmax(side_reach(p), fmax(corner_reach(p), p->style.band)); }

static uint16_t in_grid(double line) { return (uint16_t)fmax(0, fmin(line, LAST_PLACE)); }

/* The smallest rectangle of grid lines that has the window and what reaches into it, as far as there is a grid. */
static void set_rectangle(page *p) {
    box b = grown(p->window, reach(p) / p->scale);
    double lines[4] = { floor(b.left), floor(b.top), ceil(b.right), ceil(b.bottom) };
    for (int k = 0; k < 4; k++) p->d->rectangle[k] = in_grid(lines[k]);
}

/* At a refusal nothing of the chart is listed. */
void list_window(page *p) {
    set_rectangle(p);
    const uint16_t *r = p->d->rectangle;
    for (int chart = 0; chart < CHARTS; chart++) {
        uint16_t *list = p->d->list[chart];
        jird_windowed w = p->d->windowed[chart] = jird_chart_window(&p->s->charts[chart], r[0], r[1], r[2], r[3], list);
        for (size_t k = 0; w.number == 0 && k < w.listed && k < JIRD_WINDOW_LENGTH; k++)
            if (list[k] < p->triangles[chart]) p->listed[chart][list[k]] = true;
    }
}

bool window_refused(const page *p) { return p->d->windowed[BED].number || p->d->windowed[DESIGN].number; }

/* In words, where the chart would stand. */
void paint_refused_window(const page *p) {
    static const char *const names[CHARTS] = { "bed", "design" };
    char text[512];
    double size = 1.3 * p->style.text, y = p->frame.top + 2 * size;
    letter l = { size, true, false, p->ink->warning };
    for (int chart = 0; chart < CHARTS; chart++) {
        uint32_t number = p->d->windowed[chart].number;
        if (!number) continue;
        snprintf(text, sizeof text, "The %s is not drawn: its window was refused, number %u: %s.", names[chart], (unsigned)number,
                 jird_words(number));
        y = text_block(p, (box){ p->frame.left + size, y, p->frame.right - size, p->frame.bottom }, 1.3 * size, text, l);
    }
}
