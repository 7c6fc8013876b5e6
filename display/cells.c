/* Leaf cells of a chart, out of its entries: the left and the top side of each; the cells beside and below have the others. */
#include "page.h"
#include <math.h>
#include <stdlib.h>

/* Every second bit of the key, from bit 0 on. */
static uint32_t even_bits(uint32_t key) {
    uint32_t x = 0;
    for (uint32_t k = 0; k < 16; k++) x |= (key >> (2 * k) & 1u) << k;
    return x;
}

typedef struct { double x, y, side; } cell;

static bool outside(const page *p, cell c) {
    return c.x > p->window.right || c.y > p->window.bottom || c.x + c.side < p->window.left || c.y + c.side < p->window.top;
}

/* The sides of the cells in view: upright ones in all[0], the others in all[1]. */
static void gather(page *p, int chart, stretches all[2]) {
    const jird_chart *c = &p->s->charts[chart];
    size_t entries = c->entries < JIRD_ENTRIES_LENGTH ? c->entries : JIRD_ENTRIES_LENGTH;
    for (size_t k = 0; k < entries && !p->fault; k++) {
        if (c->levels[k] > 16 || (k && c->keys[k] == c->keys[k - 1] && c->levels[k] == c->levels[k - 1])) continue;
        cell at = { even_bits(c->keys[k]), even_bits(c->keys[k] >> 1), 65536 >> c->levels[k] };
        if (outside(p, at)) continue;
        stretch_add(p, &all[0], (long)at.x, at.y, at.y + at.side);
        stretch_add(p, &all[1], (long)at.y, at.x, at.x + at.side);
    }
}

static void trace_lines(const page *p, const stretches *all, bool upright) {
    box b = grown(p->frame, p->style.gap);
    for (size_t k = 0; k < all->n; k++) {
        const stretch *s = &all->at[k];
        double line = (double)s->line;
        point from = on_page(p, upright ? (point){ line, s->from } : (point){ s->from, line });
        point to = on_page(p, upright ? (point){ line, s->to } : (point){ s->to, line });
        if (!clip_segment(b, &from, &to)) continue;
        cairo_move_to(p->to, from.x, from.y);
        cairo_line_to(p->to, to.x, to.y);
    }
}

void paint_cells(page *p, int chart) {
    if (p->d->windowed[chart].number) return;
    stretches all[2] = { { 0 }, { 0 } };
    double dash[2] = { 8 * p->style.cell, 6 * p->style.cell };
    gather(p, chart, all);
    for (int k = 0; k < 2; k++) {
        stretches_join(&all[k]);
        trace_lines(p, &all[k], k == 0);
        free(all[k].at);
    }
    ink_at(p, p->ink->chart[chart], 0.45);
    cairo_set_line_width(p->to, p->style.cell);
    if (chart == DESIGN) cairo_set_dash(p->to, dash, 2, 0);
    cairo_stroke(p->to);
    cairo_set_dash(p->to, NULL, 0, 0);
}
