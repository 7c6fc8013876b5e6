/* The whole chart, small, with the window in it. */
#include "page.h"
#include <math.h>

static point small_at(box from, double scale, box to, double x, double y) {
    return (point){ to.left + (x - from.left) * scale, to.top + (y - from.top) * scale };
}

static void paint_chart(const page *p, int chart, box from, double scale, box to) {
    double u = p->style.unit, dash[2] = { 4 * u, 2.5 * u };
    for (size_t k = 0; k < p->side_count[chart]; k++) {
        const side *s = &p->sides[chart][k];
        point a = small_at(from, scale, to, s->ax, s->ay), b = small_at(from, scale, to, s->bx, s->by);
        cairo_move_to(p->to, a.x, a.y);
        cairo_line_to(p->to, b.x, b.y);
    }
    ink(p, p->ink->chart[chart]);
    cairo_set_line_width(p->to, (p->side_count[chart] > 300 ? 0.5 : 0.9) * u);
    if (chart == DESIGN) cairo_set_dash(p->to, dash, 2, 0);
    cairo_stroke(p->to);
    cairo_set_dash(p->to, NULL, 0, 0);
}

static void paint_window(const page *p, box from, double scale, box frame) {
    point a = small_at(from, scale, frame, p->window.left, p->window.top);
    point b = small_at(from, scale, frame, p->window.right, p->window.bottom);
    double u = p->style.unit;
    a = (point){ fmax(a.x, frame.left), fmax(a.y, frame.top) };
    b = (point){ fmin(b.x, frame.right), fmin(b.y, frame.bottom) };
    if (a.x >= b.x || a.y >= b.y) return;
    cairo_rectangle(p->to, a.x, a.y, b.x - a.x, b.y - a.y);
    ink(p, p->ink->mark);
    cairo_set_line_width(p->to, 2.4 * u);
    cairo_stroke(p->to);
}

void paint_overview(page *p, box where) {
    box from = charts_extent(p);
    from = grown(from, fmax(1, 0.05 * fmax(from.right - from.left, from.bottom - from.top)));
    double across = from.right - from.left, down = from.bottom - from.top;
    double scale = fmin((where.right - where.left) / across, (where.bottom - where.top) / down);
    box frame = { where.left, where.top, where.left + across * scale, where.top + down * scale };
    for (int chart = 0; chart < CHARTS; chart++) paint_chart(p, chart, from, scale, frame);
    paint_window(p, from, scale, frame);
    if (p->s->has_head) {
        point at = small_at(from, scale, frame, p->s->head_x, p->s->head_y);
        bool in = at.x > frame.left && at.x < frame.right && at.y > frame.top && at.y < frame.bottom;
        if (in) paint_head(p, at, 4 * p->style.unit);
    }
    cairo_rectangle(p->to, frame.left, frame.top, across * scale, down * scale);
    ink(p, p->ink->text);
    cairo_set_line_width(p->to, 1 * p->style.unit);
    cairo_stroke(p->to);
}
