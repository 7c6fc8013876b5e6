/* Sides and corners of a chart. Each side is drawn once: of sides on one line those that overlap are joined, so that no dash falls into
 * another's gap. */
#include "page.h"
#include <math.h>
#include <stdlib.h>
#include <string.h>

typedef struct { int64_t ux, uy, off; side s; } lined;      /* a side and its line: direction in lowest terms, and where it lies */

static int64_t divisor(int64_t a, int64_t b) {
    a = a < 0 ? -a : a;
    b = b < 0 ? -b : b;
    while (b) {
        int64_t r = a % b;
        a = b;
        b = r;
    }
    return a;
}

static bool before(int32_t ax, int32_t ay, int32_t bx, int32_t by) { return ax < bx || (ax == bx && ay < by); }

/* The side with its lesser end first. */
static lined line_of(point p, point q, bool listed) {
    side s = { (int32_t)p.x, (int32_t)p.y, (int32_t)q.x, (int32_t)q.y, listed };
    if (before(s.bx, s.by, s.ax, s.ay)) s = (side){ s.bx, s.by, s.ax, s.ay, listed };
    int64_t dx = s.bx - s.ax, dy = s.by - s.ay, by = divisor(dx, dy);
    if (by == 0) return (lined){ .s = s };
    return (lined){ dx / by, dy / by, dx / by * s.ay - dy / by * s.ax, s };
}

static int order(int64_t a, int64_t b) { return a < b ? -1 : a > b; }

/* The order of the two lines, 0 where they are one. */
static int line_order(const lined *l, const lined *m) {
    if (l->ux != m->ux) return order(l->ux, m->ux);
    return l->uy != m->uy ? order(l->uy, m->uy) : order(l->off, m->off);
}

static int by_line(const void *a, const void *b) {
    const lined *l = a, *m = b;
    int lines = line_order(l, m);
    if (lines) return lines;
    return l->s.ax != m->s.ax ? order(l->s.ax, m->s.ax) : order(l->s.ay, m->s.ay);
}

static bool one_line(const lined *l, const lined *m) { return line_order(l, m) == 0; }

static lined triangle_side(const page *p, int chart, size_t i, int k) {
    return line_of(corner(p, chart, i, k), corner(p, chart, i, (k + 1) % 3), p->listed[chart][i]);
}

/* Fills p->sides of the chart: sorted, joined, sides without length left out. What is joined is listed if a part of it is. */
void find_sides(page *p, int chart) {
    lined *all = malloc(sizeof *all * MOST_SIDES);
    size_t n = 0, kept = 0;
    if (!all) {
        p->fault = "out of memory";
        return;
    }
    for (size_t i = 0; i < p->triangles[chart]; i++)
        for (int k = 0; k < 3; k++) all[n++] = triangle_side(p, chart, i, k);
    qsort(all, n, sizeof *all, by_line);
    side *out = p->sides[chart];
    for (size_t k = 0; k < n; k++) {
        const side *s = &all[k].s;
        if (all[k].ux == 0 && all[k].uy == 0) continue;
        bool joins = kept && one_line(&all[k], &all[k - 1]) && before(s->ax, s->ay, out[kept - 1].bx, out[kept - 1].by);
        if (!joins) out[kept++] = *s;
        else if (before(out[kept - 1].bx, out[kept - 1].by, s->bx, s->by)) {
            out[kept - 1].bx = s->bx;
            out[kept - 1].by = s->by;
        }
        out[kept - 1].listed |= s->listed;
    }
    p->side_count[chart] = kept;
    free(all);
}

static lined line_again(const side *s) { return line_of((point){ s->ax, s->ay }, (point){ s->bx, s->by }, s->listed); }

/* Fills p->common: the parts of sides that both charts have. The sides of each are in the order of their lines. */
void find_common_sides(page *p) {
    size_t i = 0, j = 0;
    p->common_count = 0;
    while (i < p->side_count[BED] && j < p->side_count[DESIGN]) {
        lined l = line_again(&p->sides[BED][i]), m = line_again(&p->sides[DESIGN][j]);
        int lines = line_order(&l, &m);
        side both = before(l.s.ax, l.s.ay, m.s.ax, m.s.ay) ? m.s : l.s;
        bool bed_ends = before(l.s.bx, l.s.by, m.s.bx, m.s.by);
        both.bx = bed_ends ? l.s.bx : m.s.bx;
        both.by = bed_ends ? l.s.by : m.s.by;
        both.listed = l.s.listed && m.s.listed;
        if (lines == 0 && before(both.ax, both.ay, both.bx, both.by)) p->common[p->common_count++] = both;
        if (lines < 0 || (lines == 0 && bed_ends)) i++;
        else j++;
    }
}

double side_reach(const page *p) { return 4 * p->style.line[BED] + 4 * p->style.underline; }

/* The part of the side that may be seen; where it starts, from the side's own start, in `skipped`. */
static bool side_seen(const page *p, const side *s, point *from, point *to, double *skipped) {
    point start = on_page(p, (point){ s->ax, s->ay });
    *from = start;
    *to = on_page(p, (point){ s->bx, s->by });
    if (!s->listed || !clip_segment(grown(p->frame, side_reach(p)), from, to)) return false;
    *skipped = hypot(from->x - start.x, from->y - start.y);
    return true;
}

static void trace_sides(const page *p, const side *sides, size_t n) {
    point from, to;
    double skipped;
    for (size_t k = 0; k < n; k++)
        if (side_seen(p, &sides[k], &from, &to, &skipped)) {
            cairo_move_to(p->to, from.x, from.y);
            cairo_line_to(p->to, to.x, to.y);
        }
}

/* Each side is dashed from its own start. */
static void dash_sides(const page *p, const side *sides, size_t n, double width) {
    point from, to;
    double skipped, period = p->style.dash[0] + p->style.dash[1];
    cairo_set_line_width(p->to, width);
    for (size_t k = 0; k < n; k++)
        if (side_seen(p, &sides[k], &from, &to, &skipped)) {
            cairo_set_dash(p->to, p->style.dash, 2, fmod(skipped, period));
            cairo_move_to(p->to, from.x, from.y);
            cairo_line_to(p->to, to.x, to.y);
            cairo_stroke(p->to);
        }
    cairo_set_dash(p->to, NULL, 0, 0);
}

double corner_reach(const page *p) { return 4 * p->style.dot; }

static bool shown(const page *p, point at) {
    box b = grown(p->frame, corner_reach(p));
    return at.x > b.left && at.x < b.right && at.y > b.top && at.y < b.bottom;
}

/* Dots for the bed, squares for the design. */
static void paint_corners(const page *p, int chart) {
    double dot = p->style.dot, square = p->style.square;
    for (size_t k = 0; k < 2 * p->side_count[chart]; k++) {
        const side *s = &p->sides[chart][k / 2];
        point at = on_page(p, k % 2 ? (point){ s->bx, s->by } : (point){ s->ax, s->ay });
        if (!s->listed || !shown(p, at)) continue;
        cairo_new_sub_path(p->to);
        if (chart == BED) cairo_arc(p->to, at.x, at.y, dot, 0, 2 * acos(-1));
        else cairo_rectangle(p->to, at.x - square, at.y - square, 2 * square, 2 * square);
    }
    ink(p, p->ink->chart[chart]);
    cairo_fill(p->to);
}

void paint_bed_sides(const page *p) {
    trace_sides(p, p->sides[BED], p->side_count[BED]);
    ink(p, p->ink->chart[BED]);
    cairo_set_line_width(p->to, p->style.line[BED]);
    cairo_stroke(p->to);
    paint_corners(p, BED);
}

/* Where the bed has the same side, it is seen in the gaps of the dashes. */
void paint_design_sides(const page *p) {
    trace_sides(p, p->sides[DESIGN], p->side_count[DESIGN]);
    ink(p, p->ink->ground);
    cairo_set_line_width(p->to, p->style.line[DESIGN] + p->style.underline);
    cairo_stroke(p->to);
    trace_sides(p, p->common, p->common_count);
    ink(p, p->ink->chart[BED]);
    cairo_set_line_width(p->to, p->style.line[BED]);
    cairo_stroke(p->to);
    ink(p, p->ink->chart[DESIGN]);
    dash_sides(p, p->sides[DESIGN], p->side_count[DESIGN], p->style.line[DESIGN]);
    paint_corners(p, DESIGN);
}

/* The sides of one triangle, wider than the others and over them. */
void paint_triangle_sides(const page *p, int chart, size_t i, double width) {
    side own[3];
    if (i >= p->triangles[chart]) return;
    for (int k = 0; k < 3; k++) own[k] = triangle_side(p, chart, i, k).s;
    trace_sides(p, own, 3);
    ink(p, chart == BED ? p->ink->chart[BED] : p->ink->ground);
    cairo_set_line_width(p->to, chart == BED ? width : width + p->style.underline);
    cairo_stroke(p->to);
    if (chart == BED) return;
    ink(p, p->ink->chart[DESIGN]);
    dash_sides(p, own, 3, width);
}
