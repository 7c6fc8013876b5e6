/* The cutter head. Around its middle it has two rings, the inner one for the bed and the outer one for the design: form and colour of each
 * say where the head is by the triangle found, as the proved locate answers. */
#include "page.h"
#include <math.h>

/* Sizes of a head of size 1: radius of the rings, beginning and end of an arm, widths, radius of the dot. */
static const double RADIUS[CHARTS] = { 0.85, 1.6 }, ARM[2] = { 1.6, 2.5 };
static const double RING_LINE = 0.26, ARM_LINE = 0.16, HALO = 0.26, DOT = 0.2;
static const double FARTHEST = 1e5;         /* from the page's corner; no lines are drawn from farther */
static const double SAMPLE = 1.45;          /* of letters of size 1: from a ring in front of words to these */

ring ring_of(const page *p, int chart) {
    static const ring by_position[] = {
        [JIRD_INSIDE] = RING_INSIDE, [JIRD_ON_AB] = RING_SIDE, [JIRD_ON_BC] = RING_SIDE, [JIRD_ON_CA] = RING_SIDE,
        [JIRD_AT_A] = RING_CORNER, [JIRD_AT_B] = RING_CORNER, [JIRD_AT_C] = RING_CORNER, [JIRD_OUTSIDE] = RING_NOWHERE,
    };
    uint32_t position = p->s->found[chart].position;
    return position <= JIRD_OUTSIDE ? by_position[position] : RING_NOWHERE;
}

/* ---- rings */

/* A circle; on a side a square, at a corner one that stands on a corner, both as large as the circle. */
static void trace_ring(const page *p, point at, double radius, ring form) {
    double half = 0.886 * radius, tip = 1.253 * radius;
    cairo_new_path(p->to);
    if (form == RING_SIDE) cairo_rectangle(p->to, at.x - half, at.y - half, 2 * half, 2 * half);
    else if (form == RING_CORNER) {
        shape s = { 4, { { at.x, at.y - tip }, { at.x + tip, at.y }, { at.x, at.y + tip }, { at.x - tip, at.y } } };
        trace(p, &s);
    } else cairo_arc(p->to, at.x, at.y, radius, 0, 2 * acos(-1));
}

/* Broken where the head is nowhere. */
static void stroke_ring(const page *p, point at, double radius, double width, ring form) {
    double parts = 8, dash[2] = { acos(-1) * radius / parts, acos(-1) * radius / parts };
    trace_ring(p, at, radius, form);
    cairo_set_line_width(p->to, width);
    if (form == RING_NOWHERE) cairo_set_dash(p->to, dash, 2, dash[0] / 2);
    ink(p, p->ink->ring[form]);
    cairo_stroke(p->to);
    cairo_set_dash(p->to, NULL, 0, 0);
}

/* A ring in front of words of this size; gives where they begin. */
double paint_ring_sample(const page *p, double x, double y, double size, ring form) {
    double radius = 0.42 * size;
    stroke_ring(p, (point){ x + 1.3 * radius, y - 0.36 * size }, radius, 0.28 * radius, form);
    return x + SAMPLE * size;
}

/* All rings in words, side by side, in as many lines as it takes; gives where the last of them stands. */
double paint_rings(const page *p, box where, double pitch, letter l) {
    static const char *const words[RINGS] = { "inside", "on a side", "at a corner", "nowhere" };
    double x = where.left, y = where.top;
    for (ring form = 0; form < RINGS; form++) {
        double wide = SAMPLE * l.size + text_width(p, words[form], l);
        if (x > where.left && x + wide > where.right) {
            x = where.left;
            y += pitch;
        }
        x = text_at(p, paint_ring_sample(p, x, y, l.size, form), y, 0, words[form], l) + l.size;
    }
    return y;
}

/* ---- the head */

/* A dot, and four arms from the outer ring on. */
static void paint_cross(const page *p, point at, double r, double wider) {
    static const double ways[4][2] = { { 1, 0 }, { 0, 1 }, { -1, 0 }, { 0, -1 } };
    cairo_new_path(p->to);
    for (int k = 0; k < 4; k++) {
        cairo_move_to(p->to, at.x + ARM[0] * r * ways[k][0], at.y + ARM[0] * r * ways[k][1]);
        cairo_line_to(p->to, at.x + ARM[1] * r * ways[k][0], at.y + ARM[1] * r * ways[k][1]);
    }
    cairo_set_line_width(p->to, (ARM_LINE + wider) * r);
    cairo_stroke(p->to);
    cairo_arc(p->to, at.x, at.y, (DOT + wider / 2) * r, 0, 2 * acos(-1));
    cairo_fill(p->to);
}

/* The inner ring is blank inside, and under all of it there is a halo, so that it stands out on anything. */
void paint_head(const page *p, point at, double r) {
    if (!(fabs(at.x) < FARTHEST && fabs(at.y) < FARTHEST)) return;
    ink(p, p->ink->ground);
    cairo_set_line_width(p->to, (RING_LINE + HALO) * r);
    for (int chart = 0; chart < CHARTS; chart++) {
        trace_ring(p, at, RADIUS[chart] * r, ring_of(p, chart));
        if (chart == BED) cairo_fill_preserve(p->to);
        cairo_stroke(p->to);
    }
    cairo_set_line_cap(p->to, CAIRO_LINE_CAP_ROUND);
    paint_cross(p, at, r, HALO);
    ink(p, p->ink->mark);
    paint_cross(p, at, r, 0);
    cairo_set_line_cap(p->to, CAIRO_LINE_CAP_BUTT);
    for (int chart = 0; chart < CHARTS; chart++) stroke_ring(p, at, RADIUS[chart] * r, RING_LINE * r, ring_of(p, chart));
}

/* ---- the side or the corner on which it sits */

static void trace_side(const page *p, point from, point to) {
    if (!clip_segment(grown(p->frame, p->style.band), &from, &to)) return;
    cairo_move_to(p->to, from.x, from.y);
    cairo_line_to(p->to, to.x, to.y);
}

/* A point of the side from a corner, so far from it or at the side's end. */
static point along(point from, point to, double far) {
    double part = fmin(1, far / hypot(to.x - from.x, to.y - from.y));
    return (point){ from.x + part * (to.x - from.x), from.y + part * (to.y - from.y) };
}

static void trace_corner(const page *p, point at, point before, point after) {
    double far = 5 * p->style.head;
    if (!(fabs(at.x) < FARTHEST && fabs(at.y) < FARTHEST)) return;
    point from = along(at, before, far), to = along(at, after, far);
    cairo_move_to(p->to, from.x, from.y);
    cairo_line_to(p->to, at.x, at.y);
    cairo_line_to(p->to, to.x, to.y);
}

/* A band under the lines of the chart, along the side, or along both sides of the corner for a part. */
void paint_boundary(const page *p, int chart) {
    size_t i = listed_under_head(p, chart);
    ring form = ring_of(p, chart);
    if (i == MOST || (form != RING_SIDE && form != RING_CORNER)) return;
    uint32_t k = p->s->found[chart].position - (form == RING_SIDE ? JIRD_ON_AB : JIRD_AT_A);
    shape t = triangle_shape(p, chart, i);
    cairo_new_path(p->to);
    if (form == RING_SIDE) trace_side(p, t.at[k], t.at[(k + 1) % 3]);
    else trace_corner(p, t.at[k], t.at[(k + 2) % 3], t.at[(k + 1) % 3]);
    ink(p, p->ink->ring[form]);
    cairo_set_line_width(p->to, p->style.band);
    cairo_set_line_join(p->to, CAIRO_LINE_JOIN_ROUND);
    cairo_stroke(p->to);
    cairo_set_line_join(p->to, CAIRO_LINE_JOIN_MITER);
}
