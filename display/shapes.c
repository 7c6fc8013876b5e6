/* Shapes on the page: triangles, cut by the window and by each other, in doubles. They decide nothing but where ink falls. */
#include "page.h"
#include <math.h>

point corner(const page *p, int chart, size_t i, int k) {
    const uint16_t *at = p->s->charts[chart].table + 6 * i + 2 * (size_t)k;
    return (point){ at[0], at[1] };
}

point on_page(const page *p, point grid) {
    return (point){ p->frame.left + (grid.x - p->window.left) * p->scale, p->frame.top + (grid.y - p->window.top) * p->scale };
}

point on_grid(const page *p, point at) {
    return (point){ p->window.left + (at.x - p->frame.left) / p->scale, p->window.top + (at.y - p->frame.top) / p->scale };
}

shape triangle_shape(const page *p, int chart, size_t i) {
    shape s = { .n = 3 };
    for (int k = 0; k < 3; k++) s.at[k] = on_page(p, corner(p, chart, i, k));
    return s;
}

static double turn(point a, point b, point c) { return (b.x - a.x) * (c.y - a.y) - (b.y - a.y) * (c.x - a.x); }

/* What of the shape is on one side of the line through a and b: on the positive one if keep is 1, else (-1) on the other. */
shape cut(shape s, point a, point b, double keep) {
    shape out = { 0 };
    for (int k = 0; k < s.n; k++) {
        point q = s.at[k], r = s.at[(k + 1) % s.n];
        double from = keep * turn(a, b, q), to = keep * turn(a, b, r);
        if (from >= 0 && out.n < MOST_CORNERS) out.at[out.n++] = q;
        if (((from < 0 && to > 0) || (from > 0 && to < 0)) && out.n < MOST_CORNERS) {
            double t = from / (from - to);
            out.at[out.n++] = (point){ q.x + t * (r.x - q.x), q.y + t * (r.y - q.y) };
        }
    }
    if (out.n < 3) out.n = 0;
    return out;
}

shape cut_by_shape(shape s, shape by) {
    double area = shape_area(&by);
    if (area == 0) return (shape){ 0 };
    for (int k = 0; k < by.n && s.n; k++) s = cut(s, by.at[k], by.at[(k + 1) % by.n], area > 0 ? 1 : -1);
    return s;
}

static bool within(const shape *s, box b) {
    for (int k = 0; k < s->n; k++)
        if (s->at[k].x < b.left || s->at[k].x > b.right || s->at[k].y < b.top || s->at[k].y > b.bottom) return false;
    return true;
}

shape cut_by_box(shape s, box b) {
    shape by = { .n = 4, .at = { { b.left, b.top }, { b.right, b.top }, { b.right, b.bottom }, { b.left, b.bottom } } };
    return within(&s, b) ? s : cut_by_shape(s, by);
}

double shape_area(const shape *s) {
    double sum = 0;
    for (int k = 1; k + 1 < s->n; k++) sum += turn(s->at[0], s->at[k], s->at[k + 1]);
    return sum / 2;
}

point shape_middle(const shape *s) {
    point m = { 0, 0 };
    for (int k = 0; k < s->n; k++) {
        m.x += s->at[k].x / s->n;
        m.y += s->at[k].y / s->n;
    }
    return m;
}

static double length(point a, point b) { return hypot(b.x - a.x, b.y - a.y); }

point incentre(const shape *t) {
    double a = length(t->at[1], t->at[2]), b = length(t->at[2], t->at[0]), c = length(t->at[0], t->at[1]), sum = a + b + c;
    if (sum <= 0) return t->at[0];
    return (point){ (a * t->at[0].x + b * t->at[1].x + c * t->at[2].x) / sum, (a * t->at[0].y + b * t->at[1].y + c * t->at[2].y) / sum };
}

double inradius(const shape *t) {
    double sum = length(t->at[1], t->at[2]) + length(t->at[2], t->at[0]) + length(t->at[0], t->at[1]);
    return sum > 0 ? 2 * fabs(shape_area(t)) / sum : 0;
}

/* The part of the segment that is inside the box; false if there is none. */
bool clip_segment(box b, point *from, point *to) {
    double dx = to->x - from->x, dy = to->y - from->y, t0 = 0, t1 = 1;
    double step[4] = { -dx, dx, -dy, dy };
    double room[4] = { from->x - b.left, b.right - from->x, from->y - b.top, b.bottom - from->y };
    for (int k = 0; k < 4; k++) {
        if (step[k] == 0) {
            if (room[k] < 0) return false;
        } else if (step[k] < 0) t0 = fmax(t0, room[k] / step[k]);
        else t1 = fmin(t1, room[k] / step[k]);
    }
    if (t0 > t1) return false;
    *to = (point){ from->x + t1 * dx, from->y + t1 * dy };
    *from = (point){ from->x + t0 * dx, from->y + t0 * dy };
    return true;
}

box grown(box b, double by) { return (box){ b.left - by, b.top - by, b.right + by, b.bottom + by }; }

void trace(const page *p, const shape *s) {
    for (int k = 0; k < s->n; k++) cairo_line_to(p->to, s->at[k].x, s->at[k].y);
    if (s->n) cairo_close_path(p->to);
    cairo_new_sub_path(p->to);
}

void ink(const page *p, colour c) { cairo_set_source_rgba(p->to, c.r, c.g, c.b, c.a); }

void ink_at(const page *p, colour c, double strength) { cairo_set_source_rgba(p->to, c.r, c.g, c.b, c.a * strength); }
