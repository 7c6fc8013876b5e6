/* Shared ground of the pairs: shaded by lines whose direction turns at each design side. The shapes are computed in doubles, for ink
 * alone; which pairs share ground is the overlay's answer. */
#include "page.h"
#include <math.h>
#include <stdlib.h>

enum { DIRECTIONS = 4, MOST_MARKS = 50 };
static const double DEGREES[DIRECTIONS] = { 45, 135, 15, 105 };

static int64_t turn(const uint16_t *a, const uint16_t *b, const uint16_t *c) {
    return (int64_t)(b[0] - a[0]) * (c[1] - a[1]) - (int64_t)(b[1] - a[1]) * (c[0] - a[0]);
}

/* Whether the segments lie on one line and have more than a point in common. */
static bool along(const uint16_t *a, const uint16_t *b, const uint16_t *c, const uint16_t *d) {
    if (turn(a, b, c) != 0 || turn(a, b, d) != 0) return false;
    int axis = abs(a[0] - b[0]) >= abs(a[1] - b[1]) ? 0 : 1;
    int low = a[axis] < b[axis] ? a[axis] : b[axis], high = a[axis] < b[axis] ? b[axis] : a[axis];
    int from = c[axis] < d[axis] ? c[axis] : d[axis], to = c[axis] < d[axis] ? d[axis] : c[axis];
    return from < high && low < to;
}

static bool neighbours(const uint16_t *t, const uint16_t *u) {
    for (size_t k = 0; k < 3; k++)
        for (size_t m = 0; m < 3; m++)
            if (along(t + 2 * k, t + 2 * ((k + 1) % 3), u + 2 * m, u + 2 * ((m + 1) % 3))) return true;
    return false;
}

typedef struct { int left, top, right, bottom; } extent;

static extent extent_of(const uint16_t *t) {
    extent e = { t[0], t[1], t[0], t[1] };
    for (int k = 2; k < 6; k += 2) {
        e.left = t[k] < e.left ? t[k] : e.left;
        e.right = t[k] > e.right ? t[k] : e.right;
        e.top = t[k + 1] < e.top ? t[k + 1] : e.top;
        e.bottom = t[k + 1] > e.bottom ? t[k + 1] : e.bottom;
    }
    return e;
}

static bool apart(extent a, extent b) {
    return a.right < b.left || b.right < a.left || a.bottom < b.top || b.bottom < a.top;
}

/* Whether the two design triangles overlap so that it is seen. */
static bool overlapping(const page *p, size_t i, size_t j) {
    shape t = triangle_shape(p, DESIGN, i), u = triangle_shape(p, DESIGN, j), both = cut_by_shape(t, u);
    double least = fmin(fabs(shape_area(&t)), fabs(shape_area(&u)));
    return fabs(shape_area(&both)) > 1e-3 * least;
}

/* Greedy: each design triangle takes the direction that costs least with those before it; a common side costs most. */
void find_directions(page *p) {
    const uint16_t *table = p->s->charts[DESIGN].table;
    extent at[MOST];
    for (size_t i = 0; i < p->triangles[DESIGN]; i++) {
        int cost[DIRECTIONS] = { 0 }, best = 0;
        at[i] = extent_of(table + 6 * i);
        p->direction[i] = 0;
        if (!p->paired[DESIGN][i]) continue;
        for (size_t j = 0; j < i; j++) {
            if (!p->paired[DESIGN][j] || apart(at[i], at[j])) continue;
            if (neighbours(table + 6 * i, table + 6 * j)) cost[p->direction[j]] += 1000;
            else if (overlapping(p, i, j)) cost[p->direction[j]] += 1;
        }
        for (int k = 1; k < DIRECTIONS; k++)
            if (cost[k] < cost[best]) best = k;
        p->direction[i] = (unsigned char)best;
    }
}

/* Gives false if the pair is none of the charts' triangles. */
static bool ground_of(const page *p, size_t pair, shape *out) {
    size_t i = p->s->pairs[2 * pair], j = p->s->pairs[2 * pair + 1];
    if (i >= p->triangles[BED] || j >= p->triangles[DESIGN]) return false;
    *out = cut_by_shape(triangle_shape(p, BED, i), triangle_shape(p, DESIGN, j));
    return true;
}

/* One mark stands for all whose middles are close to it. */
static void add_mark(page *p, point at) {
    for (size_t k = 0; k < p->smalls; k++)
        if (hypot(p->small_at[k].x - at.x, p->small_at[k].y - at.y) < 0.9) return;
    p->small_at[p->smalls++] = at;
}

void find_small_grounds(page *p) {
    shape g;
    p->smalls = 0;
    for (size_t k = 0; k < p->pairs; k++) {
        p->small[k] = ground_of(p, k, &g) && fabs(shape_area(&g)) < p->style.least_ground;
        if (!p->small[k]) continue;
        shape bed = triangle_shape(p, BED, p->s->pairs[2 * k]);
        add_mark(p, g.n ? shape_middle(&g) : incentre(&bed));
    }
}

double mark_radius(const page *p) {
    if (p->smalls == 0 || p->smalls > MOST_MARKS || window_refused(p)) return 0;
    return p->in_view[BED] + p->in_view[DESIGN] > 120 ? 0.8 : 1.5;
}

void paint_small_grounds(const page *p) {
    double r = mark_radius(p);
    if (r <= 0) return;
    for (size_t k = 0; k < p->smalls; k++) {
        cairo_new_sub_path(p->to);
        cairo_arc(p->to, p->small_at[k].x, p->small_at[k].y, r, 0, 2 * acos(-1));
    }
    ink(p, p->ink->mark);
    cairo_set_line_width(p->to, 0.3);
    cairo_stroke(p->to);
}

typedef struct { point along, across, origin; } lattice;

/* The lines of one direction, through grid point 0,0: the same over the whole page, and fast to the ground when the window moves. */
static lattice lattice_of(const page *p, int direction) {
    double angle = DEGREES[direction] * acos(-1) / 180;
    return (lattice){ { cos(angle), -sin(angle) }, { sin(angle), cos(angle) }, on_page(p, (point){ 0, 0 }) };
}

static point onto(const lattice *l, point at) {
    double x = at.x - l->origin.x, y = at.y - l->origin.y;
    return (point){ x * l->along.x + y * l->along.y, x * l->across.x + y * l->across.y };
}

/* The parts of the lattice's lines that are in the shape. */
static void add_lines(page *p, const lattice *l, const shape *s, stretches *all) {
    point at[MOST_CORNERS];
    double low = INFINITY, high = -INFINITY, gap = p->style.gap;
    for (int k = 0; k < s->n; k++) {
        at[k] = onto(l, s->at[k]);
        low = fmin(low, at[k].y);
        high = fmax(high, at[k].y);
    }
    if (s->n < 3 || !(high - low < 1e6 * gap)) return;
    for (double line = ceil(low / gap); line * gap <= high && !p->fault; line += 1) {
        double from = INFINITY, to = -INFINITY, y = line * gap;
        for (int k = 0; k < s->n; k++) {
            point q = at[k], r = at[(k + 1) % s->n];
            if ((q.y < y) == (r.y < y)) continue;
            double x = q.x + (y - q.y) / (r.y - q.y) * (r.x - q.x);
            from = fmin(from, x);
            to = fmax(to, x);
        }
        if (from < to) stretch_add(p, all, (long)line, from, to);
    }
}

static void paint_lines(const page *p, const lattice *l, const stretches *all) {
    for (size_t k = 0; k < all->n; k++) {
        const stretch *s = &all->at[k];
        double y = (double)s->line * p->style.gap;
        double x0 = l->origin.x + y * l->across.x, y0 = l->origin.y + y * l->across.y;
        cairo_move_to(p->to, x0 + s->from * l->along.x, y0 + s->from * l->along.y);
        cairo_line_to(p->to, x0 + s->to * l->along.x, y0 + s->to * l->along.y);
    }
    ink_at(p, p->ink->shading, p->style.strength);
    cairo_set_line_width(p->to, p->style.shade);
    cairo_set_antialias(p->to, CAIRO_ANTIALIAS_FAST);
    cairo_stroke(p->to);
    cairo_set_antialias(p->to, CAIRO_ANTIALIAS_DEFAULT);
}

void paint_lines_in(page *p, const shape *s, int direction) {
    lattice l = lattice_of(p, direction);
    stretches all = { 0 };
    add_lines(p, &l, s, &all);
    paint_lines(p, &l, &all);
    free(all.at);
}

void paint_shading(page *p) {
    for (int direction = 0; direction < DIRECTIONS; direction++) {
        lattice l = lattice_of(p, direction);
        stretches all = { 0 };
        for (size_t k = 0; k < p->pairs && !p->fault; k++) {
            size_t i = p->s->pairs[2 * k], j = p->s->pairs[2 * k + 1];
            if (i >= p->triangles[BED] || j >= p->triangles[DESIGN] || p->direction[j] != direction) continue;
            if (!p->seen[BED][i].n || !p->seen[DESIGN][j].n) continue;
            shape g = cut_by_shape(p->seen[BED][i], triangle_shape(p, DESIGN, j));
            add_lines(p, &l, &g, &all);
        }
        stretches_join(&all);
        paint_lines(p, &l, &all);
        free(all.at);
    }
}
