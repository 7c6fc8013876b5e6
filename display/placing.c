/* Where the numbers of the triangles stand: inside their own triangle, on no side of either chart and on no other number. The smallest
 * triangles choose first. Sides are looked up by a grid. */
#include "page.h"
#include <math.h>
#include <stdlib.h>
#include <string.h>

enum { ACROSS = 64, MOST_PLACES = 1300, MOST_TAKEN = CHARTS * MOST + 64 };
enum { PARTS = 11, FINER_ON_SHEET = 40, FINER_AT_HELM = 27 };  /* of a triangle's side; the helm has less time */
static const double ENOUGH = 1.6;       /* a label with this much of its own size around it wants no more */

typedef struct { point a, b; double wide; } segment;       /* wide: by how much more than a side it reaches to each hand */
typedef struct { int next, segment; } node;
typedef struct { int chart; size_t triangle; double size; bool first; } wish;

typedef struct {
    box frame;
    double across, down;                /* of one cell of the grid */
    double pad;                         /* kept free around a label */
    int first[ACROSS][ACROSS];
    segment segments[CHARTS * (MOST_SIDES + 3)];
    node *nodes;
    size_t node_count, node_room;
    box taken[MOST_TAKEN], near[MOST_TAKEN];
    size_t taken_count, near_count;
    wish wishes[CHARTS * MOST];
    point places[2][MOST_PLACES];       /* of the triangle in turn: on the lattice, on the finer one */
} lookup;

static int bounded(double v) { return v < 0 ? 0 : v >= ACROSS ? ACROSS - 1 : (int)v; }
static int column(const lookup *g, double x) { return bounded((x - g->frame.left) / g->across); }
static int row(const lookup *g, double y) { return bounded((y - g->frame.top) / g->down); }

static bool put(lookup *g, int down, int across, int segment) {
    if (g->node_count == g->node_room) {
        size_t room = 2 * g->node_room + 4096;
        node *nodes = realloc(g->nodes, room * sizeof *nodes);
        if (!nodes) return false;
        g->nodes = nodes;
        g->node_room = room;
    }
    g->nodes[g->node_count] = (node){ g->first[down][across], segment };
    g->first[down][across] = (int)g->node_count++;
    return true;
}

/* Puts the segment into every cell that it crosses, row by row. */
static bool put_segment(lookup *g, segment s, int number) {
    point low = s.a.y <= s.b.y ? s.a : s.b, high = s.a.y <= s.b.y ? s.b : s.a;
    double slope = high.y > low.y ? (high.x - low.x) / (high.y - low.y) : 0;
    g->segments[number] = s;
    for (int r = row(g, low.y); r <= row(g, high.y); r++) {
        double top = fmax(low.y, g->frame.top + r * g->down), bottom = fmin(high.y, g->frame.top + (r + 1) * g->down);
        double x0 = high.y > low.y ? low.x + (top - low.y) * slope : low.x;
        double x1 = high.y > low.y ? low.x + (bottom - low.y) * slope : high.x;
        for (int c = column(g, fmin(x0, x1) - 1e-9); c <= column(g, fmax(x0, x1) + 1e-9); c++)
            if (!put(g, r, c, number)) return false;
    }
    return true;
}

static bool put_side(lookup *g, const page *p, side s, double wide, int *n) {
    segment on = { on_page(p, (point){ s.ax, s.ay }), on_page(p, (point){ s.bx, s.by }), wide };
    bool near = s.listed && clip_segment(grown(p->frame, g->pad), &on.a, &on.b);
    return !near || put_segment(g, on, (*n)++);
}

/* All sides, and once more those of the triangles under the cutter head, which are painted wider. */
static bool put_sides(lookup *g, const page *p) {
    int n = 0;
    for (int chart = 0; chart < CHARTS; chart++) {
        for (size_t k = 0; k < p->side_count[chart]; k++)
            if (!put_side(g, p, p->sides[chart][k], 0, &n)) return false;
        size_t i = listed_under_head(p, chart);
        double wide = (p->style.under[chart] - p->style.line[chart]) / 2;
        for (int k = 0; k < 3 && i < MOST && wide > 0; k++) {
            point a = corner(p, chart, i, k), b = corner(p, chart, i, (k + 1) % 3);
            side s = { (int32_t)a.x, (int32_t)a.y, (int32_t)b.x, (int32_t)b.y, true };
            if (!put_side(g, p, s, wide, &n)) return false;
        }
    }
    return true;
}

static double lesser(double a, double b) { return a < b ? a : b; }

static double greater(point q) {
    double x = fabs(q.x), y = fabs(q.y);
    return x > y ? x : y;
}

/* How near the segment comes to the middle of a label with these halves, upright or slanted: below 1 it is in the label. */
static double nearness(segment s, point at, double half_x, double half_y, double slant) {
    point a = { (s.a.x - at.x + slant * (s.a.y - at.y)) / half_x, (s.a.y - at.y) / half_y };
    point b = { (s.b.x - at.x + slant * (s.b.y - at.y)) / half_x, (s.b.y - at.y) / half_y };
    double dx = b.x - a.x, dy = b.y - a.y, best = lesser(greater(a), greater(b));
    double turns[4][2] = { { -a.x, dx }, { -a.y, dy }, { a.y - a.x, dx - dy }, { -a.y - a.x, dx + dy } };
    for (int k = 0; k < 4; k++) {
        double t = turns[k][1] != 0 ? turns[k][0] / turns[k][1] : -1;
        if (t > 0 && t < 1) best = lesser(best, greater((point){ a.x + t * dx, a.y + t * dy }));
    }
    return best;
}

static double round_nearness(segment s, point at, double radius) {
    double dx = s.b.x - s.a.x, dy = s.b.y - s.a.y, square = dx * dx + dy * dy;
    double t = square > 0 ? ((at.x - s.a.x) * dx + (at.y - s.a.y) * dy) / square : 0;
    t = fmax(0, fmin(1, t));
    return hypot(s.a.x + t * dx - at.x, s.a.y + t * dy - at.y) / radius;
}

/* The same for what is taken. */
static double box_nearness(const box *b, point at, double half_x, double half_y) {
    double x = fabs((b->left + b->right) / 2 - at.x) - (b->right - b->left) / 2;
    double y = fabs((b->top + b->bottom) / 2 - at.y) - (b->bottom - b->top) / 2;
    return x / half_x > y / half_y ? x / half_x : y / half_y;
}

/* A label as it is tried: its halves with what is kept free around it, and how far its middle must be from each side of its shape. */
typedef struct {
    double x, y, slant;
    bool round;
    int sides;
    double normal[MOST_CORNERS][3];         /* across the side: x, y, and the least value of the middle */
} trial;

static trial trial_of(const lookup *g, const shape *s, const label *l) {
    size_t digits = l->triangle < 10 ? 1 : l->triangle < 100 ? 2 : 3;
    double half = half_width(l->chart, l->as, digits), sign = shape_area(s) > 0 ? 1 : -1;
    bool slanted = !l->as.framed && l->chart == DESIGN;
    trial t = { .x = half + g->pad, .y = half_height(l->chart, l->as, half) + g->pad, .slant = slanted ? SLANT : 0, .sides = s->n };
    t.round = l->as.framed && l->chart == BED;
    for (int k = 0; k < s->n; k++) {
        point a = s->at[k], b = s->at[(k + 1) % s->n];
        double length = hypot(b.x - a.x, b.y - a.y), nx = 0, ny = 0;
        if (length > 0) {
            nx = sign * (a.y - b.y) / length;
            ny = sign * (b.x - a.x) / length;
        }
        t.normal[k][0] = nx;
        t.normal[k][1] = ny;
        t.normal[k][2] = nx * a.x + ny * a.y + (t.round ? t.x : t.x * fabs(nx) + t.y * fabs(ny - t.slant * nx));
    }
    return t;
}

static bool inside(const trial *t, point at) {
    for (int k = 0; k < t->sides; k++)
        if (t->normal[k][0] * at.x + t->normal[k][1] * at.y < t->normal[k][2]) return false;
    return true;
}

/* The room around a label there, at most ENOUGH; 0 if it stands on something. */
static double room_at(const lookup *g, const trial *t, point at) {
    double x = t->x, y = t->y, best = ENOUGH;
    for (size_t k = 0; k < g->near_count; k++) {
        best = lesser(best, box_nearness(&g->near[k], at, x, y));
        if (best < 1) return 0;
    }
    for (int r = row(g, at.y - ENOUGH * y); r <= row(g, at.y + ENOUGH * y); r++)
        for (int c = column(g, at.x - ENOUGH * x); c <= column(g, at.x + ENOUGH * x); c++)
            for (int k = g->first[r][c]; k >= 0; k = g->nodes[k].next) {
                segment s = g->segments[g->nodes[k].segment];
                double r = t->round ? round_nearness(s, at, x + s.wide) : nearness(s, at, x + s.wide, y + s.wide, t->slant);
                best = lesser(best, r);
                if (best < 1) return 0;
            }
    return best;
}

static int lattice(point a, point b, point c, int parts, point *out) {
    int n = 0;
    for (int i = 1; i < parts; i++)
        for (int j = 1; i + j < parts; j++) {
            double u = (double)i / parts, v = (double)j / parts, w = 1 - u - v;
            out[n++] = (point){ u * a.x + v * b.x + w * c.x, u * a.y + v * b.y + w * c.y };
        }
    return n;
}

/* Places inside the shape: the middle and a lattice; of a triangle that is whole in view, 45 and the incentre. */
static int places(const shape *s, int parts, point out[MOST_PLACES]) {
    int n = 1;
    if (s->n == 3) {
        out[0] = incentre(s);
        return n + lattice(s->at[0], s->at[1], s->at[2], parts, out + n);
    }
    out[0] = shape_middle(s);
    for (int k = 0; k < s->n; k++) n += lattice(out[0], s->at[k], s->at[(k + 1) % s->n], parts / 3 + 3, out + n);
    return n;
}

static void find_near(lookup *g, const shape *s) {
    box b = { INFINITY, INFINITY, -INFINITY, -INFINITY };
    for (int k = 0; k < s->n; k++) {
        b.left = fmin(b.left, s->at[k].x);
        b.top = fmin(b.top, s->at[k].y);
        b.right = fmax(b.right, s->at[k].x);
        b.bottom = fmax(b.bottom, s->at[k].y);
    }
    g->near_count = 0;
    for (size_t k = 0; k < g->taken_count; k++) {
        box t = g->taken[k];
        if (t.left < b.right && t.right > b.left && t.top < b.bottom && t.bottom > b.top) g->near[g->near_count++] = t;
    }
}

/* The best of the places for a label of this size; false if it has no room at any. */
static bool best_place(const lookup *g, const trial *t, const point *at, int n, double size, point *found) {
    double best = -INFINITY;
    for (int k = 0; k < n; k++) {
        double room = inside(t, at[k]) ? room_at(g, t, at[k]) : 0;
        if (room < 1) continue;
        double score = room - 0.3 * hypot(at[k].x - at[0].x, at[k].y - at[0].y) / size;
        if (score <= best) continue;
        best = score;
        *found = at[k];
    }
    return best > -INFINITY;
}

static void take(lookup *g, box b) {
    if (g->taken_count < MOST_TAKEN) g->taken[g->taken_count++] = b;
}

static void keep_label(page *p, lookup *g, label l) {
    size_t digits = l.triangle < 10 ? 1 : l.triangle < 100 ? 2 : 3;
    double half = half_width(l.chart, l.as, digits), y = half_height(l.chart, l.as, half);
    double x = half + (!l.as.framed && l.chart == DESIGN ? SLANT * y : 0);
    point grid = on_grid(p, l.at);
    take(g, grown((box){ l.at.x - x, l.at.y - y, l.at.x + x, l.at.y + y }, l.as.framed ? 0 : 0.1 * l.as.height));
    p->labels[p->label_count++] = l;
    p->d->label_set[l.chart][l.triangle] = true;
    p->d->label_at[l.chart][l.triangle][0] = grid.x;
    p->d->label_at[l.chart][l.triangle][1] = grid.y;
}

/* Tries the sizes from the largest on, each on the lattice and then on a finer one. */
static bool place(page *p, lookup *g, const wish *w) {
    const shape *s = &p->seen[w->chart][w->triangle];
    step steps[STEPS];
    int count = label_steps(p, w->chart, w->first, steps), n[2] = { 0, 0 };
    int finer = p->v->layout == LAYOUT_SHEET ? FINER_ON_SHEET : FINER_AT_HELM;
    label l = { w->chart, w->triangle, { 0, 0 }, { 0, false } };
    find_near(g, s);
    for (int k = 0; k < count; k++)
        for (int fine = 0; fine < 2; fine++) {
            l.as = steps[k];
            trial t = trial_of(g, s, &l);
            if (!n[fine]) n[fine] = places(s, fine ? finer : PARTS, g->places[fine]);
            if (!best_place(g, &t, g->places[fine], n[fine], sqrt(w->size), &l.at)) continue;
            keep_label(p, g, l);
            return true;
        }
    return false;
}

static int by_size(const void *a, const void *b) {
    const wish *v = a, *w = b;
    if (v->first != w->first) return v->first ? -1 : 1;
    if (v->size != w->size) return v->size < w->size ? -1 : 1;
    if (v->chart != w->chart) return v->chart - w->chart;
    return v->triangle < w->triangle ? -1 : v->triangle > w->triangle;
}

static size_t find_wishes(page *p, wish *all) {
    size_t n = 0;
    for (int chart = 0; chart < CHARTS; chart++)
        for (size_t i = 0; i < p->triangles[chart]; i++) {
            const shape *s = &p->seen[chart][i];
            p->d->label_wanted[chart][i] = s->n > 0;
            if (s->n) all[n++] = (wish){ chart, i, fabs(shape_area(s)), under_head(p, chart) == i };
        }
    qsort(all, n, sizeof *all, by_size);
    return n;
}

/* Circles around small ground and the crosshair stand before the labels do. */
static void take_marks(lookup *g, const page *p) {
    double r = mark_radius(p);
    for (size_t k = 0; r > 0 && k < p->smalls; k++) {
        point at = p->small_at[k];
        take(g, (box){ at.x - r, at.y - r, at.x + r, at.y + r });
    }
    if (!p->s->has_head) return;
    point at = on_page(p, (point){ p->s->head_x, p->s->head_y });
    take(g, grown((box){ at.x, at.y, at.x, at.y }, 2 * p->style.head));
}

void place_labels(page *p) {
    lookup *g = calloc(1, sizeof *g);
    if (!g) {
        p->fault = "out of memory";
        return;
    }
    memset(g->first, 255, sizeof g->first);
    g->frame = p->frame;
    g->across = (p->frame.right - p->frame.left) / ACROSS;
    g->down = (p->frame.bottom - p->frame.top) / ACROSS;
    g->pad = p->style.pad;
    if (!put_sides(g, p)) p->fault = "out of memory";
    take_marks(g, p);
    size_t n = p->fault ? 0 : find_wishes(p, g->wishes);
    p->label_count = p->left_out[BED] = p->left_out[DESIGN] = 0;
    for (size_t k = 0; k < n; k++)
        if (!place(p, g, &g->wishes[k])) p->left_out[g->wishes[k].chart]++;
    free(g->nodes);
    free(g);
}
