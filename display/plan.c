/* The plan: which part of the grid it shows, and what is painted in which order. */
#include "page.h"
#include <math.h>

static box whole_grid(void) { return (box){ 0, 0, LAST_PLACE, LAST_PLACE }; }

/* The corners of both charts; the whole grid if there are none. */
box charts_extent(const page *p) {
    box b = { INFINITY, INFINITY, -INFINITY, -INFINITY };
    for (int chart = 0; chart < CHARTS; chart++)
        for (size_t i = 0; i < p->triangles[chart]; i++)
            for (int k = 0; k < 3; k++) {
                point at = corner(p, chart, i, k);
                b.left = fmin(b.left, at.x);
                b.top = fmin(b.top, at.y);
                b.right = fmax(b.right, at.x);
                b.bottom = fmax(b.bottom, at.y);
            }
    return b.left <= b.right ? b : whole_grid();
}

size_t under_head(const page *p, int chart) {
    const jird_located *f = &p->s->found[chart];
    bool any = p->s->has_head && f->number == 0 && f->triangle < p->triangles[chart];
    return any ? f->triangle : MOST;
}

size_t listed_under_head(const page *p, int chart) {
    size_t i = under_head(p, chart);
    return i < MOST && p->listed[chart][i] ? i : MOST;
}

/* The window grown to no less than this width over height, and no more than that. */
static box in_shape(box w, double least, double most) {
    double across = w.right - w.left, down = w.bottom - w.top;
    double dx = fmax(0, least * down - across) / 2, dy = fmax(0, across / most - down) / 2;
    return (box){ w.left - dx, w.top - dy, w.right + dx, w.bottom + dy };
}

/* The frame at the left top of the area, as large as fits. */
static void fit(page *p, box area, box window) {
    double across = window.right - window.left, down = window.bottom - window.top;
    p->scale = fmin((area.right - area.left) / across, (area.bottom - area.top) / down);
    p->window = window;
    p->frame = (box){ area.left, area.top, area.left + across * p->scale, area.top + down * p->scale };
}

static void find_seen(page *p) {
    for (int chart = 0; chart < CHARTS; chart++) {
        p->in_view[chart] = 0;
        for (size_t i = 0; i < p->triangles[chart]; i++) {
            shape s = { 0 };
            if (p->listed[chart][i]) s = cut_by_box(triangle_shape(p, chart, i), p->frame);
            if (fabs(shape_area(&s)) < 1e-12) s.n = 0;
            p->seen[chart][i] = s;
            p->in_view[chart] += s.n > 0;
        }
    }
}

static void find_paired(page *p) {
    for (size_t k = 0; k < p->pairs; k++) {
        size_t i = p->s->pairs[2 * k], j = p->s->pairs[2 * k + 1];
        if (i < p->triangles[BED]) p->paired[BED][i] = true;
        if (j < p->triangles[DESIGN]) p->paired[DESIGN][j] = true;
    }
}

/* Lines are thinner where there are many, and where the triangles are. */
static double thinner(const page *p) {
    size_t n = p->in_view[BED] > p->in_view[DESIGN] ? p->in_view[BED] : p->in_view[DESIGN];
    double by = fmin(1, 9 / sqrt((double)(n ? n : 1)));
    for (int chart = 0; chart < CHARTS; chart++)
        if (p->in_view[chart]) by = fmin(by, 0.3 * median_inradius(p, chart) / p->style.line[chart]);
    return fmax(by, 0.28);
}

static void thin_lines(page *p) {
    double by = thinner(p), *line = p->style.line;
    double least = 0.28 * line[BED];
    for (int chart = 0; chart < CHARTS; chart++) line[chart] = fmax(least, line[chart] * by);
    p->style.underline *= fmax(by, 0.5);
    p->style.dot *= fmax(by, 0.35);
    p->style.square *= fmax(by, 0.35);
    p->style.dash[0] *= fmax(by, 0.5);
    p->style.dash[1] *= fmax(by, 0.6);
    p->style.pad = fmax(p->style.dot * 0.6, line[BED] / 2) + 0.6 * p->style.pad * fmax(by, 0.3);
    if (p->in_view[BED] + p->in_view[DESIGN] > 120) p->style.strength *= 0.6;
}

/* Sets the window and the frame, and finds what stands in it. The window fills the area, or keeps its own shape. */
bool plan_ready(page *p, box area, box window, bool fill_area) {
    double shape = (area.right - area.left) / (area.bottom - area.top);
    fit(p, area, fill_area ? in_shape(window, shape, shape) : in_shape(window, 0.3, 3));
    double window_as[4] = { p->window.left, p->window.top, p->window.right, p->window.bottom };
    double frame_as[4] = { p->frame.left, p->frame.top, p->frame.right, p->frame.bottom };
    for (int k = 0; k < 4; k++) {
        p->d->window[k] = window_as[k];
        p->d->plan[k] = frame_as[k];
    }
    list_window(p);
    find_seen(p);
    find_paired(p);
    thin_lines(p);
    for (int chart = 0; chart < CHARTS; chart++) find_sides(p, chart);
    find_common_sides(p);
    find_directions(p);
    if (p->style.least_ground > 0) find_small_grounds(p);
    find_label_sizes(p);
    if (!p->fault) place_labels(p);
    return !p->fault;
}

static void fill_triangles(const page *p) {
    for (size_t i = 0; i < p->triangles[BED]; i++)
        if (p->paired[BED][i]) trace(p, &p->seen[BED][i]);
    ink(p, p->ink->paired);
    cairo_fill(p->to);
    size_t i = listed_under_head(p, BED);
    if (p->v->layout != LAYOUT_HELM || i == MOST) return;
    trace(p, &p->seen[BED][i]);
    ink(p, p->ink->under);
    cairo_fill(p->to);
}

/* Where the grid ends, if that is in the window. */
static void paint_grid_border(const page *p) {
    box g = whole_grid(), b = grown(p->frame, 2 * p->style.border);
    point at[5] = { { g.left, g.top }, { g.right, g.top }, { g.right, g.bottom }, { g.left, g.bottom }, { g.left, g.top } };
    for (int k = 0; k < 4; k++) {
        point from = on_page(p, at[k]), to = on_page(p, at[k + 1]);
        if (!clip_segment(b, &from, &to)) continue;
        cairo_move_to(p->to, from.x, from.y);
        cairo_line_to(p->to, to.x, to.y);
    }
    ink(p, p->ink->rule);
    cairo_set_line_width(p->to, p->style.border);
    cairo_stroke(p->to);
}

/* What is missing is said in the middle of the plan. */
static void say_empty(const page *p) {
    static const char *const words[] = { "", "the bed has no triangles", "the design has no triangles", "neither chart has a triangle" };
    int which = (p->triangles[BED] == 0) + 2 * (p->triangles[DESIGN] == 0);
    letter l = { 1.3 * p->style.text, false, true, p->ink->grey };
    double y = which == 3 ? (p->frame.top + p->frame.bottom) / 2 : p->frame.bottom - 1.3 * p->style.text;
    if (which) text_at(p, (p->frame.left + p->frame.right) / 2, y, 0.5, words[which], l);
}

static void paint_inside(page *p) {
    paint_grid_border(p);
    fill_triangles(p);
    for (int chart = 0; chart < CHARTS && p->v->cells; chart++) paint_cells(p, chart);
    paint_shading(p);
    paint_labels(p, true);
    for (int chart = 0; chart < CHARTS; chart++) paint_boundary(p, chart);
    paint_bed_sides(p);
    paint_design_sides(p);
    if (p->v->layout == LAYOUT_HELM)
        for (int chart = 0; chart < CHARTS; chart++)
            paint_triangle_sides(p, chart, listed_under_head(p, chart), p->style.under[chart]);
    paint_small_grounds(p);
    say_empty(p);
    paint_refused_window(p);
    paint_labels(p, false);
    if (p->s->has_head) paint_head(p, on_page(p, (point){ p->s->head_x, p->s->head_y }), p->style.head);
}

void paint_plan(page *p) {
    box f = p->frame;
    cairo_save(p->to);
    cairo_rectangle(p->to, f.left, f.top, f.right - f.left, f.bottom - f.top);
    cairo_clip(p->to);
    paint_inside(p);
    cairo_restore(p->to);
    cairo_rectangle(p->to, f.left, f.top, f.right - f.left, f.bottom - f.top);
    ink(p, p->ink->text);
    cairo_set_line_width(p->to, p->style.border);
    cairo_stroke(p->to);
    paint_axes(p);
}
