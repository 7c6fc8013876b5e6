/* The helm's picture: the window around the cutter head, the triangles found under it in large numerals, what the bed triangle shares
 * ground with, and the whole chart with the window. Pixels; sizes are those of 1280 by 800. */
#include "page.h"
#include <math.h>
#include <stdio.h>
#include <stdlib.h>

static bool upright(const page *p) { return p->height > p->width; }

static void set_sizes(page *p) {
    p->width = p->v->width;
    p->height = p->v->height;
    double u = upright(p) ? fmin(p->width / 800, p->height / 1280) : fmin(p->width / 1280, p->height / 800);
    p->style = (style){
        .line = { 2.6 * u, 2.2 * u }, .underline = 2 * u, .dash = { 9 * u, 4.5 * u }, .under = { 5 * u, 4.4 * u },
        .dot = 3.2 * u, .square = 2.8 * u,
        .gap = 7.5 * u, .shade = 0.9 * u, .strength = 0.6, .cell = 0.8 * u, .head = 16 * u, .band = 14 * u,
        .text = 13 * u, .tick = 6 * u, .apart = 90 * u, .border = 1.6 * u, .pad = 1.5 * u, .unit = u,
    };
}

static int by_value(const void *a, const void *b) {
    double x = *(const double *)a, y = *(const double *)b;
    return x < y ? -1 : x > y;
}

/* The longer side of the box around a triangle: the middle one of all. */
static double usual_length(const page *p) {
    double all[CHARTS * MOST];
    size_t n = 0;
    for (int chart = 0; chart < CHARTS; chart++)
        for (size_t i = 0; i < p->triangles[chart]; i++) {
            point a = corner(p, chart, i, 0), b = corner(p, chart, i, 1), c = corner(p, chart, i, 2);
            double across = fmax(a.x, fmax(b.x, c.x)) - fmin(a.x, fmin(b.x, c.x));
            double down = fmax(a.y, fmax(b.y, c.y)) - fmin(a.y, fmin(b.y, c.y));
            all[n++] = fmax(across, down);
        }
    qsort(all, n, sizeof *all, by_value);
    return n ? all[n / 2] : LAST_PLACE;
}

/* Moved, not cut, so that it shows no more than is needed of what is outside the grid. */
static double into_grid(double low, double length) {
    if (length >= LAST_PLACE) return (LAST_PLACE - length) / 2;
    return low < 0 ? 0 : low + length > LAST_PLACE ? LAST_PLACE - length : low;
}

static box around_head(const page *p, box area, box extent) {
    double most = 1.06 * fmax(extent.right - extent.left, extent.bottom - extent.top);
    double side = fmax(8, fmin(2.3 * usual_length(p), most)), shape = (area.right - area.left) / (area.bottom - area.top);
    double across = shape > 1 ? side * shape : side, down = shape > 1 ? side : side / shape;
    double left = into_grid(p->s->head_x - across / 2, across), top = into_grid(p->s->head_y - down / 2, down);
    return (box){ left, top, left + across, top + down };
}

static bool plan_of_helm(page *p, box area) {
    const uint16_t *w = p->v->window;
    box extent = charts_extent(p);
    if (p->v->has_window && w[0] < w[2] && w[1] < w[3]) return plan_ready(p, area, (box){ w[0], w[1], w[2], w[3] }, false);
    if (p->s->has_head) return plan_ready(p, area, around_head(p, area, extent), true);
    return plan_ready(p, area, grown(extent, fmax(0.5, 0.03 * fmax(extent.right - extent.left, extent.bottom - extent.top))), true);
}

static double paint_coordinates(const page *p, box at, double y) {
    char number[32];
    double u = p->style.unit;
    letter head = { 14 * u, false, false, p->ink->grey }, large = { 36 * u, true, false, p->ink->text };
    text_at(p, at.left, y + 14 * u, 0, "Cutter head", head);
    if (!p->s->has_head) {
        letter none = { 22 * u, true, false, p->ink->warning };
        text_fitted(p, at.left, y + 42 * u, 0, at.right - at.left, "no point is known", none);
        return y + 56 * u;
    }
    double x = text_at(p, at.left, y + 49 * u, 0, "x ", head);
    x = text_at(p, x, y + 49 * u, 0, text_grouped(number, p->s->head_x), large);
    x = text_at(p, x + 22 * u, y + 49 * u, 0, "y ", head);
    text_at(p, x, y + 49 * u, 0, text_grouped(number, p->s->head_y), large);
    return y + 62 * u;
}

static double paint_words(const page *p, box at, double y, const char *what, uint32_t number) {
    char text[512];
    double u = p->style.unit;
    letter l = { 16 * u, true, false, p->ink->warning };
    snprintf(text, sizeof text, "%s, number %u: %s", what, (unsigned)number, jird_words(number));
    return text_block(p, (box){ at.left, y + 18 * u, at.right, y + 82 * u }, 20 * u, text, l) - 12 * u;
}

static double paint_found(const page *p, box at, double y, int chart) {
    const jird_located *f = &p->s->found[chart];
    char text[96];
    double u = p->style.unit;
    letter head = { 14 * u, false, false, p->ink->grey };
    snprintf(text, sizeof text, "%s triangle under it", chart == BED ? "Bed" : "Design");
    text_at(p, at.left, y + 14 * u, 0, text, head);
    if (p->s->refused[chart]) y = paint_words(p, at, y + 14 * u, "last change refused", p->s->refused[chart]) - 8 * u;
    if (!p->s->has_head) {
        text_at(p, at.left, y + 40 * u, 0, "\xE2\x80\x93", (letter){ 30 * u, true, false, p->ink->grey });
        return y + 52 * u;
    }
    if (f->number) return paint_words(p, at, y + 16 * u, "refused", f->number);
    bool none = f->triangle == JIRD_NOWHERE;
    ring form = ring_of(p, chart);
    letter number = { (none ? 40 : 58) * u, true, chart == DESIGN, p->ink->chart[chart] };
    letter where = { 24 * u, true, false, p->ink->ring[form] };
    snprintf(text, sizeof text, "%u", (unsigned)f->triangle);
    double base = y + (none ? 52 : 66) * u, x = text_at(p, at.left, base, 0, none ? "nowhere" : text, number);
    x = paint_ring_sample(p, x + where.size, base, where.size, form);
    if (!none) text_at(p, x, base, 0, jird_position_words(f->position), where);
    return y + 78 * u;
}

/* The partners of the bed triangle, out of the pairs, as text. Gives how many there are. */
static size_t partners_text(const page *p, size_t bed, char *out, size_t room) {
    size_t n = 0, count = 0;
    out[0] = 0;
    for (size_t k = 0; k < p->pairs; k++) {
        if (p->s->pairs[2 * k] != bed) continue;
        if (n + 16 < room) n += (size_t)snprintf(out + n, room - n, "%s%u", count ? "  " : "", (unsigned)p->s->pairs[2 * k + 1]);
        count++;
    }
    return count;
}

static double paint_partners(const page *p, box at, double y) {
    char text[4096], head[96];
    double u = p->style.unit;
    letter l = { 14 * u, false, false, p->ink->grey }, list = { 21 * u, false, false, p->ink->text };
    size_t bed = under_head(p, BED);
    if (p->s->overlay.number) {
        text_at(p, at.left, y + 14 * u, 0, "Shared ground", l);
        return paint_words(p, at, y + 16 * u, "overlay refused", p->s->overlay.number);
    }
    if (bed == MOST) return y;
    size_t count = partners_text(p, bed, text, sizeof text);
    if (count) snprintf(head, sizeof head, "Bed %zu shares ground with %zu of the design", bed, count);
    else snprintf(head, sizeof head, "Bed %zu shares ground with none of the design", bed);
    text_fitted(p, at.left, y + 14 * u, 0, at.right - at.left, head, l);
    if (count > 24) list.size = 15 * u;
    return text_block(p, (box){ at.left, y + 38 * u, at.right, y + 130 * u }, 1.3 * list.size, text, list) - 10 * u;
}

static void paint_panel(page *p, box at) {
    double u = p->style.unit, y = at.top;
    letter title = { 17 * u, true, false, p->ink->text }, small = { 14 * u, false, false, p->ink->grey };
    box words = at, whole = at;
    text_fitted(p, at.left, y + 14 * u, 0, at.right - at.left, p->title, title);
    if (upright(p)) {
        whole.left = (at.left + at.right) / 2 + 20 * u;
        words.right = whole.left - 20 * u;
    }
    y = paint_coordinates(p, words, y + 26 * u);
    for (int chart = 0; chart < CHARTS; chart++) y = paint_found(p, words, y, chart);
    y = paint_partners(p, words, y) + 8 * u;
    whole.top = upright(p) ? at.top + 26 * u : y;
    if (whole.bottom - whole.top < 120 * u) return;
    text_at(p, whole.left, whole.top + 14 * u, 0, "Whole chart", small);
    whole.top += 24 * u;
    paint_overview(p, whole);
}

static void paint_counts(const page *p, double x, double y, double align) {
    char text[160];
    letter l = { 13 * p->style.unit, false, false, p->ink->grey };
    const jird_chart *c = p->s->charts;
    int n = snprintf(text, sizeof text, "bed %zu \xC2\xB7 design %zu \xC2\xB7 ", c[BED].triangles, c[DESIGN].triangles);
    if (n < 0) return;
    if (p->s->overlay.number) snprintf(text + n, sizeof text - (size_t)n, "overlay refused");
    else snprintf(text + n, sizeof text - (size_t)n, "%zu pairs", p->s->overlay.pairs);
    text_at(p, x, y, align, text, l);
}

static void paint_sample(page *p, int k, double x, double y) {
    double u = p->style.unit;
    shape s = { 4, { { x, y - 10 * u }, { x + 30 * u, y - 10 * u }, { x + 30 * u, y + u }, { x, y + u } } };
    if (k == 2) {
        trace(p, &s);
        ink(p, p->ink->paired);
        cairo_fill(p->to);
        paint_lines_in(p, &s, 0);
        return;
    }
    if (k == 3) trace(p, &s);
    else {
        cairo_move_to(p->to, x, y - 4 * u);
        cairo_line_to(p->to, x + 30 * u, y - 4 * u);
    }
    if (k == DESIGN) cairo_set_dash(p->to, p->style.dash, 2, 0);
    ink_at(p, p->ink->chart[k == DESIGN ? DESIGN : BED], k == 3 ? 0.6 : 1);
    cairo_set_line_width(p->to, k == 3 ? p->style.cell : p->style.line[k]);
    cairo_stroke(p->to);
    cairo_set_dash(p->to, NULL, 0, 0);
}

/* Samples of what is in the plan, in one line, and of the cutter head's rings in another. */
static void paint_samples(page *p, double x, double y) {
    static const char *const words[] = { "bed as sounded", "bed as designed", "shared ground", "cells" };
    double u = p->style.unit;
    letter l = { 12 * u, false, false, p->ink->grey };
    if (p->s->has_head) {
        double start = text_at(p, x, y + 20 * u, 0, "cutter head: inner ring bed, outer ring design", l) + l.size;
        paint_rings(p, (box){ start, y + 20 * u, p->width, y + 20 * u }, 0, l);
    }
    for (int k = 0; k < 4; k++) {
        if ((k == 2 && !p->pairs) || (k == 3 && !p->v->cells)) continue;
        paint_sample(p, k, x, y);
        x = text_at(p, x + 36 * u, y, 0, words[k], l) + 18 * u;
    }
}

static box plan_area(const page *p) {
    double u = p->style.unit;
    if (upright(p)) return (box){ 74 * u, 46 * u, p->width - 24 * u, fmin(p->height - 440 * u, p->width) };
    return (box){ 74 * u, 46 * u, p->width - 504 * u, p->height - 72 * u };
}

static box panel_area(const page *p) {
    double u = p->style.unit;
    if (upright(p)) return (box){ 24 * u, p->frame.bottom + 80 * u, p->width - 24 * u, p->height - 40 * u };
    return (box){ p->width - 470 * u, 24 * u, p->width - 20 * u, p->height - 40 * u };
}

const char *draw_helm(page *p, sink *out) {
    if (p->v->width < 64 || p->v->height < 64 || p->v->width > 16384 || p->v->height > 16384)
        return "the size of a picture is 64 to 16384 pixels each way";
    set_sizes(p);
    p->d->pages = 1;
    cairo_surface_t *s = surface_open(p, p->v->form == FORM_PDF ? 0.75 : 1, out);
    if (plan_of_helm(p, plan_area(p))) {
        ink(p, p->ink->ground);
        cairo_paint(p->to);
        paint_plan(p);
        paint_below(p, p->frame.bottom + 15 * p->style.unit);
        paint_samples(p, p->frame.left, p->frame.bottom + 42 * p->style.unit);
        paint_panel(p, panel_area(p));
        paint_counts(p, p->width - 20 * p->style.unit, p->height - 16 * p->style.unit, 1);
    }
    const char *fault = surface_close(p, s, out);
    return p->fault ? p->fault : fault;
}
