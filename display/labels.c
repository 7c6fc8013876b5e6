/* Numbers of the triangles: how large they may be, and how they look. With few triangles they are framed, a circle for the bed and a
 * square for the design; else they have a halo, and the design's are slanted. */
#include "page.h"
#include <math.h>
#include <stdio.h>
#include <stdlib.h>

/* Of a bold digit of size 1: from one to the next, the blank of both its sides, half its height. */
static const double DIGIT = 0.696, BLANK = 0.08, HALF_DIGIT = 0.365;
enum { FEW = 120 };

static int by_value(const void *a, const void *b) {
    double x = *(const double *)a, y = *(const double *)b;
    return x < y ? -1 : x > y;
}

/* Of the triangles of the chart that are in view. */
double median_inradius(const page *p, int chart) {
    double all[MOST];
    size_t n = 0;
    for (size_t i = 0; i < p->triangles[chart]; i++) {
        if (!p->seen[chart][i].n) continue;
        shape t = triangle_shape(p, chart, i);
        all[n++] = inradius(&t);
    }
    qsort(all, n, sizeof *all, by_value);
    return n ? all[n / 2] : 0;
}

void find_label_sizes(page *p) {
    for (int chart = 0; chart < CHARTS; chart++) {
        double most = 0.62 * median_inradius(p, chart) / p->style.unit;
        p->most_height[chart] = fmin(3.0, fmax(1.5, most));
    }
}

static int sheet_steps(const page *p, int chart, step out[STEPS]) {
    static const step few[] = {
        { 3.0, true }, { 2.6, true }, { 2.2, true }, { 1.9, true }, { 1.9, false }, { 1.7, false }, { 1.5, false } };
    int n = 0;
    if (p->in_view[BED] + p->in_view[DESIGN] <= FEW) {
        for (; n < (int)(sizeof few / sizeof *few); n++) out[n] = few[n];
        return n;
    }
    for (double h = p->most_height[chart]; h > 1.5 && n < STEPS - 1; h *= 0.86) out[n++] = (step){ h, false };
    out[n++] = (step){ 1.5, false };
    return n;
}

/* The sizes that a label may have, the largest first. */
int label_steps(const page *p, int chart, bool first, step out[STEPS]) {
    static const double heights[] = { 27, 23, 20, 17, 14, 12 };
    int n = 0;
    if (p->v->layout == LAYOUT_SHEET) return sheet_steps(p, chart, out);
    for (int k = first ? 0 : 2; k < 6; k++) out[n++] = (step){ heights[k] * p->style.unit, false };
    return n;
}

/* Half of the label; of a slanted one, at any height. */
double half_width(int chart, step as, size_t digits) {
    double text = 0.5 * (DIGIT * (double)digits - BLANK) * as.height;
    if (!as.framed) return text;
    if (chart == BED) return fmax(0.8 * as.height, hypot(text, HALF_DIGIT * as.height) + 0.14 * as.height);
    return fmax(0.68 * as.height, text + 0.26 * as.height);
}

double half_height(int chart, step as, double half_width) {
    if (!as.framed) return HALF_DIGIT * as.height;
    return chart == BED ? half_width : 0.68 * as.height;
}

static void paint_frame(const page *p, const label *l, size_t digits) {
    double x = half_width(l->chart, l->as, digits), y = half_height(l->chart, l->as, x);
    cairo_new_path(p->to);
    if (l->chart == BED) cairo_arc(p->to, l->at.x, l->at.y, x, 0, 2 * acos(-1));
    else cairo_rectangle(p->to, l->at.x - x, l->at.y - y, 2 * x, 2 * y);
    ink(p, p->ink->ground);
    cairo_fill_preserve(p->to);
    ink(p, p->ink->chart[l->chart]);
    cairo_set_line_width(p->to, 0.06 * l->as.height);
    cairo_stroke(p->to);
}

/* The letters of a label, and where they start. */
static letter label_letter(const page *p, const label *l, const char *number, point *start) {
    letter as = { l->as.height, true, !l->as.framed && l->chart == DESIGN, p->ink->chart[l->chart] };
    double lean = as.slanted ? SLANT * HALF_DIGIT * l->as.height : 0;
    *start = (point){ l->at.x - text_width(p, number, as) / 2 - lean, l->at.y + HALF_DIGIT * l->as.height };
    return as;
}

/* The halo keeps shading lines and cells off the number. It is painted under the sides, so that it hides none. */
void paint_halo(const page *p, const label *l, const char *number) {
    point start;
    letter as = label_letter(p, l, number, &start);
    if (l->as.framed) return;
    text_path_at(p, start.x, start.y, number, as);
    ink_at(p, p->ink->ground, 0.9);
    cairo_set_line_width(p->to, 0.35 * l->as.height);
    cairo_set_line_join(p->to, CAIRO_LINE_JOIN_ROUND);
    cairo_stroke(p->to);
    cairo_set_line_join(p->to, CAIRO_LINE_JOIN_MITER);
}

void paint_label(const page *p, const label *l, const char *number, size_t digits) {
    point start;
    letter as = label_letter(p, l, number, &start);
    if (l->as.framed) paint_frame(p, l, digits);
    text_at(p, start.x, start.y, 0, number, as);
}

void paint_labels(const page *p, bool halos) {
    char number[24];
    for (size_t k = 0; k < p->label_count; k++) {
        int digits = snprintf(number, sizeof number, "%zu", p->labels[k].triangle);
        if (halos) paint_halo(p, &p->labels[k], number);
        else paint_label(p, &p->labels[k], number, (size_t)digits);
    }
}
