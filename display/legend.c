/* The legend of a sheet: what is in the plan, each with a sample. */
#include "page.h"
#include <math.h>
#include <stdio.h>

enum { SAMPLE = 10 };                       /* width of a sample */
static const double PITCH = 4.6, LETTERS = 2.6;

/* A side of the chart with a number on it. */
static void chart_sample(const page *p, int chart, double x, double y) {
    static const char *const numbers[CHARTS] = { "7", "4" };
    label l = { chart, 0, { x + SAMPLE / 2.0, y }, { 2.2, true } };
    step steps[STEPS];
    label_steps(p, chart, false, steps);
    l.as.framed = steps[0].framed;
    cairo_move_to(p->to, x, y);
    cairo_line_to(p->to, x + SAMPLE, y);
    cairo_set_line_width(p->to, p->style.line[chart]);
    ink(p, p->ink->chart[chart]);
    if (chart == DESIGN) cairo_set_dash(p->to, p->style.dash, 2, 0);
    cairo_stroke(p->to);
    cairo_set_dash(p->to, NULL, 0, 0);
    paint_halo(p, &l, numbers[chart]);
    paint_label(p, &l, numbers[chart], 1);
}

/* In as many lines as it takes; gives where the next row stands. */
static double row_text(const page *p, double x, double y, double width, const char *text) {
    const double lines = 3.4;
    letter l = { LETTERS, false, false, p->ink->text };
    double end = text_block(p, (box){ x + SAMPLE + 3, y + 0.36 * LETTERS, x + width, p->height }, lines, text, l);
    return end - 0.36 * LETTERS + PITCH - lines;
}

static shape sample_shape(double x, double y) {
    return (shape){ 4, { { x, y - 1.5 }, { x + SAMPLE, y - 1.5 }, { x + SAMPLE, y + 1.5 }, { x, y + 1.5 } } };
}

static void ground_sample(page *p, double x, double y, bool shaded) {
    shape s = sample_shape(x, y);
    trace(p, &s);
    ink(p, p->ink->paired);
    cairo_fill(p->to);
    if (shaded) paint_lines_in(p, &s, 0);
    else {
        trace(p, &s);
        ink(p, p->ink->chart[BED]);
        cairo_set_line_width(p->to, 0.2);
        cairo_stroke(p->to);
    }
}

static void cell_sample(const page *p, double x, double y) {
    for (int chart = 0; chart < CHARTS; chart++) {
        double dash[2] = { 8 * p->style.cell, 6 * p->style.cell }, left = x + chart * SAMPLE / 2.0;
        cairo_rectangle(p->to, left + 0.6, y - 1.5, 3.0, 3.0);
        cairo_move_to(p->to, left + 2.1, y - 1.5);
        cairo_line_to(p->to, left + 2.1, y + 1.5);
        ink_at(p, p->ink->chart[chart], 0.6);
        cairo_set_line_width(p->to, p->style.cell);
        if (chart == DESIGN) cairo_set_dash(p->to, dash, 2, 0);
        cairo_stroke(p->to);
        cairo_set_dash(p->to, NULL, 0, 0);
    }
}

static void mark_sample(const page *p, double x, double y) {
    cairo_arc(p->to, x + SAMPLE / 2.0, y, mark_radius(p), 0, 2 * acos(-1));
    ink(p, p->ink->mark);
    cairo_set_line_width(p->to, 0.3);
    cairo_stroke(p->to);
}

static double charts_part(page *p, double x, double y, double width) {
    chart_sample(p, BED, x, y);
    y = row_text(p, x, y, width, "bed as sounded, triangle 7");
    chart_sample(p, DESIGN, x, y);
    return row_text(p, x, y, width, "bed as designed, triangle 4");
}

static double ground_part(page *p, double x, double y, double width) {
    if (!p->pairs) return y;
    ground_sample(p, x, y, false);
    y = row_text(p, x, y, width, "bed triangle that is in the key");
    ground_sample(p, x, y, true);
    y = row_text(p, x, y, width, "shared ground; turns at each design side");
    if (mark_radius(p) <= 0) return y;
    mark_sample(p, x, y);
    return row_text(p, x, y, width, "shared ground under 1 mm\xC2\xB2 on this sheet");
}

static double head_part(const page *p, double x, double y, double width) {
    letter l = { LETTERS, false, false, p->ink->text };
    paint_head(p, (point){ x + SAMPLE / 2.0, y }, 0.9);
    y = row_text(p, x, y, width, "cutter head: inner ring bed, outer ring design");
    return paint_rings(p, (box){ x + SAMPLE + 3, y + 0.36 * LETTERS, x + width, p->height }, 3.4, l) - 0.36 * LETTERS + PITCH;
}

/* Gives where it ends. */
double paint_legend(page *p, double x, double y, double width) {
    letter head = { 3.2, true, false, p->ink->text };
    text_at(p, x, y + 2.4, 0, "Legend", head);
    y = charts_part(p, x, y + 7.2, width);
    y = ground_part(p, x, y, width);
    if (p->v->cells) {
        cell_sample(p, x, y);
        y = row_text(p, x, y, width, "cells (leaf squares) of each chart");
    }
    if (p->s->has_head) y = head_part(p, x, y, width);
    return y - 1;
}
