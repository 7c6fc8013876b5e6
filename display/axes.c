/* Axes and the scale bar. */
#include "page.h"
#include <math.h>
#include <stdio.h>

/* The least of 1, 2 and 5 times a power of ten, from 1 on, that is so far on the page. */
double tick_step(double scale, double apart) {
    double power = 1;
    while (10 * power * scale < apart && power < 1e5) power *= 10;
    if (power * scale >= apart) return power;
    if (2 * power * scale >= apart) return 2 * power;
    return 5 * power * scale >= apart ? 5 * power : 10 * power;
}

static void tick(const page *p, double at, bool x) {
    char text[32];
    const style *y = &p->style;
    letter l = { y->text, false, false, p->ink->grey };
    point on = on_page(p, (point){ at, at });
    text_grouped(text, (unsigned long)at);
    if (x) {
        text_at(p, on.x, p->frame.top - y->tick - 0.5 * y->text, 0.5, text, l);
        cairo_move_to(p->to, on.x, p->frame.top);
        cairo_line_to(p->to, on.x, p->frame.top - y->tick);
    } else {
        text_at(p, p->frame.left - y->tick - 0.4 * y->text, on.y + 0.36 * y->text, 1, text, l);
        cairo_move_to(p->to, p->frame.left, on.y);
        cairo_line_to(p->to, p->frame.left - y->tick, on.y);
    }
    ink(p, p->ink->grey);
    cairo_set_line_width(p->to, 0.6 * y->border);
    cairo_stroke(p->to);
}

void paint_axes(const page *p) {
    double step = tick_step(p->scale, p->style.apart);
    const box *w = &p->window, *f = &p->frame;
    letter l = { 1.1 * p->style.text, false, true, p->ink->text };
    for (double x = fmax(0, ceil(w->left / step) * step); x <= fmin(w->right, LAST_PLACE); x += step) tick(p, x, true);
    for (double y = fmax(0, ceil(w->top / step) * step); y <= fmin(w->bottom, LAST_PLACE); y += step) tick(p, y, false);
    text_at(p, f->right, f->top - p->style.tick - 1.9 * p->style.text, 1, "x \xE2\x86\x92", l);
    text_at(p, f->left - p->style.tick - 0.4 * p->style.text, f->top - p->style.tick - 1.9 * p->style.text, 1, "y \xE2\x86\x93", l);
}

/* Four parts, dark and light; gives where its text ends. */
double paint_scale_bar(const page *p, double y) {
    double room = 0.36 * (p->frame.right - p->frame.left), units = 1, high = 0.45 * p->style.text;
    char number[32], text[64];
    while (units < 1e5 && tick_step(p->scale, units * p->scale * 1.01) * p->scale <= room)
        units = tick_step(p->scale, units * p->scale * 1.01);
    double part = units * p->scale / 4;
    ink(p, p->ink->text);
    cairo_set_line_width(p->to, 0.6 * p->style.border);
    cairo_rectangle(p->to, p->frame.left, y, 4 * part, high);
    cairo_stroke(p->to);
    for (int k = 0; k < 4; k += 2) cairo_rectangle(p->to, p->frame.left + k * part, y, part, high);
    cairo_fill(p->to);
    snprintf(text, sizeof text, "%s grid unit%s", text_grouped(number, (unsigned long)units), units > 1 ? "s" : "");
    letter l = { p->style.text, false, false, p->ink->text };
    return text_at(p, p->frame.left + 4 * part + 0.8 * p->style.text, y + high, 0, text, l);
}

/* The scale bar and how many numbers have no room. */
void paint_below(const page *p, double y) {
    char text[96];
    letter l = { p->style.text, false, false, p->ink->grey };
    double end = paint_scale_bar(p, y);
    bool all = !p->left_out[BED] && !p->left_out[DESIGN];
    if (window_refused(p)) snprintf(text, sizeof text, "the window was refused");
    else if (p->in_view[BED] + p->in_view[DESIGN] == 0) snprintf(text, sizeof text, "no triangle in the window");
    else if (all) snprintf(text, sizeof text, "every triangle number is shown");
    else snprintf(text, sizeof text, "numbers without room: bed %zu, design %zu", p->left_out[BED], p->left_out[DESIGN]);
    double width = text_width(p, text, l), right = fmax(p->frame.right, p->frame.left + width);
    bool beside = right - width > end + p->style.text;
    text_at(p, beside ? right : p->frame.left, y + (beside ? 0.45 : 1.9) * p->style.text, beside ? 1 : 0, text, l);
}
