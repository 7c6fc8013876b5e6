/* The key sheet: title, plan, legend, key; what of the key does not fit goes on further pages. Millimetres. */
#include "key.h"
#include <math.h>
#include <stdio.h>
#include <stdlib.h>

static const double MARGIN = 10, TOP = 32, GUTTER = 8, FOOT = 14;

typedef struct {
    page *p;
    listing key;
    double column;                      /* width of a column */
    box first[3];                       /* the key's columns on page 1 */
    int first_count, columns;           /* and how many there are; those of a further page */
} sheet;

static void set_paper(page *p) {
    double wide = p->v->paper == PAPER_A3 ? 420 : 297, low = p->v->paper == PAPER_A3 ? 297 : 210;
    p->width = p->v->portrait ? low : wide;
    p->height = p->v->portrait ? wide : low;
    p->style = (style){
        .line = { 0.50, 0.42 }, .underline = 0.35, .dash = { 2.2, 0.9 }, .dot = 0.55, .square = 0.5,
        .gap = 1.25, .shade = 0.13, .strength = 0.75, .cell = 0.10, .head = 2.4, .band = 1.7,
        .text = 2.4, .tick = 1.2, .apart = 18, .border = 0.3, .pad = 0.2, .unit = 1, .least_ground = 1,
    };
}

/* The charts' extent with 3 % around it, or what was asked for. */
static box sheet_window(const page *p) {
    const uint16_t *w = p->v->window;
    if (p->v->has_window && w[0] < w[2] && w[1] < w[3]) return (box){ w[0], w[1], w[2], w[3] };
    box b = charts_extent(p);
    return grown(b, fmax(0.5, 0.03 * fmax(b.right - b.left, b.bottom - b.top)));
}

static box plan_area(const sheet *t) {
    const page *p = t->p;
    if (p->v->portrait) return (box){ 25, TOP, p->width - MARGIN, fmin(TOP + p->width - 35, p->height - 100) };
    return (box){ 25, TOP, p->width - MARGIN - t->column - GUTTER, p->height - 19 };
}

static void set_columns(sheet *t) {
    const page *p = t->p;
    double usable = p->width - 2 * MARGIN;
    bool narrow = p->v->portrait && p->v->paper == PAPER_A4;
    t->columns = p->v->paper == PAPER_A3 && !p->v->portrait ? 4 : 3;
    t->column = narrow ? (usable - 2 * GUTTER) / 3 : 82;
    t->key.width = t->column;
}

static double column_left(const sheet *t, int n) {
    double usable = t->p->width - 2 * MARGIN;
    return MARGIN + n * (usable - t->column) / (t->columns - 1);
}

static double legend_left(const sheet *t) { return t->p->v->portrait ? MARGIN : t->p->width - MARGIN - t->column; }
static double legend_top(const sheet *t) { return t->p->v->portrait ? t->p->frame.bottom + 13 : TOP - 7; }


/* Changes that were refused, in words. Gives where they end. */
static double paint_refused(const sheet *t, double x, double y) {
    static const char *const names[CHARTS] = { "bed", "design" };
    const page *p = t->p;
    char text[512];
    letter l = { 2.7, false, false, p->ink->warning };
    for (int chart = 0; chart < CHARTS; chart++) {
        uint32_t number = p->s->refused[chart];
        if (!number) continue;
        snprintf(text, sizeof text, "The last change of the %s was refused, number %u: %s.", names[chart], (unsigned)number,
                 jird_words(number));
        y = text_block(p, (box){ x, y + 4, x + t->column, p->height }, 3.8, text, l) - 2;
    }
    return y;
}

static void found_words(const page *p, int chart, char *out, size_t room) {
    static const char *const names[CHARTS] = { "Bed", "Design" };
    const jird_located *f = &p->s->found[chart];
    if (f->number) snprintf(out, room, "%s: refused, number %u: %s.", names[chart], (unsigned)f->number, jird_words(f->number));
    else if (f->triangle == JIRD_NOWHERE) snprintf(out, room, "%s: in no triangle", names[chart]);
    else snprintf(out, room, "%s: triangle %u, %s", names[chart], (unsigned)f->triangle, jird_position_words(f->position));
}

/* The cutter head and the triangles under it. Gives where it ends. */
static double paint_found(const sheet *t, double x, double y) {
    const page *p = t->p;
    char text[512], across[32], down[32];
    letter head = { 3.2, true, false, p->ink->text }, plain = { 2.6, false, false, p->ink->text };
    if (!p->s->has_head) return y;
    snprintf(text, sizeof text, "Cutter head at %s, %s", text_grouped(across, p->s->head_x), text_grouped(down, p->s->head_y));
    text_fitted(p, x, y + 4.6, 0, t->column, text, head);
    y += 9.6;
    for (int chart = 0; chart < CHARTS; chart++) {
        letter l = plain;
        if (p->s->found[chart].number) l.ink = p->ink->warning;
        found_words(p, chart, text, sizeof text);
        double left = paint_ring_sample(p, x, y, l.size, ring_of(p, chart));
        y = text_block(p, (box){ left, y, x + t->column, p->height }, 4.2, text, l);
    }
    return y - 3;
}

/* All that stands beside the plan but the key. Gives where it ends. */
static double paint_beside(const sheet *t) {
    double x = legend_left(t), y = paint_legend(t->p, x, legend_top(t), t->column);
    return paint_found(t, x, paint_refused(t, x, y));
}

/* The key's column n, and its page from 1. */
static box column_box(const sheet *t, int n, int *on) {
    if (n < t->first_count) {
        *on = 1;
        return t->first[n];
    }
    n -= t->first_count;
    *on = 2 + n / t->columns;
    double left = column_left(t, n % t->columns);
    return (box){ left, 26, left + t->column, t->p->height - FOOT };
}

static void set_first_columns(sheet *t, double end) {
    const page *p = t->p;
    double bottom = p->height - FOOT, top = legend_top(t);
    t->first_count = 0;
    if (!p->v->portrait) t->first[t->first_count++] = (box){ legend_left(t), end + 1, p->width - MARGIN, bottom };
    for (int n = 1; p->v->portrait && n < 3; n++) {
        double left = column_left(t, n);
        t->first[t->first_count++] = (box){ left, top - 1.2, left + t->column, bottom };
    }
}

/* Goes through the lines, column by column. Those of the page are painted (0: none). Gives the last page. */
static int flow(const sheet *t, int wanted) {
    int n = 0, on;
    box c = column_box(t, n, &on);
    double y = c.top;
    for (size_t k = 0; k < t->key.n; k++) {
        const line *l = &t->key.at[k];
        double high = line_height(&t->key, l);
        while (y + high > c.bottom && (y > c.top || n < t->first_count)) {
            c = column_box(t, ++n, &on);
            y = c.top;
            if ((l->kind == ROW || l->kind == MORE) && on == wanted) paint_key_head(t->p, &t->key, c.left, y, "Key, continued");
            if (l->kind == ROW || l->kind == MORE) y += 6.2;
        }
        if (on == wanted) paint_line(t->p, &t->key, l, c.left, y);
        y += high;
    }
    return on;
}

/* Rows as high as lets the key stand on the first page; where nothing does, rows of 3.4. */
static bool set_rows(sheet *t) {
    for (double row = 4.4; row > 2.95; row -= 0.2) {
        t->key.row = row;
        if (!key_lines(t->p, &t->key)) return false;
        if (flow(t, 0) == 1) return true;
    }
    t->key.row = 3.4;
    return key_lines(t->p, &t->key);
}

/* A count with its noun, in the plural where it is not one. */
static size_t counted(char *out, size_t room, const char *before, size_t n, const char *noun) {
    int length = snprintf(out, room, "%s%zu %s%s", before, n, noun, n == 1 ? "" : "s");
    return length > 0 && (size_t)length < room ? (size_t)length : 0;
}

static void counts(const page *p, char *out, size_t room) {
    const jird_overlaid *o = &p->s->overlay;
    size_t n = counted(out, room, "bed ", p->s->charts[BED].triangles, "triangle");
    n += counted(out + n, room - n, "   design ", p->s->charts[DESIGN].triangles, "triangle");
    if (o->number) {
        snprintf(out + n, room - n, "   overlay refused: number %u", (unsigned)o->number);
        return;
    }
    n += counted(out + n, room - n, "   ", o->pairs, "pair");
    counted(out + n, room - n, "   ", o->meetings, "meeting");
}

static void paint_heading(const page *p) {
    char text[160];
    letter title = { 5.2, true, false, p->ink->text }, grey = { 3.0, false, false, p->ink->grey };
    double left = MARGIN, right = p->width - MARGIN, id = fmin(text_width(p, p->id, grey), 0.35 * (right - left));
    text_fitted(p, left, 14.8, 0, right - left - id - 6, p->title, title);
    text_fitted(p, right, 14.8, 1, 0.35 * (right - left), p->id, grey);
    counts(p, text, sizeof text);
    double wide = text_width(p, text, grey);
    text_fitted(p, left, 20, 0, right - left - wide - 6, "Key sheet: for the examiner only.", grey);
    text_at(p, right, 20, 1, text, grey);
    cairo_move_to(p->to, left, 23);
    cairo_line_to(p->to, right, 23);
    ink(p, p->ink->rule);
    cairo_set_line_width(p->to, 0.2);
    cairo_stroke(p->to);
}

static void paint_footer(const page *p, int n) {
    char text[96];
    letter l = { 2.2, false, false, p->ink->grey };
    snprintf(text, sizeof text, "grid 0 to 65\xE2\x80\x89" "535, y downward \xC2\xB7 page %d of %d", n, p->d->pages);
    text_at(p, p->width - MARGIN, p->height - 6.4, 1, text, l);
    text_fitted(p, MARGIN, p->height - 6.4, 0, 0.6 * p->width, p->id, l);
}

static void paint_page(sheet *t, int n) {
    page *p = t->p;
    ink(p, p->ink->ground);
    cairo_paint(p->to);
    paint_heading(p);
    if (n == 1) {
        paint_plan(p);
        paint_below(p, p->frame.bottom + 4);
        paint_beside(t);
    }
    flow(t, n);
    paint_footer(p, n);
    cairo_show_page(p->to);
}

/* Everything is measured first, on a scratch surface: then the number of pages is known. */
static const char *measure(sheet *t) {
    page *p = t->p;
    cairo_surface_t *scratch = surface_scratch(p);
    set_columns(t);
    if (plan_ready(p, plan_area(t), sheet_window(p), false)) {
        set_first_columns(t, paint_beside(t));
        if (set_rows(t)) p->d->pages = flow(t, 0);
    }
    const char *fault = surface_close(p, scratch, NULL);
    return p->fault ? p->fault : fault;
}

static const char *paint_pages(sheet *t, sink *out) {
    static const double dots[] = { [FORM_PNG] = 200 / 25.4, [FORM_SVG] = 72 / 25.4, [FORM_PDF] = 72 / 25.4 };
    static char words[96];
    page *p = t->p;
    bool all = p->v->form == FORM_PDF;
    if (!all && (p->v->page < 1 || p->v->page > p->d->pages)) {
        snprintf(words, sizeof words, "there is no page %d: the sheet has %d page%s", p->v->page, p->d->pages, p->d->pages == 1 ? "" : "s");
        return words;
    }
    cairo_surface_t *s = surface_open(p, dots[p->v->form], out);
    for (int n = all ? 1 : p->v->page; n <= (all ? p->d->pages : p->v->page); n++) paint_page(t, n);
    const char *fault = surface_close(p, s, out);
    return p->fault ? p->fault : fault;
}

const char *draw_sheet(page *p, sink *out) {
    sheet t = { .p = p };
    set_paper(p);
    const char *fault = measure(&t);
    if (!fault) fault = paint_pages(&t, out);
    free(t.key.at);
    return fault;
}
