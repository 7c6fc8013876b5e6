/* The key by bed triangle: one row for each bed triangle with a pair, its design triangles in it, as long as they are. After it what is
 * in no pair, and the numbers that have no room in the plan. A refusal stands in its place, in words. */
#include "key.h"
#include <stdio.h>
#include <stdlib.h>
#include <string.h>

static const double SMALL = 2.3, WARNING = 2.7;

static line *new_line(page *p, listing *k, line_kind kind) {
    if (k->n == k->room) {
        size_t room = 2 * k->room + 256;
        line *at = realloc(k->at, room * sizeof *at);
        if (!at) {
            p->fault = "out of memory";
            return NULL;
        }
        k->at = at;
        k->room = room;
    }
    k->at[k->n] = (line){ .kind = kind };
    return &k->at[k->n++];
}

static double letters(const listing *k) { return 0.68 * k->row; }

static letter partner_letter(const page *p, const listing *k) { return (letter){ letters(k), false, false, p->ink->text }; }

/* The pairs of a line, as they are written. */
static void partners(const page *p, size_t from, size_t to, char *out, size_t room) {
    size_t n = 0;
    out[0] = 0;
    for (size_t m = from; m < to && n + 16 < room; m++) {
        const char *mark = p->small[m] ? "\xC2\xB0" : "";
        n += (size_t)snprintf(out + n, room - n, "%s%u%s", m > from ? "  " : "", (unsigned)p->s->pairs[2 * m + 1], mark);
    }
}

/* How many of the pairs from..to stand on one line. */
static size_t line_of_pairs(const page *p, const listing *k, size_t from, size_t to) {
    char text[512];
    double room = k->width - 3.6 * letters(k) - 7;
    size_t end = from + 1;
    while (end < to && end - from < 40) {
        partners(p, from, end + 1, text, sizeof text);
        if (text_width(p, text, partner_letter(p, k)) > room) break;
        end++;
    }
    return end;
}

static void row_lines(page *p, listing *k, size_t from, size_t to, bool tinted) {
    for (size_t at = from; at < to;) {
        size_t end = line_of_pairs(p, k, at, to);
        line *l = new_line(p, k, at == from ? ROW : MORE);
        if (!l) return;
        l->from = at;
        l->to = end;
        l->count = to - from;
        l->tinted = tinted;
        at = end;
    }
}

static void pair_lines(page *p, listing *k) {
    bool tinted = true;
    for (size_t from = 0; from < p->pairs && !p->fault;) {
        size_t to = from + 1;
        while (to < p->pairs && p->s->pairs[2 * to] == p->s->pairs[2 * from]) to++;
        row_lines(p, k, from, to, tinted);
        tinted = !tinted;
        from = to;
    }
}

/* Text broken into lines of the column's width. */
static void text_lines(page *p, listing *k, line_kind kind, const char *text) {
    letter l = { kind == NOTE ? SMALL : WARNING, false, false, p->ink->grey };
    while (text && *text && !p->fault) {
        line *next = new_line(p, k, kind);
        if (next) text = text_line(p, text, k->width, l, next->text, sizeof next->text);
    }
}

typedef struct { char text[16 * MOST + 128]; size_t n; bool any; } note;

static void add(note *t, const char *before, size_t first, size_t last) {
    size_t room = sizeof t->text - t->n;
    int n = first == last ? snprintf(t->text + t->n, room, "%s%zu", before, first)
                          : snprintf(t->text + t->n, room, "%s%zu%s%zu", before, first, last > first + 1 ? "\xE2\x80\x93" : ", ", last);
    if (n > 0 && (size_t)n < room) t->n += (size_t)n;
}

/* "bed 0, 3-7": the triangles for which `is` holds; runs are drawn together. */
static size_t add_chart(note *t, const char *name, const bool *is, size_t n) {
    size_t listed = 0;
    for (size_t i = 0; i < n;) {
        size_t end = i;
        while (end < n && is[end]) end++;
        if (end > i) {
            if (!listed) t->n += (size_t)snprintf(t->text + t->n, sizeof t->text - t->n, "%s%s", t->any ? "; " : " ", name);
            t->any = true;
            add(t, listed ? ", " : " ", i, end - 1);
            listed += end - i;
        }
        i = end > i ? end : i + 1;
    }
    return listed;
}

static void list_lines(page *p, listing *k, const char *title, bool rest[CHARTS][MOST]) {
    static const char *const names[CHARTS] = { "bed", "design" };
    note t = { "", 0, false };
    size_t listed = 0;
    t.n = (size_t)snprintf(t.text, sizeof t.text, "%s", title);
    for (int chart = 0; chart < CHARTS; chart++) listed += add_chart(&t, names[chart], rest[chart], p->triangles[chart]);
    if (!listed) return;
    new_line(p, k, GAP);
    text_lines(p, k, NOTE, t.text);
}

static void rest_lines(page *p, listing *k) {
    bool rest[CHARTS][MOST];
    for (int chart = 0; chart < CHARTS; chart++)
        for (size_t i = 0; i < MOST; i++) rest[chart][i] = !p->paired[chart][i];
    if (p->smalls) {
        new_line(p, k, GAP);
        text_lines(p, k, NOTE, "\xC2\xB0 shared ground under 1 mm\xC2\xB2 on this sheet");
    }
    if (p->s->overlay.number == 0) list_lines(p, k, "In no pair:", rest);
    for (int chart = 0; chart < CHARTS; chart++)
        for (size_t i = 0; i < MOST; i++) rest[chart][i] = p->d->label_wanted[chart][i] && !p->d->label_set[chart][i];
    list_lines(p, k, "Numbers without room in the plan:", rest);
}

bool key_lines(page *p, listing *k) {
    char text[512];
    uint32_t number = p->s->overlay.number;
    k->n = 0;
    new_line(p, k, HEADING);
    if (number) {
        snprintf(text, sizeof text, "No key: the overlay was refused, number %u: %s.", (unsigned)number, jird_words(number));
        text_lines(p, k, WORDS, text);
    } else if (p->pairs == 0) text_lines(p, k, NOTE, "No pair shares ground.");
    pair_lines(p, k);
    rest_lines(p, k);
    return !p->fault;
}

double line_height(const listing *k, const line *l) {
    static const double heights[] = { 0, 0, 6.2, 3.3, 3.9, 2.4 };
    return l->kind == ROW || l->kind == MORE ? k->row : heights[l->kind];
}

void paint_key_head(const page *p, const listing *k, double x, double y, const char *words) {
    letter head = { 3.2, true, false, p->ink->text }, side = { 2.6, false, false, p->ink->grey };
    text_at(p, x, y + 3.6, 0, words, head);
    if (p->pairs) text_at(p, x + k->width, y + 3.6, 1, "bed : design", side);
    cairo_move_to(p->to, x, y + 5.6);
    cairo_line_to(p->to, x + k->width, y + 5.6);
    ink(p, p->ink->rule);
    cairo_set_line_width(p->to, 0.2);
    cairo_stroke(p->to);
}

static void paint_row(const page *p, const listing *k, const line *l, double x, double y) {
    char text[512];
    double size = letters(k), base = y + 0.5 * k->row + 0.36 * size;
    if (l->tinted) {
        cairo_rectangle(p->to, x, y, k->width, k->row);
        ink(p, p->ink->tint);
        cairo_fill(p->to);
    }
    if (l->kind == ROW) {
        letter bed = { size, true, false, p->ink->chart[BED] }, count = { 0.9 * size, false, false, p->ink->grey };
        snprintf(text, sizeof text, "%u", (unsigned)p->s->pairs[2 * l->from]);
        text_at(p, x + 2.6 * size, base, 1, text, bed);
        snprintf(text, sizeof text, "%zu", l->count);
        text_at(p, x + k->width - 0.8, base, 1, text, count);
    }
    partners(p, l->from, l->to, text, sizeof text);
    text_at(p, x + 3.6 * size, base, 0, text, partner_letter(p, k));
}

void paint_line(const page *p, const listing *k, const line *l, double x, double y) {
    letter note = { SMALL, false, false, p->ink->grey }, words = { WARNING, false, false, p->ink->warning };
    if (l->kind == ROW || l->kind == MORE) paint_row(p, k, l, x, y);
    else if (l->kind == HEADING) paint_key_head(p, k, x, y, "Key");
    else if (l->kind != GAP) text_fitted(p, x, y + 2.6, 0, k->width, l->text, l->kind == NOTE ? note : words);
}
