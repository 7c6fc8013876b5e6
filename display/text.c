/* Text in DejaVu Sans: widths, places, lines. Whatever bytes come in, valid UTF-8 is drawn. */
#include "page.h"
#include <stdio.h>
#include <string.h>

/* How many bytes the character at s has, if it is valid UTF-8 and can be shown; else 0. */
static size_t character(const unsigned char *s) {
    static const unsigned least[] = { 0, 0, 0x80, 0x800, 0x10000 };
    size_t n = s[0] < 0x80 ? 1 : s[0] >= 0xF0 && s[0] < 0xF8 ? 4 : s[0] >= 0xE0 && s[0] < 0xF0 ? 3 : s[0] >= 0xC0 && s[0] < 0xE0 ? 2 : 0;
    if (n == 0 || s[0] < 0x20 || s[0] == 0x7F) return 0;
    unsigned c = n == 1 ? s[0] : s[0] & (0xFFu >> (n + 1));
    for (size_t k = 1; k < n; k++) {
        if ((s[k] & 0xC0) != 0x80) return 0;
        c = c << 6 | (s[k] & 0x3Fu);
    }
    bool control = (c >= 0x80 && c < 0xA0) || (c >= 0x2028 && c <= 0x202E) || (c >= 0xFFFE && c <= 0xFFFF);
    bool valid = c >= least[n] && c <= 0x10FFFF && (c < 0xD800 || c > 0xDFFF);
    return valid && !control ? n : 0;
}

/* The text with U+FFFD for what cannot be shown, cut with an ellipsis where there is no more room. */
void text_clean(char *out, size_t room, const char *in) {
    const unsigned char *s = (const unsigned char *)in;
    size_t n = 0;
    while (*s && n + 8 < room) {
        size_t size = character(s);
        memcpy(out + n, size ? (const char *)s : "\xEF\xBF\xBD", size ? size : 3);
        n += size ? size : 3;
        s += size ? size : 1;
    }
    memcpy(out + n, *s ? "\xE2\x80\xA6" : "", *s ? 4 : 1);
}

/* Thousands set apart by a thin blank. */
char *text_grouped(char out[32], unsigned long n) {
    if (n < 1000) snprintf(out, 32, "%lu", n);
    else if (n < 1000000) snprintf(out, 32, "%lu\xE2\x80\x89%03lu", n / 1000, n % 1000);
    else snprintf(out, 32, "%lu", n);
    return out;
}

static void use(const page *p, letter l) {
    cairo_matrix_t m;
    cairo_matrix_init(&m, l.size, 0, l.slanted ? -SLANT * l.size : 0, l.size, 0, 0);
    cairo_set_font_face(p->to, l.bold ? p->bold : p->plain);
    cairo_set_font_matrix(p->to, &m);
}

double text_width(const page *p, const char *text, letter l) {
    cairo_text_extents_t e;
    use(p, l);
    cairo_text_extents(p->to, text, &e);
    return e.x_advance;
}

/* Align 0 is left, 0.5 in the middle, 1 right. Gives where the text ends. */
double text_at(const page *p, double x, double y, double align, const char *text, letter l) {
    double width = text_width(p, text, l), left = x - align * width;
    ink(p, l.ink);
    cairo_move_to(p->to, left, y);
    cairo_show_text(p->to, text);
    cairo_new_path(p->to);
    return left + width;
}

void text_path_at(const page *p, double x, double y, const char *text, letter l) {
    use(p, l);
    cairo_move_to(p->to, x, y);
    cairo_text_path(p->to, text);
}

static size_t back_one(const char *text, size_t n) {
    while (n > 0 && ((unsigned char)text[--n] & 0xC0) == 0x80) {}
    return n;
}

/* As text_at, shortened with an ellipsis to the width. */
double text_fitted(const page *p, double x, double y, double align, double width, const char *text, letter l) {
    char shown[640];
    text_clean(shown, sizeof shown, text);
    size_t n = strlen(shown);
    while (n > 0 && text_width(p, shown, l) > width) {
        n = back_one(shown, n);
        while (n > 0 && shown[n - 1] == ' ') n--;
        memcpy(shown + n, "\xE2\x80\xA6", 4);
    }
    return text_at(p, x, y, align, shown, l);
}

/* The words of one line no wider than the width are put in `out`; gives the rest of the text, null if there is none. A word that is too
 * wide stands alone. */
const char *text_line(const page *p, const char *text, double width, letter l, char *out, size_t room) {
    size_t kept = 0, n = 0;
    while (*text == ' ') text++;
    while (text[n]) {
        size_t end = n + strspn(text + n, " ");
        end += strcspn(text + end, " ");
        if (end + 1 > room) break;
        memcpy(out, text, end);
        out[end] = 0;
        if (kept && text_width(p, out, l) > width) break;
        kept = n = end;
    }
    if (!kept) kept = strlen(text) < room ? strlen(text) : 0;
    memcpy(out, text, kept);
    out[kept] = 0;
    text += kept + strspn(text + kept, " ");
    return *text && kept ? text : NULL;
}

/* Lines from where.top on, a pitch apart; gives where the next line would stand. What is below where.bottom is left out. */
double text_block(const page *p, box where, double pitch, const char *text, letter l) {
    char line[640];
    double y = where.top;
    while (text && *text && y <= where.bottom) {
        text = text_line(p, text, where.right - where.left, l, line, sizeof line);
        text_fitted(p, where.left, y, 0, where.right - where.left, line, l);
        y += pitch;
    }
    return y;
}
