/* Parts of parallel lines, joined where they touch: shading lines and the sides of cells. */
#include "page.h"
#include <stdlib.h>

bool stretch_add(page *p, stretches *all, long line, double from, double to) {
    if (all->n == all->room) {
        size_t room = 2 * all->room + 1024;
        stretch *at = realloc(all->at, room * sizeof *at);
        if (!at) {
            p->fault = "out of memory";
            return false;
        }
        all->at = at;
        all->room = room;
    }
    all->at[all->n++] = (stretch){ line, from, to };
    return true;
}

static int by_line(const void *a, const void *b) {
    const stretch *s = a, *t = b;
    if (s->line != t->line) return s->line < t->line ? -1 : 1;
    return s->from < t->from ? -1 : s->from > t->from;
}

/* Sorts them; those of one line that overlap or touch become one. */
void stretches_join(stretches *all) {
    const double slack = 1e-6;
    size_t kept = 0;
    if (all->n) qsort(all->at, all->n, sizeof *all->at, by_line);
    for (size_t k = 0; k < all->n; k++) {
        stretch *last = kept ? &all->at[kept - 1] : NULL, next = all->at[k];
        if (!last || last->line != next.line || next.from > last->to + slack) all->at[kept++] = next;
        else if (next.to > last->to) last->to = next.to;
    }
    all->n = kept;
}
