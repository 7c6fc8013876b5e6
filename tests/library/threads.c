/* Two threads at the same time, each with charts of its own, give the answers and leave the buffers that the same calls give one after
   the other. A third chart is read by both. Each thread has the stack that the header asks and 64 KB for its own frames, unless a word
   is given (sanitizers take more).

   usage: threads ROUNDS [large]
   It prints how many rounds agreed, and ends with status 1 at a difference. */
#include "jirdtungsten_charts.h"
#include <pthread.h>
#include <stdio.h>
#include <stdlib.h>
#include <string.h>

enum { SIDE = 8, TRIANGLES = 2 * SIDE * SIDE, STEPS = 20, LARGE = 4 << 20 };

/* What one thread works on, and what came of it. */
typedef struct {
    jird_chart bed, design;
    const jird_chart *shared;
    uint16_t pairs[JIRD_PAIRS_LENGTH], list[JIRD_WINDOW_LENGTH];
    uint32_t state;
    uint64_t digest;
} Work;

static Work works[2];
static jird_chart shared;
static size_t stack = JIRD_MOST_STACK + 65536;

static unsigned drawn(Work *w, unsigned n) {
    w->state = w->state * 1664525u + 1013904223u;
    return (w->state >> 8) % n;
}

static void add(Work *w, const void *bytes, size_t n) {
    const unsigned char *b = bytes;
    for (size_t k = 0; k < n; k++) w->digest = (w->digest ^ b[k]) * 1099511628211u;
}

static void add_number(Work *w, uint64_t n) { add(w, &n, sizeof n); }

static void add_changed(Work *w, jird_changed r) {
    add_number(w, r.number);
    add_number(w, r.value);
    add_number(w, r.triangles);
    add_number(w, r.entries);
}

/* A grid of squares, each halved, with inner points moved. */
static void load_grid(Work *w, jird_chart *c) {
    static const unsigned at[6][2] = {{0, 0}, {1, 0}, {0, 1}, {1, 1}, {0, 1}, {1, 0}};
    uint16_t x[SIDE + 1][SIDE + 1], y[SIDE + 1][SIDE + 1], table[6 * TRIANGLES];
    size_t n = 0;
    for (unsigned j = 0; j <= SIDE; j++)
        for (unsigned i = 0; i <= SIDE; i++) {
            int inner = i > 0 && i < SIDE && j > 0 && j < SIDE;
            x[j][i] = (uint16_t)(i * 8191 + (inner ? drawn(w, 2000) : 0));
            y[j][i] = (uint16_t)(j * 8191 + (inner ? drawn(w, 2000) : 0));
        }
    for (unsigned j = 0; j < SIDE; j++)
        for (unsigned i = 0; i < SIDE; i++)
            for (unsigned k = 0; k < 6; k++) {
                table[n++] = x[j + at[k][1]][i + at[k][0]];
                table[n++] = y[j + at[k][1]][i + at[k][0]];
            }
    add_changed(w, jird_chart_load(c, table, n));
}

/* An insert halfway between two corners of a drawn triangle: on the side where that is a whole point. */
static void insert_on_side(Work *w) {
    const uint16_t *t = &w->bed.table[6 * drawn(w, TRIANGLES)];
    unsigned from = 2 * drawn(w, 3), to = (from + 2) % 6;
    add_changed(w, jird_chart_insert(&w->bed, (uint16_t)((t[from] + t[to]) / 2), (uint16_t)((t[from + 1] + t[to + 1]) / 2)));
}

/* What a chart has in a drawn window; it is refused where its right or bottom runs over. */
static void look(Work *w, const jird_chart *c) {
    unsigned left = drawn(w, 65536), top = drawn(w, 65536), right = left + drawn(w, 20000), bottom = top + drawn(w, 20000);
    jird_windowed r = jird_chart_window(c, (uint16_t)left, (uint16_t)top, (uint16_t)right, (uint16_t)bottom, w->list);
    add_number(w, r.number);
    add_number(w, r.listed);
    add(w, w->list, sizeof w->list);
}

/* Edits at drawn places, some of which are refused, and what is read after each. */
static void edit(Work *w) {
    for (int k = 0; k < STEPS; k++) {
        unsigned x = drawn(w, 65536), y = drawn(w, 65536);
        jird_located at = jird_chart_locate(&w->bed, (uint16_t)x, (uint16_t)y);
        jird_part cell = jird_chart_cell(&w->bed, (uint16_t)x, (uint16_t)y);
        add_number(w, at.triangle);
        add_number(w, at.position);
        add(w, &w->bed.items[cell.start], cell.length * sizeof(uint16_t));
        add_changed(w, jird_chart_insert(&w->bed, (uint16_t)x, (uint16_t)y));
        add_changed(w, jird_chart_flip(&w->bed, drawn(w, TRIANGLES), drawn(w, TRIANGLES)));
        if (k % 3 == 0) add_changed(w, jird_chart_take_out(&w->bed, (uint16_t)x, (uint16_t)y));
        insert_on_side(w);
        look(w, k % 2 ? w->shared : &w->bed);
        add_number(w, jird_chart_locate(w->shared, (uint16_t)x, (uint16_t)y).triangle);
    }
}

static void *run(void *given) {
    Work *w = given;
    w->digest = 14695981039346656037u;
    memset(w->list, 0, sizeof w->list);
    load_grid(w, &w->bed);
    load_grid(w, &w->design);
    edit(w);
    add_number(w, jird_chart_soundness(&w->bed).sound);
    add_number(w, jird_chart_doubled_area(&w->bed).area);
    for (int k = 0; k < 2; k++) {
        jird_overlaid r = jird_chart_overlay(k ? w->shared : &w->design, &w->bed, w->pairs);
        add_number(w, r.number + 13 * r.pairs);
        add_number(w, r.meetings);
        add(w, w->pairs, sizeof w->pairs);
    }
    add(w, &w->bed, sizeof w->bed);
    return NULL;
}

static void together(void) {
    pthread_t threads[2];
    pthread_attr_t with;
    if (pthread_attr_init(&with) != 0 || pthread_attr_setstacksize(&with, stack) != 0) exit(2);
    for (int k = 0; k < 2; k++)
        if (pthread_create(&threads[k], &with, run, &works[k]) != 0) exit(2);
    for (int k = 0; k < 2; k++)
        if (pthread_join(threads[k], NULL) != 0) exit(2);
    pthread_attr_destroy(&with);
}

int main(int count, char **words) {
    int rounds = count > 1 ? atoi(words[1]) : 0;
    if (count > 2) stack = LARGE;
    works[0].state = 1;
    load_grid(&works[0], &shared);
    for (int r = 0; r < rounds; r++) {
        uint64_t alone[2];
        for (uint32_t k = 0; k < 2; k++) {
            works[k].shared = &shared;
            works[k].state = 2 * (uint32_t)r + k;
            run(&works[k]);
            alone[k] = works[k].digest;
            works[k].state = 2 * (uint32_t)r + k;
        }
        together();
        if (alone[0] != works[0].digest || alone[1] != works[1].digest || alone[0] == alone[1]) {
            printf("round %d: two threads answer otherwise than one after the other\n", r);
            return 1;
        }
    }
    printf("%d rounds agree\n", rounds);
    return rounds > 0 ? 0 : 1;
}
