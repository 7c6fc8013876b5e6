/* Calls every export on document 01's marked cases 2 to 10, case 9 as document 02 has it, and inserts and windows on cases that are worked
   out by hand, once by the prototypes and once by the inline functions over jird_chart, as C and as C++. It prints each check that fails,
   and its last line is how many were made; its status is 0 when none failed. */
#include "jirdtungsten_charts.h"
#include <stdio.h>
#include <stdlib.h>
#include <string.h>

static const uint16_t U[6] = {0, 0, 65535, 0, 0, 65535}, V[6] = {65535, 65535, 0, 65535, 65535, 0};
static const uint32_t Q = 268435456;
static int checks, failures;

#define CHECK(fact) check((fact) ? 1 : 0, __LINE__, #fact)
static void check(int holds, int line, const char *fact) {
    checks++;
    if (holds) return;
    failures++;
    printf("tests/library/marked.c:%d: %s\n", line, fact);
}

/* ---- the prototypes, on the buffers of a chart, and the inline functions */

#define BUFFERS(c) (c)->table, JIRD_TABLE_LENGTH, (c)->keys, JIRD_ENTRIES_LENGTH, (c)->levels, JIRD_ENTRIES_LENGTH, (c)->items, \
    JIRD_ENTRIES_LENGTH, (c)->triangles, (c)->entries

static jird_changed counted(jird_chart *c, jird_changed r) {
    c->triangles = r.triangles;
    c->entries = r.entries;
    return r;
}

static jird_changed load(jird_chart *c, const uint16_t *numbers, size_t n) { return counted(c, jird_load(numbers, n, BUFFERS(c))); }
static jird_changed insert(jird_chart *c, uint16_t x, uint16_t y) { return counted(c, jird_insert(BUFFERS(c), x, y)); }
static jird_changed take_out(jird_chart *c, uint16_t x, uint16_t y) { return counted(c, jird_take_out(BUFFERS(c), x, y)); }
static jird_changed flip(jird_chart *c, size_t i, size_t j) { return counted(c, jird_flip(BUFFERS(c), i, j)); }
static jird_located locate(const jird_chart *c, uint16_t x, uint16_t y) { return jird_locate(BUFFERS(c), x, y); }
static jird_sounded soundness(const jird_chart *c) { return jird_soundness(BUFFERS(c)); }
static jird_measured doubled_area(const jird_chart *c) { return jird_doubled_area(BUFFERS(c)); }
static jird_part cell(const jird_chart *c, uint16_t x, uint16_t y) { return jird_cell(BUFFERS(c), x, y); }
static jird_windowed window(const jird_chart *c, uint16_t left, uint16_t top, uint16_t right, uint16_t bottom, uint16_t *list) {
    return jird_window(BUFFERS(c), left, top, right, bottom, list, JIRD_WINDOW_LENGTH);
}
static jird_overlaid overlay(const jird_chart *a, const jird_chart *b, uint16_t *pairs) {
    return jird_overlay(BUFFERS(a), BUFFERS(b), pairs, JIRD_PAIRS_LENGTH);
}

typedef struct {
    jird_changed (*load)(jird_chart *, const uint16_t *, size_t);
    jird_changed (*insert)(jird_chart *, uint16_t, uint16_t);
    jird_changed (*take_out)(jird_chart *, uint16_t, uint16_t);
    jird_changed (*flip)(jird_chart *, size_t, size_t);
    jird_located (*locate)(const jird_chart *, uint16_t, uint16_t);
    jird_sounded (*soundness)(const jird_chart *);
    jird_measured (*doubled_area)(const jird_chart *);
    jird_part (*cell)(const jird_chart *, uint16_t, uint16_t);
    jird_windowed (*window)(const jird_chart *, uint16_t, uint16_t, uint16_t, uint16_t, uint16_t *);
    jird_overlaid (*overlay)(const jird_chart *, const jird_chart *, uint16_t *);
} Calls;

static const Calls prototypes = {load, insert, take_out, flip, locate, soundness, doubled_area, cell, window, overlay};
static const Calls inlines = {jird_chart_load,      jird_chart_insert,       jird_chart_take_out, jird_chart_flip,   jird_chart_locate,
                              jird_chart_soundness, jird_chart_doubled_area, jird_chart_cell,     jird_chart_window, jird_chart_overlay};

/* ---- what the cases share */

/* A chart of the heap whose bytes nobody has set: a load may come to anything. */
static jird_chart *new_chart(void) {
    jird_chart *c = (jird_chart *)malloc(sizeof *c);
    if (c == NULL) exit(2);
    return c;
}

static int is_done(jird_changed r, size_t triangles, size_t entries) {
    return r.number == JIRD_DONE && r.value == 0 && r.triangles == triangles && r.entries == entries;
}

static int is_refused(jird_changed r, uint32_t number, size_t value, const jird_chart *c) {
    return r.number == number && r.value == value && r.triangles == c->triangles && r.entries == c->entries;
}

/* Whether a window lists the numbers of a set, bit i for triangle i, with zeros after them, and touches nothing after the places asked. */
static int lists(const Calls *f, const jird_chart *c, unsigned left, unsigned top, unsigned right, unsigned bottom, unsigned wanted) {
    uint16_t list[JIRD_WINDOW_LENGTH + 1], expected[JIRD_WINDOW_LENGTH + 1] = {0};
    size_t n = 0;
    memset(list, 0x77, sizeof list);
    expected[JIRD_WINDOW_LENGTH] = 0x7777;
    for (unsigned i = 0; i < 16; i++)
        if (wanted >> i & 1) expected[n++] = (uint16_t)i;
    jird_windowed r = f->window(c, (uint16_t)left, (uint16_t)top, (uint16_t)right, (uint16_t)bottom, list);
    return r.number == JIRD_DONE && r.listed == n && memcmp(list, expected, sizeof list) == 0;
}

/* Whether a window is refused with a number and leaves the list as it was. */
static int shut(const Calls *f, const jird_chart *c, unsigned left, unsigned top, unsigned right, unsigned bottom, uint32_t number) {
    uint16_t list[JIRD_WINDOW_LENGTH + 1], before[JIRD_WINDOW_LENGTH + 1];
    memset(list, 0x77, sizeof list);
    memcpy(before, list, sizeof list);
    jird_windowed r = f->window(c, (uint16_t)left, (uint16_t)top, (uint16_t)right, (uint16_t)bottom, list);
    return r.number == number && r.listed == 0 && memcmp(list, before, sizeof list) == 0;
}

static int has_entry(const jird_chart *c, size_t k, uint32_t key, unsigned level, unsigned item) {
    return c->keys[k] == key && c->levels[k] == level && c->items[k] == item;
}

static int holds(const jird_chart *c, const uint16_t *numbers, size_t n) {
    int zeros = 1;
    for (size_t k = n; k < JIRD_TABLE_LENGTH; k++) zeros &= c->table[k] == 0;
    for (size_t k = c->entries; k < JIRD_ENTRIES_LENGTH; k++) zeros &= c->keys[k] == 0 && c->levels[k] == 0 && c->items[k] == 0;
    return zeros && c->triangles == n / 6 && (n == 0 || memcmp(c->table, numbers, 2 * n) == 0);
}

static int is_part(jird_part p, size_t start, size_t length) { return p.start == start && p.length == length; }

static int is_at(jird_located r, uint32_t number, uint32_t triangle, uint32_t position) {
    return r.number == number && r.triangle == triangle && r.position == position;
}

/* ---- the cases */

static void entries(const Calls *f, jird_chart *c, const uint16_t *uv) {
    static const unsigned sizes[7] = {1, 1, 1, 2, 2, 2, 1};
    CHECK(is_done(f->load(c, U, 0), 0, 1) && holds(c, U, 0) && has_entry(c, 0, 0, 0, JIRD_EMPTY_CELL)); /* 2 */
    CHECK(is_part(f->cell(c, 7, 9), 0, 0) && f->soundness(c).sound == 1 && f->doubled_area(c).area == 0);
    CHECK(is_done(f->load(c, U, 6), 1, 7) && holds(c, U, 6)); /* 3 */
    for (uint32_t k = 0; k < 4; k++) CHECK(has_entry(c, k, k * Q, 2, 0));
    CHECK(has_entry(c, 4, 4 * Q, 1, 0) && has_entry(c, 5, 8 * Q, 1, 0) && has_entry(c, 6, 12 * Q, 1, JIRD_EMPTY_CELL));
    CHECK(is_done(f->load(c, V, 6), 1, 4) && holds(c, V, 6)); /* 4 */
    for (uint32_t k = 0; k < 4; k++) CHECK(has_entry(c, k, 4 * k * Q, 1, 0));
    CHECK(is_done(f->load(c, uv, 12), 2, 10) && holds(c, uv, 12)); /* 5 */
    for (uint32_t k = 0, place = 0; k < 7; place += sizes[k], k++)
        for (uint32_t j = 0; j < sizes[k]; j++)
            CHECK(has_entry(c, place + j, k < 4 ? k * Q : 4 * (k - 3) * Q, k < 4 ? 2 : 1, k < 6 ? j : 1));
    CHECK(is_part(f->cell(c, 1, 2), 0, 1) && is_part(f->cell(c, 40000, 5), 5, 2) && is_part(f->cell(c, 65535, 65534), 9, 1));
}

static void places(const Calls *f, jird_chart *c, const uint16_t *uv) {
    f->load(c, U, 6); /* 6, and each position */
    CHECK(is_at(f->locate(c, 32768, 32767), JIRD_DONE, 0, JIRD_ON_BC));
    CHECK(is_at(f->locate(c, 32768, 32768), JIRD_DONE, JIRD_NOWHERE, JIRD_OUTSIDE));
    CHECK(is_at(f->locate(c, 1, 2), JIRD_DONE, 0, JIRD_INSIDE));
    CHECK(is_at(f->locate(c, 7, 0), JIRD_DONE, 0, JIRD_ON_AB) && is_at(f->locate(c, 0, 7), JIRD_DONE, 0, JIRD_ON_CA));
    CHECK(is_at(f->locate(c, 0, 0), JIRD_DONE, 0, JIRD_AT_A) && is_at(f->locate(c, 65535, 0), JIRD_DONE, 0, JIRD_AT_B));
    CHECK(is_at(f->locate(c, 0, 65535), JIRD_DONE, 0, JIRD_AT_C));
    f->load(c, uv, 12);
    CHECK(is_at(f->locate(c, 65535, 0), JIRD_DONE, 0, JIRD_AT_B) && is_at(f->locate(c, 65535, 9), JIRD_DONE, 1, JIRD_ON_CA));
    CHECK(is_at(f->locate(c, 9, 65535), JIRD_DONE, 1, JIRD_ON_AB) && is_at(f->locate(c, 65535, 65535), JIRD_DONE, 1, JIRD_AT_A));
    c->triangles = (size_t)-1;
    CHECK(is_at(f->locate(c, 1, 1), JIRD_BROKEN_CHAIN, JIRD_NOWHERE, JIRD_OUTSIDE));
    CHECK(is_part(f->cell(c, 40000, 5), 0, 0) && f->soundness(c).number == JIRD_BROKEN_CHAIN && f->soundness(c).sound == 0);
    CHECK(f->doubled_area(c).number == JIRD_BROKEN_CHAIN && f->doubled_area(c).area == 0);
    CHECK(is_refused(f->flip(c, 0, 1), JIRD_BROKEN_CHAIN, 0, c) && c->triangles == (size_t)-1);
}

static void overlays(const Calls *f, jird_chart *c, jird_chart *d, const uint16_t *uv) {
    static uint16_t pairs[JIRD_PAIRS_LENGTH];
    memset(pairs, 0x77, sizeof pairs);
    f->load(c, U, 6); /* 7 */
    f->load(d, V, 6);
    jird_overlaid r = f->overlay(c, d, pairs);
    CHECK(r.number == JIRD_DONE && r.pairs == 0 && r.meetings == 7 && pairs[0] == 0 && pairs[JIRD_PAIRS_LENGTH - 1] == 0);
    pairs[0] = pairs[1] = 9;
    r = f->overlay(c, c, pairs);
    CHECK(r.number == JIRD_DONE && r.pairs == 1 && r.meetings == 7 && pairs[0] == 0 && pairs[1] == 0);
    f->load(d, uv, 12);
    r = f->overlay(d, c, pairs);
    CHECK(r.number == JIRD_DONE && r.pairs == 1 && pairs[0] == 0 && pairs[1] == 0);
    f->load(c, V, 6);
    r = f->overlay(d, c, pairs);
    CHECK(r.number == JIRD_DONE && r.pairs == 1 && pairs[0] == 1 && pairs[1] == 0);
    r = f->overlay(c, d, pairs);
    CHECK(r.number == JIRD_DONE && r.pairs == 1 && pairs[0] == 0 && pairs[1] == 1);
    d->entries = 0;
    pairs[0] = 3;
    CHECK(f->overlay(c, d, pairs).number == JIRD_BROKEN_CHAIN && f->overlay(d, c, pairs).number == JIRD_BROKEN_CHAIN && pairs[0] == 3);
}

static void edits(const Calls *f, jird_chart *c, const uint16_t *uv) {
    static const uint16_t flipped[12] = {65535, 0, 65535, 65535, 0, 0, 65535, 65535, 0, 65535, 0, 0};
    static const uint16_t halves[12] = {65535, 0, 32768, 32767, 0, 0, 32768, 32767, 0, 65535, 0, 0};
    static const uint16_t parts[18] = {0, 0, 65535, 0, 10000, 20000, 65535, 0, 0, 65535, 10000, 20000, 0, 65535, 0, 0, 10000, 20000};
    f->load(c, uv, 12); /* 8 */
    CHECK(f->doubled_area(c).number == JIRD_DONE && f->doubled_area(c).area == 8589672450u);
    CHECK(f->soundness(c).number == JIRD_DONE && f->soundness(c).sound == 1);
    CHECK(is_refused(f->flip(c, 0, 0), JIRD_NO_FLIP, 0, c) && is_refused(f->flip(c, 2, 0), JIRD_NO_SUCH_TRIANGLE, 0, c));
    CHECK(holds(c, uv, 12));
    CHECK(f->flip(c, 0, 1).number == JIRD_DONE && holds(c, flipped, 12) && f->doubled_area(c).area == 8589672450u);
    f->load(c, U, 6); /* 9, and with a point that is not symmetric */
    CHECK(f->insert(c, 10000, 10000).triangles == 3 && is_done(f->take_out(c, 10000, 10000), 1, 7) && holds(c, U, 6));
    CHECK(is_done(f->insert(c, 32768, 32767), 2, 14) && holds(c, halves, 12));
    f->load(c, U, 6);
    CHECK(f->insert(c, 10000, 20000).number == JIRD_DONE && holds(c, parts, 18) && f->soundness(c).sound == 1);
    CHECK(is_refused(f->take_out(c, 20000, 10000), JIRD_NOT_THREE_AROUND, 0, c));
    CHECK(is_done(f->take_out(c, 10000, 20000), 1, 7) && holds(c, U, 6));
    c->items[6] = 0;
    CHECK(is_refused(f->insert(c, 10000, 10000), JIRD_STALE_ENTRIES, 0, c) && is_refused(f->insert(c, 9, 65535), JIRD_STALE_ENTRIES, 0, c));
    CHECK(is_refused(f->insert(c, 65535, 0), JIRD_STALE_ENTRIES, 0, c) && c->items[6] == 0);
}

/* U and V at (32768,32767), which is on bc of both: the lower numbered is taken, whichever that is, and the other is beyond. Ten cells:
   the two below of level 1, and of level 2 those above, of which the two that have the point list all four triangles. */
static void on_both(const Calls *f, jird_chart *c, const uint16_t *uv) {
    static const uint16_t by_u[24] = {65535, 0,     32768, 32767, 0, 0, 0,     65535, 32768, 32767, 65535, 65535,
                                      32768, 32767, 0,     65535, 0, 0, 32768, 32767, 65535, 0,     65535, 65535};
    static const unsigned sizes[10] = {2, 2, 1, 4, 2, 2, 4, 1, 2, 2};
    uint16_t vu[12], by_v[24];
    for (int k = 0; k < 2; k++) memcpy(vu + 6 * k, uv + 6 - 6 * k, sizeof U);
    for (int k = 0; k < 4; k++) memcpy(by_v + 6 * k, by_u + 6 * (k ^ 1), sizeof U);
    for (uint32_t t = 0; t < 2; t++) {
        f->load(c, t ? vu : uv, 12);
        CHECK(is_done(f->insert(c, 32768, 32767), 4, 22) && holds(c, t ? by_v : by_u, 24));
        for (uint32_t k = 0, place = 0; k < 10; place += sizes[k], k++)
            for (uint32_t j = 0; j < sizes[k]; j++)
                CHECK(c->keys[place + j] == (k < 8 ? k * Q : 4 * (k - 6) * Q) && c->levels[place + j] == (k < 8 ? 2 : 1));
        CHECK(is_part(f->cell(c, 32768, 32767), 13, 4) && is_part(f->cell(c, 5, 20000), 4, 1) && is_part(f->cell(c, 60000, 20000), 17, 1));
        CHECK(c->items[4] == 2 + t && c->items[17] == 3 - t && is_at(f->locate(c, 32768, 32767), JIRD_DONE, 0, JIRD_AT_B));
        CHECK(f->doubled_area(c).area == 8589672450u && f->soundness(c).sound == 1);
        CHECK(is_refused(f->insert(c, 32768, 32767), JIRD_AT_CORNER, 0, c));
        CHECK(is_refused(f->take_out(c, 32768, 32767), JIRD_NOT_THREE_AROUND, 0, c));
    }
}

/* A side with nobody beyond; a copy and a second one beyond that stay; what is refused. */
static void sides(const Calls *f, jird_chart *c, const uint16_t *uv) {
    static const uint16_t ab[12] = {0, 0, 7, 0, 0, 65535, 7, 0, 65535, 0, 0, 65535};
    static const uint16_t ca[12] = {0, 65535, 0, 7, 65535, 0, 0, 7, 0, 0, 65535, 0};
    static const uint16_t of_four[36] = {65535, 0,     32768, 32767, 0,     0,     0,     0,     65535, 0,     0,     65535,
                                         0,     65535, 32768, 32767, 65535, 65535, 65535, 65535, 0,     65535, 65535, 0,
                                         32768, 32767, 0,     65535, 0,     0,     32768, 32767, 65535, 0,     65535, 65535};
    uint16_t four[24];
    for (int k = 0; k < 4; k++) memcpy(four + 6 * k, k < 2 ? U : V, sizeof U);
    f->load(c, U, 6);
    CHECK(f->insert(c, 7, 0).number == JIRD_DONE && holds(c, ab, 12));
    f->load(c, U, 6);
    CHECK(f->insert(c, 0, 7).number == JIRD_DONE && holds(c, ca, 12));
    f->load(c, four, 24);
    CHECK(is_done(f->insert(c, 32768, 32767), 6, 296) && holds(c, of_four, 36));
    f->load(c, U, 0);
    CHECK(is_refused(f->insert(c, 0, 0), JIRD_NO_HOLDER, 0, c) && holds(c, U, 0));
    f->load(c, V, 6);
    CHECK(is_refused(f->insert(c, 32767, 32767), JIRD_NO_HOLDER, 0, c) && is_refused(f->insert(c, 0, 0), JIRD_NO_HOLDER, 0, c));
    f->load(c, uv, 12);
    CHECK(is_refused(f->insert(c, 0, 0), JIRD_AT_CORNER, 0, c) && is_refused(f->insert(c, 65535, 0), JIRD_AT_CORNER, 0, c));
    CHECK(is_refused(f->insert(c, 0, 65535), JIRD_AT_CORNER, 0, c) && is_refused(f->insert(c, 65535, 65535), JIRD_AT_CORNER, 0, c));
    CHECK(holds(c, uv, 12));
}

/* The lowest numbered triangle that holds the point is taken, though it is at a corner or on a side of this and inside a later one. */
static void lowest(const Calls *f, jird_chart *c) {
    static const uint16_t small_first[12] = {9, 9, 20, 9, 9, 20, 0, 0, 65535, 0, 0, 65535};
    static const uint16_t on_small[18] = {9, 9, 12, 9, 9, 20, 0, 0, 65535, 0, 0, 65535, 12, 9, 20, 9, 9, 20};
    static const uint16_t small_last[12] = {0, 0, 65535, 0, 0, 65535, 9, 9, 20, 9, 9, 20};
    static const uint16_t in_large[24] = {0, 0, 65535, 0, 9, 9, 9, 9, 20, 9, 9, 20, 65535, 0, 0, 65535, 9, 9, 0, 65535, 0, 0, 9, 9};
    f->load(c, small_first, 12);
    CHECK(is_refused(f->insert(c, 9, 9), JIRD_AT_CORNER, 0, c) && holds(c, small_first, 12));
    CHECK(is_done(f->insert(c, 12, 9), 3, 66) && holds(c, on_small, 18) && is_refused(f->insert(c, 9, 9), JIRD_AT_CORNER, 0, c));
    f->load(c, small_last, 12);
    CHECK(is_done(f->insert(c, 9, 9), 4, 146) && holds(c, in_large, 24) && is_at(f->locate(c, 9, 9), JIRD_DONE, 0, JIRD_AT_C));
    CHECK(is_refused(f->take_out(c, 9, 9), JIRD_NOT_THREE_AROUND, 0, c));
}

/* 511 triangles: one more is added where nobody is beyond, and none where two would be. In a full table 7 and 14 come before 10. */
static void full(const Calls *f, jird_chart *c) {
    static const uint16_t tiny[6] = {0, 0, 1, 0, 0, 1}, both[12] = {1000, 1000, 1040, 1000, 1000, 1040, 1040, 1040, 1000, 1040, 1040, 1000};
    static uint16_t numbers[JIRD_TABLE_LENGTH - 6];
    for (size_t k = 0; k < 511; k++) memcpy(numbers + 6 * k, tiny, sizeof tiny);
    memcpy(numbers, both, sizeof both);
    CHECK(is_done(f->load(c, numbers, 6 * 511), 511, 1591) && is_refused(f->insert(c, 1020, 1020), JIRD_TABLE_FULL, 0, c));
    CHECK(is_refused(f->insert(c, 1001, 1001), JIRD_TABLE_FULL, 0, c) && is_done(f->insert(c, 1007, 1000), 512, 1605));
    CHECK(is_refused(f->insert(c, 1003, 1000), JIRD_TABLE_FULL, 0, c) && is_refused(f->insert(c, 1001, 1001), JIRD_TABLE_FULL, 0, c));
    CHECK(is_refused(f->insert(c, 1007, 1000), JIRD_AT_CORNER, 0, c) && is_refused(f->insert(c, 1003, 999), JIRD_NO_HOLDER, 0, c));
}

/* Windows on U and V: their diagonal, their sides and corners, windows of no width or height, 15 either way, 2 before 15. */
static void windows(const Calls *f, jird_chart *c, const uint16_t *uv) {
    f->load(c, U, 0);
    CHECK(lists(f, c, 0, 0, 65535, 65535, 0) && lists(f, c, 9, 9, 9, 9, 0) && shut(f, c, 1, 0, 0, 0, JIRD_EMPTY_WINDOW));
    f->load(c, uv, 12);
    CHECK(lists(f, c, 0, 0, 65535, 65535, 3) && lists(f, c, 32767, 32767, 32768, 32768, 3));
    CHECK(lists(f, c, 32767, 32767, 32767, 32767, 1) && lists(f, c, 32768, 32768, 32768, 32768, 2));
    CHECK(lists(f, c, 32768, 32767, 32768, 32767, 3) && lists(f, c, 0, 0, 32767, 32767, 1) && lists(f, c, 0, 0, 32768, 32767, 3));
    CHECK(lists(f, c, 0, 0, 0, 0, 1) && lists(f, c, 65535, 0, 65535, 0, 3) && lists(f, c, 0, 65535, 0, 65535, 3));
    CHECK(lists(f, c, 65535, 65535, 65535, 65535, 2) && lists(f, c, 65535, 1, 65535, 65535, 2) && lists(f, c, 1, 65535, 65535, 65535, 2));
    CHECK(lists(f, c, 0, 65535, 65535, 65535, 3) && lists(f, c, 0, 0, 0, 65534, 1) && lists(f, c, 0, 0, 65534, 0, 1));
    CHECK(lists(f, c, 32768, 0, 32768, 65535, 3) && lists(f, c, 32768, 0, 32768, 32766, 1) && lists(f, c, 32768, 32768, 32768, 65535, 2));
    CHECK(shut(f, c, 7, 0, 6, 65535, JIRD_EMPTY_WINDOW) && shut(f, c, 0, 7, 65535, 6, JIRD_EMPTY_WINDOW));
    CHECK(shut(f, c, 65535, 65535, 0, 0, JIRD_EMPTY_WINDOW) && shut(f, c, 32768, 0, 32767, 9, JIRD_EMPTY_WINDOW));
    c->entries = 0;
    CHECK(shut(f, c, 0, 0, 65535, 65535, JIRD_BROKEN_CHAIN) && shut(f, c, 7, 0, 6, 0, JIRD_BROKEN_CHAIN));
}

/* A triangle that passes between grid points, and windows in whose corners its bounding box is and it is not. Then all of a full table. */
static void between(const Calls *f, jird_chart *c) {
    static const uint16_t thin[6] = {0, 0, 3, 1, 3, 2};
    uint16_t list[JIRD_WINDOW_LENGTH], numbers[JIRD_TABLE_LENGTH];
    int ascending = 1;
    f->load(c, thin, 6);
    CHECK(lists(f, c, 1, 0, 1, 1, 1) && lists(f, c, 1, 0, 1, 0, 0) && lists(f, c, 1, 1, 1, 1, 0) && lists(f, c, 2, 1, 2, 1, 1));
    CHECK(lists(f, c, 0, 1, 1, 2, 0) && lists(f, c, 1, 0, 3, 0, 0) && lists(f, c, 0, 0, 3, 0, 1) && lists(f, c, 2, 2, 3, 2, 1));
    CHECK(lists(f, c, 0, 1, 1, 65535, 0) && lists(f, c, 4, 0, 65535, 65535, 0) && lists(f, c, 3, 0, 65535, 1, 1));
    for (size_t k = 0; k < JIRD_TABLE_LENGTH; k++) numbers[k] = thin[k % 6];
    f->load(c, numbers, JIRD_TABLE_LENGTH);
    jird_windowed r = f->window(c, 1, 0, 1, 1, list);
    for (size_t k = 0; k < JIRD_WINDOW_LENGTH; k++) ascending &= list[k] == k;
    CHECK(r.number == JIRD_DONE && r.listed == JIRD_WINDOW_LENGTH && ascending && lists(f, c, 1, 1, 1, 1, 0));
}

/* U with entries that are not those of its table: four cells of level 1, of which one lists it. A window counts what is listed in a cell
   whose square it touches, wherever it meets the triangle. */
static void unfiled(const Calls *f, jird_chart *c) {
    for (uint32_t in = 0; in < 4; in++) {
        f->load(c, U, 6);
        for (uint32_t k = 0; k < 4; k++) c->keys[k] = 4 * k * Q, c->levels[k] = 1, c->items[k] = k == in ? 0 : JIRD_EMPTY_CELL;
        c->entries = 4;
        CHECK(lists(f, c, 0, 0, 65535, 65535, 1) && lists(f, c, 32768, 32768, 65535, 65535, 0));
        CHECK(lists(f, c, 32767, 32767, 32767, 32767, in == 0) && lists(f, c, 32768, 5, 32768, 5, in < 2));
        CHECK(lists(f, c, 32769, 5, 40000, 6, in == 1) && lists(f, c, 5, 32768, 5, 32768, in % 2 == 0));
        CHECK(lists(f, c, 5, 32769, 6, 40000, in == 2) && lists(f, c, 30000, 32768, 32768, 40000, 1));
        CHECK(lists(f, c, 30000, 32768, 32767, 40000, in % 2 == 0) && lists(f, c, 65535, 0, 65535, 0, in == 1));
        CHECK(shut(f, c, 1, 0, 0, 0, JIRD_EMPTY_WINDOW));
    }
}

/* A list that is one place short is refused before anything else, and a longer one is written as far as is asked. */
static void lent(jird_chart *c, const uint16_t *uv) {
    static const size_t shorter[2] = {JIRD_WINDOW_LENGTH - 1, 0};
    uint16_t list[JIRD_WINDOW_LENGTH + 8];
    jird_windowed r;
    load(c, uv, 12);
    list[0] = list[JIRD_WINDOW_LENGTH] = 9;
    for (int k = 0; k < 2; k++) {
        r = jird_window(BUFFERS(c), 9, 0, 8, 0, list, shorter[k]);
        CHECK(r.number == JIRD_SHORT_BUFFER && r.listed == 0 && list[0] == 9);
    }
    r = jird_window(BUFFERS(c), 0, 0, 0, 0, list, JIRD_WINDOW_LENGTH + 8);
    CHECK(r.number == JIRD_DONE && r.listed == 1 && list[0] == 0 && list[JIRD_WINDOW_LENGTH - 1] == 0 && list[JIRD_WINDOW_LENGTH] == 9);
    list[0] = 9;
    r = jird_window(c->table, JIRD_TABLE_LENGTH, c->keys, JIRD_ENTRIES_LENGTH, c->levels, JIRD_ENTRIES_LENGTH - 1, c->items,
                    JIRD_ENTRIES_LENGTH, c->triangles, 0, 0, 0, 0, 0, list, JIRD_WINDOW_LENGTH);
    CHECK(r.number == JIRD_SHORT_BUFFER && r.listed == 0 && list[0] == 9);
}

static void loads(const Calls *f, jird_chart *c) {
    static const uint16_t flat[6] = {0, 0, 5, 5, 9, 9};
    uint16_t three[18];
    memcpy(three, U, sizeof U);
    memcpy(three + 6, U, sizeof U);
    memcpy(three + 12, flat, sizeof flat);
    f->load(c, U, 6); /* 10 */
    CHECK(is_refused(f->load(c, flat, 6), JIRD_FAULTY_TRIANGLE, 0, c) && is_refused(f->load(c, three, 18), JIRD_FAULTY_TRIANGLE, 2, c));
    CHECK(is_refused(f->load(c, three, 7), JIRD_BAD_LENGTH, 0, c) && holds(c, U, 6));
    CHECK(f->load(c, three, 12).number == JIRD_DONE && f->soundness(c).number == JIRD_DONE && f->soundness(c).sound == 0);
}

/* Each up to the last has words, and no other has the same; those that are none have the same words. */
static void words(const char *(*words_of)(uint32_t), uint32_t last, uint32_t none) {
    for (uint32_t n = 0; n <= last; n++) {
        CHECK(strlen(words_of(n)) > 5 && (strcmp(words_of(n), words_of(last + 1)) == 0) == (n == none));
        for (uint32_t m = 0; m < n; m++) CHECK(strcmp(words_of(n), words_of(m)) != 0);
    }
}

int main(void) {
    const Calls *both[2] = {&prototypes, &inlines};
    uint16_t uv[12];
    memcpy(uv, U, sizeof U);
    memcpy(uv + 6, V, sizeof V);
    for (int k = 0; k < 2; k++) {
        jird_chart *c = new_chart(), *d = new_chart();
        entries(both[k], c, uv);
        places(both[k], c, uv);
        overlays(both[k], c, d, uv);
        edits(both[k], c, uv);
        on_both(both[k], c, uv);
        sides(both[k], c, uv);
        lowest(both[k], c);
        full(both[k], c);
        windows(both[k], c, uv);
        between(both[k], c);
        unfiled(both[k], c);
        lent(c, uv);
        loads(both[k], c);
        free(c);
        free(d);
    }
    words(jird_words, JIRD_EMPTY_WINDOW, 13);
    words(jird_position_words, JIRD_OUTSIDE, JIRD_OUTSIDE + 1);
    printf("%d checks, %d failed\n", checks, failures);
    return failures == 0 ? 0 : 1;
}
