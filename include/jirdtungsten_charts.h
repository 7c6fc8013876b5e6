/* jirdtungsten_charts.h: load, edits, soundness, doubled area and cell listing of the proved chart-overlay engine, for C11 and
 * C++17, and a chart type with its buffers inside. The duties of the caller stand in jirdtungsten.h. */
#ifndef JIRDTUNGSTEN_CHARTS_H
#define JIRDTUNGSTEN_CHARTS_H
#include "jirdtungsten.h"
#ifdef __cplusplus
extern "C" {
#endif

/* What a load or an edit answers. The counts are those of the chart as it is now: at a refusal the ones that were passed. */
typedef struct {
    uint32_t number;
    size_t value; /* at JIRD_FAULTY_TRIANGLE the lowest such triangle, else 0 */
    size_t triangles;
    size_t entries;
} jird_changed;

/* What a soundness check answers. */
typedef struct {
    uint32_t number;
    uint32_t sound; /* 1 if no point is strictly inside two triangles, else 0; 0 at a refusal */
} jird_sounded;

/* What a doubled area answers. */
typedef struct {
    uint32_t number;
    uint64_t area; /* 0 at a refusal */
} jird_measured;

/* A part of the items: `length` numbers from items[start] on. Where the part is empty both are 0. */
typedef struct {
    size_t start;
    size_t length;
} jird_part;

/* The triangles in `numbers` (six for each) become the chart; `numbers` is none of the chart's buffers, and may have any length.
 * What the chart held before does not matter, nor do its counts: new buffers may hold anything.
 * Gives 0, 1, 4, 5 or 11. Writes at 0 table, keys, levels and items up to their lengths above, with zeros after what is used, and at
 * a refusal nothing. Stack: at most 256 KB. */
jird_changed jird_load(
    const uint16_t *numbers, size_t numbers_length,
    uint16_t *table, size_t table_length, uint32_t *keys, size_t keys_length,
    uint8_t *levels, size_t levels_length, uint16_t *items, size_t items_length,
    size_t triangles, size_t entries);

/* The point p = (x, y) is added: the lowest numbered triangle that holds it is taken. If p is strictly inside it, (a, b, c): (a, b, p)
 * takes its place, (b, c, p) and (c, a, p) come last. If p is on a side of it and not at an end, rotated to (a, b, c) with p on ab:
 * (a, p, c) takes its place and (p, b, c) comes last; if other triangles rotate to (b, a, d), the lowest numbered becomes (b, p, d),
 * and (p, a, d) comes after that.
 * Gives 0, 1, 2, 3, 7, 14, 10 or 11; checked in this order. 10 is over 512 with what is really added, one triangle or two.
 * Writes as jird_load. Stack: at most 256 KB. */
jird_changed jird_insert(
    uint16_t *table, size_t table_length, uint32_t *keys, size_t keys_length,
    uint8_t *levels, size_t levels_length, uint16_t *items, size_t items_length,
    size_t triangles, size_t entries, uint16_t x, uint16_t y);

/* The point p = (x, y) is taken out: of exactly three triangles around it, (a, b, p), (b, c, p) and (c, a, p), the lowest numbered
 * becomes (a, b, c), the other two go, and later ones move down.
 * Gives 0, 1, 2, 3, 8 or 11; a take-out adds no side, so that 11 is not to be expected. Writes as jird_load. Stack: at most 256 KB. */
jird_changed jird_take_out(
    uint16_t *table, size_t table_length, uint32_t *keys, size_t keys_length,
    uint8_t *levels, size_t levels_length, uint16_t *items, size_t items_length,
    size_t triangles, size_t entries, uint16_t x, uint16_t y);

/* The side that triangles i, (a, b, c), and j, (b, a, d), share is turned: i becomes (a, d, c) and j (d, b, c).
 * Gives 0, 1, 2, 3, 6, 9 or 11. Writes as jird_load. Stack: at most 256 KB. */
jird_changed jird_flip(
    uint16_t *table, size_t table_length, uint32_t *keys, size_t keys_length,
    uint8_t *levels, size_t levels_length, uint16_t *items, size_t items_length,
    size_t triangles, size_t entries, size_t i, size_t j);

/* Whether no two triangles of different number have a point strictly inside both.
 * Gives 0, 1 or 2. Writes nothing. Stack: at most 16 KB. */
jird_sounded jird_soundness(
    const uint16_t *table, size_t table_length, const uint32_t *keys, size_t keys_length,
    const uint8_t *levels, size_t levels_length, const uint16_t *items, size_t items_length,
    size_t triangles, size_t entries);

/* The sum of the doubled areas of the triangles.
 * Gives 0, 1 or 2. Writes nothing. Stack: at most 4 KB. */
jird_measured jird_doubled_area(
    const uint16_t *table, size_t table_length, const uint32_t *keys, size_t keys_length,
    const uint8_t *levels, size_t levels_length, const uint16_t *items, size_t items_length,
    size_t triangles, size_t entries);

/* The triangles listed in the cell of the point (x, y), ascending, as a part of `items`; empty where no triangle meets the cell, and
 * where another call would give 1 or 2.
 * Gives no number. Writes nothing. Stack: at most 4 KB. */
jird_part jird_cell(
    const uint16_t *table, size_t table_length, const uint32_t *keys, size_t keys_length,
    const uint8_t *levels, size_t levels_length, const uint16_t *items, size_t items_length,
    size_t triangles, size_t entries, uint16_t x, uint16_t y);

#ifdef __cplusplus
}
#endif

/* A chart with its buffers inside, some 118 KB: better static or on the heap than on the stack. Any bytes will do before the first
 * load; all zeros is no chart yet, and every call but load refuses it with JIRD_BROKEN_CHAIN. A chart without triangles is a load of
 * length 0. */
typedef struct {
    uint16_t table[JIRD_TABLE_LENGTH];
    uint32_t keys[JIRD_ENTRIES_LENGTH];
    uint8_t levels[JIRD_ENTRIES_LENGTH];
    uint16_t items[JIRD_ENTRIES_LENGTH];
    size_t triangles, entries;
} jird_chart;

/* The calls on such charts: JIRD_SHORT_BUFFER cannot come, and those that change a chart keep its counts. A chart pointer is valid
 * and not null; `numbers` is no part of the chart, and not null even if the length is 0. */

static inline jird_changed jird_chart_load(jird_chart *c, const uint16_t *numbers, size_t length) {
    jird_changed r = jird_load(
        numbers, length, c->table, JIRD_TABLE_LENGTH, c->keys, JIRD_ENTRIES_LENGTH,
        c->levels, JIRD_ENTRIES_LENGTH, c->items, JIRD_ENTRIES_LENGTH, c->triangles, c->entries);
    c->triangles = r.triangles;
    c->entries = r.entries;
    return r;
}

static inline jird_changed jird_chart_insert(jird_chart *c, uint16_t x, uint16_t y) {
    jird_changed r = jird_insert(
        c->table, JIRD_TABLE_LENGTH, c->keys, JIRD_ENTRIES_LENGTH,
        c->levels, JIRD_ENTRIES_LENGTH, c->items, JIRD_ENTRIES_LENGTH, c->triangles, c->entries, x, y);
    c->triangles = r.triangles;
    c->entries = r.entries;
    return r;
}

static inline jird_changed jird_chart_take_out(jird_chart *c, uint16_t x, uint16_t y) {
    jird_changed r = jird_take_out(
        c->table, JIRD_TABLE_LENGTH, c->keys, JIRD_ENTRIES_LENGTH,
        c->levels, JIRD_ENTRIES_LENGTH, c->items, JIRD_ENTRIES_LENGTH, c->triangles, c->entries, x, y);
    c->triangles = r.triangles;
    c->entries = r.entries;
    return r;
}

static inline jird_changed jird_chart_flip(jird_chart *c, size_t i, size_t j) {
    jird_changed r = jird_flip(
        c->table, JIRD_TABLE_LENGTH, c->keys, JIRD_ENTRIES_LENGTH,
        c->levels, JIRD_ENTRIES_LENGTH, c->items, JIRD_ENTRIES_LENGTH, c->triangles, c->entries, i, j);
    c->triangles = r.triangles;
    c->entries = r.entries;
    return r;
}

static inline jird_located jird_chart_locate(const jird_chart *c, uint16_t x, uint16_t y) {
    return jird_locate(
        c->table, JIRD_TABLE_LENGTH, c->keys, JIRD_ENTRIES_LENGTH,
        c->levels, JIRD_ENTRIES_LENGTH, c->items, JIRD_ENTRIES_LENGTH, c->triangles, c->entries, x, y);
}

static inline jird_sounded jird_chart_soundness(const jird_chart *c) {
    return jird_soundness(
        c->table, JIRD_TABLE_LENGTH, c->keys, JIRD_ENTRIES_LENGTH,
        c->levels, JIRD_ENTRIES_LENGTH, c->items, JIRD_ENTRIES_LENGTH, c->triangles, c->entries);
}

static inline jird_measured jird_chart_doubled_area(const jird_chart *c) {
    return jird_doubled_area(
        c->table, JIRD_TABLE_LENGTH, c->keys, JIRD_ENTRIES_LENGTH,
        c->levels, JIRD_ENTRIES_LENGTH, c->items, JIRD_ENTRIES_LENGTH, c->triangles, c->entries);
}

static inline jird_part jird_chart_cell(const jird_chart *c, uint16_t x, uint16_t y) {
    return jird_cell(
        c->table, JIRD_TABLE_LENGTH, c->keys, JIRD_ENTRIES_LENGTH,
        c->levels, JIRD_ENTRIES_LENGTH, c->items, JIRD_ENTRIES_LENGTH, c->triangles, c->entries, x, y);
}

/* `list` has JIRD_WINDOW_LENGTH places. */
static inline jird_windowed jird_chart_window(
    const jird_chart *c, uint16_t left, uint16_t top, uint16_t right, uint16_t bottom, uint16_t *list) {
    return jird_window(
        c->table, JIRD_TABLE_LENGTH, c->keys, JIRD_ENTRIES_LENGTH,
        c->levels, JIRD_ENTRIES_LENGTH, c->items, JIRD_ENTRIES_LENGTH, c->triangles, c->entries,
        left, top, right, bottom, list, JIRD_WINDOW_LENGTH);
}

/* `pairs` has JIRD_PAIRS_LENGTH places; bed and design may be the same chart. */
static inline jird_overlaid jird_chart_overlay(const jird_chart *bed, const jird_chart *design, uint16_t *pairs) {
    return jird_overlay(
        bed->table, JIRD_TABLE_LENGTH, bed->keys, JIRD_ENTRIES_LENGTH,
        bed->levels, JIRD_ENTRIES_LENGTH, bed->items, JIRD_ENTRIES_LENGTH, bed->triangles, bed->entries,
        design->table, JIRD_TABLE_LENGTH, design->keys, JIRD_ENTRIES_LENGTH,
        design->levels, JIRD_ENTRIES_LENGTH, design->items, JIRD_ENTRIES_LENGTH, design->triangles, design->entries,
        pairs, JIRD_PAIRS_LENGTH);
}

/* A number in words: a string in ASCII that lasts as long as the program. `chartkey numbers` says what to do about each.
 * words: written by tests/headers.py --write */
static inline const char *jird_words(uint32_t number) {
    switch (number) {
    case JIRD_DONE:
        return "accepted";
    case JIRD_SHORT_BUFFER:
        return "a lent buffer is too short (table 3,072, lists 16,384, pairs 8,192, window's list 512)";
    case JIRD_BROKEN_CHAIN:
        return "counts, table or entries break the chain rule";
    case JIRD_STALE_ENTRIES:
        return "the entries are not those of the table";
    case JIRD_BAD_LENGTH:
        return "the length to be loaded is no multiple of 6, or above 3,072";
    case JIRD_FAULTY_TRIANGLE:
        return "a triangle to be loaded has D <= 0";
    case JIRD_NO_SUCH_TRIANGLE:
        return "no triangle has that number";
    case JIRD_NO_HOLDER:
        return "no triangle holds the point";
    case JIRD_NOT_THREE_AROUND:
        return "not exactly three triangles around the point, one after the other";
    case JIRD_NO_FLIP:
        return "no side that the two share in opposite directions, or a new triangle with D <= 0";
    case JIRD_TABLE_FULL:
        return "the table would have over 512 triangles";
    case JIRD_TOO_MANY_ENTRIES:
        return "the new chart would have over 16,384 entries";
    case JIRD_TOO_MANY_PAIRS:
        return "over 4,096 pairs share ground";
    case JIRD_AT_CORNER:
        return "the point is a corner already, of the lowest numbered triangle that holds it";
    case JIRD_EMPTY_WINDOW:
        return "the window's right is less than its left, or its bottom less than its top";
    default:
        return "no number that a call gives";
    }
}
/* words: end */

/* A position in words, as jird_words has a number.
 * words of positions: written by tests/headers.py --write */
static inline const char *jird_position_words(uint32_t position) {
    switch (position) {
    case JIRD_INSIDE:
        return "inside";
    case JIRD_ON_AB:
        return "on side ab";
    case JIRD_ON_BC:
        return "on side bc";
    case JIRD_ON_CA:
        return "on side ca";
    case JIRD_AT_A:
        return "at corner a";
    case JIRD_AT_B:
        return "at corner b";
    case JIRD_AT_C:
        return "at corner c";
    case JIRD_OUTSIDE:
        return "outside";
    default:
        return "no position that a call gives";
    }
}
/* words of positions: end */
#endif
