/* jirdtungsten.h: locate, window and overlay of the proved chart-overlay engine, for C11 and C++17.
 *
 * A chart is a table of triangles and its entries, in buffers that the caller owns:
 *   table                 six numbers for each triangle, ax ay bx by cx cy    at least JIRD_TABLE_LENGTH places
 *   keys, levels, items   one place of each for each entry                    at least JIRD_ENTRIES_LENGTH places
 *   triangles, entries    how many of each are in use                         as the call before returned them
 * Lengths count places, not bytes. A buffer may be longer: what is beyond these lengths stays as it is.
 * jirdtungsten_charts.h has the calls that fill a chart, and a type that holds one.
 *
 * Duties of the caller, for every pointer and the length that follows it; nothing else is asked:
 *   - the pointer is valid and aligned for that many places, and not null, even if the length is 0;
 *   - the length is true: that many places are the caller's to lend;
 *   - a buffer that a call may write (a pointer without const) overlaps no other buffer of the same call;
 *     buffers with const may overlap each other, so a chart can be laid over itself;
 *   - nobody else writes a buffer of the call while it runs, nor reads one that it may write;
 *   - the thread has the stack left that stands above the prototype: the toolchain proves no bound on it, these are measured.
 * Every other fault, whatever the buffers hold and whatever the counts are, is answered by a number, and is no harm.
 *
 * No call keeps anything from one call to the next, takes memory from the heap, reads or writes a file, or prints.
 * Threads may call at the same time, as long as the duties hold: charts that are only read may be shared. */
#ifndef JIRDTUNGSTEN_H
#define JIRDTUNGSTEN_H
#include <stddef.h>
#include <stdint.h>
#ifdef __cplusplus
extern "C" {
#endif

#define JIRD_VERSION "1.5.0" /* base.request.fix: 1.5.0 has requests 1 to 5 */
#define JIRD_ABI 5           /* rises with every change of a type, a prototype or a constant but the stack */

enum {
    JIRD_TABLE_LENGTH = 3072,
    JIRD_ENTRIES_LENGTH = 16384,
    JIRD_PAIRS_LENGTH = 8192,
    JIRD_WINDOW_LENGTH = 512,
    JIRD_MOST_TRIANGLES = 512,
    JIRD_MOST_PAIRS = 4096,
    JIRD_EMPTY_CELL = 65535, /* the item of a cell that no triangle meets */
    JIRD_NOWHERE = 65535,    /* the triangle of a locate that found none */
    JIRD_MOST_STACK = 262144 /* bytes: the most that stands above a prototype */
};

/* The numbers that a call can give: document 01, "Numbers a call can give", and 14 and 15 of document 02. They are checked in rising
 * order, but 14 after 7, before 10 and 11. At a refusal (any number but 0) the buffers keep what they held, but for the pairs at
 * JIRD_TOO_MANY_PAIRS, and the other fields of the answer are 0 unless the type says otherwise.
 * numbers: written by tests/headers.py --write */
typedef enum {
    JIRD_DONE = 0,              /* accepted */
    JIRD_SHORT_BUFFER = 1,      /* a lent buffer is too short (table 3,072, lists 16,384, pairs 8,192, window's list 512) */
    JIRD_BROKEN_CHAIN = 2,      /* counts, table or entries break the chain rule */
    JIRD_STALE_ENTRIES = 3,     /* the entries are not those of the table */
    JIRD_BAD_LENGTH = 4,        /* the length to be loaded is no multiple of 6, or above 3,072 */
    JIRD_FAULTY_TRIANGLE = 5,   /* a triangle to be loaded has D <= 0 */
    JIRD_NO_SUCH_TRIANGLE = 6,  /* no triangle has that number */
    JIRD_NO_HOLDER = 7,         /* no triangle holds the point */
    JIRD_NOT_THREE_AROUND = 8,  /* not exactly three triangles around the point, one after the other */
    JIRD_NO_FLIP = 9,           /* no side that the two share in opposite directions, or a new triangle with D <= 0 */
    JIRD_TABLE_FULL = 10,       /* the table would have over 512 triangles */
    JIRD_TOO_MANY_ENTRIES = 11, /* the new chart would have over 16,384 entries */
    JIRD_TOO_MANY_PAIRS = 12,   /* over 4,096 pairs share ground */
    JIRD_AT_CORNER = 14,        /* the point is a corner already, of the lowest numbered triangle that holds it */
    JIRD_EMPTY_WINDOW = 15      /* the window's right is less than its left, or its bottom less than its top */
} jird_number;
/* numbers: end */

/* Where a point is by a triangle with the corners a, b, c: document 02, "inside, on side 0, 1 or 2 (ab, bc, ca), at corner 0, 1 or 2,
 * or outside, by the signs and zeros of the three D values". At an end of a side it is at a corner.
 * positions: written by tests/headers.py --write */
typedef enum {
    JIRD_INSIDE = 0, /* inside */
    JIRD_ON_AB = 1,  /* on side ab */
    JIRD_ON_BC = 2,  /* on side bc */
    JIRD_ON_CA = 3,  /* on side ca */
    JIRD_AT_A = 4,   /* at corner a */
    JIRD_AT_B = 5,   /* at corner b */
    JIRD_AT_C = 6,   /* at corner c */
    JIRD_OUTSIDE = 7 /* outside */
} jird_position;
/* positions: end */

/* What a locate answers. */
typedef struct {
    uint32_t number;
    uint32_t triangle; /* JIRD_NOWHERE if none, and at a refusal */
    uint32_t position; /* of the point by that triangle, a jird_position; JIRD_OUTSIDE if none, and at a refusal */
} jird_located;

/* What a window answers. */
typedef struct {
    uint32_t number;
    size_t listed; /* how many triangles are in the list */
} jird_windowed;

/* What an overlay answers. */
typedef struct {
    uint32_t number;
    size_t pairs;    /* how many pairs share ground */
    size_t meetings; /* how many pairs of cells, one of each chart, have a key in common */
} jird_overlaid;

/* The lowest numbered triangle, among those listed in the cell of the point (x, y), that holds it, and where in it the point is.
 * Gives 0, 1 or 2. Writes nothing. Stack: at most 4 KB. */
jird_located jird_locate(
    const uint16_t *table, size_t table_length, const uint32_t *keys, size_t keys_length,
    const uint8_t *levels, size_t levels_length, const uint16_t *items, size_t items_length,
    size_t triangles, size_t entries, uint16_t x, uint16_t y);

/* Every triangle that has a point in common with the window, the rectangle from (left, top) to (right, bottom) with its border: ascending,
 * none twice, in `list`, which has at least JIRD_WINDOW_LENGTH places, and zeros after them up to there. One common point is enough, and it
 * may lie between grid points; a window of no width or no height is allowed. In a chart whose entries are not those of its table, only
 * triangles count that are listed in a cell whose square, with its border, has a point in common with the window.
 * Gives 0, 1, 2 or 15; 1 is for the list too. Writes at 0 the first JIRD_WINDOW_LENGTH places of `list`, and at a refusal nothing.
 * Stack: at most 8 KB. */
jird_windowed jird_window(
    const uint16_t *table, size_t table_length, const uint32_t *keys, size_t keys_length,
    const uint8_t *levels, size_t levels_length, const uint16_t *items, size_t items_length,
    size_t triangles, size_t entries, uint16_t left, uint16_t top, uint16_t right, uint16_t bottom,
    uint16_t *list, size_t list_length);

/* Every pair (i, j), i of the first chart and j of the second, that shares ground: ascending by i, then j, none twice, as i j i j ..
 * in `pairs`, which has at least JIRD_PAIRS_LENGTH places, and zeros after them up to there.
 * Gives 0, 1, 2 or 12. Writes the first JIRD_PAIRS_LENGTH places of `pairs`: at 0 pairs and zeros, at 12 all zeros, at 1 and 2
 * nothing. Stack: at most 64 KB. */
jird_overlaid jird_overlay(
    const uint16_t *table0, size_t table0_length, const uint32_t *keys0, size_t keys0_length,
    const uint8_t *levels0, size_t levels0_length, const uint16_t *items0, size_t items0_length,
    size_t triangles0, size_t entries0,
    const uint16_t *table1, size_t table1_length, const uint32_t *keys1, size_t keys1_length,
    const uint8_t *levels1, size_t levels1_length, const uint16_t *items1, size_t items1_length,
    size_t triangles1, size_t entries1,
    uint16_t *pairs, size_t pairs_length);

#ifdef __cplusplus
}
#endif
#endif
