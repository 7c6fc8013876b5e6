/* Hand-written engines, to measure the proved one against. They give the same answers and leave the same buffers.

   plain_load      straightforward: a square looks at the triangles that met its parent, and each test is made as document 01 words
                   it, at the four corners of the square
   culled_load     works as the proved engine does: what depends on a triangle alone is prepared once, one corner decides for each
                   side, and the stopping test is one pass
   plain_insert    checks the chain rule, builds the entries of the table as plain_load does and compares them, tries the triangles one
                   after the other for the first that holds the point, makes the new table in scratch, builds its entries and stores both
   culled_insert   the same, building as culled_load does
   plain_locate    checks the chain rule as document 01 words it, finds the cell by halving, and tries its triangles: the three D
                   values tell whether one holds the point, and their zeros where
   plain_window    checks the chart as plain_locate does, goes over the entries between the keys of the window's corners and marks the
                   triangles of those cells whose squares the window touches, then tries each marked one once: bounding box, then for
                   each side the corner of the window that is farthest in
   plain_soundness checks the chart and tries every two triangles: bounding boxes, worked out once, then the six sides
   plain_overlay   checks both charts, walks both lists of cells side by side and marks the pairs that are listed together, then tries
                   each marked pair once: bounding boxes, then the six sides */
#include "engine.h"
#include <string.h>

enum { TRIANGLES = JIRD_MOST_TRIANGLES, ENTRIES = JIRD_ENTRIES_LENGTH, LEVELS = 16, MARK = JIRD_EMPTY_CELL };

typedef struct { int32_t x, y; } Point;
typedef struct { int32_t left, top, right, bottom; } Box;
typedef struct { uint32_t x, y, level; } Square;

static int64_t orient(Point p, Point q, Point r) {
    return (int64_t)(q.x - p.x) * (r.y - p.y) - (int64_t)(q.y - p.y) * (r.x - p.x);
}

static int32_t least(int32_t a, int32_t b) { return a < b ? a : b; }
static int32_t most(int32_t a, int32_t b) { return a < b ? b : a; }

static Point corner(const uint16_t *table, size_t i, size_t k) {
    Point p = {table[6 * i + 2 * k], table[6 * i + 2 * k + 1]};
    return p;
}

static Box box_of(Square s) {
    int32_t x = (int32_t)s.x, y = (int32_t)s.y, side = 65536 >> s.level;
    Box b = {x, y, x + side, y + side};
    return b;
}

static int apart(Box a, Box b) {
    return a.right < b.left || b.right < a.left || a.bottom < b.top || b.bottom < a.top;
}

static int is_proper(const uint16_t *table, size_t i) {
    return orient(corner(table, i, 0), corner(table, i, 1), corner(table, i, 2)) > 0;
}

static Box box_around(const uint16_t *table, size_t i) {
    Point a = corner(table, i, 0), b = corner(table, i, 1), c = corner(table, i, 2);
    Box t = {least(a.x, least(b.x, c.x)), least(a.y, least(b.y, c.y)), most(a.x, most(b.x, c.x)), most(a.y, most(b.y, c.y))};
    return t;
}

/* ---- load */

/* Entries in scratch until the table is known to fit: a refusal leaves the caller's lists alone. */
static struct {
    uint32_t keys[ENTRIES];
    uint16_t items[ENTRIES];
    uint8_t levels[ENTRIES];
    size_t count;
} found;

static int put_cell(uint32_t key, uint32_t level, const uint16_t *list, size_t n) {
    size_t m = n ? n : 1;
    if (found.count + m > ENTRIES) return 0;
    for (size_t k = 0; k < m; k++) {
        found.keys[found.count + k] = key;
        found.levels[found.count + k] = (uint8_t)level;
        found.items[found.count + k] = n ? list[k] : MARK;
    }
    found.count += m;
    return 1;
}

/* The table and its entries become the chart, with zeros after them. */
static void give(jird_chart *c, const uint16_t *numbers, size_t length) {
    size_t m = found.count, rest = ENTRIES - m;
    memcpy(c->table, numbers, length * sizeof *numbers);
    memset(c->table + length, 0, (JIRD_TABLE_LENGTH - length) * sizeof *c->table);
    memcpy(c->keys, found.keys, m * sizeof *c->keys);
    memcpy(c->levels, found.levels, m * sizeof *c->levels);
    memcpy(c->items, found.items, m * sizeof *c->items);
    memset(c->keys + m, 0, rest * sizeof *c->keys);
    memset(c->levels + m, 0, rest * sizeof *c->levels);
    memset(c->items + m, 0, rest * sizeof *c->items);
    c->triangles = length / 6;
    c->entries = m;
}

static Square quarter(Square s, uint32_t k) {
    uint32_t half = 32768u >> s.level;
    Square q = {s.x + (k & 1 ? half : 0), s.y + (k & 2 ? half : 0), s.level + 1};
    return q;
}

/* What is known of the ends of the sides that meet a square: those of the first, and which of them is an end of every one. */
typedef struct { Point p, q; int some, first, second; } Ends;

static int same(Point a, Point b) { return a.x == b.x && a.y == b.y; }

static int add_side(Ends *e, Point p, Point q) {
    if (!e->some) {
        e->p = p, e->q = q, e->some = 1, e->first = 1, e->second = 1;
        return 1;
    }
    e->first = e->first && (same(e->p, p) || same(e->p, q));
    e->second = e->second && (same(e->q, p) || same(e->q, q));
    return e->first || e->second;
}

/* ---- straightforward */

static const uint16_t *given;

static int outside(Point p, Point q, Box b, int sign) {
    Point c[4] = { { b.left, b.top }, { b.right, b.top }, { b.left, b.bottom }, { b.right, b.bottom } };
    for (int k = 0; k < 4; k++)
        if (sign * orient(p, q, c[k]) >= 0) return 0;
    return 1;
}

static int side_meets(Point p, Point q, Box b) {
    Box s = { least(p.x, q.x), least(p.y, q.y), most(p.x, q.x), most(p.y, q.y) };
    return !apart(s, b) && !outside(p, q, b, 1) && !outside(p, q, b, -1);
}

static int triangle_meets(size_t i, Box b) {
    Point c[3] = {corner(given, i, 0), corner(given, i, 1), corner(given, i, 2)};
    if (apart(box_around(given, i), b)) return 0;
    for (int k = 0; k < 3; k++)
        if (outside(c[k], c[(k + 1) % 3], b, 1)) return 0;
    return 1;
}

static int plain_stopped(const uint16_t *list, size_t n, Square s, Box b) {
    Ends e = { .some = 0 };
    if (s.level == LEVELS) return 1;
    for (size_t k = 0; k < n; k++)
        for (size_t j = 0; j < 3; j++) {
            Point p = corner(given, list[k], j), q = corner(given, list[k], (j + 1) % 3);
            if (side_meets(p, q, b) && !add_side(&e, p, q)) return 0;
        }
    return 1;
}

static int plain_square(const uint16_t *above, size_t n, uint16_t *list, Square s, uint32_t key) {
    Box b = box_of(s);
    size_t m = 0;
    for (size_t k = 0; k < n; k++)
        if (triangle_meets(above[k], b)) list[m++] = above[k];
    if (plain_stopped(list, m, s, b)) return put_cell(key, s.level, list, m);
    uint32_t step = (32768u >> s.level) * (32768u >> s.level);
    for (uint32_t k = 0; k < 4; k++)
        if (!plain_square(list, m, list + m, quarter(s, k), key + k * step)) return 0;
    return 1;
}

/* ---- as the proved engine works */

typedef struct { int64_t a, b, c; Point p, q; Box box; int x_most, y_most; } Line; /* D(p, q, r) = a r.x + b r.y + c */
typedef struct { Line side[3]; Box box; } Shape;

static Shape shapes[TRIANGLES];

static void prepare(const uint16_t *table, size_t n) {
    for (size_t i = 0; i < n; i++) {
        Shape *t = &shapes[i];
        for (size_t k = 0; k < 3; k++) {
            Line *l = &t->side[k];
            Point p = corner(table, i, k), q = corner(table, i, (k + 1) % 3);
            l->p = p, l->q = q;
            l->a = p.y - q.y, l->b = q.x - p.x;
            l->c = -(l->a * p.x + l->b * p.y);
            l->x_most = l->a > 0, l->y_most = l->b > 0;
            l->box = (Box){ least(p.x, q.x), least(p.y, q.y), most(p.x, q.x), most(p.y, q.y) };
        }
        Box u = t->side[0].box, v = t->side[1].box;
        t->box = (Box){ least(u.left, v.left), least(u.top, v.top), most(u.right, v.right), most(u.bottom, v.bottom) };
    }
}

static int64_t highest(const Line *l, Box b) {
    return l->a * (l->x_most ? b.right : b.left) + l->b * (l->y_most ? b.bottom : b.top) + l->c;
}

static int64_t lowest(const Line *l, Box b) {
    return l->a * (l->x_most ? b.left : b.right) + l->b * (l->y_most ? b.top : b.bottom) + l->c;
}

static int shape_meets(const Shape *t, Box b) {
    return !apart(t->box, b) && highest(&t->side[0], b) >= 0 && highest(&t->side[1], b) >= 0 && highest(&t->side[2], b) >= 0;
}

static int culled_stopped(const uint16_t *list, size_t n, Square s, Box b) {
    Ends e = { .some = 0 };
    if (s.level == LEVELS) return 1;
    for (size_t k = 0; k < n; k++)
        for (int j = 0; j < 3; j++) {
            const Line *l = &shapes[list[k]].side[j];
            if (!apart(l->box, b) && highest(l, b) >= 0 && lowest(l, b) <= 0 && !add_side(&e, l->p, l->q)) return 0;
        }
    return 1;
}

static int culled_square(const uint16_t *above, size_t n, uint16_t *list, Square s, uint32_t key) {
    Box b = box_of(s);
    size_t m = 0;
    for (size_t k = 0; k < n; k++)
        if (shape_meets(&shapes[above[k]], b)) list[m++] = above[k];
    if (culled_stopped(list, m, s, b)) return put_cell(key, s.level, list, m);
    uint32_t step = (32768u >> s.level) * (32768u >> s.level);
    for (uint32_t k = 0; k < 4; k++)
        if (!culled_square(list, m, list + m, quarter(s, k), key + k * step)) return 0;
    return 1;
}

/* ---- both */

static uint16_t stack[(LEVELS + 2) * TRIANGLES];

/* Whether the numbers are a table; else the refusal. */
static jird_changed judged(const jird_chart *c, const uint16_t *numbers, size_t length) {
    jird_changed r = {JIRD_DONE, 0, c->triangles, c->entries};
    if (length % 6 != 0 || length > JIRD_TABLE_LENGTH) r.number = JIRD_BAD_LENGTH;
    for (size_t i = 0; r.number == JIRD_DONE && i < length / 6; i++)
        if (!is_proper(numbers, i)) r.number = JIRD_FAULTY_TRIANGLE, r.value = i;
    return r;
}

/* Squares from the whole one on: the entries of n triangles are found, unless they are too many. */
static int build_by(int (*square)(const uint16_t *, size_t, uint16_t *, Square, uint32_t), size_t n) {
    Square whole = {0, 0, 0};
    for (size_t i = 0; i < n; i++) stack[i] = (uint16_t)i;
    found.count = 0;
    return square(stack, n, stack + n, whole, 0);
}

typedef int (*Build)(const uint16_t *table, size_t n);

static int plain_build(const uint16_t *table, size_t n) {
    given = table;
    return build_by(plain_square, n);
}

static int culled_build(const uint16_t *table, size_t n) {
    prepare(table, n);
    return build_by(culled_square, n);
}

static jird_changed refused(const jird_chart *c, uint32_t number) { return (jird_changed){number, 0, c->triangles, c->entries}; }

/* The table and its entries become the chart; else the refusal. */
static jird_changed stored(Build build, jird_chart *c, const uint16_t *table, size_t length) {
    if (!build(table, length / 6)) return refused(c, JIRD_TOO_MANY_ENTRIES);
    give(c, table, length);
    return (jird_changed){JIRD_DONE, 0, c->triangles, c->entries};
}

static jird_changed load_by(Build build, jird_chart *c, const uint16_t *numbers, size_t length) {
    jird_changed r = judged(c, numbers, length);
    return r.number == JIRD_DONE ? stored(build, c, numbers, length) : r;
}

jird_changed plain_load(jird_chart *c, const uint16_t *numbers, size_t length) { return load_by(plain_build, c, numbers, length); }
jird_changed culled_load(jird_chart *c, const uint16_t *numbers, size_t length) { return load_by(culled_build, c, numbers, length); }

/* ---- the chain rule */

static uint64_t keys_of(uint32_t level) { return (uint64_t)1 << 2 * (LEVELS - level); }

/* Entry k against the one before it; `next` is the key at which its cell must start, and then that after it. */
static int follows(const jird_chart *c, size_t k, uint64_t *next) {
    uint32_t key = c->keys[k], level = c->levels[k], item = c->items[k];
    if (level > LEVELS || key % keys_of(level) != 0 || (item >= c->triangles && item != MARK)) return 0;
    if (k > 0 && key == c->keys[k - 1] && level == c->levels[k - 1]) return item != MARK && c->items[k - 1] < item;
    if (key != *next) return 0;
    *next = key + keys_of(level);
    return 1;
}

static int chained(const jird_chart *c) {
    uint64_t next = 0;
    if (c->triangles > TRIANGLES || c->entries < 1 || c->entries > ENTRIES) return 0;
    for (size_t i = 0; i < c->triangles; i++)
        if (!is_proper(c->table, i)) return 0;
    for (size_t k = 0; k < c->entries; k++)
        if (!follows(c, k, &next)) return 0;
    return next == (uint64_t)1 << 32;
}

/* ---- locate */

static uint32_t spread(uint32_t n) {
    n = (n | n << 8) & 0x00ff00ff;
    n = (n | n << 4) & 0x0f0f0f0f;
    n = (n | n << 2) & 0x33333333;
    return (n | n << 1) & 0x55555555;
}

/* Where a point is that a triangle holds, by which of the D values for ab, bc and ca are 0: bits 0, 1 and 2. */
static const uint8_t by_zeros[8] = {JIRD_INSIDE, JIRD_ON_AB, JIRD_ON_BC, JIRD_AT_B, JIRD_ON_CA, JIRD_AT_A, JIRD_AT_C, JIRD_AT_A};

static uint32_t position(const uint16_t *table, size_t i, Point p) {
    Point a = corner(table, i, 0), b = corner(table, i, 1), c = corner(table, i, 2);
    int64_t ab = orient(a, b, p), bc = orient(b, c, p), ca = orient(c, a, p);
    if (ab < 0 || bc < 0 || ca < 0) return JIRD_OUTSIDE;
    return by_zeros[(ab == 0) | (bc == 0) << 1 | (ca == 0) << 2];
}

/* The entries of the cell that has a key. */
typedef struct { size_t start, end; } Part;

static Part cell_of(const jird_chart *c, uint32_t z) {
    size_t low = 0, high = c->entries;
    while (high - low > 1) { /* the last entry whose key is at most z */
        size_t middle = low + (high - low) / 2;
        if (c->keys[middle] <= z) low = middle;
        else high = middle;
    }
    while (low > 0 && c->keys[low - 1] == c->keys[low]) low--;
    return (Part){low, high};
}

jird_located plain_locate(const jird_chart *c, uint16_t x, uint16_t y) {
    if (!chained(c)) return (jird_located){JIRD_BROKEN_CHAIN, JIRD_NOWHERE, JIRD_OUTSIDE};
    Part cell = cell_of(c, spread(x) | spread(y) << 1);
    for (size_t k = cell.start; k < cell.end && c->items[k] != MARK; k++) {
        uint32_t at = position(c->table, c->items[k], (Point){x, y});
        if (at != JIRD_OUTSIDE) return (jird_located){JIRD_DONE, c->items[k], at};
    }
    return (jird_located){JIRD_DONE, JIRD_NOWHERE, JIRD_OUTSIDE};
}

/* ---- window */

/* The bits of x and y as they stand in a key are ordered as x and y are. So a window's corners, so written, tell whether the square of a
   cell touches it; a square that ends at the window's left or top has its last grid points one before. */
enum { X_BITS = 0x55555555 };
static const uint32_t Y_BITS = 0xaaaaaaaa;

/* The last key of each cell is its key and these. */
static const uint32_t later[LEVELS + 1] = {0xffffffff, 0x3fffffff, 0xfffffff, 0x3ffffff, 0xffffff, 0x3fffff, 0xfffff, 0x3ffff, 0xffff,
                                           0x3fff,     0xfff,      0x3ff,     0xff,      0x3f,     0xf,      0x3,     0};

/* Marks what is listed in the cells whose squares touch the window: they have keys between those of its corners. */
static void mark_near(const jird_chart *c, Box w, uint64_t *near) {
    uint32_t left = spread((uint32_t)most(w.left - 1, 0)), top = spread((uint32_t)most(w.top - 1, 0)) << 1;
    uint32_t right = spread((uint32_t)w.right), bottom = spread((uint32_t)w.bottom) << 1;
    for (size_t k = cell_of(c, left | top).start; k < c->entries && c->keys[k] <= (right | bottom); k++) {
        uint32_t key = c->keys[k], last = key | later[c->levels[k]], item = c->items[k];
        if ((key & Y_BITS) <= bottom && (last & Y_BITS) >= top && (key & X_BITS) <= right && (last & X_BITS) >= left && item != MARK)
            near[item / 64] |= (uint64_t)1 << item % 64;
    }
}

/* Whether the whole window is outside a side. */
static int beyond(Point p, Point q, Box w) {
    return orient(p, q, (Point){q.y < p.y ? w.right : w.left, q.x > p.x ? w.bottom : w.top}) < 0;
}

static int in_window(const uint16_t *table, size_t i, Box w) {
    Point a = corner(table, i, 0), b = corner(table, i, 1), c = corner(table, i, 2);
    return !apart(box_around(table, i), w) && !beyond(a, b, w) && !beyond(b, c, w) && !beyond(c, a, w);
}

jird_windowed plain_window(const jird_chart *c, uint16_t left, uint16_t top, uint16_t right, uint16_t bottom, uint16_t *list) {
    uint64_t near[TRIANGLES / 64] = {0};
    Box w = {left, top, right, bottom};
    size_t n = 0;
    if (!chained(c)) return (jird_windowed){JIRD_BROKEN_CHAIN, 0};
    if (right < left || bottom < top) return (jird_windowed){JIRD_EMPTY_WINDOW, 0};
    mark_near(c, w, near);
    for (size_t k = 0; k < TRIANGLES / 64; k++)
        for (uint64_t left_over = near[k]; left_over != 0; left_over &= left_over - 1) {
            size_t i = 64 * k + (size_t)__builtin_ctzll(left_over);
            if (in_window(c->table, i, w)) list[n++] = (uint16_t)i;
        }
    memset(list + n, 0, (JIRD_WINDOW_LENGTH - n) * sizeof *list);
    return (jird_windowed){JIRD_DONE, n};
}

/* ---- insert */

/* Whether the entries are those of the table. */
static int indexed(Build build, const jird_chart *c) {
    size_t m = c->entries;
    return build(c->table, c->triangles) && found.count == m && memcmp(found.keys, c->keys, m * sizeof *c->keys) == 0 &&
           memcmp(found.levels, c->levels, m * sizeof *c->levels) == 0 && memcmp(found.items, c->items, m * sizeof *c->items) == 0;
}

static void put_row(uint16_t *table, size_t i, Point a, Point b, Point c) {
    uint16_t row[6] = {(uint16_t)a.x, (uint16_t)a.y, (uint16_t)b.x, (uint16_t)b.y, (uint16_t)c.x, (uint16_t)c.y};
    memcpy(table + 6 * i, row, sizeof row);
}

/* The lowest numbered triangle with a side from p to q, and the corner at which that starts; n if there is none. */
static size_t beside(const uint16_t *table, size_t n, Point p, Point q, size_t *k) {
    for (size_t i = 0; i < n; i++)
        for (*k = 0; *k < 3; ++*k)
            if (same(corner(table, i, *k), p) && same(corner(table, i, (*k + 1) % 3), q)) return i;
    return n;
}

/* Triangle i, (a, b, c) from its corner k on, is split at p on ab; its second half becomes triangle n. */
static void halve(uint16_t *table, size_t n, size_t i, size_t k, Point p) {
    Point a = corner(table, i, k), b = corner(table, i, (k + 1) % 3), c = corner(table, i, (k + 2) % 3);
    put_row(table, i, a, p, c);
    put_row(table, n, p, b, c);
}

/* Triangle i, in or on which p is, is split there; how many triangles there are then. */
static size_t split(uint16_t *table, size_t n, size_t i, uint32_t at, Point p) {
    Point a = corner(table, i, 0), b = corner(table, i, 1), c = corner(table, i, 2);
    size_t k = at - JIRD_ON_AB, j, m;
    if (at == JIRD_INSIDE) {
        put_row(table, i, a, b, p);
        put_row(table, n, b, c, p);
        put_row(table, n + 1, c, a, p);
        return n + 2;
    }
    j = beside(table, n, corner(table, i, (k + 1) % 3), corner(table, i, k), &m);
    halve(table, n, i, k, p);
    if (j == n) return n + 1;
    halve(table, n + 1, j, m, p);
    return n + 2;
}

static jird_changed insert_by(Build build, jird_chart *c, uint16_t x, uint16_t y) {
    static uint16_t table[6 * (TRIANGLES + 2)];
    Point p = {x, y};
    size_t i = 0, n = c->triangles;
    uint32_t at = JIRD_OUTSIDE;
    if (!chained(c)) return refused(c, JIRD_BROKEN_CHAIN);
    if (!indexed(build, c)) return refused(c, JIRD_STALE_ENTRIES);
    while (i < n && (at = position(c->table, i, p)) == JIRD_OUTSIDE) i++;
    if (i == n) return refused(c, JIRD_NO_HOLDER);
    if (at >= JIRD_AT_A) return refused(c, JIRD_AT_CORNER);
    memcpy(table, c->table, 6 * n * sizeof *table);
    n = split(table, n, i, at, p);
    return n > TRIANGLES ? refused(c, JIRD_TABLE_FULL) : stored(build, c, table, 6 * n);
}

jird_changed plain_insert(jird_chart *c, uint16_t x, uint16_t y) { return insert_by(plain_build, c, x, y); }
jird_changed culled_insert(jird_chart *c, uint16_t x, uint16_t y) { return insert_by(culled_build, c, x, y); }

/* ---- overlay */

static uint64_t marks[TRIANGLES][TRIANGLES / 64];

/* The place after the cell that starts at place k. */
static size_t cell_end(const jird_chart *c, size_t k) {
    uint32_t key = c->keys[k];
    do k++;
    while (k < c->entries && c->keys[k] == key);
    return k;
}

/* Marks the pairs of two cells that overlap. */
static void mark(const jird_chart *c, size_t i, size_t i_end, const jird_chart *d, size_t j, size_t j_end) {
    if (c->items[i] == MARK || d->items[j] == MARK) return;
    for (; i < i_end; i++)
        for (size_t k = j; k < j_end; k++) marks[c->items[i]][d->items[k] / 64] |= (uint64_t)1 << d->items[k] % 64;
}

/* Walks both lists of cells and marks; how many pairs of cells overlap. */
static size_t walk(const jird_chart *c, const jird_chart *d) {
    size_t i = 0, j = 0, meetings = 0;
    while (i < c->entries && j < d->entries) {
        size_t i_end = cell_end(c, i), j_end = cell_end(d, j);
        uint64_t c_end = c->keys[i] + keys_of(c->levels[i]), d_end = d->keys[j] + keys_of(d->levels[j]);
        mark(c, i, i_end, d, j, j_end);
        meetings++;
        if (c_end <= d_end) i = i_end;
        if (d_end <= c_end) j = j_end;
    }
    return meetings;
}

/* Whether a side of triangle i has all of triangle j outside or on its line. */
static int separates(const uint16_t *table, size_t i, const uint16_t *other, size_t j) {
    for (size_t k = 0; k < 3; k++) {
        Point p = corner(table, i, k), q = corner(table, i, (k + 1) % 3);
        if (orient(p, q, corner(other, j, 0)) <= 0 && orient(p, q, corner(other, j, 1)) <= 0 && orient(p, q, corner(other, j, 2)) <= 0)
            return 1;
    }
    return 0;
}

static int shares(const jird_chart *c, size_t i, Box box, const jird_chart *d, size_t j) {
    return !apart(box, box_around(d->table, j)) && !separates(c->table, i, d->table, j) && !separates(d->table, j, c->table, i);
}

jird_sounded plain_soundness(const jird_chart *c) {
    static Box boxes[TRIANGLES];
    if (!chained(c)) return (jird_sounded){JIRD_BROKEN_CHAIN, 0};
    for (size_t i = 0; i < c->triangles; i++) {
        boxes[i] = box_around(c->table, i);
        for (size_t j = 0; j < i; j++)
            if (!apart(boxes[i], boxes[j]) && !separates(c->table, i, c->table, j) && !separates(c->table, j, c->table, i))
                return (jird_sounded){JIRD_DONE, 0};
    }
    return (jird_sounded){JIRD_DONE, 1};
}

jird_overlaid plain_overlay(const jird_chart *bed, const jird_chart *design, uint16_t *pairs) {
    size_t count = 0;
    if (!chained(bed) || !chained(design)) return (jird_overlaid){JIRD_BROKEN_CHAIN, 0, 0};
    memset(marks, 0, bed->triangles * sizeof marks[0]);
    size_t meetings = walk(bed, design);
    for (size_t i = 0; i < bed->triangles; i++) {
        Box box = box_around(bed->table, i);
        for (size_t w = 0; w < TRIANGLES / 64; w++)
            for (uint64_t left = marks[i][w]; left != 0; left &= left - 1) {
                size_t j = 64 * w + (size_t)__builtin_ctzll(left);
                if (!shares(bed, i, box, design, j)) continue;
                if (count < JIRD_MOST_PAIRS) pairs[2 * count] = (uint16_t)i, pairs[2 * count + 1] = (uint16_t)j;
                count++;
            }
    }
    if (count > JIRD_MOST_PAIRS) {
        memset(pairs, 0, JIRD_PAIRS_LENGTH * sizeof *pairs);
        return (jird_overlaid){JIRD_TOO_MANY_PAIRS, 0, 0};
    }
    memset(pairs + 2 * count, 0, (JIRD_PAIRS_LENGTH - 2 * count) * sizeof *pairs);
    return (jird_overlaid){JIRD_DONE, count, meetings};
}
