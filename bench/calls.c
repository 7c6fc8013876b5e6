/* Time per call: the library's calls beside the hand-written ones of engine.c, on the same charts in one run, and, where it is built with
   BEFORE, beside those of an earlier archive (before.c), by turns.
   Each number is the best of the rounds, in processor time of this thread, so that other work on the machine counts little. Answers and
   buffers are compared; it ends with status 1 where they differ. No earlier archive has inserts or windows; beside a window stands the
   library's own locate on the same chart.
   usage: bench [CALL CHARTS ENGINE]: that call once, by one engine, on one pair of charts, to count its instructions (count.py) */
#include "engine.h"
#include <stdio.h>
#include <stdlib.h>
#include <string.h>
#include <time.h>

enum { ROUNDS = 40, MOST = 4, POINTS = 64, INSERTS = 8, WINDOWS = 16, WIDTH = 16384 };

static uint16_t table[JIRD_TABLE_LENGTH];
static jird_chart charts[MOST], bed, design;
static uint16_t pairs[MOST][JIRD_PAIRS_LENGTH];
static jird_located places[MOST][POINTS];
static jird_windowed windowed[MOST][WINDOWS];
static uint16_t lists[MOST][WINDOWS][JIRD_WINDOW_LENGTH];
static jird_overlaid overlaid[MOST];
static jird_sounded sounded[MOST];
static size_t length;
static uint16_t inserted[INSERTS][2];
static double untimed;

static double microseconds(void) {
    struct timespec t;
    clock_gettime(CLOCK_THREAD_CPUTIME_ID, &t);
    return (double)t.tv_sec * 1e6 + (double)t.tv_nsec * 1e-3;
}

/* Practice numbers, the same in every run. */
static uint32_t state;
static unsigned below(unsigned n) {
    state = state * 1664525u + 1013904223u;
    return (state >> 8) % n;
}

/* The points of a grid of g times g squares over the whole chart; where it is uneven, inner points move by up to a quarter. */
static uint16_t x[17][17], y[17][17];
static void place(unsigned g, unsigned uneven) {
    unsigned step = 65535 / g;
    for (unsigned j = 0; j <= g; j++)
        for (unsigned i = 0; i <= g; i++) {
            x[j][i] = (uint16_t)(i * 65535 / g + (uneven && i > 0 && i < g ? below(step / 2) - step / 4 : 0));
            y[j][i] = (uint16_t)(j * 65535 / g + (uneven && j > 0 && j < g ? below(step / 2) - step / 4 : 0));
        }
    length = 0;
}

/* The two halves of a square, along either diagonal. */
static const unsigned halves[2][6][2] = {{{0, 0}, {1, 0}, {0, 1}, {1, 1}, {0, 1}, {1, 0}}, {{0, 0}, {1, 0}, {1, 1}, {1, 1}, {0, 1}, {0, 0}}};

static void put_corner(unsigned i, unsigned j, const unsigned *corner) {
    table[length++] = x[j + corner[1]][i + corner[0]];
    table[length++] = y[j + corner[1]][i + corner[0]];
}

/* A grid, each square halved in the same way. */
static void make(unsigned g, unsigned uneven) {
    state = 6 + uneven;
    place(g, uneven);
    for (unsigned j = 0; j < g; j++)
        for (unsigned i = 0; i < g; i++)
            for (unsigned k = 0; k < 6; k++) put_corner(i, j, halves[0][k]);
}

/* An uneven grid, each square halved along the diagonal that is drawn, each triangle with its corners turned and all of them in drawn order. */
static void scatter(unsigned g, unsigned seed) {
    state = seed;
    place(g, 1);
    for (unsigned j = 0; j < g; j++)
        for (unsigned i = 0; i < g; i++) {
            unsigned way = below(2);
            for (unsigned h = 0; h < 2; h++) {
                unsigned turn = below(3);
                for (unsigned k = 0; k < 3; k++) put_corner(i, j, halves[way][3 * h + (k + turn) % 3]);
            }
        }
    for (size_t n = 2 * (size_t)g * g; n > 1; n--) {
        size_t m = below((unsigned)n);
        uint16_t row[6];
        memcpy(row, table + 6 * m, sizeof row);
        memcpy(table + 6 * m, table + 6 * (n - 1), sizeof row);
        memcpy(table + 6 * (n - 1), row, sizeof row);
    }
}

/* The pairs of charts: an even grid and an uneven one, each under and over the other, and two that are drawn without order. */
typedef struct { const char *name; unsigned g; } Charts;
static const Charts all_charts[] = {{"even", 1}, {"even", 4}, {"even", 8}, {"even", 16}, {"uneven", 1}, {"uneven", 4}, {"uneven", 8},
                                    {"uneven", 16}, {"drawn", 4}, {"drawn", 8}, {"drawn", 16}};
enum { CHARTS = sizeof all_charts / sizeof all_charts[0] };

/* Points of the bed: the middles of drawn triangles, and of sides of drawn ones where those are points of the grid, by turns. */
static void choose(void) {
    state = 98;
    for (unsigned k = 0; k < INSERTS;) {
        const uint16_t *t = table + 6 * below((unsigned)bed.triangles);
        unsigned a = 2 * below(3), b = (a + 2) % 6, on_side = k % 2;
        uint16_t x = (uint16_t)(on_side ? (t[a] + t[b]) / 2 : (t[0] + t[2] + t[4]) / 3);
        uint16_t y = (uint16_t)(on_side ? (t[a + 1] + t[b + 1]) / 2 : (t[1] + t[3] + t[5]) / 3);
        uint32_t at = jird_chart_locate(&bed, x, y).position;
        if (at > JIRD_ON_CA || (at != JIRD_INSIDE) != on_side) continue;
        inserted[k][0] = x, inserted[k][1] = y, k++;
    }
}

/* Both charts, the bed of so many numbers at most. */
static void prepare(const Charts *c, size_t most) {
    int uneven = c->name[0] == 'u';
    if (c->name[0] == 'd') scatter(c->g, 21);
    else make(c->g, !uneven);
    jird_chart_load(&design, table, length);
    if (c->name[0] == 'd') scatter(c->g, 20);
    else make(c->g, (unsigned)uneven);
    if (length > most) length = most;
    jird_chart_load(&bed, table, length);
    choose();
}

/* ---- the calls; engine 0 is the library, the last one an earlier archive of it, if there is one */

#ifdef BEFORE
#define EARLIER(call) , call
#else
#define EARLIER(call)
#endif

static jird_changed (*const loads[])(jird_chart *, const uint16_t *, size_t) = {jird_chart_load, culled_load, plain_load EARLIER(before_load)};
static jird_changed (*const inserts[])(jird_chart *, uint16_t, uint16_t) = {jird_chart_insert, culled_insert, plain_insert};
static jird_located (*const locates[])(const jird_chart *, uint16_t, uint16_t) = {jird_chart_locate, plain_locate EARLIER(before_locate)};
static jird_windowed (*const windows[])(const jird_chart *, uint16_t, uint16_t, uint16_t, uint16_t, uint16_t *) = {jird_chart_window,
                                                                                                              plain_window};
static jird_sounded (*const soundnesses[])(const jird_chart *) = {jird_chart_soundness, plain_soundness EARLIER(before_soundness)};
static jird_overlaid (*const overlays[])(const jird_chart *, const jird_chart *, uint16_t *) = {jird_chart_overlay,
                                                                                              plain_overlay EARLIER(before_overlay)};

static void load(int engine) {
    if (loads[engine](&charts[engine], table, length).number != JIRD_DONE) exit(1);
}

/* The bed with a point inserted; that it is copied is not timed. */
static void insert_one(int engine, int k) {
    double start = microseconds();
    charts[engine] = bed;
    untimed += microseconds() - start;
    if (inserts[engine](&charts[engine], inserted[k][0], inserted[k][1]).number != JIRD_DONE) exit(1);
}

static void insert(int engine) {
    for (int k = 0; k < INSERTS; k++) insert_one(engine, k);
}

static jird_located located(int engine, uint16_t x, uint16_t y) { return locates[engine](&bed, x, y); }

static void locate(int engine) {
    state = 99;
    for (int k = 0; k < POINTS; k++) {
        uint16_t x = (uint16_t)below(65536), y = (uint16_t)below(65536);
        places[engine][k] = located(engine, x, y);
    }
}

/* Windows of a quarter of the chart's width and height. After the engines that have windows comes the library's locate at their corners. */
enum { WINDOW_ENGINES = sizeof windows / sizeof windows[0] };
static void window(int engine) {
    state = 97;
    for (int k = 0; k < WINDOWS; k++) {
        uint16_t x = (uint16_t)below(65536 - WIDTH), y = (uint16_t)below(65536 - WIDTH);
        if (engine == WINDOW_ENGINES) places[0][k] = located(0, x, y);
        else windowed[engine][k] = windows[engine](&bed, x, y, (uint16_t)(x + WIDTH), (uint16_t)(y + WIDTH), lists[engine][k]);
    }
}

static void soundness(int engine) { sounded[engine] = soundnesses[engine](&bed); }

static void overlay(int engine) { overlaid[engine] = overlays[engine](&bed, &design, pairs[engine]); }

/* Whether an engine finds what the library finds at the corners and in the middle of the sides of the bed; no drawn point is there. */
static int agrees_on_sides(int e) {
    for (size_t k = 0; k < length; k += 2)
        for (size_t m = k - k % 6; m < k - k % 6 + 6; m += 2) {
            uint16_t x = (uint16_t)((table[k] + table[m]) / 2), y = (uint16_t)((table[k + 1] + table[m + 1]) / 2);
            jird_located a = located(0, x, y), b = located(e, x, y);
            if (memcmp(&a, &b, sizeof a) != 0) return 0;
        }
    return 1;
}

/* Whether an engine lists what the library lists. */
static int same_lists(int e, uint16_t left, uint16_t top, uint16_t right, uint16_t bottom) {
    for (int k = 0; k <= e; k += e) windowed[k][0] = windows[k](&bed, left, top, right, bottom, lists[k][0]);
    return windowed[0][0].number == windowed[e][0].number && windowed[0][0].listed == windowed[e][0].listed &&
           memcmp(lists[0][0], lists[e][0], sizeof lists[0][0]) == 0;
}

/* The same of the windows of each call, and of such that have two corners, or the middles of two sides, of a triangle as their own: these
   may have no width or height, and a window that is refused leaves the list as it is. */
static int agrees_on_windows(int e) {
    if (e == WINDOW_ENGINES) return 1;
    for (int k = 0; k < WINDOWS; k++)
        if (windowed[0][k].number != windowed[e][k].number || windowed[0][k].listed != windowed[e][k].listed) return 0;
    if (memcmp(lists[0], lists[e], sizeof lists[0]) != 0) return 0;
    for (size_t k = 0; k < length; k += 2)
        for (size_t m = k - k % 6; m < k - k % 6 + 6; m += 2) {
            uint16_t x = (uint16_t)((table[k] + table[m]) / 2), y = (uint16_t)((table[k + 1] + table[m + 1]) / 2);
            if (!same_lists(e, table[k], table[k + 1], table[m], table[m + 1]) || !same_lists(e, x, y, table[m], table[m + 1])) return 0;
        }
    return same_lists(e, 0, 0, 65535, 65535);
}

static int same_charts(int e) { return memcmp(&charts[0], &charts[e], sizeof charts[0]) == 0; }

static int agrees_on_inserts(int e) {
    for (int k = 0; k < INSERTS; k++) {
        insert_one(0, k);
        insert_one(e, k);
        if (!same_charts(e)) return 0;
    }
    return 1;
}

/* Whether an engine answered as the library did, and left the same buffers. */
static int agrees(void (*call)(int), int e) {
    if (call == load) return same_charts(e);
    if (call == insert) return agrees_on_inserts(e);
    if (call == locate) return memcmp(places[0], places[e], sizeof places[0]) == 0 && agrees_on_sides(e);
    if (call == window) return agrees_on_windows(e);
    if (call == soundness) return sounded[0].number == sounded[e].number && sounded[0].sound == sounded[e].sound;
    jird_overlaid a = overlaid[0], b = overlaid[e];
    return a.number == b.number && a.pairs == b.pairs && a.meetings == b.meetings && memcmp(pairs[0], pairs[e], sizeof pairs[0]) == 0;
}

/* ---- measuring */

/* A call whose instructions are counted: count.py asks for this function and what it calls. */
__attribute__((noinline)) static void counted(void (*call)(int), int engine) { call(engine); }

/* Prints the best time of each engine per call, and the library's as ratios to the others. */
static void measure(void (*call)(int), int engines, int turns, int per_turn) {
    double best[MOST];
    for (int e = 0; e < engines; e++) best[e] = 1e30;
    for (int r = 0; r < ROUNDS; r++)
        for (int e = 0; e < engines; e++) {
            untimed = 0;
            double start = microseconds();
            for (int k = 0; k < turns; k++) call(e);
            double time = (microseconds() - start - untimed) / turns / per_turn;
            if (time < best[e]) best[e] = time;
        }
    for (int e = 1; e < engines; e++)
        if (!agrees(call, e)) {
            puts("\nthe engines differ");
            exit(1);
        }
    for (int e = 0; e < engines; e++) printf("  %9.2f", best[e]);
    for (int e = 1; e < engines; e++) printf("  %8.2f", best[0] / best[e]);
    puts("");
    fflush(stdout);
}

typedef struct {
    const char *name;
    void (*call)(int);
    const char *const *others; /* the engines beside the library */
    int per_turn;
    size_t most; /* numbers of the bed */
} Job;
static const char *const three[] = {"culled", "plain" EARLIER("before"), NULL};
static const char *const two[] = {"plain" EARLIER("before"), NULL};
static const char *const no_earlier[] = {"culled", "plain", NULL};
static const char *const and_locate[] = {"plain", "locate", NULL};
enum { ALL = JIRD_TABLE_LENGTH, ROOM_FOR_TWO = JIRD_TABLE_LENGTH - 12 };
static const Job jobs[] = {{"load", load, three, 1, ALL},
                           {"insert", insert, no_earlier, INSERTS, ROOM_FOR_TWO},
                           {"locate", locate, two, POINTS, ALL},
                           {"window", window, and_locate, WINDOWS, ALL},
                           {"soundness", soundness, two, 1, ALL},
                           {"overlay", overlay, two, 1, ALL}};
enum { JOBS = sizeof jobs / sizeof jobs[0] };

static int engines_of(const Job *j) {
    int n = 1;
    while (j->others[n - 1]) n++;
    return n;
}

static void each(const Job *j) {
    printf("%s\ntriangles  charts  entries   proved us", j->name);
    for (int e = 1; e < engines_of(j); e++) printf("  %6s us", j->others[e - 1]);
    for (int e = 1; e < engines_of(j); e++) printf("  / %-6s", j->others[e - 1]);
    puts("");
    for (const Charts *c = all_charts; c < all_charts + CHARTS; c++) {
        prepare(c, j->most);
        printf("%9zu  %-6s  %7zu", bed.triangles, c->name, bed.entries);
        measure(j->call, engines_of(j), c->g > 10 ? 10 / (j->per_turn > 1 ? 5 : 1) : 100 / (j->per_turn > 1 ? 10 : 1), j->per_turn);
    }
}

/* One call by name, on the charts by name and number of triangles, by an engine's number. */
static int once(const char *name, const char *charts_name, int engine) {
    char word[32];
    for (const Job *j = jobs; j < jobs + JOBS; j++)
        for (const Charts *c = all_charts; c < all_charts + CHARTS; c++) {
            snprintf(word, sizeof word, "%s%u", c->name, 2 * c->g * c->g);
            if (strcmp(j->name, name) != 0 || strcmp(word, charts_name) != 0 || engine < 0 || engine >= engines_of(j)) continue;
            prepare(c, j->most);
            counted(j->call, engine);
            return 0;
        }
    fprintf(stderr, "bench: no call %s on charts %s by engine %d\n", name, charts_name, engine);
    return 2;
}

int main(int count, char **words) {
    if (count == 4) return once(words[1], words[2], atoi(words[3]));
    for (const Job *j = jobs; j < jobs + JOBS; j++) each(j);
    return 0;
}
