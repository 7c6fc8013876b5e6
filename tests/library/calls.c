/* Makes calls through the exports of the library on buffers that are lent to the byte, and prints what they answer.

   usage: calls end | start | heap  < SCRIPT

   SCRIPT and what is printed are those of `model calls` (model/main.rs says both), without `sum`, `copy` and `echo`, and with `dump`
   where it says from where to where. Before each call what is lent is copied to where the call gets it:
     end     it ends where a page begins that can be neither read nor written
     start   it begins where such a page ends
     heap    a block of the heap of exactly its size, for valgrind
   What a prototype has as const cannot be written in the first two. After the call the lent places are copied back. It ends with
   status 1 and says which line of the script it was when a call touches a place that is not lent or writes one that is const, when
   bytes beside a lent buffer change, and for a script that it does not understand. */
#include "jirdtungsten_charts.h"
#include <inttypes.h>
#include <signal.h>
#include <stdio.h>
#include <stdlib.h>
#include <string.h>
#include <sys/mman.h>
#include <unistd.h>

enum { PAIRS = 8, GIVEN = 9, BUFFERS = 10, PAGE = 4096, REGION = 80 * PAGE, WORDS = 70000, CANARY = 0xa5 };

/* All places of a buffer, how many of them calls get, and where they get them. */
typedef struct {
    unsigned char *bytes, *region, *place;
    size_t width, places, lent;
    int is_const;
} Buffer;

static Buffer buffers[BUFFERS];
static size_t counts[2][2];
static enum { END, START, HEAP } mode;
static size_t line_number;

static void fail(const char *what) {
    char text[128];
    int n = snprintf(text, sizeof text, "line %zu of the script: %s\n", line_number, what);
    if (n > 0 && write(2, text, (size_t)n) < 0) _exit(2);
    _exit(1);
}

static void on_fault(int number) {
    (void)number;
    fail("a place that is not lent is read or written, or one that is const is written");
}

/* ---- lending */

static size_t size_of(const Buffer *b) { return b->lent * b->width; }

/* Pages that can be used, between two that cannot. */
static unsigned char *new_region(void) {
    unsigned char *all = mmap(NULL, REGION + 2 * PAGE, PROT_NONE, MAP_PRIVATE | MAP_ANONYMOUS, -1, 0);
    if (all == MAP_FAILED || mprotect(all + PAGE, REGION, PROT_READ | PROT_WRITE) != 0) fail("no memory");
    return all + PAGE;
}

static void protect(const Buffer *b, int how) {
    if (b->is_const && mprotect(b->region, REGION, how) != 0) fail("no protection");
}

/* Copies what is lent of a buffer to where the call gets it. */
static void lend(Buffer *b, int is_const) {
    size_t size = size_of(b);
    b->is_const = is_const;
    if (mode == HEAP) {
        b->place = malloc(size);
        if (b->place == NULL && size > 0) fail("no memory");
        if (b->place == NULL) b->place = b->bytes;
    } else {
        b->place = mode == END ? b->region + REGION - size : b->region;
        memset(mode == END ? b->place - PAGE : b->place + size, CANARY, PAGE);
    }
    if (size > 0) memcpy(b->place, b->bytes, size);
    if (mode != HEAP) protect(b, PROT_READ);
}

/* Copies it back, and looks at the bytes beside it. */
static void take_back(Buffer *b) {
    size_t size = size_of(b);
    if (b->is_const && size > 0 && memcmp(b->bytes, b->place, size) != 0) fail("a const buffer is changed");
    if (mode == HEAP) {
        if (size > 0) memcpy(b->bytes, b->place, size);
        if (b->place != b->bytes) free(b->place);
        return;
    }
    protect(b, PROT_READ | PROT_WRITE);
    if (size > 0) memcpy(b->bytes, b->place, size);
    unsigned char *beside = mode == END ? b->place - PAGE : b->place + size;
    for (size_t k = 0; k < PAGE; k++)
        if (beside[k] != CANARY) fail("bytes beside a lent buffer are changed");
}

static void lend_chart(size_t c, int is_const) {
    for (size_t k = 0; k < 4; k++) lend(&buffers[4 * c + k], is_const);
}

static void take_chart(size_t c) {
    for (size_t k = 0; k < 4; k++) take_back(&buffers[4 * c + k]);
}

/* ---- calls; a list is a pointer and a length */

#define LIST(type, k) (type *)(void *)buffers[k].place, buffers[k].lent
#define CHART(c) LIST(uint16_t, 4 * (c)), LIST(uint32_t, 4 * (c) + 1), LIST(uint8_t, 4 * (c) + 2), LIST(uint16_t, 4 * (c) + 3), \
    counts[c][0], counts[c][1]

static void changed(const char *word, size_t c, jird_changed r) {
    counts[c][0] = r.triangles;
    counts[c][1] = r.entries;
    printf("%s %" PRIu32 " %zu %zu %zu", word, r.number, r.value, r.triangles, r.entries);
}

static int change(const char *word, size_t c, const uint64_t *v, size_t n) {
    uint16_t x = n == 2 ? (uint16_t)v[0] : 0, y = n == 2 ? (uint16_t)v[1] : 0;
    if (!strcmp(word, "load")) {
        for (size_t k = 0; k < n; k++) ((uint16_t *)(void *)buffers[GIVEN].bytes)[k] = (uint16_t)v[k];
        buffers[GIVEN].lent = n;
        lend(&buffers[GIVEN], 1);
        changed(word, c, jird_load(LIST(const uint16_t, GIVEN), CHART(c)));
        take_back(&buffers[GIVEN]);
    } else if (!strcmp(word, "insert") && n == 2) {
        changed(word, c, jird_insert(CHART(c), x, y));
    } else if (!strcmp(word, "take_out") && n == 2) {
        changed(word, c, jird_take_out(CHART(c), x, y));
    } else if (!strcmp(word, "flip") && n == 2) {
        changed(word, c, jird_flip(CHART(c), (size_t)v[0], (size_t)v[1]));
    } else {
        return 0;
    }
    return 1;
}

static void print_cell(size_t c, jird_part r) {
    const uint16_t *items = (const uint16_t *)(const void *)buffers[4 * c + 3].bytes;
    printf("listing %zu", r.length);
    if (r.length > 0 && r.start + r.length > counts[c][1]) fail("a part beyond the entries");
    if (r.length == 0 && r.start != 0) fail("an empty part that does not start at 0");
    for (size_t k = 0; k < r.length; k++) printf(" %u", (unsigned)items[r.start + k]);
}

static int question(const char *word, size_t c, const uint64_t *v, size_t n) {
    uint16_t x = n == 2 ? (uint16_t)v[0] : 0, y = n == 2 ? (uint16_t)v[1] : 0;
    if (!strcmp(word, "locate") && n == 2) {
        jird_located r = jird_locate(CHART(c), x, y);
        printf("locate %" PRIu32, r.number);
        printf(r.triangle == JIRD_NOWHERE ? " nowhere" : " %" PRIu32, r.triangle);
        printf(" %" PRIu32, r.position);
    } else if (!strcmp(word, "listing") && n == 2) {
        print_cell(c, jird_cell(CHART(c), x, y));
    } else if (!strcmp(word, "sound") && n == 0) {
        jird_sounded r = jird_soundness(CHART(c));
        printf("sound %" PRIu32 " %s", r.number, r.sound ? "yes" : "no");
    } else if (!strcmp(word, "area") && n == 0) {
        jird_measured r = jird_doubled_area(CHART(c));
        printf("area %" PRIu32 " %" PRIu64, r.number, r.area);
    } else {
        return 0;
    }
    return 1;
}

/* Chart c over chart d, which may be the same: its buffers are then passed twice. */
static void overlay(size_t c, size_t d) {
    lend_chart(c, 1);
    if (d != c) lend_chart(d, 1);
    lend(&buffers[PAIRS], 0);
    jird_overlaid r = jird_overlay(CHART(c), CHART(d), LIST(uint16_t, PAIRS));
    take_back(&buffers[PAIRS]);
    if (d != c) take_chart(d);
    take_chart(c);
    printf("overlay %" PRIu32 " %zu %zu", r.number, r.pairs, r.meetings);
}

/* A window of chart c; the pairs are its list. */
static void window(size_t c, const uint64_t *v) {
    lend_chart(c, 1);
    lend(&buffers[PAIRS], 0);
    jird_windowed r = jird_window(CHART(c), (uint16_t)v[0], (uint16_t)v[1], (uint16_t)v[2], (uint16_t)v[3], LIST(uint16_t, PAIRS));
    take_back(&buffers[PAIRS]);
    take_chart(c);
    printf("window %" PRIu32 " %zu", r.number, r.listed);
}

static int call(const char *word, size_t c, const uint64_t *v, size_t n) {
    static const char *const changes[] = {"load", "insert", "take_out", "flip"};
    int is_change = 0, known;
    if (!strcmp(word, "overlay")) {
        if (n != 1 || v[0] > 1) return 0;
        overlay(c, (size_t)v[0]);
        return 1;
    }
    if (!strcmp(word, "window")) {
        if (n != 4) return 0;
        window(c, v);
        return 1;
    }
    for (size_t k = 0; k < sizeof changes / sizeof *changes; k++) is_change |= !strcmp(word, changes[k]);
    lend_chart(c, !is_change);
    known = is_change ? change(word, c, v, n) : question(word, c, v, n);
    take_chart(c);
    return known;
}

/* ---- the script */

static uint64_t hash(void) {
    uint64_t h = 14695981039346656037u;
    for (size_t k = 0; k < GIVEN; k++)
        for (size_t i = 0; i < buffers[k].places * buffers[k].width; i++) h = (h ^ buffers[k].bytes[i]) * 1099511628211u;
    return h;
}

static void put(Buffer *b, size_t place, uint64_t x) {
    unsigned char *at = b->bytes + place * b->width;
    if (place >= b->places) fail("a place that is not there");
    for (size_t k = 0; k < b->width; k++) at[k] = (unsigned char)(x >> 8 * k);
}

/* The values of a buffer from one place to another. */
static int dump(const char *name, const Buffer *b, const uint64_t *v, size_t n) {
    if (n != 2 || v[0] > v[1] || v[1] > b->places) return 0;
    printf("dump %s %zu", name, b->places);
    for (size_t place = (size_t)v[0]; place < v[1]; place++) {
        uint32_t x = 0;
        for (size_t k = b->width; k-- > 0;) x = x << 8 | b->bytes[place * b->width + k];
        printf(" %" PRIu32, x);
    }
    puts("");
    return 1;
}

static Buffer *named(const char *name) {
    static const char *const names[] = {"table0", "keys0", "levels0", "items0", "table1", "keys1", "levels1", "items1", "pairs"};
    for (size_t k = 0; k < GIVEN; k++)
        if (!strcmp(name, names[k])) return &buffers[k];
    return NULL;
}

static int on_buffer(const char *word, Buffer *b, const uint64_t *v, size_t n) {
    if (!strcmp(word, "len") && n == 1 && v[0] * b->width < REGION - PAGE) {
        b->lent = b->places = (size_t)v[0];
    } else if (!strcmp(word, "lend") && n == 1 && v[0] <= b->places) {
        b->lent = (size_t)v[0];
    } else if (!strcmp(word, "set") && n > 1) {
        for (size_t k = 1; k < n; k++) put(b, (size_t)v[0] + k - 1, v[k]);
    } else if (!strcmp(word, "fill") && n == 1) {
        for (size_t k = 0; k < b->places; k++) put(b, k, v[0]);
    } else {
        return 0;
    }
    return 1;
}

/* The numbers of the rest of a line. */
static size_t read_numbers(char *text, uint64_t *v) {
    size_t n = 0;
    for (char *end = text; (v[n] = strtoull(text, &end, 10), end != text); text = end)
        if (++n == WORDS) fail("too many words");
    if (text[strspn(text, " \n")] != '\0') fail("a word that is no number");
    return n;
}

static int run_line(char *line) {
    static uint64_t v[WORDS + 1];
    char word[16], name[16];
    int used = 0;
    if (sscanf(line, "%15s %15s%n", word, name, &used) != 2) return 0;
    size_t n = read_numbers(line + used, v);
    if (named(name)) return strcmp(word, "dump") ? on_buffer(word, named(name), v, n) : dump(name, named(name), v, n);
    if (strcmp(name, "0") && strcmp(name, "1")) return 0;
    size_t c = (size_t)(name[0] - '0');
    if (!strcmp(word, "counts") && n == 2) {
        counts[c][0] = (size_t)v[0];
        counts[c][1] = (size_t)v[1];
        return 1;
    }
    if (!call(word, c, v, n)) return 0;
    printf(" %016" PRIx64 "\n", hash());
    return 1;
}

int main(int count, char **words) {
    static const size_t widths[] = {2, 4, 1, 2};
    char *line = NULL;
    size_t room = 0;
    if (count != 2 || (strcmp(words[1], "end") && strcmp(words[1], "start") && strcmp(words[1], "heap"))) {
        fputs("usage: calls end | start | heap  < SCRIPT\n", stderr);
        return 2;
    }
    mode = words[1][0] == 'e' ? END : words[1][0] == 's' ? START : HEAP;
    for (size_t k = 0; k < BUFFERS; k++) {
        buffers[k] = (Buffer){.bytes = calloc(REGION, 1), .region = new_region(), .width = k < PAIRS ? widths[k % 4] : 2};
        buffers[k].lent = buffers[k].places = k >= PAIRS ? JIRD_PAIRS_LENGTH : k % 4 == 0 ? JIRD_TABLE_LENGTH : JIRD_ENTRIES_LENGTH;
    }
    if (mode != HEAP && (signal(SIGSEGV, on_fault) == SIG_ERR || signal(SIGBUS, on_fault) == SIG_ERR)) fail("no handler");
    while (getline(&line, &room, stdin) > 0) {
        line_number++;
        if (line[0] != '\n' && line[0] != '#' && !run_line(line)) fail("not understood");
    }
    free(line);
    for (size_t k = 0; k < BUFFERS; k++) free(buffers[k].bytes);
    return 0;
}
