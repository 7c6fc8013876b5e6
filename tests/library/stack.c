/* Measures the stack that the exports use: each call is made on a stack of its own, all of whose bytes hold one value before, and the
   lowest byte that has another value afterwards tells how deep it went. Each call is made twice, with two such values, so that no byte
   is passed over that happens to hold one of them. tests/stack.py says the rest.

   Reads calls from standard input, a word for the call, then numbers:
     load C k n1 .. nk    insert C x y    take_out C x y    flip C i j    locate C x y    cell C x y
     soundness C    doubled_area C    window C left top right bottom    overlay A B
   and prints for each its word, its number, what a call that reads answers (locate the position, window how many are listed), and
   the bytes of stack. */
#include "jirdtungsten_charts.h"
#include <inttypes.h>
#include <stdio.h>
#include <stdlib.h>
#include <string.h>
#include <ucontext.h>

enum { DEPTH = 4 << 20, LOADED = JIRD_TABLE_LENGTH + 8 };

/* What the next call is made with, and what it answers. */
static jird_chart charts[2], before[2];
static uint16_t pairs[JIRD_PAIRS_LENGTH], list[JIRD_WINDOW_LENGTH], given[LOADED];
static size_t chart, other, length, a, b, c, d;
static uint64_t answer;
static uint32_t number;

static void changed(jird_changed r) {
    charts[chart].triangles = r.triangles;
    charts[chart].entries = r.entries;
    number = r.number;
}

#define BUFFERS(c) (c).table, JIRD_TABLE_LENGTH, (c).keys, JIRD_ENTRIES_LENGTH, (c).levels, JIRD_ENTRIES_LENGTH, (c).items, \
    JIRD_ENTRIES_LENGTH, (c).triangles, (c).entries
#define CHART BUFFERS(charts[chart])
#define X(n) (uint16_t)(n)
static void load(void) { changed(jird_load(given, length, CHART)); }
static void insert(void) { changed(jird_insert(CHART, X(a), X(b))); }
static void take_out(void) { changed(jird_take_out(CHART, X(a), X(b))); }
static void flip(void) { changed(jird_flip(CHART, a, b)); }
static void locate(void) { jird_located r = jird_locate(CHART, X(a), X(b)); number = r.number, answer = r.position; }
static void cell(void) { answer = jird_cell(CHART, X(a), X(b)).length; }
static void soundness(void) { jird_sounded r = jird_soundness(CHART); number = r.number, answer = r.sound; }
static void doubled_area(void) { jird_measured r = jird_doubled_area(CHART); number = r.number, answer = r.area; }
static void window(void) {
    jird_windowed r = jird_window(CHART, X(a), X(b), X(c), X(d), list, JIRD_WINDOW_LENGTH);
    number = r.number, answer = r.listed;
}
static void overlay(void) {
    jird_overlaid r = jird_overlay(CHART, BUFFERS(charts[other]), pairs, JIRD_PAIRS_LENGTH);
    number = r.number, answer = r.pairs;
}
static void nothing(void) {}

static const struct {
    const char *word;
    void (*call)(void);
    size_t operands;
} calls[] = {{"load", load, 0},     {"insert", insert, 2}, {"take_out", take_out, 2},   {"flip", flip, 2},
             {"locate", locate, 2}, {"cell", cell, 2},     {"soundness", soundness, 0}, {"doubled_area", doubled_area, 0},
             {"window", window, 4}, {"overlay", overlay, 0}};
enum { CALLS = sizeof calls / sizeof *calls };

/* The bytes of a stack filled with a value that hold another after a call on it. */
static size_t depth(void (*call)(void), unsigned char value) {
    static _Alignas(4096) unsigned char stack[DEPTH];
    static ucontext_t back, forth;
    size_t k = 0;
    memset(stack, value, DEPTH);
    getcontext(&forth);
    forth.uc_stack.ss_sp = stack;
    forth.uc_stack.ss_size = DEPTH;
    forth.uc_link = &back;
    makecontext(&forth, call, 0);
    swapcontext(&back, &forth);
    while (k < DEPTH && stack[k] == value) k++;
    return DEPTH - k;
}

/* The same at its most, with two values and from the same state, without what any call takes. */
static size_t measured(void (*call)(void)) {
    size_t first, second, least = depth(nothing, 0x55);
    memcpy(before, charts, sizeof charts);
    first = depth(call, 0x55);
    memcpy(charts, before, sizeof charts);
    second = depth(call, 0xaa);
    return (first > second ? first : second) - least;
}

static size_t read_number(void) {
    size_t n;
    if (scanf("%zu", &n) != 1) exit(1);
    return n;
}

int main(void) {
    char word[32];
    while (scanf("%31s", word) == 1) {
        size_t k = 0, bytes, *operands[4] = {&a, &b, &c, &d};
        while (k < CALLS && strcmp(word, calls[k].word)) k++;
        if (k == CALLS) return 1;
        chart = read_number();
        other = calls[k].call == overlay ? read_number() : 0;
        length = calls[k].call == load ? read_number() : 0;
        if (chart > 1 || other > 1 || length > LOADED) return 1;
        for (size_t i = 0; i < length; i++) given[i] = (uint16_t)read_number();
        for (size_t i = 0; i < calls[k].operands; i++) *operands[i] = read_number();
        answer = number = 0;
        bytes = measured(calls[k].call);
        printf("%s %" PRIu32 " %" PRIu64 " %zu\n", word, number, answer, bytes);
    }
    return 0;
}
