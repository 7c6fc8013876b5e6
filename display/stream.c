/* stream.c: document 01's stream of commands, run by the exported calls. */
#include "stream.h"
#include <errno.h>
#include <string.h>

enum { TRIANGLE = 1, LOAD, INSERT, TAKE_OUT, FLIP, LOCATE, OVERLAY };
enum { MOST_OPERANDS = 12 };

/* How many bytes the operands of each command are. */
static const unsigned char operand_bytes[] = {
    [TRIANGLE] = 12, [LOAD] = 1, [INSERT] = 5, [TAKE_OUT] = 5, [FLIP] = 5, [LOCATE] = 5, [OVERLAY] = 0,
};

/* The triangles that wait to be loaded. */
typedef struct {
    uint16_t numbers[JIRD_TABLE_LENGTH];
    size_t length;
} waiting_table;

/* One command: its bytes as they were read. */
typedef struct {
    size_t offset;
    int code;
    unsigned char operands[MOST_OPERANDS];
} command;

static bool takes_chart(int code) { return code >= LOAD && code <= LOCATE; }

/* The 16-bit operand at a place, counted after the chart; low byte first. */
static uint16_t word(const command *c, size_t place) {
    size_t at = 2 * place + (takes_chart(c->code) ? 1 : 0);
    return (uint16_t)(c->operands[at] | c->operands[at + 1] << 8);
}

static void note_refusal(stream_run *r, refusal what) {
    if (r->refused < MOST_KEPT) r->kept[r->refused] = what;
    r->refused++;
}

static void run_triangle(const command *c, waiting_table *waiting, stream_run *r) {
    if (waiting->length == JIRD_TABLE_LENGTH) {
        note_refusal(r, (refusal){ c->offset, TRIANGLE, CHARTS, JIRD_BAD_LENGTH, 0 });
        return;
    }
    for (size_t k = 0; k < 6; k++) waiting->numbers[waiting->length++] = word(c, k);
}

static jird_changed run_event(const command *c, jird_chart *chart, waiting_table *waiting) {
    switch (c->code) {
    case LOAD: {
        size_t length = waiting->length;
        waiting->length = 0;
        return jird_chart_load(chart, waiting->numbers, length);
    }
    case INSERT: return jird_chart_insert(chart, word(c, 0), word(c, 1));
    case TAKE_OUT: return jird_chart_take_out(chart, word(c, 0), word(c, 1));
    default: return jird_chart_flip(chart, word(c, 0), word(c, 1));
    }
}

static void run_command(const command *c, waiting_table *waiting, scene *s, stream_run *r) {
    if (c->code == TRIANGLE) {
        run_triangle(c, waiting, r);
    } else if (c->code == LOCATE) {
        s->has_head = true;
        s->head_x = word(c, 0);
        s->head_y = word(c, 1);
    } else if (c->code != OVERLAY) {
        int chart = c->operands[0];
        jird_changed changed = run_event(c, &s->charts[chart], waiting);
        s->refused[chart] = changed.number;
        if (changed.number) note_refusal(r, (refusal){ c->offset, c->code, chart, changed.number, changed.value });
    }
}

/* The next command. False at the end of the stream, or if it is not whole: then the run says where. */
static bool read_command(FILE *from, size_t offset, command *c, stream_run *r) {
    c->offset = offset;
    c->code = getc(from);
    if (c->code != EOF) {
        bool known = c->code >= TRIANGLE && c->code <= OVERLAY;
        size_t wanted = known ? operand_bytes[c->code] : 0;
        bool whole = known && fread(c->operands, 1, wanted, from) == wanted;
        if (whole && !(takes_chart(c->code) && c->operands[0] > DESIGN)) return true;
        r->bad = true;
        r->bad_at = offset;
    }
    if (ferror(from)) r->trouble = errno;
    return false;
}

void set_head(scene *s, uint16_t x, uint16_t y) {
    s->has_head = true;
    s->head_x = x;
    s->head_y = y;
    for (int c = 0; c < CHARTS; c++) s->found[c] = jird_chart_locate(&s->charts[c], x, y);
}

void run_stream(FILE *from, scene *s, stream_run *r) {
    static waiting_table waiting;
    command c;
    size_t offset = 0;
    memset(r, 0, sizeof *r);
    waiting.length = 0;
    for (int k = 0; k < CHARTS; k++) s->refused[k] = jird_chart_load(&s->charts[k], waiting.numbers, 0).number;
    for (; read_command(from, offset, &c, r); r->commands++) {
        run_command(&c, &waiting, s, r);
        offset += 1u + operand_bytes[c.code];
    }
    s->overlay = jird_chart_overlay(&s->charts[BED], &s->charts[DESIGN], s->pairs);
    if (s->overlay.number) note_refusal(r, (refusal){ offset, OVERLAY, CHARTS, s->overlay.number, 0 });
    if (s->has_head) set_head(s, s->head_x, s->head_y);
}
