/* main.c: helm-display draws two charts, the ground that they share, the key and the cutter head, from the buffers that the proved
 * calls left. `helm-display --help` tells its use, docs/DISPLAY.md more. */
#define _POSIX_C_SOURCE 200809L
#include "numbers.h"
#include "options.h"
#include "output.h"
#include "report.h"
#include "say.h"
#include "source.h"
#include "watch.h"
#include <fcntl.h>
#include <signal.h>
#include <stdlib.h>
#include <string.h>
#include <unistd.h>

enum { MOST_TOLD = 20 };

/* A closed standard file would give its number to a file that is opened later: then it fails when it is used. */
static void keep_standard_files(void) {
    for (int file = STDIN_FILENO; file <= STDERR_FILENO; file++) {
        if (fcntl(file, F_GETFD) < 0 && open("/dev/null", file == STDIN_FILENO ? O_WRONLY : O_RDONLY) != file) exit(FAILED);
    }
}

static void tell_refusal(const refusal *was) {
    static const char *const commands[] = { "", "triangle", "load", "insert", "take-out", "flip", "locate", "overlay" };
    static const char *const charts[] = { [BED] = " bed", [DESIGN] = " design", [CHARTS] = "" };
    bool dropped = was->number == JIRD_BAD_LENGTH;
    say("%s%s at byte %zu: refused %u: %s", commands[was->command], charts[was->chart], was->offset, (unsigned)was->number,
        dropped ? "512 triangles wait already, and this one is dropped" : jird_words(was->number));
    if (was->number == JIRD_FAULTY_TRIANGLE) say("  it is triangle %zu of those that waited, counted from 0", was->value);
}

/* Tells what was refused, unless the paper foresees it, and where the stream is damaged; the status of it. */
static int tell_run(const stream_run *r, const source *from, const char *input) {
    bool told = r->refused && !from->foreseen;
    for (size_t k = 0; told && k < r->refused && k < MOST_TOLD; k++) tell_refusal(&r->kept[k]);
    if (told && r->refused > MOST_TOLD) say("%zu more were refused", r->refused - MOST_TOLD);
    if (told && from->is_paper && input) say("`chartkey %s` tells the lines of the paper", input);
    if (!r->bad) return told ? REFUSED : WELL;
    say("error: bad %zu: the stream is damaged from that byte on; the %zu commands before it are drawn", r->bad_at, r->commands);
    return FAILED;
}

/* What the command line says, before what the input does. */
static void complete(scene *s, const options *o, const source *from) {
    const char *slash = o->input ? strrchr(o->input, '/') : NULL;
    const char *name = slash ? slash + 1 : o->input ? o->input : "";
    s->title = o->title ? o->title : from->title ? from->title : is_text(name) ? name : "";
    s->id = o->id ? o->id : from->id ? from->id : "";
    if (o->has_head) set_head(s, o->head_x, o->head_y);
}

int main(int count, char **words) {
    static scene s;
    static drawn d;
    options o;
    stream_run r;
    source from;
    keep_standard_files();
    signal(SIGPIPE, SIG_DFL);
    int status = read_options(&o, count, words);
    if (status || o.ended) return status;
    status = run_input(&o, &s, &r, &from);
    if (status) return status;
    status = tell_run(&r, &from, o.input);
    complete(&s, &o, &from);
    int drawing = o.watch ? watch(&o, &s, &d) : write_picture(&s, &o.view, o.output, &d);
    if (o.report && drawing != WRONG && drawing != FAILED) drawing = higher(drawing, print_report(&s, &r, &o.view, &d));
    free(from.title);
    free(from.id);
    return higher(status, drawing);
}
