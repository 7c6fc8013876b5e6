/* watch.c: draws the picture anew for each point of the cutter head. */
#define _POSIX_C_SOURCE 200809L
#include "watch.h"
#include "numbers.h"
#include "output.h"
#include "say.h"
#include "stream.h"
#include <errno.h>
#include <poll.h>
#include <signal.h>
#include <stdio.h>
#include <string.h>
#include <time.h>
#include <unistd.h>

enum { MOST_LINE = 256, MOST_TOLD = 20, PORTION = 1 << 16, MOST_WAITING = 1 << 20 };

/* Lines as they come, and what became of them. */
typedef struct {
    char line[MOST_LINE + 1];
    size_t length;                      /* of the line so far; above MOST_LINE it is too long */
    bool fresh;                         /* whether a point waits to be drawn, */
    long x, y;                          /* and which */
    unsigned long lines, points, passed_over, no_points, pictures;
    double drawing, told;               /* seconds spent drawing, and when it was last told how far it is */
} watching;

static volatile sig_atomic_t stopped;

static void stop(int signal_number) { stopped = signal_number; }

static double seconds(void) {
    struct timespec now;
    clock_gettime(CLOCK_MONOTONIC, &now);
    return (double)now.tv_sec + 1e-9 * (double)now.tv_nsec;
}

/* ---- points */

/* Two numbers with blanks or a comma between them, and blanks around. */
static bool read_point(char *line, long at[2]) {
    char *start = line + strspn(line, " \t"), *end = start + strlen(start);
    while (end > start && strchr(" \t\r", end[-1])) *--end = 0;
    char *gap = start + strspn(start, "0123456789");
    size_t blanks = strspn(gap, " \t"), comma = gap[blanks] == ',';
    size_t width = blanks + comma + (comma ? strspn(gap + blanks + 1, " \t") : 0);
    if (width == 0) return false;
    memset(gap, ' ', width);
    memmove(gap + 1, gap + width, strlen(gap + width) + 1);
    return read_numbers(start, " ", 2, UINT16_MAX, at);
}

static void end_line(watching *w) {
    long at[2];
    bool whole = w->length <= MOST_LINE && !memchr(w->line, 0, w->length);
    w->line[whole ? w->length : 0] = 0;
    w->length = 0;
    w->lines++;
    if (whole && read_point(w->line, at)) {
        w->points++;
        w->passed_over += w->fresh;
        w->fresh = true;
        w->x = at[0];
        w->y = at[1];
    } else if (w->no_points++ < MOST_TOLD) {
        say("line %lu is no point: two numbers are wanted, each 0 to 65535, as `x y` or `x,y`; it is passed over", w->lines);
    }
}

static void take_bytes(watching *w, const char *bytes, size_t length) {
    for (size_t k = 0; k < length; k++) {
        if (bytes[k] == '\n') {
            end_line(w);
        } else if (w->length < MOST_LINE) {
            w->line[w->length++] = bytes[k];
        } else {
            w->length = MOST_LINE + 1;
        }
    }
}

/* Waits for input and takes all that is there. False when there will be no more. */
static bool take_input(watching *w, int *status) {
    char portion[PORTION];
    struct pollfd input = { .fd = STDIN_FILENO, .events = POLLIN };
    for (size_t taken = 0; taken < MOST_WAITING;) {
        int ready = poll(&input, 1, taken ? 0 : -1);
        if (stopped) return false;
        if (ready == 0) break;
        ssize_t length = ready < 0 ? -1 : read(STDIN_FILENO, portion, sizeof portion);
        if (length < 0 && errno == EINTR) continue;
        if (length < 0) {
            say("error: cannot read points from standard input: %s", strerror(errno));
            *status = FAILED;
        }
        if (length <= 0) {
            if (w->length) end_line(w);
            return false;
        }
        take_bytes(w, portion, (size_t)length);
        taken += (size_t)length;
    }
    return true;
}

/* ---- how far it is */

static void tell_progress(watching *w, const scene *s) {
    bool terminal = isatty(STDERR_FILENO);
    double now = seconds();
    if (now - w->told < (terminal ? 0.1 : 10.0)) return;
    w->told = now;
    fprintf(stderr, "%swatch  %lu drawn  %lu passed over  head %u %u%s", terminal ? "\r" : "", w->pictures, w->passed_over,
        (unsigned)s->head_x, (unsigned)s->head_y, terminal ? "  " : "\n");
    fflush(stderr);
}

static void tell_tally(const watching *w) {
    if (w->pictures && isatty(STDERR_FILENO)) fputc('\n', stderr);
    say("%lu points read, %lu drawn, %lu passed over for newer ones, %lu lines were no point", w->points, w->pictures,
        w->passed_over + w->fresh, w->no_points);
    if (w->pictures && w->drawing > 0) say("%.1f pictures a second while drawing", (double)w->pictures / w->drawing);
}

/* ---- drawing */

static int draw_point(const options *o, scene *s, drawn *d, watching *w) {
    double start = seconds();
    set_head(s, (uint16_t)w->x, (uint16_t)w->y);
    int status = write_picture(s, &o->view, o->output, d);
    w->drawing += seconds() - start;
    if (status > REFUSED) return status;
    w->fresh = false;
    w->pictures++;
    tell_progress(w, s);
    return status;
}

int watch(const options *o, scene *s, drawn *d) {
    static watching w;
    struct sigaction by_stop = { .sa_handler = stop };
    sigaction(SIGINT, &by_stop, NULL);
    sigaction(SIGTERM, &by_stop, NULL);
    w.told = seconds();
    int status = write_picture(s, &o->view, o->output, d);
    for (bool more = true; more && status <= REFUSED && !stopped;) {
        more = take_input(&w, &status);
        if (w.fresh && !stopped) status = higher(status, draw_point(o, s, d, &w));
    }
    tell_tally(&w);
    return stopped ? 128 + (int)stopped : status;
}
