/* source.c: opens the input, tells a paper from a stream, and has papers read by chartkey. */
#define _POSIX_C_SOURCE 200809L
#include "source.h"
#include "chartkey.h"
#include "say.h"
#include <errno.h>
#include <string.h>
#include <sys/stat.h>

static const char *name_of(const options *o) { return o->input ? o->input : "standard input"; }

static int cannot_read(const options *o, int why) {
    say("error: cannot read %s: %s", name_of(o), strerror(why));
    return FAILED;
}

/* Whether the input is a paper: as the command line says, or by its first byte. No text has one below 9. */
static bool is_paper(const options *o, FILE *input) {
    if (o->kind != KIND_BY_CONTENT) return o->kind == KIND_PAPER;
    int first = getc(input);
    if (first != EOF) ungetc(first, input);
    return first != EOF && first >= 9;
}

/* Whether it can be opened and read again by its name. */
static bool is_plain(FILE *input) {
    struct stat what;
    return fstat(fileno(input), &what) == 0 && S_ISREG(what.st_mode);
}

/* The rest of a file in one without a name, so that chartkey can read it twice. Null if it cannot be. */
static FILE *kept(FILE *input) {
    char part[1 << 16];
    size_t length;
    FILE *copy = tmpfile();
    if (!copy) return NULL;
    while ((length = fread(part, 1, sizeof part, input)) > 0) {
        if (fwrite(part, 1, length, copy) != length) break;
    }
    if (!ferror(input) && fflush(copy) == 0 && !ferror(copy)) return copy;
    int why = errno;
    fclose(copy);
    errno = why;
    return NULL;
}

/* A paper, by its name or as a text: chartkey makes a stream of it, and tells its title, its id, and whether it expects what is
 * refused. */
static int run_paper(const options *o, FILE *text, scene *s, stream_run *r, source *from) {
    const char *paper = text ? NULL : o->input;
    chartkey_run run;
    int status = start_chartkey(&run, "--bytes", paper, text);
    if (status) return status;
    run_stream(run.output, s, r);
    status = end_chartkey(&run);
    if (status) return status;
    from->is_paper = true;
    if (start_chartkey(&run, "--json", paper, text)) return FAILED;
    read_names(run.output, &from->title, &from->id);
    status = end_chartkey(&run);
    from->foreseen = status == WELL;
    if (status == FAILED) say("note: without title and id of the paper, for chartkey cannot run the command program (make run builds it)");
    return WELL;
}

/* A paper that can be read once only, from a pipe. */
static int run_piped_paper(const options *o, FILE *input, scene *s, stream_run *r, source *from) {
    FILE *text = kept(input);
    if (!text) return cannot_read(o, errno);
    int status = run_paper(o, text, s, r, from);
    fclose(text);
    return status;
}

int run_input(const options *o, scene *s, stream_run *r, source *from) {
    FILE *input = o->input ? fopen(o->input, "rb") : stdin;
    memset(from, 0, sizeof *from);
    if (!input) return cannot_read(o, errno);
    bool paper = is_paper(o, input);
    int status = WELL;
    if (ferror(input)) {
        status = cannot_read(o, errno);
    } else if (!paper) {
        run_stream(input, s, r);
        if (r->trouble) status = cannot_read(o, r->trouble);
    } else {
        bool piped = !o->input || !is_plain(input);
        status = piped ? run_piped_paper(o, input, s, r, from) : run_paper(o, NULL, s, r, from);
    }
    if (o->input) fclose(input);
    return status;
}
