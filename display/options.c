/* options.c: the command line, by a table of options. */
#include "options.h"
#include "numbers.h"
#include "say.h"
#include <stdio.h>
#include <string.h>

enum { LEAST_WIDTH = 320, LEAST_HEIGHT = 200, MOST_WIDTH = 7680, MOST_HEIGHT = 4320, MOST_PAGE = 999 };

static const char help[] =
    "usage: helm-display [OPTIONS] [FILE]\n"
    "Draws two charts, the ground that they share, the key and the cutter head.\n"
    "FILE is a stream of commands or a paper; without it, or -, standard input.\n"
    "Text is a paper and is read by chartkey; a first byte below 9 is a stream's.\n"
    "  --bytes, --paper      FILE is a stream, FILE is a paper\n"
    "  -o PICTURE            .png, .svg or .pdf; - is standard output\n"
    "  --form png|svg|pdf    in place of the ending\n"
    "  --helm, --sheet       the helm's picture (.png, .svg) or a key sheet (.pdf)\n"
    "  --size WxH            helm: 320x200 to 7680x4320 pixels (default 1280x800)\n"
    "  --night               helm: dark\n"
    "  --a4, --a3            sheet: its paper (default A4), across\n"
    "  --portrait, --page N  sheet: upright; the page that a .png or .svg shows\n"
    "  --head X,Y            the cutter head (default: the newest locate of FILE)\n"
    "  --window X,Y,X,Y      left, top, right, bottom of what is shown\n"
    "  --cells               the leaf cells of both charts\n"
    "  --title TEXT          (default: the paper's, or the file's name)\n"
    "  --id TEXT             (default: the paper's)\n"
    "  --report              what is drawn from, as JSON on standard output\n"
    "  --watch               draw anew for each line `x y` of standard input, the\n"
    "                        newest first; the charts come from FILE\n"
    "  --version, --help\n"
    "exit status: 0 well, 1 something was refused, 2 wrong command line or paper,\n"
    "4 a file or a program failed, or the stream is damaged\n";

/* What was asked of the layout: options that go with one alone. */
typedef struct {
    options *to;
    bool has_form;
    const char *helm, *sheet;           /* the option that asks for it, or null */
} reading;

/* Each option takes its value, null where it has none: whether it could. */
static bool take_stream(reading *r, const char *value) { (void)value; r->to->kind = KIND_STREAM; return true; }
static bool take_paper(reading *r, const char *value) { (void)value; r->to->kind = KIND_PAPER; return true; }
static bool take_output(reading *r, const char *value) { r->to->output = value; return *value != 0; }
static bool take_helm(reading *r, const char *value) { (void)value; r->helm = "--helm"; return true; }
static bool take_sheet(reading *r, const char *value) { (void)value; r->sheet = "--sheet"; return true; }
static bool take_night(reading *r, const char *value) { (void)value; r->to->view.night = true; r->helm = "--night"; return true; }
static bool take_cells(reading *r, const char *value) { (void)value; r->to->view.cells = true; return true; }
static bool take_title(reading *r, const char *value) { r->to->title = value; return is_text(value); }
static bool take_id(reading *r, const char *value) { r->to->id = value; return is_text(value); }
static bool take_report(reading *r, const char *value) { (void)value; r->to->report = true; return true; }
static bool take_watch(reading *r, const char *value) { (void)value; r->to->watch = true; return true; }

/* The form by its name, or by the ending of the picture's; false if there is none. */
static bool form_named(const char *name, form *found) {
    static const char *const names[] = { [FORM_PNG] = "png", [FORM_SVG] = "svg", [FORM_PDF] = "pdf" };
    for (int k = 0; k < 3; k++) {
        if (strcmp(name, names[k]) == 0) {
            *found = (form)k;
            return true;
        }
    }
    return false;
}

static bool take_form(reading *r, const char *value) { return r->has_form = form_named(value, &r->to->view.form); }

static bool take_paper_size(reading *r, paper size, const char *name) {
    r->to->view.paper = size;
    r->sheet = name;
    return true;
}

static bool take_a4(reading *r, const char *value) { (void)value; return take_paper_size(r, PAPER_A4, "--a4"); }
static bool take_a3(reading *r, const char *value) { (void)value; return take_paper_size(r, PAPER_A3, "--a3"); }

static bool take_portrait(reading *r, const char *value) {
    (void)value;
    r->to->view.portrait = true;
    r->sheet = "--portrait";
    return true;
}

static bool take_page(reading *r, const char *value) {
    long page;
    r->sheet = "--page";
    if (!read_numbers(value, "", 1, MOST_PAGE, &page) || page < 1) return false;
    r->to->view.page = (int)page;
    return true;
}

static bool take_size(reading *r, const char *value) {
    long size[2];
    r->helm = "--size";
    if (!read_numbers(value, "x", 2, MOST_WIDTH, size)) return false;
    if (size[0] < LEAST_WIDTH || size[1] < LEAST_HEIGHT || size[1] > MOST_HEIGHT) return false;
    r->to->view.width = (int)size[0];
    r->to->view.height = (int)size[1];
    return true;
}

static bool take_head(reading *r, const char *value) {
    long at[2];
    if (!read_numbers(value, ",", 2, UINT16_MAX, at)) return false;
    r->to->has_head = true;
    r->to->head_x = (uint16_t)at[0];
    r->to->head_y = (uint16_t)at[1];
    return true;
}

static bool take_window(reading *r, const char *value) {
    long at[4];
    if (!read_numbers(value, ",", 4, UINT16_MAX, at) || at[0] >= at[2] || at[1] >= at[3]) return false;
    r->to->view.has_window = true;
    for (int k = 0; k < 4; k++) r->to->view.window[k] = (uint16_t)at[k];
    return true;
}

/* wants: what the value must be, null for an option without one */
static const struct {
    const char *name, *wants;
    bool (*take)(reading *, const char *);
} rows[] = {
    { "--bytes", NULL, take_stream },
    { "--paper", NULL, take_paper },
    { "-o", "the name of a picture", take_output },
    { "--form", "png, svg or pdf", take_form },
    { "--helm", NULL, take_helm },
    { "--sheet", NULL, take_sheet },
    { "--size", "WxH, from 320x200 to 7680x4320", take_size },
    { "--night", NULL, take_night },
    { "--a4", NULL, take_a4 },
    { "--a3", NULL, take_a3 },
    { "--portrait", NULL, take_portrait },
    { "--page", "a number from 1 to 999", take_page },
    { "--head", "X,Y, each 0 to 65535", take_head },
    { "--window", "X,Y,X,Y, each 0 to 65535: left, top, right, bottom, left below right and top below bottom", take_window },
    { "--cells", NULL, take_cells },
    { "--title", "a text in UTF-8 on one line", take_title },
    { "--id", "a text in UTF-8 on one line", take_id },
    { "--report", NULL, take_report },
    { "--watch", NULL, take_watch },
};

static int wrong(const char *what, const char *allowed) {
    say("error: %s: %s (helm-display --help tells more)", what, allowed);
    return WRONG;
}

static int settle_form(const reading *r) {
    options *o = r->to;
    if (r->has_form || !o->output) return WELL;
    if (strcmp(o->output, "-") == 0) return wrong("-o -", "wants --form png, svg or pdf");
    const char *dot = strrchr(o->output, '.');
    if (dot && form_named(dot + 1, &o->view.form)) return WELL;
    return wrong(o->output, "a picture's name ends with .png, .svg or .pdf, or --form says which it is");
}

static int settle_layout(const reading *r) {
    view *v = &r->to->view;
    if (r->helm && r->sheet) {
        say("error: %s is of the helm's picture and %s of a sheet, and one is drawn (helm-display --help tells more)", r->helm, r->sheet);
        return WRONG;
    }
    v->layout = r->sheet || (!r->helm && v->form == FORM_PDF) ? LAYOUT_SHEET : LAYOUT_HELM;
    return WELL;
}

/* What does not go together. */
static int settle_uses(const options *o) {
    bool to_output = o->output && strcmp(o->output, "-") == 0;
    if (!o->output && !o->report) return wrong("nothing to do", "give -o PICTURE, or --report");
    if (to_output && o->report) return wrong("-o - and --report", "both go to standard output; give the picture a name");
    if (o->watch && !o->input) return wrong("--watch", "reads points from standard input, so the charts come from a FILE");
    if (o->watch && (!o->output || to_output)) return wrong("--watch", "draws to a file: give -o PICTURE");
    return WELL;
}

static int settle(const reading *r) {
    int status = settle_form(r);
    if (!status) status = settle_layout(r);
    return status ? status : settle_uses(r->to);
}

/* The row of an option, and its value if it stands behind a `=`; -1 if there is no such option. */
static int row_of(const char *word, const char **value) {
    for (int k = 0; k < (int)(sizeof rows / sizeof *rows); k++) {
        size_t length = strlen(rows[k].name);
        if (strncmp(word, rows[k].name, length) != 0) continue;
        *value = word[length] == '=' ? word + length + 1 : NULL;
        if (word[length] == 0 || *value) return k;
    }
    return -1;
}

/* Takes the option at a place of the command line and moves on past its value. */
static int take_option(reading *r, char **words, int count, int *at) {
    const char *value;
    int row = row_of(words[*at], &value);
    if (row < 0) return wrong(words[*at], "there is no such option");
    if (!rows[row].wants && value) return wrong(rows[row].name, "takes no value");
    if (rows[row].wants && !value && *at + 1 < count) value = words[++*at];
    if ((!rows[row].wants || value) && rows[row].take(r, value)) return WELL;
    say("error: %s %s: it wants %s (helm-display --help tells more)", rows[row].name, value ? value : "at the end", rows[row].wants);
    return WRONG;
}

static bool printed(const char *word) {
    if (strcmp(word, "--help") == 0 || strcmp(word, "-h") == 0) return fputs(help, stdout), true;
    if (strcmp(word, "--version") == 0) return puts("helm-display " JIRD_VERSION), true;
    return false;
}

int read_options(options *o, int count, char **words) {
    reading r = { .to = o };
    bool named = false, plain = false;
    *o = (options){ .view = { .width = 1280, .height = 800, .page = 1 } };
    for (int at = 1; at < count; at++) {
        const char *word = words[at];
        if (!plain && strcmp(word, "--") == 0) {
            plain = true;
        } else if (!plain && word[0] == '-' && word[1]) {
            if ((o->ended = printed(word))) return WELL;
            int status = take_option(&r, words, count, &at);
            if (status) return status;
        } else if (named) {
            return wrong(word, "one FILE at a time");
        } else {
            named = true;
            o->input = strcmp(word, "-") == 0 ? NULL : word;
        }
    }
    return settle(&r);
}
