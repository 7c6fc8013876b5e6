/* options.h: the command line of helm-display. */
#ifndef OPTIONS_H
#define OPTIONS_H
#include "draw.h"

typedef enum { KIND_BY_CONTENT, KIND_STREAM, KIND_PAPER } input_kind;

typedef struct {
    const char *input;                  /* the file with the charts; null for standard input */
    input_kind kind;
    const char *output;                 /* the picture; "-" is standard output, null without -o */
    view view;
    bool has_head;
    uint16_t head_x, head_y;
    const char *title, *id;             /* null where they are not given */
    bool report, watch;
    bool ended;                         /* --help or --version: it is printed, and nothing is left to do */
} options;

/* Reads the command line: WELL, or WRONG after a message that says what is wrong and what is allowed. */
int read_options(options *o, int count, char **words);

#endif
