/* source.h: where the charts come from: a stream of commands, or a paper that chartkey makes a stream of. */
#ifndef SOURCE_H
#define SOURCE_H
#include "options.h"
#include "stream.h"

/* What is known of the input besides its commands. */
typedef struct {
    bool is_paper;
    bool foreseen;                      /* chartkey says that the paper expects every refusal */
    char *title, *id;                   /* of the paper; null where it has none, or is none. To be freed */
} source;

/* Reads and runs the input of the command line. WELL if there is something to draw, damaged streams among them; else the status to
 * end with, after a message. */
int run_input(const options *o, scene *s, stream_run *r, source *from);

#endif
