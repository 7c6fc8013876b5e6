/* stream.h: document 01's stream of commands, run by the exported calls. */
#ifndef STREAM_H
#define STREAM_H
#include "scene.h"
#include <stdio.h>

enum { MOST_KEPT = 64 };

/* A command that was refused. */
typedef struct {
    size_t offset;                      /* of its command byte */
    int command;                        /* 1 to 5, or 7 for the overlay in the end */
    int chart;                          /* BED or DESIGN, CHARTS where it has none */
    uint32_t number;
    size_t value;                       /* at JIRD_FAULTY_TRIANGLE the triangle, else 0 */
} refusal;

/* What became of a stream. */
typedef struct {
    size_t commands;                    /* whole ones, all of which were run */
    bool bad;                           /* whether it is damaged, */
    size_t bad_at;                      /* and the offset of the first command byte that is not of a whole command */
    int trouble;                        /* errno of a failed read, or 0 */
    size_t refused;                     /* how many commands were refused, */
    refusal kept[MOST_KEPT];            /* and the first of them */
} stream_run;

/* Runs the commands of a stream, to its end or to the first that is damaged, on two charts that start as empty tables, and lays one
 * over the other. The newest locate is the head. Title and id are left as they are. */
void run_stream(FILE *from, scene *s, stream_run *r);

/* Sets the head, and the triangles that locate finds under it. */
void set_head(scene *s, uint16_t x, uint16_t y);

#endif
