/* key.h: the key by bed triangle, as lines that flow through columns. */
#ifndef KEY_H
#define KEY_H
#include "page.h"

typedef enum { ROW, MORE, HEADING, NOTE, WORDS, GAP } line_kind;       /* MORE continues a row */

typedef struct {
    line_kind kind;
    size_t from, to, count;             /* rows: the pairs on this line, and how many the bed triangle has */
    bool tinted;
    char text[160];                     /* the others */
} line;

typedef struct {
    line *at;
    size_t n, room;
    double row, width;                  /* height of a row, width of the column */
} listing;

bool key_lines(page *p, listing *k);    /* fills it anew, for its row and width */
double line_height(const listing *k, const line *l);
void paint_line(const page *p, const listing *k, const line *l, double x, double y);
void paint_key_head(const page *p, const listing *k, double x, double y, const char *words);

#endif
