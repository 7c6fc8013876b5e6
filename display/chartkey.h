/* chartkey.h: runs chartkey, the one parser of papers. */
#ifndef CHARTKEY_H
#define CHARTKEY_H
#include <stdio.h>
#include <sys/types.h>

typedef struct {
    FILE *output;                       /* what it prints */
    pid_t process;
} chartkey_run;

/* Starts `chartkey FORM PAPER`, or with the text as its standard input where the paper is null. It is found by the variable
 * CHARTKEY, beside this program, in the folder two above it, or on the PATH. WELL, or FAILED after a message. */
int start_chartkey(chartkey_run *run, const char *form, const char *paper, FILE *text);

/* Waits for its end; its exit status, or FAILED after a message if it was ended by a signal. */
int end_chartkey(chartkey_run *run);

/* The title and the id out of what `chartkey --json` prints; null where there is none. To be freed. Reads to the end. */
void read_names(FILE *json, char **title, char **id);

#endif
