/* report.h: what is drawn from, and what was drawn, as JSON. */
#ifndef REPORT_H
#define REPORT_H
#include "options.h"
#include "stream.h"

/* Prints the report on standard output. WELL, or FAILED after a message. */
int print_report(const scene *s, const stream_run *r, const view *v, const drawn *d);

#endif
