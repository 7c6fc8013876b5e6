/* watch.h: draws the picture anew for each point of the cutter head. */
#ifndef WATCH_H
#define WATCH_H
#include "options.h"

/* Reads points from standard input until it ends, or Ctrl-C. The charts of the scene and their overlay stay; each point is
 * located and drawn. Where several lines wait the newest wins. The exit status, after a tally on standard error. */
int watch(const options *o, scene *s, drawn *d);

#endif
