/* output.h: draws a scene to a file, and tells if it cannot, or if a window was refused. */
#ifndef OUTPUT_H
#define OUTPUT_H
#include "draw.h"

/* Draws to the path, "-" for standard output; null draws for the report alone. WELL; after a message REFUSED if it is drawn without a
 * chart whose window was refused, WRONG if the sheet has no such page, else FAILED. */
int write_picture(const scene *s, const view *v, const char *path, drawn *d);

#endif
