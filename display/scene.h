/* scene.h: what is drawn. Tables, entries, pairs and triangles found are those that the proved calls left; nothing else is. */
#ifndef SCENE_H
#define SCENE_H
#include "jirdtungsten_charts.h"
#include <stdbool.h>

enum { BED, DESIGN, CHARTS };

typedef struct {
    jird_chart charts[CHARTS];
    uint32_t refused[CHARTS];           /* the number of the last load or edit of the chart, 0 if it was accepted */
    jird_overlaid overlay;              /* of the bed and the design */
    uint16_t pairs[JIRD_PAIRS_LENGTH];
    bool has_head;                      /* whether the point of the cutter head is known */
    uint16_t head_x, head_y;
    jird_located found[CHARTS];         /* under the head */
    const char *title, *id;             /* never null */
} scene;

#endif
