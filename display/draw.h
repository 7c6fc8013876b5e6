/* draw.h: one drawing of a scene, for PNG, SVG and PDF. */
#ifndef DRAW_H
#define DRAW_H
#include "scene.h"

typedef enum { FORM_PNG, FORM_SVG, FORM_PDF } form;
typedef enum { LAYOUT_HELM, LAYOUT_SHEET } layout;
typedef enum { PAPER_A4, PAPER_A3 } paper;

typedef struct {
    form form;
    layout layout;
    int width, height;                  /* helm: pixels */
    paper paper;                        /* sheet: its size, */
    bool portrait;                      /* upright or not, */
    int page;                           /* and for PNG and SVG the page that is drawn, from 1; PDF has them all */
    bool night, cells;
    bool has_window;                    /* else the window is chosen: sheet, the charts' extent; helm, around the head */
    uint16_t window[4];                 /* left, top, right, bottom in grid units */
} view;

/* What was drawn: filled by draw_scene, printed by --report. */
typedef struct {
    double window[4];                   /* left, top, right, bottom in grid units as drawn */
    double plan[4];                     /* the plan's frame: left, top, right, bottom in pixels (helm) or millimetres (sheet) */
    uint16_t rectangle[4];              /* the window call was asked for this: left, top, right, bottom, */
    jird_windowed windowed[CHARTS];     /* answered this of each chart, */
    uint16_t list[CHARTS][JIRD_WINDOW_LENGTH];        /* and listed these triangles */
    int pages;
    bool label_set[CHARTS][JIRD_MOST_TRIANGLES];      /* the number of this triangle stands in it */
    bool label_wanted[CHARTS][JIRD_MOST_TRIANGLES];   /* it lies in the window, in part or whole */
    double label_at[CHARTS][JIRD_MOST_TRIANGLES][2];  /* where, in grid units */
} drawn;

/* Draws the scene to the file; "-" is standard output. Null when it is done, else what went wrong, in words. */
const char *draw_scene(const scene *s, const view *v, const char *path, drawn *d);

#endif
