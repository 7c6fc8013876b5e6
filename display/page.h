/* page.h: what the parts of the drawing code share. Lengths are page units: millimetres (sheet) or pixels (helm). */
#ifndef PAGE_H
#define PAGE_H
#include "colours.h"
#include "draw.h"
#include <cairo.h>

enum { MOST = JIRD_MOST_TRIANGLES, MOST_SIDES = 3 * MOST, MOST_CORNERS = 12, STEPS = 8, LAST_PLACE = 65535 };

#define SLANT 0.21                      /* of slanted letters: across for each unit up */

typedef struct { double x, y; } point;
typedef struct { double left, top, right, bottom; } box;
typedef struct { int n; point at[MOST_CORNERS]; } shape;                 /* a convex polygon */
typedef struct { int32_t ax, ay, bx, by; bool listed; } side;            /* in grid units; whether it is of a triangle that is listed */
typedef struct { double size; bool bold, slanted; colour ink; } letter;
typedef struct { double height; bool framed; } step;                     /* one size that a label may have */

/* Sizes of what stands in a plan. */
typedef struct {
    double line[CHARTS], underline, dash[2];
    double under[CHARTS];                   /* sides of the triangle under the cutter head; 0 if they are as the others */
    double dot, square;                     /* corners: radius, half a side */
    double gap, shade, strength;            /* shading lines: distance, width, how dark */
    double cell, head, band;                /* width of a cell's side, size of the cutter head, width of the side on which it sits */
    double text, tick, apart;               /* letters of the axes, length of a tick, least distance of two */
    double border, pad;                     /* width of the frame, what is kept free around labels */
    double unit;                            /* 1 on a sheet; at the helm what stands for a pixel of 1280 by 800 */
    double least_ground;                    /* shared ground under this is marked, in square page units */
} style;

typedef struct { long line; double from, to; } stretch;                  /* a part of one of many parallel lines */
typedef struct { stretch *at; size_t n, room; } stretches;

typedef struct { int chart; size_t triangle; point at; step as; } label;

typedef struct {
    cairo_t *to;
    const scene *s;
    const view *v;
    drawn *d;
    const palette *ink;
    cairo_font_face_t *plain, *bold;
    char title[512], id[256];               /* cleaned */
    double width, height;
    style style;
    box window, frame;
    double scale;                           /* page units in a grid unit */
    size_t triangles[CHARTS], in_view[CHARTS], pairs;
    bool listed[CHARTS][MOST];              /* whether the window call listed the triangle: of others nothing is drawn in the plan */
    shape seen[CHARTS][MOST];               /* each triangle, as far as it is in the window */
    bool paired[CHARTS][MOST];
    unsigned char direction[MOST];          /* of the shading lines of each design triangle */
    bool small[JIRD_MOST_PAIRS];            /* the pair's shared ground is under style.least_ground */
    point small_at[JIRD_MOST_PAIRS];
    size_t smalls;
    side sides[CHARTS][MOST_SIDES];         /* each once */
    side common[CHARTS * MOST_SIDES];       /* what both charts have of them */
    size_t side_count[CHARTS], common_count;
    label labels[CHARTS * MOST];
    size_t label_count, left_out[CHARTS];
    double most_height[CHARTS];             /* of labels without frames on a sheet */
    const char *fault;                      /* what went wrong, null if nothing */
} page;

/* sink.c: bytes are gathered, then written at once. */
typedef struct { unsigned char *at; size_t n, room; } sink;
bool sink_add(sink *k, const unsigned char *bytes, size_t n);
const char *sink_write(const sink *k, const char *path);

/* surface.c: what is drawn on, for each form. */
cairo_surface_t *surface_open(page *p, double dots, sink *out);
cairo_surface_t *surface_scratch(page *p);
const char *surface_close(page *p, cairo_surface_t *surface, sink *out);

/* png.c: the image as bytes; false if there is no memory. */
bool png_write(cairo_surface_t *s, double dots_in_metre, sink *out);

/* shapes.c */
point corner(const page *p, int chart, size_t i, int k);                 /* of a triangle, in grid units */
point on_page(const page *p, point grid);
point on_grid(const page *p, point at);
shape triangle_shape(const page *p, int chart, size_t i);                /* on the page, whole */
shape cut(shape s, point a, point b, double keep);
shape cut_by_box(shape s, box b);
shape cut_by_shape(shape s, shape by);
double shape_area(const shape *s);                                       /* signed */
point shape_middle(const shape *s);
point incentre(const shape *t);
double inradius(const shape *t);
bool clip_segment(box b, point *from, point *to);
box grown(box b, double by);
void trace(const page *p, const shape *s);                               /* adds it to the path */
void ink(const page *p, colour c);
void ink_at(const page *p, colour c, double strength);

/* sides.c */
void find_sides(page *p, int chart);
void find_common_sides(page *p);
void paint_bed_sides(const page *p);
void paint_design_sides(const page *p);
void paint_triangle_sides(const page *p, int chart, size_t i, double width);
double side_reach(const page *p);                                        /* sides are drawn so far beyond the frame, */
double corner_reach(const page *p);                                      /* and corners */

/* stretches.c */
bool stretch_add(page *p, stretches *all, long line, double from, double to);
void stretches_join(stretches *all);

/* ground.c: shared ground of the pairs, for shading alone. */
void find_directions(page *p);
void find_small_grounds(page *p);
void paint_shading(page *p);
void paint_lines_in(page *p, const shape *s, int direction);             /* a sample, for the legend */
void paint_small_grounds(const page *p);
double mark_radius(const page *p);                                       /* 0 if small grounds are not marked */

/* cells.c */
void paint_cells(page *p, int chart);

/* labels.c, placing.c */
void place_labels(page *p);
double median_inradius(const page *p, int chart);
void find_label_sizes(page *p);
int label_steps(const page *p, int chart, bool first, step out[STEPS]);
void paint_labels(const page *p, bool halos);
void paint_halo(const page *p, const label *l, const char *number);
void paint_label(const page *p, const label *l, const char *number, size_t digits);
double half_width(int chart, step as, size_t digits);
double half_height(int chart, step as, double half_width);

/* window.c */
void list_window(page *p);
bool window_refused(const page *p);
void paint_refused_window(const page *p);

/* plan.c */
box charts_extent(const page *p);
bool plan_ready(page *p, box area, box window, bool fill_area);
void paint_plan(page *p);
void paint_overview(page *p, box where);
size_t under_head(const page *p, int chart);                             /* the triangle; MOST if there is none, */
size_t listed_under_head(const page *p, int chart);                      /* or if it is not listed */

/* axes.c */
double tick_step(double scale, double apart);
void paint_axes(const page *p);
double paint_scale_bar(const page *p, double y);
void paint_below(const page *p, double y);

/* head.c */
ring ring_of(const page *p, int chart);
void paint_head(const page *p, point at, double size);
void paint_boundary(const page *p, int chart);
double paint_ring_sample(const page *p, double x, double y, double size, ring form);
double paint_rings(const page *p, box where, double pitch, letter l);

/* text.c */
void text_clean(char *out, size_t room, const char *in);
char *text_grouped(char out[32], unsigned long n);
double text_width(const page *p, const char *text, letter l);
double text_at(const page *p, double x, double y, double align, const char *text, letter l);
double text_fitted(const page *p, double x, double y, double align, double width, const char *text, letter l);
double text_block(const page *p, box where, double pitch, const char *text, letter l);
const char *text_line(const page *p, const char *text, double width, letter l, char *out, size_t room);
void text_path_at(const page *p, double x, double y, const char *text, letter l);

/* legend.c */
double paint_legend(page *p, double x, double y, double width);

/* sheet.c, helm.c */
const char *draw_sheet(page *p, sink *out);
const char *draw_helm(page *p, sink *out);

#endif
