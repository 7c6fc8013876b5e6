/* colours.h: the colours by day (and on paper) and by night. */
#ifndef COLOURS_H
#define COLOURS_H

typedef struct { double r, g, b, a; } colour;

/* Where the cutter head is by the triangle of a chart. */
typedef enum { RING_INSIDE, RING_SIDE, RING_CORNER, RING_NOWHERE, RINGS } ring;

typedef struct {
    colour ground, text, grey, rule, tint;  /* page, letters, lesser letters, thin lines, every second row of the key */
    colour chart[2];                        /* bed, design */
    colour paired, under;                   /* filled: bed triangles with a pair, the triangle under the cutter head */
    colour shading, mark;                   /* lines over shared ground; crosshair and circles */
    colour ring[RINGS];                     /* around the cutter head, and the side or corner on which it sits */
    colour warning;                         /* words of a refusal */
} palette;

extern const palette by_day, by_night;

#endif
