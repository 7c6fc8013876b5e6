/* Two charts, the triangle under a point and where in it the point is, and every pair of triangles that share ground.
   cc overlay.c $(pkg-config --cflags --libs jirdtungsten) -o overlay */
#include <jirdtungsten_charts.h>
#include <stdio.h>

static jird_chart bed, design;
static uint16_t pairs[JIRD_PAIRS_LENGTH];

int main(void) {
    const uint16_t sounded[] = {0, 0, 65535, 0, 0, 65535, 65535, 65535, 0, 65535, 65535, 0};
    const uint16_t designed[] = {10000, 10000, 60000, 10000, 10000, 60000};
    jird_changed a = jird_chart_load(&bed, sounded, 12), b = jird_chart_load(&design, designed, 6);
    if (a.number != JIRD_DONE || b.number != JIRD_DONE) {
        fprintf(stderr, "load: %s; %s\n", jird_words(a.number), jird_words(b.number));
        return 1;
    }
    jird_located found = jird_chart_locate(&bed, 32768, 32767);
    printf("the bed at (32768, 32767): triangle %u, %s\n", (unsigned)found.triangle, jird_position_words(found.position));
    jird_overlaid o = jird_chart_overlay(&bed, &design, pairs);
    printf("%zu pairs, %zu meetings\n", o.pairs, o.meetings);
    for (size_t k = 0; k < o.pairs; k++) printf("bed %u, design %u\n", (unsigned)pairs[2 * k], (unsigned)pairs[2 * k + 1]);
    return 0;
}
