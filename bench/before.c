/* The calls of an earlier archive of the library, beside those of this one in one process. bench/run.sh renames the archive's exports: what
   is jird_overlay there is before_jird_overlay here. Inserts and windows are none of its calls. */
#define jird_load before_jird_load
#define jird_locate before_jird_locate
#define jird_soundness before_jird_soundness
#define jird_overlay before_jird_overlay
#include "engine.h"

jird_changed before_load(jird_chart *c, const uint16_t *numbers, size_t length) { return jird_chart_load(c, numbers, length); }
jird_located before_locate(const jird_chart *c, uint16_t x, uint16_t y) { return jird_chart_locate(c, x, y); }
jird_sounded before_soundness(const jird_chart *c) { return jird_chart_soundness(c); }
jird_overlaid before_overlay(const jird_chart *bed, const jird_chart *design, uint16_t *pairs) {
    return jird_chart_overlay(bed, design, pairs);
}
