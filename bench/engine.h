/* The hand-written engines of engine.c: the calls on a chart, with the same answers and the same checks as the library's. */
#ifndef ENGINE_H
#define ENGINE_H
#include "jirdtungsten_charts.h"

jird_changed plain_load(jird_chart *c, const uint16_t *numbers, size_t length);
jird_changed culled_load(jird_chart *c, const uint16_t *numbers, size_t length);
jird_changed plain_insert(jird_chart *c, uint16_t x, uint16_t y);
jird_changed culled_insert(jird_chart *c, uint16_t x, uint16_t y);
jird_located plain_locate(const jird_chart *c, uint16_t x, uint16_t y);
jird_windowed plain_window(const jird_chart *c, uint16_t left, uint16_t top, uint16_t right, uint16_t bottom, uint16_t *list);
jird_sounded plain_soundness(const jird_chart *c);
jird_overlaid plain_overlay(const jird_chart *bed, const jird_chart *design, uint16_t *pairs);

/* The calls of an earlier archive (before.c). */
jird_changed before_load(jird_chart *c, const uint16_t *numbers, size_t length);
jird_located before_locate(const jird_chart *c, uint16_t x, uint16_t y);
jird_sounded before_soundness(const jird_chart *c);
jird_overlaid before_overlay(const jird_chart *bed, const jird_chart *design, uint16_t *pairs);
#endif
