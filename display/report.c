/* report.c: what is drawn from, and what was drawn, as JSON. Keys always stand in this order:
 *   format     "helm-display/1"
 *   engine     the version of the headers
 *   title, id  as they are drawn
 *   commands   how many whole commands the stream has, all of which were run
 *   bad        the offset of the command byte at which the stream is damaged, or null
 *   refused    how many commands were refused, the overlay in the end among them
 *   refusals   the first 64 of them: offset, command (document 01's byte), chart (or null), number, value (of 5 the triangle)
 *   charts     for bed and design: refused (the number of the last load or edit), triangles, table (six numbers for each), entries,
 *              cells (key, level, item for each entry; the item 65535 is a cell that no triangle meets)
 *   overlay    number, pairs (how many), meetings, key (bed and design triangle of each pair)
 *   head       x and y, or null
 *   found      for bed and design: number, triangle (null for nowhere), position (0 inside, 1 to 3 on side ab, bc, ca, 4 to 6 at corner
 *              a, b, c, 7 outside); null without a head
 *   windowed   what the plan is drawn by: rectangle (left, top, right, bottom), and what the window call answered for it, for bed and
 *              design: number, triangles (those listed)
 *   picture    form, layout, size (width, height), window (left, top, right, bottom in grid units), plan (the same of its frame), pages,
 *              labels; size and plan are in pixels of the helm's picture or millimetres of a sheet. labels has for bed and
 *              design: set (triangle and place in grid units of each number that stands in the plan), left_out (triangles in the
 *              window whose number has no room)
 * Tables, cells, overlay, found and windowed are what the proved calls left. */
#include "report.h"
#include "say.h"
#include <errno.h>
#include <string.h>

static const char *const chart_names[] = { [BED] = "bed", [DESIGN] = "design" };

/* A number without a part behind the point where it has none, else with three digits of it. */
static void put_real(double number) {
    if (number >= -1e9 && number <= 1e9 && number == (double)(long)number) {
        printf("%ld", (long)number);
    } else {
        printf("%.3f", number);
    }
}

static void put_reals(const double *numbers, int count) {
    for (int k = 0; k < count; k++) {
        fputs(k ? ", " : "[", stdout);
        put_real(numbers[k]);
    }
    putchar(']');
}

static void put_text(const char *text) {
    putchar('"');
    for (; *text; text++) {
        unsigned char byte = (unsigned char)*text;
        if (byte == '"' || byte == '\\') {
            printf("\\%c", byte);
        } else if (byte < 0x20) {
            printf("\\u%04x", byte);
        } else {
            putchar(byte);
        }
    }
    putchar('"');
}

/* Before each part of a list but the first. */
static void put_comma(size_t place) {
    if (place) fputs(", ", stdout);
}

/* ---- the stream */

static void put_refusals(const stream_run *r) {
    printf(" \"refused\": %zu,\n \"refusals\": [", r->refused);
    for (size_t k = 0; k < r->refused && k < MOST_KEPT; k++) {
        const refusal *was = &r->kept[k];
        put_comma(k);
        printf("{\"offset\": %zu, \"command\": %d, \"chart\": ", was->offset, was->command);
        if (was->chart < CHARTS) put_text(chart_names[was->chart]);
        else fputs("null", stdout);
        printf(", \"number\": %u, \"value\": %zu}", (unsigned)was->number, was->value);
    }
    fputs("],\n", stdout);
}

static void put_stream(const stream_run *r) {
    printf(" \"commands\": %zu,\n \"bad\": ", r->commands);
    if (r->bad) printf("%zu,\n", r->bad_at);
    else fputs("null,\n", stdout);
    put_refusals(r);
}

/* ---- the charts */

static void put_table(const jird_chart *c) {
    for (size_t i = 0; i < c->triangles; i++) {
        const uint16_t *t = &c->table[6 * i];
        put_comma(i);
        printf("[%u, %u, %u, %u, %u, %u]", t[0], t[1], t[2], t[3], t[4], t[5]);
    }
}

static void put_chart(const scene *s, int chart) {
    const jird_chart *c = &s->charts[chart];
    printf("  \"%s\": {\"refused\": %u,\n", chart_names[chart], (unsigned)s->refused[chart]);
    printf("   \"triangles\": %zu, \"table\": [", c->triangles);
    put_table(c);
    printf("],\n   \"entries\": %zu, \"cells\": [", c->entries);
    for (size_t k = 0; k < c->entries; k++) {
        put_comma(k);
        printf("[%lu, %u, %u]", (unsigned long)c->keys[k], c->levels[k], c->items[k]);
    }
    fputs("]}", stdout);
}

static void put_overlay(const scene *s) {
    printf(" \"overlay\": {\"number\": %u, \"pairs\": %zu, \"meetings\": %zu, \"key\": [", (unsigned)s->overlay.number, s->overlay.pairs,
        s->overlay.meetings);
    for (size_t k = 0; k < s->overlay.pairs; k++) {
        put_comma(k);
        printf("[%u, %u]", s->pairs[2 * k], s->pairs[2 * k + 1]);
    }
    fputs("]},\n", stdout);
}

static void put_head(const scene *s) {
    if (!s->has_head) {
        fputs(" \"head\": null,\n \"found\": null,\n", stdout);
        return;
    }
    printf(" \"head\": [%u, %u],\n \"found\": {", s->head_x, s->head_y);
    for (int c = 0; c < CHARTS; c++) {
        put_comma((size_t)c);
        printf("\"%s\": {\"number\": %u, \"triangle\": ", chart_names[c], (unsigned)s->found[c].number);
        if (s->found[c].triangle == JIRD_NOWHERE) fputs("null", stdout);
        else printf("%u", (unsigned)s->found[c].triangle);
        printf(", \"position\": %u}", (unsigned)s->found[c].position);
    }
    fputs("},\n", stdout);
}

static void put_windowed(const drawn *d) {
    const uint16_t *r = d->rectangle;
    printf(" \"windowed\": {\"rectangle\": [%u, %u, %u, %u]", r[0], r[1], r[2], r[3]);
    for (int c = 0; c < CHARTS; c++) {
        printf(",\n  \"%s\": {\"number\": %u, \"triangles\": [", chart_names[c], (unsigned)d->windowed[c].number);
        for (size_t k = 0; k < d->windowed[c].listed; k++) {
            put_comma(k);
            printf("%u", d->list[c][k]);
        }
        fputs("]}", stdout);
    }
    fputs("},\n", stdout);
}

/* ---- the picture */

static void put_labels(const scene *s, const drawn *d, int chart) {
    size_t count = 0;
    printf("   \"%s\": {\"set\": [", chart_names[chart]);
    for (size_t i = 0; i < s->charts[chart].triangles; i++) {
        if (!d->label_set[chart][i]) continue;
        put_comma(count++);
        printf("[%zu, ", i);
        put_real(d->label_at[chart][i][0]);
        fputs(", ", stdout);
        put_real(d->label_at[chart][i][1]);
        putchar(']');
    }
    fputs("], \"left_out\": [", stdout);
    count = 0;
    for (size_t i = 0; i < s->charts[chart].triangles; i++) {
        if (!d->label_wanted[chart][i] || d->label_set[chart][i]) continue;
        put_comma(count++);
        printf("%zu", i);
    }
    fputs("]}", stdout);
}

/* Width and height, in pixels or millimetres. */
static void put_size(const view *v) {
    static const int sheets[][2] = { [PAPER_A4] = { 297, 210 }, [PAPER_A3] = { 420, 297 } };
    const int *sheet = sheets[v->paper];
    int width = v->layout == LAYOUT_HELM ? v->width : sheet[v->portrait ? 1 : 0];
    int height = v->layout == LAYOUT_HELM ? v->height : sheet[v->portrait ? 0 : 1];
    printf("[%d, %d]", width, height);
}

static void put_picture(const scene *s, const view *v, const drawn *d) {
    static const char *const forms[] = { [FORM_PNG] = "png", [FORM_SVG] = "svg", [FORM_PDF] = "pdf" };
    printf(" \"picture\": {\"form\": \"%s\", \"layout\": \"%s\",\n  \"size\": ", forms[v->form],
        v->layout == LAYOUT_HELM ? "helm" : "sheet");
    put_size(v);
    fputs(",\n  \"window\": ", stdout);
    put_reals(d->window, 4);
    fputs(",\n  \"plan\": ", stdout);
    put_reals(d->plan, 4);
    printf(",\n  \"pages\": %d,\n  \"labels\": {\n", d->pages);
    put_labels(s, d, BED);
    fputs(",\n", stdout);
    put_labels(s, d, DESIGN);
    fputs("}}}\n", stdout);
}

int print_report(const scene *s, const stream_run *r, const view *v, const drawn *d) {
    fputs("{\"format\": \"helm-display/1\",\n \"engine\": \"" JIRD_VERSION "\",\n \"title\": ", stdout);
    put_text(s->title);
    fputs(",\n \"id\": ", stdout);
    put_text(s->id);
    fputs(",\n", stdout);
    put_stream(r);
    fputs(" \"charts\": {\n", stdout);
    put_chart(s, BED);
    fputs(",\n", stdout);
    put_chart(s, DESIGN);
    fputs("},\n", stdout);
    put_overlay(s);
    put_head(s);
    put_windowed(d);
    put_picture(s, v, d);
    if (fflush(stdout) == 0 && !ferror(stdout)) return WELL;
    say("error: cannot write the report to standard output: %s", strerror(errno));
    return FAILED;
}
