/* What is drawn on, for each form: an image of pixels, or a document whose bytes go to the sink. */
#include "page.h"
#include <cairo-pdf.h>
#include <cairo-svg.h>
#include <math.h>
#include <string.h>

static cairo_status_t pour(void *sink_at, const unsigned char *bytes, unsigned int n) {
    return sink_add(sink_at, bytes, n) ? CAIRO_STATUS_SUCCESS : CAIRO_STATUS_NO_MEMORY;
}

/* Title and id; a fixed time of making, so that the same scene gives the same bytes. */
static void describe(const page *p, cairo_surface_t *s) {
    cairo_pdf_surface_set_metadata(s, CAIRO_PDF_METADATA_TITLE, p->title);
    cairo_pdf_surface_set_metadata(s, CAIRO_PDF_METADATA_SUBJECT, p->id);
    cairo_pdf_surface_set_metadata(s, CAIRO_PDF_METADATA_CREATOR, "helm-display " JIRD_VERSION);
    cairo_pdf_surface_set_metadata(s, CAIRO_PDF_METADATA_CREATE_DATE, "2000-01-01T00:00:00Z");
}

static cairo_surface_t *made(const page *p, double across, double down, sink *out) {
    cairo_surface_t *s;
    if (p->v->form == FORM_PNG) return cairo_image_surface_create(CAIRO_FORMAT_RGB24, (int)lround(across), (int)lround(down));
    if (p->v->form == FORM_PDF) {
        s = cairo_pdf_surface_create_for_stream(pour, out, across, down);
        if (cairo_surface_status(s) == CAIRO_STATUS_SUCCESS) describe(p, s);
        return s;
    }
    s = cairo_svg_surface_create_for_stream(pour, out, across, down);
    bool pixels = p->v->layout == LAYOUT_HELM;
    if (cairo_surface_status(s) == CAIRO_STATUS_SUCCESS)
        cairo_svg_surface_set_document_unit(s, pixels ? CAIRO_SVG_UNIT_PX : CAIRO_SVG_UNIT_PT);
    return s;
}

static void set_letters(page *p) {
    cairo_font_options_t *o = cairo_font_options_create();
    cairo_font_options_set_hint_metrics(o, CAIRO_HINT_METRICS_OFF);
    cairo_font_options_set_hint_style(o, CAIRO_HINT_STYLE_NONE);
    cairo_font_options_set_antialias(o, CAIRO_ANTIALIAS_GRAY);
    cairo_set_font_options(p->to, o);
    cairo_font_options_destroy(o);
    p->plain = cairo_toy_font_face_create("DejaVu Sans", CAIRO_FONT_SLANT_NORMAL, CAIRO_FONT_WEIGHT_NORMAL);
    p->bold = cairo_toy_font_face_create("DejaVu Sans", CAIRO_FONT_SLANT_NORMAL, CAIRO_FONT_WEIGHT_BOLD);
}

static void open_on(page *p, cairo_surface_t *s, double dots) {
    p->to = cairo_create(s);
    cairo_scale(p->to, dots, dots);
    set_letters(p);
}

/* Opens p->to on a surface of p->width by p->height page units, each of so many dots. */
cairo_surface_t *surface_open(page *p, double dots, sink *out) {
    cairo_surface_t *s = made(p, p->width * dots, p->height * dots, out);
    open_on(p, s, dots);
    return s;
}

/* Opens p->to on a single pixel: for widths and heights, before it is known how many pages there are. */
cairo_surface_t *surface_scratch(page *p) {
    cairo_surface_t *s = cairo_image_surface_create(CAIRO_FORMAT_RGB24, 1, 1);
    open_on(p, s, 8);
    return s;
}

/* In an SVG cairo names groups by how many surfaces there were in this process: counted from 1 here, the bytes are always the same. */
static void name_groups_from_one(sink *k) {
    static const char word[] = "id=\"surface";
    const size_t length = sizeof word - 1;
    size_t kept = 0, at = 0;
    unsigned long count = 0;
    while (at < k->n) {
        bool found = k->n - at > length && memcmp(k->at + at, word, length) == 0;
        if (!found) {
            k->at[kept++] = k->at[at++];
            continue;
        }
        memmove(k->at + kept, word, length);
        at += length;
        kept += length;
        size_t digits = 0;
        while (at + digits < k->n && k->at[at + digits] >= '0' && k->at[at + digits] <= '9') digits++;
        if (digits) k->at[kept++] = (unsigned char)('0' + ++count % 10);
        at += digits;
    }
    k->n = kept;
}

static cairo_status_t ended(const page *p, cairo_surface_t *s, sink *out) {
    double dots = p->v->layout == LAYOUT_SHEET ? 200 / 0.0254 : 0;
    if (p->v->form == FORM_PNG && out && !png_write(s, dots, out)) return CAIRO_STATUS_NO_MEMORY;
    cairo_surface_finish(s);
    if (p->v->form == FORM_SVG && out) name_groups_from_one(out);
    return cairo_surface_status(s);
}

/* Ends the drawing, gives its bytes to the sink (none if it is null), and frees it all. */
const char *surface_close(page *p, cairo_surface_t *s, sink *out) {
    cairo_status_t is = cairo_status(p->to);
    cairo_destroy(p->to);
    cairo_font_face_destroy(p->plain);
    cairo_font_face_destroy(p->bold);
    p->to = NULL;
    if (is == CAIRO_STATUS_SUCCESS) is = ended(p, s, out);
    cairo_surface_destroy(s);
    return is == CAIRO_STATUS_SUCCESS ? NULL : cairo_status_to_string(is);
}
