/* An image as PNG, written here for speed: cairo's own takes most of the time of a picture. Eight bits for red, green and blue, rows as
 * they are, zlib's fastest level. */
#include "page.h"
#include <stdlib.h>
#include <string.h>
#include <zlib.h>

static void put32(unsigned char *to, unsigned long n) {
    for (int k = 0; k < 4; k++) to[k] = (unsigned char)(n >> (24 - 8 * k) & 255);
}

/* One chunk: length, name, bytes, checksum of name and bytes. */
static bool chunk(sink *out, const char *name, const unsigned char *bytes, size_t n) {
    unsigned char length[4], check[4];
    unsigned long sum = crc32(crc32(0, (const unsigned char *)name, 4), bytes, (unsigned)n);
    put32(length, (unsigned long)n);
    put32(check, n ? sum : crc32(0, (const unsigned char *)name, 4));
    return sink_add(out, length, 4) && sink_add(out, (const unsigned char *)name, 4) && sink_add(out, bytes, n) && sink_add(out, check, 4);
}

/* Red, green, blue of one row; filter 0, which here gives less than the others. */
static void fill_row(unsigned char *to, const unsigned char *row, int width) {
    *to++ = 0;
    for (int x = 0; x < width; x++) {
        uint32_t dot;
        memcpy(&dot, row + 4 * x, 4);
        *to++ = (unsigned char)(dot >> 16);
        *to++ = (unsigned char)(dot >> 8);
        *to++ = (unsigned char)dot;
    }
}

static bool packed(cairo_surface_t *s, int width, int height, unsigned char *rows, sink *out) {
    const unsigned char *from = cairo_image_surface_get_data(s);
    int stride = cairo_image_surface_get_stride(s);
    size_t row = 3 * (size_t)width + 1;
    uLongf n = compressBound((uLong)(row * (size_t)height));
    unsigned char *bytes = malloc(n);
    if (!bytes) return false;
    for (int y = 0; y < height; y++) fill_row(rows + row * (size_t)y, from + (ptrdiff_t)y * stride, width);
    bool done = compress2(bytes, &n, rows, (uLong)(row * (size_t)height), 1) == Z_OK && chunk(out, "IDAT", bytes, n);
    free(bytes);
    return done;
}

bool png_write(cairo_surface_t *s, double dots_in_metre, sink *out) {
    int width = cairo_image_surface_get_width(s), height = cairo_image_surface_get_height(s);
    unsigned char head[13] = { [8] = 8, [9] = 2 }, density[9] = { [8] = 1 };
    unsigned char *rows = malloc((3 * (size_t)width + 1) * (size_t)height);
    if (!rows) return false;
    cairo_surface_flush(s);
    put32(head, (unsigned long)width);
    put32(head + 4, (unsigned long)height);
    put32(density, (unsigned long)dots_in_metre);
    put32(density + 4, (unsigned long)dots_in_metre);
    bool done = sink_add(out, (const unsigned char *)"\x89PNG\r\n\x1a\n", 8) && chunk(out, "IHDR", head, 13)
        && (dots_in_metre <= 0 || chunk(out, "pHYs", density, 9)) && packed(s, width, height, rows, out)
        && chunk(out, "IEND", head, 0);
    free(rows);
    return done;
}
