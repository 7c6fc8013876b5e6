/* numbers.c: numbers and texts as they are written. */
#include "numbers.h"
#include <stddef.h>
#include <string.h>

/* One number from the text on; the place after it, or null if there is none up to `most`. */
static const char *read_number(const char *text, long most, long *number) {
    const char *at = text;
    for (*number = 0; *at >= '0' && *at <= '9'; at++) {
        *number = *number * 10 + (*at - '0');
        if (*number > most) return NULL;
    }
    return at == text ? NULL : at;
}

bool read_numbers(const char *text, const char *between, int count, long most, long *numbers) {
    for (int k = 0; k < count; k++) {
        if (k && strncmp(text, between, strlen(between)) != 0) return false;
        text = read_number(k ? text + strlen(between) : text, most, &numbers[k]);
        if (!text) return false;
    }
    return *text == 0;
}

/* How many bytes the character at a place has; 0 if it is none, or a control character. */
static size_t character(const unsigned char *at) {
    static const struct {
        unsigned char mask, lead;
        unsigned long least;
    } kinds[] = { { 0x80, 0x00, 0x20 }, { 0xE0, 0xC0, 0x80 }, { 0xF0, 0xE0, 0x800 }, { 0xF8, 0xF0, 0x10000 } };
    for (size_t k = 0; k < 4; k++) {
        if ((at[0] & kinds[k].mask) != kinds[k].lead) continue;
        unsigned long code = at[0] & (unsigned char)~kinds[k].mask;
        for (size_t i = 1; i <= k; i++) {
            if ((at[i] & 0xC0) != 0x80) return 0;
            code = code << 6 | (at[i] & 0x3F);
        }
        bool control = code < 0x20 || (code >= 0x7F && code < 0xA0), half = code >= 0xD800 && code < 0xE000;
        return code < kinds[k].least || code > 0x10FFFF || control || half ? 0 : k + 1;
    }
    return 0;
}

bool is_text(const char *text) {
    const unsigned char *at = (const unsigned char *)text;
    while (*at) {
        size_t length = character(at);
        if (!length) return false;
        at += length;
    }
    return true;
}
