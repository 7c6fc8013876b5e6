/* numbers.h: numbers and texts as they are written in options and points. */
#ifndef NUMBERS_H
#define NUMBERS_H
#include <stdbool.h>

/* Exactly `count` decimal numbers up to `most`, with the text between them, and nothing else. */
bool read_numbers(const char *text, const char *between, int count, long most, long *numbers);

/* Whether it is a line of UTF-8 without control characters. */
bool is_text(const char *text);

#endif
