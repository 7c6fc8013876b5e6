/* say.c: messages on standard error. */
#include "say.h"
#include <stdarg.h>
#include <stdio.h>

void say(const char *format, ...) {
    va_list values;
    va_start(values, format);
    fputs("helm-display: ", stderr);
    vfprintf(stderr, format, values);
    fputc('\n', stderr);
    va_end(values);
}

int higher(int a, int b) { return a > b ? a : b; }
