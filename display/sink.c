/* Bytes are gathered in memory and written at once, so that a picture that could not be drawn harms no file, and whoever looks at the
 * file meanwhile finds the whole old picture or the whole new one. */
#define _POSIX_C_SOURCE 200809L
#include "page.h"
#include <errno.h>
#include <stdio.h>
#include <stdlib.h>
#include <string.h>
#include <sys/stat.h>

bool sink_add(sink *k, const unsigned char *bytes, size_t n) {
    if (n > k->room - k->n) {
        size_t room = 2 * k->room + n + 65536;
        unsigned char *at = realloc(k->at, room);
        if (!at) return false;
        k->at = at;
        k->room = room;
    }
    if (n) memcpy(k->at + k->n, bytes, n);
    k->n += n;
    return true;
}

static char words[4352];

static const char *cannot(const char *path) {
    int why = errno;
    snprintf(words, sizeof words, "cannot write %.4096s: %s", strcmp(path, "-") ? path : "to standard output", strerror(why));
    return words;
}

static bool poured(const sink *k, FILE *f) {
    errno = 0;
    return (k->n == 0 || fwrite(k->at, 1, k->n, f) == k->n) && fflush(f) == 0;
}

/* Into the open file, and closes it. */
static const char *write_to(const sink *k, FILE *f, const char *path) {
    const char *fault = poured(k, f) ? NULL : cannot(path);
    if (fclose(f) != 0 && !fault) fault = cannot(path);
    return fault;
}

/* Straight into what stands there: a device, a pipe, a link, a file in a folder that takes no new ones. */
static const char *write_straight(const sink *k, const char *path) {
    FILE *f = fopen(path, "wb");
    return f ? write_to(k, f, path) : cannot(path);
}

/* Beside the file, then in its place. */
static const char *write_beside(const sink *k, const char *path) {
    size_t n = strlen(path) + sizeof ".part";
    char *part = malloc(n);
    if (!part) return "out of memory";
    snprintf(part, n, "%s.part", path);
    FILE *f = fopen(part, "wb");
    const char *fault = f ? write_to(k, f, path) : write_straight(k, path);
    if (f && !fault && rename(part, path) != 0) fault = cannot(path);
    if (f && fault) remove(part);
    free(part);
    return fault;
}

const char *sink_write(const sink *k, const char *path) {
    struct stat found;
    if (!strcmp(path, "-")) return poured(k, stdout) ? NULL : cannot(path);
    bool other = lstat(path, &found) == 0 && !S_ISREG(found.st_mode);
    return other ? write_straight(k, path) : write_beside(k, path);
}
