/* say.h: exit status and messages of helm-display. */
#ifndef SAY_H
#define SAY_H

/* The highest that applies is the exit status. 3 is chartkey's alone. */
enum { WELL = 0, REFUSED = 1, WRONG = 2, FAILED = 4 };

#if defined(__GNUC__)
#define LIKE_PRINTF __attribute__((format(printf, 1, 2)))
#else
#define LIKE_PRINTF
#endif

/* A line on standard error, with the program's name before it. */
void say(const char *format, ...) LIKE_PRINTF;

/* The higher of two statuses. */
int higher(int a, int b);

#endif
