/* line.h: a line that is put together piece by piece, so that its length is known before it is written. */
#ifndef LINE_H
#define LINE_H

#include <stddef.h>

struct line {
    size_t length;
    char text[1024];
};

/* Adds to the end; what has no room is left away. */
void line_add(struct line *line, const char *format, ...) __attribute__((format(printf, 2, 3)));

#endif
