#include "line.h"

#include <stdarg.h>
#include <stdio.h>

void line_add(struct line *line, const char *format, ...)
{
    size_t room = sizeof line->text - line->length;
    va_list words;
    int added;

    va_start(words, format);
    added = vsnprintf(line->text + line->length, room, format, words);
    va_end(words);
    if (added < 0)
        line->text[line->length] = '\0';
    else
        line->length += (size_t)added < room ? (size_t)added : room - 1;
}
