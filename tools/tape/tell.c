#define _POSIX_C_SOURCE 200809L
#include "tell.h"

#include <errno.h>
#include <stdarg.h>
#include <stdlib.h>
#include <string.h>
#include <unistd.h>

#define PROGRESS_STEP 10000

static int progress_shown;

void fail(const char *format, ...)
{
    char text[1024];
    char *at;
    va_list words;

    va_start(words, format);
    vsnprintf(text, sizeof text, format, words);
    va_end(words);
    /* It may quote a text or a name: it stays one line, and does nothing to a terminal. */
    for (at = text; *at; at++)
        if ((unsigned char)*at < ' ' || *at == 0x7F)
            *at = '?';
    progress_end();
    fprintf(stderr, "tape: %s\n", text);
    exit(2);
}

void progress(uint64_t done, const char *what)
{
    static int wanted = -1;

    if (done == 0 || done % PROGRESS_STEP != 0)
        return;
    if (wanted < 0)
        wanted = isatty(STDERR_FILENO) && !isatty(STDOUT_FILENO);
    if (!wanted)
        return;
    fprintf(stderr, "\rtape: %llu %s", (unsigned long long)done, what);
    fflush(stderr);
    progress_shown = 1;
}

void progress_end(void)
{
    if (progress_shown)
        fputs("\r\033[K", stderr);
    progress_shown = 0;
}

const char *name_of(const char *name)
{
    return name ? name : "standard input";
}

FILE *open_to_read(const char *name)
{
    FILE *file = name ? fopen(name, "rb") : stdin;

    if (!file)
        fail("%s: %s", name, strerror(errno));
    return file;
}

void end_reading(FILE *file, const char *name)
{
    if (ferror(file))
        fail("%s: %s", name_of(name), strerror(errno));
    if (file != stdin)
        fclose(file);
}

void cannot_write(const char *name)
{
    fail("%s: cannot write: %s", name ? name : "standard output", strerror(errno));
}

void write_line(FILE *file, const char *text)
{
    if (fputs(text, file) == EOF || fputc('\n', file) == EOF)
        cannot_write(NULL);
}

void end_writing(FILE *file, const char *name)
{
    progress_end();
    if (fclose(file) != 0)
        cannot_write(name);
}
