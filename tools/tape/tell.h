/* tell.h: files opened, written and closed, and what goes to standard error. */
#ifndef TELL_H
#define TELL_H

#include <stdint.h>
#include <stdio.h>

/* One line, and the end of the program with 2. */
void fail(const char *format, ...) __attribute__((noreturn, format(printf, 1, 2)));

/* How far a long tape has come, where standard error is a terminal. Not where standard output is one too: the lines themselves tell it there. */
void progress(uint64_t done, const char *what);
void progress_end(void);

/* Opens a file to read; standard input where there is no name. */
FILE *open_to_read(const char *name);
const char *name_of(const char *name); /* for messages */

/* Fails where not all was read. */
void end_reading(FILE *file, const char *name);

/* Says that a file, or standard output where there is no name, cannot be written, and why; ends the program. */
void cannot_write(const char *name) __attribute__((noreturn));

/* A line, and the end of them. Either fails where it cannot be written. */
void write_line(FILE *file, const char *text);
void end_writing(FILE *file, const char *name);

#endif
