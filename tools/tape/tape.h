/* tape.h: what the program `tape` does, a function for each of its commands. A name is that of the file read, NULL for standard input. */
#ifndef TAPE_H
#define TAPE_H

#include <stdint.h>
#include <stdio.h>

struct bytes {
    uint8_t *data;
    size_t count, room;
};

void bytes_add(struct bytes *bytes, uint8_t byte);

/* The bytes of a text; a bad line ends the program. */
void assemble(FILE *text, const char *name, struct bytes *bytes);

void disassemble(FILE *tape, const char *name, FILE *out);

void trace(FILE *tape, const char *name, FILE *out, int with_table);

/* Adds the levels of an image's ready word to a line, the most urgent first. */
struct line;
void add_levels(struct line *line, const uint8_t *image);

/* What changed between two images of NTK_IMAGE_SIZE bytes, in words, a line for each thing. */
void write_changes(FILE *out, const uint8_t *before, const uint8_t *after);

void why(FILE *image, const char *name, FILE *out);

#endif
