/* kinds.h: the kinds of calls, how each stands on a tape, in text and in words. kinds.c has them as one table, which `asm`, `dis` and
 * `trace` all read: a new kind is a row there. */
#ifndef KINDS_H
#define KINDS_H

#include <stddef.h>
#include <stdint.h>

#include "line.h"

#define MOST_NUMBERS 6                       /* that a call has */
#define LONGEST_CALL (1 + 4 * MOST_NUMBERS) /* no call has more bytes */

/* A value that has a name. */
struct value {
    const char *text;  /* in text, one word */
    const char *words; /* in a trace */
};

/* A number of a call. In text it is the name of its value, or else, where it is labelled, its label and the number (`base 10`), where its
 * values have names, NAME=NUMBER (`block=7`), and otherwise the number alone. */
struct form {
    const char *name;
    unsigned width; /* bytes on the tape: 1, 2 or 4 */
    int labelled;   /* the name is its label */
    int hex;
    const char *before;     /* words before the number, or NULL */
    const char *unit;       /* the word behind it for one, or NULL */
    struct value values[5]; /* of 0 and up; the first without a text ends them */
};

struct kind {
    uint8_t byte; /* without the interrupt bit */
    const char *name;
    const char *words; /* each % stands for the next number */
    const struct form *forms[MOST_NUMBERS];
};

struct call {
    const struct kind *kind;
    int interrupt;
    uint32_t numbers[MOST_NUMBERS];
};

extern const struct kind kinds[];
extern const size_t kind_count;

/* What a wait for flags asks, for the words of a table too. */
extern const struct form form_test, form_consume;

/* NULL where there is none; of a byte the interrupt bit is not looked at. */
const struct kind *kind_of_byte(uint8_t byte);
const struct kind *kind_of_name(const char *name);

size_t kind_numbers(const struct kind *kind);
size_t kind_body(const struct kind *kind); /* its length in bytes */

uint32_t form_most(const struct form *form);
void form_text(struct line *line, const struct form *form, uint32_t number);
void form_words(struct line *line, const struct form *form, uint32_t number);
void form_usage(struct line *line, const struct form *form); /* what may stand in text */

/* A call from the bytes behind its kind, and as bytes; the latter gives how many there are. */
void call_from_body(struct call *call, const uint8_t *body);
size_t call_to_bytes(const struct call *call, uint8_t *bytes);

void call_text(struct line *line, const struct call *call);
void call_words(struct line *line, const struct call *call);
void kind_usage(struct line *line, const struct kind *kind);

#endif
