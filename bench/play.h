/* play.h: the variants that are timed, a table as each of them has it, and calls played on it. */
#ifndef PLAY_H
#define PLAY_H

#include "../include/nonthachak.h"
#include "plain.h"

/* Variants:
 *     C         plain_step, a struct behind a pointer
 *     C+check   plain_check, then plain_step
 *     serve     ntk_serve: the port without its test of the image
 *     step      ntk_step: the port as the customer calls it */
enum variant { PLAIN, CHECKED, SERVE, STEP, VARIANTS };

extern const char *const variant_names[VARIANTS];

enum { NUMBERS = 6 };

struct call {
    uint8_t kind;
    uint32_t n[NUMBERS];
};

/* A table as the two kinds of kernel have it. */
struct table {
    _Alignas(64) uint8_t image[NTK_IMAGE_SIZE];
    _Alignas(64) struct plain plain;
};

/* A call on a table. */
struct one_case {
    char name[64];
    struct call call;
    struct table table;
};

enum { COPIES = 8 };

/* Says what failed and ends the program. */
_Noreturn void failed(const char *what);

void make_fresh(struct table *t);

/* A call by the plain kernel. */
static inline struct plain_outcome make_call(struct plain *k, const struct call *c)
{
    return plain_step(k, c->kind, c->n[0], c->n[1], c->n[2], c->n[3], c->n[4], c->n[5]);
}

/* The same, where it has to be done or to block; the other numbers are 0. */
void must(struct plain *k, unsigned kind, uint32_t a, uint32_t b, uint32_t c);
void must_call(struct plain *k, struct call c);

void make_case(struct one_case *one, const char *name, const struct plain *k, struct call c);

/* Plays n calls on a table and gives back a sum over the outcomes. */
uint64_t play(enum variant v, const struct call *calls, size_t n, struct table *t);

/* The same call on each of the copies. */
uint64_t play_copies(enum variant v, const struct call *c, struct table *copies);

/* One call by every variant, each on a table of its own: outcomes and tables must agree. */
void compare(const struct call *c, struct table tables[VARIANTS], const char *name, size_t number);

/* The same for a case. */
void compare_case(const struct one_case *one, size_t number);

/* A line of times with their ratios, and what stands above such lines. */
void print_head(const char *what);
void print_row(const char *name, const double ns[VARIANTS]);

#endif
