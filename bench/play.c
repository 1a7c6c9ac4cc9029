/* play.c: see play.h. */
#include "play.h"

#include <stdio.h>
#include <stdlib.h>
#include <string.h>

#include "image.h"

const char *const variant_names[VARIANTS] = {"C", "C+check", "serve", "step"};

void failed(const char *what)
{
    fprintf(stderr, "bench: %s\n", what);
    exit(1);
}

void make_fresh(struct table *t)
{
    ntk_fresh(t->image, sizeof t->image);
    plain_fresh(&t->plain);
}

void must(struct plain *k, unsigned kind, uint32_t a, uint32_t b, uint32_t c)
{
    must_call(k, (struct call){(uint8_t)kind, {a, b, c}});
}

void must_call(struct plain *k, struct call c)
{
    struct plain_outcome o = make_call(k, &c);

    if (o.answer != NTK_DONE && o.answer != NTK_BLOCKS)
        failed("a table could not be built");
}

void make_case(struct one_case *one, const char *name, const struct plain *k, struct call c)
{
    snprintf(one->name, sizeof one->name, "%s", name);
    one->call = c;
    one->table.plain = *k;
    image_of(k, one->table.image);
}

static inline struct ntk_outcome plain_call(struct plain *k, const struct call *c)
{
    struct plain_outcome o = make_call(k, c);
    struct ntk_outcome outcome = {.answer = (uint16_t)o.answer, .further = (uint16_t)o.further, .runs = o.runs};

    return outcome;
}

static inline struct ntk_outcome checked_call(struct plain *k, const struct call *c)
{
    struct ntk_outcome refused = {NTK_NOT_SOUND, 0, 0};

    return plain_check(k) ? plain_call(k, c) : refused;
}

static inline struct ntk_outcome serve_call(uint8_t *image, const struct call *c)
{
    return ntk_serve(c->kind, c->n[0], c->n[1], c->n[2], c->n[3], c->n[4], c->n[5], image, NTK_IMAGE_SIZE);
}

static inline struct ntk_outcome step_call(uint8_t *image, const struct call *c)
{
    return ntk_step(c->kind, c->n[0], c->n[1], c->n[2], c->n[3], c->n[4], c->n[5], image, NTK_IMAGE_SIZE);
}

static inline uint64_t folded(uint64_t sum, struct ntk_outcome o)
{
    return sum + o.answer * 64 + o.runs + o.further;
}

uint64_t play(enum variant v, const struct call *calls, size_t n, struct table *t)
{
    const struct call *c, *end = calls + n;
    uint64_t sum = 0;

    switch (v) {
    case PLAIN:
        for (c = calls; c < end; c++)
            sum = folded(sum, plain_call(&t->plain, c));
        break;
    case CHECKED:
        for (c = calls; c < end; c++)
            sum = folded(sum, checked_call(&t->plain, c));
        break;
    case SERVE:
        for (c = calls; c < end; c++)
            sum = folded(sum, serve_call(t->image, c));
        break;
    default:
        for (c = calls; c < end; c++)
            sum = folded(sum, step_call(t->image, c));
    }
    return sum;
}

uint64_t play_copies(enum variant v, const struct call *c, struct table *copies)
{
    uint64_t sum = 0;
    unsigned i;

    switch (v) {
    case PLAIN:
        for (i = 0; i < COPIES; i++)
            sum = folded(sum, plain_call(&copies[i].plain, c));
        break;
    case CHECKED:
        for (i = 0; i < COPIES; i++)
            sum = folded(sum, checked_call(&copies[i].plain, c));
        break;
    case SERVE:
        for (i = 0; i < COPIES; i++)
            sum = folded(sum, serve_call(copies[i].image, c));
        break;
    default:
        for (i = 0; i < COPIES; i++)
            sum = folded(sum, step_call(copies[i].image, c));
    }
    return sum;
}

static void tell_difference(const struct call *c, const char *name, size_t number, unsigned v, const struct ntk_outcome o[VARIANTS])
{
    unsigned i;

    fprintf(stderr, "bench: %s, call %lu, kind %02X (", name, (unsigned long)number, c->kind);
    for (i = 0; i < NUMBERS; i++)
        fprintf(stderr, "%lu%s", (unsigned long)c->n[i], i + 1 < NUMBERS ? ", " : "): ");
    fprintf(stderr, "%s answers %lu, runs %lu and tells %lu, C answers %lu, runs %lu and tells %lu\n", variant_names[v],
            (unsigned long)o[v].answer, (unsigned long)o[v].runs, (unsigned long)o[v].further, (unsigned long)o[PLAIN].answer,
            (unsigned long)o[PLAIN].runs, (unsigned long)o[PLAIN].further);
}

void compare(const struct call *c, struct table tables[VARIANTS], const char *name, size_t number)
{
    struct ntk_outcome o[VARIANTS];
    uint8_t image[NTK_IMAGE_SIZE];
    unsigned v;

    o[PLAIN] = plain_call(&tables[PLAIN].plain, c);
    o[CHECKED] = checked_call(&tables[CHECKED].plain, c);
    o[SERVE] = serve_call(tables[SERVE].image, c);
    o[STEP] = step_call(tables[STEP].image, c);
    image_of(&tables[PLAIN].plain, image);
    for (v = 0; v < VARIANTS; v++) {
        if (v == CHECKED)
            image_of(&tables[v].plain, tables[v].image);
        if (o[v].answer != o[PLAIN].answer || o[v].runs != o[PLAIN].runs || o[v].further != o[PLAIN].further ||
            (v != PLAIN && memcmp(tables[v].image, image, sizeof image) != 0)) {
            tell_difference(c, name, number, v, o);
            failed("the variants differ");
        }
    }
}

void compare_case(const struct one_case *one, size_t number)
{
    static struct table tables[VARIANTS];
    unsigned v;

    for (v = 0; v < VARIANTS; v++)
        tables[v] = one->table;
    compare(&one->call, tables, one->name, number);
}

void print_row(const char *name, const double ns[VARIANTS])
{
    unsigned v;

    printf("%-18s", name);
    for (v = 0; v < VARIANTS; v++)
        printf("%10.1f", ns[v]);
    printf("%10.2f%15.2f\n", ns[SERVE] / ns[PLAIN], ns[STEP] / ns[CHECKED]);
}

void print_head(const char *what)
{
    unsigned v;

    printf("\n%-18s", what);
    for (v = 0; v < VARIANTS; v++)
        printf("%10s", variant_names[v]);
    printf("%10s%15s\n", "serve/C", "step/C+check");
}
