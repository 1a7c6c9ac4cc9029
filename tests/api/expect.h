/* What the examples of docs/API.md are held by; examples.awk makes the functions that call it. */
#include <inttypes.h>
#include <stdio.h>

#include "nonthachak.h"

/* What the examples name. */
static uint8_t table[NTK_IMAGE_SIZE];
static struct ntk_outcome o;
static uint64_t n;

static unsigned long compared, wrong;

static void make_fresh(void)
{
    ntk_fresh(table, sizeof table);
}

static void expect_number(int line, uint64_t got, uint64_t want)
{
    compared++;
    if (got == want)
        return;
    wrong++;
    printf("docs/API.md:%d: it is %" PRIu64 ", not %" PRIu64 "\n", line, got, want);
}

static void expect_outcome(int line, struct ntk_outcome got, uint32_t answer, uint32_t runs)
{
    compared++;
    if (got.answer == answer && got.runs == runs)
        return;
    wrong++;
    printf("docs/API.md:%d: it is %" PRIu32 " (%s), ", line, got.answer, ntk_answer_name(got.answer));
    if (ntk_task_of(got.runs) == NTK_NONE)
        puts("none runs");
    else
        printf("task %" PRIu32 " runs\n", ntk_task_of(got.runs));
}

static int tell(int examples)
{
    printf("api: %d examples, %lu comments, %lu wrong\n", examples, compared, wrong);
    return wrong > 0;
}
