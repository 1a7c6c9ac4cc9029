/* claims.c: what docs/PORT-OTHER.md says of calls that a port makes seldom: a kind that there is not tests the table, and who may be deleted when. */
#include <stdio.h>
#include <string.h>

#include "nonthachak.h"

static uint8_t table[NTK_IMAGE_SIZE];
static int wrong;

static struct ntk_outcome make(uint8_t kind, uint32_t a, uint32_t b, uint32_t c)
{
    return ntk_step(kind, a, b, c, 0, 0, 0, table, sizeof table);
}

/* The call is answered so, and `runs` is so. */
static void holds(const char *what, struct ntk_outcome o, uint32_t answer, uint32_t runs)
{
    if (o.answer == answer && o.runs == runs)
        return;
    printf("%s: answer %u, runs %u\n", what, (unsigned)o.answer, (unsigned)o.runs);
    wrong = 1;
}

/* Kind 0 answers 1 on a sound table and 15 on a damaged one, byte by byte, and changes neither. */
static void try_kind_zero(void)
{
    uint8_t before[NTK_IMAGE_SIZE];
    unsigned i;

    memcpy(before, table, sizeof table);
    holds("kind 0 on a sound table", make(0, 0, 0, 0), NTK_BEYOND_RANGE, ntk_running(table));
    if (memcmp(before, table, sizeof table) != 0) {
        printf("kind 0 changes a sound table\n");
        wrong = 1;
    }
    for (i = 0; i < sizeof table; i++) {
        uint8_t damaged[NTK_IMAGE_SIZE];
        struct ntk_outcome tested;

        table[i] = 255;
        memcpy(damaged, table, sizeof table);
        tested = make(0, 0, 0, 0);
        /* Some bytes may be 255 in a sound table, as those of a tick counter may: then every call agrees. */
        if (tested.answer != NTK_BEYOND_RANGE)
            holds("kind 0 on a damaged table", tested, NTK_NOT_SOUND, 0);
        holds("a tick says of a damaged table what kind 0 says", ntk_step(NTK_TICK, 0, 0, 0, 0, 0, 0, damaged, sizeof damaged),
              tested.answer == NTK_NOT_SOUND ? NTK_NOT_SOUND : NTK_DONE, ntk_running(damaged) * (tested.answer != NTK_NOT_SOUND));
        table[i] = before[i];
    }
}

static void try_deletes(void)
{
    ntk_fresh(table, sizeof table);
    holds("task 1", make(NTK_TASK_CREATE, 1, 10, 0), NTK_DONE, 2);
    holds("task 2", make(NTK_TASK_CREATE, 2, 20, 0), NTK_DONE, 2);
    holds("mutex", make(NTK_MUTEX_CREATE, 0, 0, 0), NTK_DONE, 2);
    try_kind_zero();
    holds("an interrupt deletes", make(NTK_TASK_DELETE | NTK_INTERRUPT, 2, 0, 0), NTK_BY_INTERRUPT, 2);
    holds("another is deleted", make(NTK_TASK_DELETE, 2, 0, 0), NTK_DONE, 2);
    holds("its number is created again", make(NTK_TASK_CREATE, 2, 20, 0), NTK_DONE, 2);
    holds("the mutex is taken", make(NTK_MUTEX_WAIT, 0, 1, 0), NTK_DONE, 2);
    holds("a holder is deleted", make(NTK_TASK_DELETE, 1, 0, 0), NTK_STILL_NEEDED, 2);
    holds("the mutex is posted", make(NTK_MUTEX_POST, 0, 0, 0), NTK_DONE, 2);
    holds("lock", make(NTK_LOCK, 0, 0, 0), NTK_DONE, 2);
    holds("the running task is deleted while locked", make(NTK_TASK_DELETE, 1, 0, 0), NTK_WHILE_LOCKED, 2);
    holds("unlock", make(NTK_UNLOCK, 0, 0, 0), NTK_DONE, 2);
    holds("the running task deletes itself", make(NTK_TASK_DELETE, 1, 0, 0), NTK_DONE, 3);
    holds("it is not there any more", make(NTK_TASK_DELETE, 1, 0, 0), NTK_NOT_IN_USE, 3);
    holds("the last deletes itself", make(NTK_TASK_DELETE, 2, 0, 0), NTK_DONE, 0);
}

int main(void)
{
    try_deletes();
    return wrong;
}
