/* board.c: see board.h. */
#define _XOPEN_SOURCE 700
#include "board.h"

#include <stdio.h>
#include <stdlib.h>
#include <string.h>
#include <ucontext.h>

enum { STACKS = 5, STACK_BYTES = 16384 };

static uint8_t table[NTK_IMAGE_SIZE];
static uint32_t on_processor; /* a task plus 1; 0 is the idle processor, as in `runs` */
static ucontext_t contexts[NTK_TASKS + 1];
static void (*bodies[NTK_TASKS])(void);

static unsigned char stacks[STACKS][STACK_BYTES];
static uint32_t owners[STACKS]; /* whose a stack is, plus 1; 0 where it is free */
static uint32_t left_behind;    /* a task plus 1 that deleted itself, until the processor is off its stack */

static int shut;
static unsigned nesting; /* interrupts that are under way */
static uint32_t last_tick;
static struct board_counts counts;

const uint8_t *board_table(void)
{
    return table;
}

uint32_t board_task(void)
{
    return on_processor == 0 ? NTK_TASKS : on_processor - 1;
}

/* Nothing may run on a table that is not sound: interrupts stay shut, and the image is kept for whoever looks into it. On a board this is
 * where the watchdog is left to bite; it starts the board afresh, by ntk_fresh. */
static void stop_board(uint32_t answer)
{
    shut = 1;
    fprintf(stderr, "board: a call while task %u has the processor is answered %u: %s\n", (unsigned)board_task(), (unsigned)answer,
            ntk_answer_name(answer));
    exit(1);
}

void taken(struct ntk_outcome o)
{
    if (o.answer != NTK_DONE && o.answer != NTK_BLOCKS)
        stop_board(o.answer);
}

void interrupts_shut(void)
{
    shut = 1;
}

void interrupts_open(void)
{
    shut = 0;
}

/* A task that deleted itself ran on its stack until the switch: only the next one may free it. */
static void free_left_stack(void)
{
    unsigned i;

    for (i = 0; i < STACKS && left_behind != 0; i++)
        if (owners[i] == left_behind)
            owners[i] = 0;
    left_behind = 0;
}

static void switch_to(uint32_t runs)
{
    ucontext_t *from = &contexts[on_processor];

    if (runs == on_processor)
        return;
    on_processor = runs;
    if (swapcontext(from, &contexts[runs]) != 0)
        abort();
    free_left_stack();
}

uint8_t *enter(void)
{
    interrupts_shut();
    return table;
}

enum ntk_wait leave(struct ntk_outcome o)
{
    uint32_t task = board_task();
    enum ntk_wait wait = NTK_GIVEN;

    taken(o);
    switch_to(o.runs);
    if (o.answer == NTK_BLOCKS)
        wait = ntk_wait_of(table, task); /* this task runs again: its wait is over */
    interrupts_open();
    return wait;
}

/* Where a task's context begins. */
static void begin(void)
{
    struct ntk_outcome o;

    free_left_stack();
    interrupts_open();
    bodies[board_task()]();
    o = ntk_task_delete(enter(), board_task());
    left_behind = on_processor;
    leave(o);
}

void board_create(uint32_t task, uint32_t base, void (*body)(void))
{
    ucontext_t *made = &contexts[task + 1];
    unsigned i = 0;

    while (i < STACKS && owners[i] != 0)
        i++;
    if (i == STACKS || getcontext(made) != 0)
        abort();
    owners[i] = task + 1;
    bodies[task] = body;
    made->uc_stack.ss_sp = stacks[i];
    made->uc_stack.ss_size = STACK_BYTES;
    made->uc_link = NULL;
    makecontext(made, begin, 0);
    leave(ntk_task_create(enter(), task, base, 0));
}

/* The processor shuts interrupts on its way in. */
uint8_t *interrupt_begins(void)
{
    interrupts_shut();
    counts.interrupts++;
    if (nesting++ > 0)
        counts.nested++;
    return table;
}

/* The switch is put off to here: an inner interrupt goes back to the handler that it came in, whoever is to run. What the interrupted task had
 * in its registers stands on its own stack, where entry.S saved it. After the last tick the processor goes back to board_run. */
void interrupt_ends(void)
{
    if (--nesting == 0)
        switch_to(ntk_tick_count(table) < last_tick ? ntk_running(table) : 0);
    interrupts_open();
}

struct registers {
    uint64_t xmm[32], general[15];
};

void interrupted(struct registers *r, void (*entry)(void)); /* entry.S */

void raise_interrupt(void (*entry)(void))
{
    static uint64_t next;
    struct registers before, after;
    unsigned i;

    if (shut)
        abort();
    for (i = 0; i < 32; i++)
        before.xmm[i] = next += UINT64_C(0x9E3779B97F4A7C15);
    for (i = 0; i < 15; i++)
        before.general[i] = next += UINT64_C(0x9E3779B97F4A7C15);
    after = before;
    interrupted(&after, entry);
    for (i = 0; i < 16; i++)
        counts.registers_lost += before.xmm[2 * i] != after.xmm[2 * i] || before.xmm[2 * i + 1] != after.xmm[2 * i + 1];
    for (i = 0; i < 15; i++)
        counts.registers_lost += before.general[i] != after.general[i];
}

void board_run(void (*first)(void), void (*unit)(void), uint32_t ticks)
{
    ntk_fresh(table, sizeof table);
    memset(owners, 0, sizeof owners);
    memset(&counts, 0, sizeof counts);
    on_processor = left_behind = 0;
    nesting = 0;
    last_tick = ticks;
    board_create(FIRST_TASK, 0, first);
    while (ntk_tick_count(table) < last_tick)
        unit();
}

struct board_counts board_counts(void)
{
    unsigned i;

    counts.stacks_in_use = 0;
    for (i = 0; i < STACKS; i++)
        counts.stacks_in_use += owners[i] != 0;
    return counts;
}
