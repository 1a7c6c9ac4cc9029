/* board.h: a board on the desk. This is what a port has to give: the table, a context for each task, the switch, the calls of tasks and of
 * interrupts, and what happens with 15. A task is a context of its own (ucontext); an interrupt comes by entry.S, as on a board. */
#ifndef BOARD_H
#define BOARD_H

#include "nonthachak.h"

/* A board is run from the fresh table until `ticks` ticks are over. `first` is the body of its first task, FIRST_TASK. `unit` is one tick's
 * time: it raises the interrupts of that time. The idle processor calls it too. */
enum { FIRST_TASK = 31 };
void board_run(void (*first)(void), void (*unit)(void), uint32_t ticks);

/* The image, for reading between calls. */
const uint8_t *board_table(void);

/* The task on the processor; NTK_TASKS where it is idle. */
uint32_t board_task(void);

/* A task is created with its stack and its context. Where its body returns, it deletes itself. */
void board_create(uint32_t task, uint32_t base, void (*body)(void));

/* A service call of the task on the processor goes between these two, leave(ntk_mutex_post(enter(), mutex)): `enter` shuts interrupts and lends
 * the image to the call; `leave` makes the switch and opens them. A wait gives what it came to when the task runs again; every other call
 * NTK_GIVEN. Where several calls are one service, `taken` has the outcome of each, and `leave` that of the last. */
uint8_t *enter(void);
enum ntk_wait leave(struct ntk_outcome o);

/* Any other answer than 0 and 14 stops the board: no call of this example is to be refused. */
void taken(struct ntk_outcome o);

/* An interrupt's handler begins and ends so; between them it makes its calls on the image that it is lent, any number, by the functions with
 * _isr, each `taken`. The last to end of those that are nested makes the switch. A handler may open interrupts between its calls. */
uint8_t *interrupt_begins(void);
void interrupt_ends(void);
void interrupts_shut(void);
void interrupts_open(void);

/* An interrupt comes by `entry` where a task (or the idle processor) has a value in each register. */
void raise_interrupt(void (*entry)(void));

/* What was counted since board_run. */
struct board_counts {
    unsigned interrupts, nested; /* interrupts, and those that came in the midst of another */
    unsigned registers_lost;     /* registers that an interrupt did not give back as they were */
    unsigned stacks_in_use;
};
struct board_counts board_counts(void);

#endif
