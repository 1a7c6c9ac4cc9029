/* handlers.h: what registers.c, handlers.c and the kiosk's entry.S share. */
#ifndef HANDLERS_H
#define HANDLERS_H

#include <stdint.h>

struct registers {
    uint64_t xmm[32], general[15];
};

void interrupted(struct registers *r, void (*entry)(void)); /* entry.S: comes to `entry` with r in the registers */
void clock_entry(void);                                     /* entry.S: saves all, and calls clock_interrupt */
void clock_interrupt(void), card_interrupt(void);

struct frame; /* what the processor pushed */
void general_alone(struct frame *frame), all_saved(struct frame *frame); /* handlers.c */
void tick(void);                                                         /* registers.c: the call that every one of them makes */

#endif
