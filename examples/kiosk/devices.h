/* devices.h: what hangs on the board: the clock, the card and the screen. */
#ifndef DEVICES_H
#define DEVICES_H

#include "kiosk.h"

/* Fresh devices, which write into `screening`. */
void devices_begin(struct screening *screening);

/* One tick's time passes; interrupts come in it. */
void one_tick(void);

/* The task on the processor works for so many ticks of its own. */
void work(unsigned ticks);

uint32_t ticks_now(void);

/* The card is asked for a block: its interrupt comes when it is there. */
void card_ask(void);

/* The frame whose turn it is, counted from the first pass on; and the screen is handed one. */
uint32_t frame_due(void);
void screen_hand(uint32_t frame);

#endif
