/* devices.c: see devices.h. */
#include "devices.h"

#include "board.h"
#include "record.h"

enum {
    CLOCK_AT = 6,  /* of BLOCK frames' ticks: the time for the next block */
    CARD_NEAR = 5, /* ticks until a block has come */
    CARD_FAR = 17  /* and each sixth time, so that the clock comes first */
};
#define NOTHING UINT32_MAX /* no frame, no tick */

static struct screening *screening;
static uint32_t now, handed, blocks, card_due;

void clock_entry(void), card_entry(void);         /* entry.S */
void clock_interrupt(void), card_interrupt(void); /* called by them */

void devices_begin(struct screening *fresh)
{
    screening = fresh;
    now = blocks = 0;
    handed = card_due = NOTHING;
}

uint32_t ticks_now(void)
{
    return now;
}

uint32_t frame_due(void)
{
    return now / FRAME;
}

void screen_hand(uint32_t frame)
{
    handed = frame;
}

void card_ask(void)
{
    card_due = now + (blocks % 6 == 5 ? CARD_FAR : CARD_NEAR);
    blocks++;
}

void card_interrupt(void)
{
    uint8_t *image = interrupt_begins();

    card_due = NOTHING;
    taken(ntk_group_post_isr(image, SIGNS, CARD, NTK_SET));
    interrupt_ends();
}

/* Up to three calls in one interrupt, and interrupts are open between them and the end: every second block of the card comes there, in the
 * midst of the clock's handler. */
void clock_interrupt(void)
{
    uint8_t *image = interrupt_begins();

    now++;
    taken(ntk_tick_isr(image));
    if (now % FRAME == 0) {
        screening->shown[now / FRAME - 1] = handed == now / FRAME - 1;
        taken(ntk_group_post_isr(image, SIGNS, SYNC, NTK_SET));
    }
    if (now % (FRAME * BLOCK) == CLOCK_AT)
        taken(ntk_group_post_isr(image, SIGNS, CLOCK, NTK_SET));
    if (card_due == now && blocks % 2 == 0) {
        interrupts_open();
        raise_interrupt(card_entry);
        interrupts_shut();
    }
    interrupt_ends();
}

void one_tick(void)
{
    record_moment(now);
    if (card_due == now)
        raise_interrupt(card_entry);
    raise_interrupt(clock_entry);
}

void work(unsigned ticks)
{
    while (ticks-- > 0)
        one_tick();
}
