/* registers.c: what an interrupt that makes a tick leaves of the registers of whom it interrupts. By a handler that saves the general ones alone,
 * some of xmm0 to xmm15 are lost: prints which, for ntk_step and for ntk_serve, as a row of docs/PORT-OTHER.md has it. By the two that are right,
 * none is. */
#include "handlers.h"

#include <stdio.h>
#include <string.h>

#include "traffic.h"

enum { CALLS = 40000, HANDLERS = 3 };

static uint8_t table[NTK_IMAGE_SIZE];
static int tested; /* ticks by ntk_step; else by ntk_serve */

void tick(void)
{
    struct ntk_outcome o = tested ? ntk_step(NTK_TICK | NTK_INTERRUPT, 0, 0, 0, 0, 0, 0, table, sizeof table)
                                  : ntk_serve(NTK_TICK | NTK_INTERRUPT, 0, 0, 0, 0, 0, 0, table, sizeof table);

    (void)o;
}

void clock_interrupt(void)
{
    tick();
}

void card_interrupt(void)
{
}

/* The registers that differ, a bit each: xmm0 to xmm15 from bit 0, the general ones from bit 16. */
static uint32_t lost_by(void (*entry)(void), uint64_t *seed)
{
    struct registers before, after;
    uint32_t lost = 0, i;

    for (i = 0; i < 32; i++)
        before.xmm[i] = (uint64_t)below(seed, 1u << 31) << 32 | below(seed, 1u << 31);
    for (i = 0; i < 15; i++)
        before.general[i] = (uint64_t)below(seed, 1u << 31) << 32 | below(seed, 1u << 31);
    after = before;
    interrupted(&after, entry);
    for (i = 0; i < 16; i++)
        if (memcmp(before.xmm + 2 * i, after.xmm + 2 * i, 16) != 0)
            lost |= UINT32_C(1) << i;
    for (i = 0; i < 15; i++)
        if (before.general[i] != after.general[i])
            lost |= UINT32_C(65536) << i;
    return lost;
}

/* What ticks in the midst of traffic lose by a handler. */
static uint32_t lost_in_traffic(void (*entry)(void))
{
    uint64_t seed = 1;
    uint32_t lost = 0, i;

    ntk_fresh(table, sizeof table);
    for (i = 0; i < CALLS; i++) {
        struct call c = some_call(&seed);
        struct ntk_outcome o;

        if (c.kind == NTK_TICK)
            lost |= lost_by(entry, &seed);
        else
            o = ntk_step(c.kind, c.n[0], c.n[1], c.n[2], c.n[3], c.n[4], c.n[5], table, sizeof table), (void)o;
    }
    return lost;
}

static void tell_row(uint32_t lost)
{
    const char *between = "";
    uint32_t i, last;

    printf("| `%s` | ", tested ? "ntk_step" : "ntk_serve");
    for (i = 0; i < 16; i = last + 1) {
        for (last = i; last < 16 && lost >> last & 1; last++)
            continue;
        if (last == i)
            continue;
        printf(last - i > 1 ? "%sxmm%u to xmm%u" : "%sxmm%u", between, (unsigned)i, (unsigned)last - 1);
        between = ", ";
    }
    printf(" |\n");
}

int main(void)
{
    static void (*entries[HANDLERS])(void);
    uint32_t i, lost;
    int wrong = 0;

    entries[0] = (void (*)(void))general_alone;
    entries[1] = (void (*)(void))all_saved;
    entries[2] = clock_entry;
    for (tested = 1; tested >= 0; tested--)
        for (i = 0; i < HANDLERS; i++) {
            lost = lost_in_traffic(entries[i]);
            if (i == 0)
                tell_row(lost);
            wrong |= i == 0 ? lost >> 16 != 0 : lost != 0;
        }
    if (wrong)
        printf("a register is lost that a handler saved\n");
    return wrong;
}
