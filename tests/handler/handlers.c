/* handlers.c: two interrupt handlers in C, built with general registers alone, as gcc and clang ask for the attribute. The first forgets the xmm
 * registers, which the archive changes; the second is the one of docs/PORT-OTHER.md. */
#include "handlers.h"

/* clang warns of every call in a handler, of that behind fxsave64 too. */
#ifdef __clang__
#pragma clang diagnostic ignored "-Winterrupt-service-routine"
#endif

/* WRONG ON PURPOSE. */
__attribute__((interrupt)) void general_alone(struct frame *frame)
{
    (void)frame;
    tick();
}

__attribute__((interrupt)) void all_saved(struct frame *frame)
{
    unsigned char saved[512] __attribute__((aligned(16)));

    (void)frame;
    __asm__ volatile("fxsave64 %0" : "=m"(saved));
    tick();
    __asm__ volatile("fxrstor64 %0" : : "m"(saved));
}
