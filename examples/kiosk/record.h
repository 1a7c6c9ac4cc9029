/* record.h: what the table said in each tick's time of a run. */
#ifndef RECORD_H
#define RECORD_H

#include "kiosk.h"

struct standing {
    uint8_t works;  /* its working priority */
    uint8_t state;  /* enum ntk_state; a wait for one of the bought kernel's mutexes is NTK_WAITS_MUTEX too */
    uint8_t object; /* what it waits for; of flags the mask */
};

struct moment {
    uint32_t runs; /* plus 1; 0 for none */
    struct standing of[WORKERS];
    uint32_t holder[MUTEXES]; /* plus 1; 0 for none */
};

struct recording {
    const struct kernel *kernel;
    struct screening screening;
    struct moment at[ALL_TICKS];
    uint32_t first_post; /* the tick of the first of the two posts, in the first pass's turn */
};

/* Moments go into `recording` from now on. */
void record_into(struct recording *recording, const struct kernel *kernel);

void record_moment(uint32_t tick);
void record_first_post(uint32_t tick);

#endif
