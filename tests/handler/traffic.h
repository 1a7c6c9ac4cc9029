/* traffic.h: calls at random, among them many waits and ticks, so that tables fill and empty. The same at each run. */
#ifndef TRAFFIC_H
#define TRAFFIC_H

#include "nonthachak.h"

struct call {
    uint8_t kind;
    uint32_t n[6];
};

static inline uint32_t below(uint64_t *seed, uint32_t most)
{
    *seed = *seed * UINT64_C(6364136223846793005) + UINT64_C(1442695040888963407);
    return (uint32_t)(*seed >> 33) % most;
}

static inline struct call some_call(uint64_t *seed)
{
    static const uint8_t kinds[] = {
        NTK_TASK_CREATE, NTK_TASK_CREATE, NTK_TASK_CREATE, NTK_TASK_DELETE, NTK_CHANGE_PRIORITY, NTK_CHANGE_PRIORITY, NTK_SUSPEND, NTK_RESUME,
        NTK_YIELD, NTK_DELAY, NTK_DELAY_RESUME, NTK_TICK, NTK_TICK, NTK_TICK, NTK_SEMAPHORE_CREATE, NTK_SEMAPHORE_DELETE, NTK_SEMAPHORE_WAIT,
        NTK_SEMAPHORE_POST, NTK_SEMAPHORE_ABORT, NTK_MUTEX_CREATE, NTK_MUTEX_CREATE, NTK_MUTEX_DELETE, NTK_MUTEX_WAIT, NTK_MUTEX_WAIT, NTK_MUTEX_WAIT,
        NTK_MUTEX_WAIT, NTK_MUTEX_POST, NTK_MUTEX_ABORT, NTK_GROUP_CREATE, NTK_GROUP_DELETE, NTK_GROUP_WAIT, NTK_GROUP_POST, NTK_GROUP_ABORT,
        NTK_CHANNEL_CREATE, NTK_CHANNEL_DELETE, NTK_CHANNEL_WAIT, NTK_CHANNEL_POST, NTK_CHANNEL_POST, NTK_CHANNEL_ABORT, NTK_CHANNEL_FLUSH};
    struct call c;

    c.kind = kinds[below(seed, sizeof kinds)];
    c.n[0] = below(seed, c.kind < NTK_SEMAPHORE_CREATE ? NTK_TASKS : c.kind >= NTK_GROUP_CREATE && c.kind < NTK_CHANNEL_CREATE ? NTK_GROUPS : 16);
    c.n[1] = c.kind < NTK_SEMAPHORE_CREATE ? below(seed, 63) : c.kind == NTK_MUTEX_DELETE ? below(seed, 8) == 0 : 1;
    c.n[2] = c.kind == NTK_GROUP_POST || c.kind == NTK_CHANNEL_POST ? below(seed, 2) : below(seed, 4) == 0 ? 1 + below(seed, 5) : 0;
    c.n[3] = 1 + below(seed, 3);
    c.n[4] = below(seed, 4);
    c.n[5] = below(seed, 2);
    if (c.kind == NTK_DELAY)
        c.n[0] = 1 + below(seed, 5);
    if (c.kind == NTK_CHANNEL_CREATE)
        c.n[1] = 1 + below(seed, NTK_MOST_MESSAGES);
    return c;
}

#endif
