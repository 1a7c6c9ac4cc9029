/* plain.h: a plain C kernel with the bookkeeping of the paper's rules, for comparison with the port: a struct behind a pointer, no
 * byte image, nothing proved. It answers as ntk_step does, and plain_check tests the same standing rules. */
#ifndef PLAIN_H
#define PLAIN_H

#include <stdint.h>

enum { PLAIN_TASKS = 32, PLAIN_OBJECTS = 16, PLAIN_GROUPS = 8, PLAIN_MESSAGES = 32, PLAIN_LEVELS = 64 };

/* Each queue is a ring of nodes through a node of its own: node i is task i, then come the heads of the queues. A task in no queue
 * is a ring by itself. The heads of a state's queues begin at 16 times the state; the eight nodes from PLAIN_NONE on, which stands for
 * "no task", are in no queue. The able tasks of each level, that is of each working priority, are a queue of their own: so the first is
 * found without a walk, and so are both ends of a level. The heads stand as the bits of `ready` do, level 62 before level 61 and so on up to
 * level 0, and each is looked at only where its bit is set; but the head of bit 0, which no level has, has PLAIN_NONE next. */
enum {
    PLAIN_SEMAPHORE = 32,
    PLAIN_MUTEX = 48,
    PLAIN_GROUP = 64,
    PLAIN_NONE = 72,
    PLAIN_CHANNEL = 80,
    PLAIN_LEVEL = 96,
    PLAIN_NODES = PLAIN_LEVEL + PLAIN_LEVELS
};

enum plain_state { PLAIN_PLAIN, PLAIN_DELAYED, PLAIN_WAITS_SEMAPHORE, PLAIN_WAITS_MUTEX, PLAIN_WAITS_FLAGS, PLAIN_WAITS_MESSAGE };

/* plain_check tests the first eight bytes together: it knows their places. */
struct plain_task {
    uint8_t used;
    uint8_t base;
    uint8_t state;   /* enum plain_state */
    uint8_t object;  /* that it waits for, else 0 */
    uint16_t held;   /* the mutexes that it holds, a bit each */
    uint8_t outcome; /* of its last wait */
    uint8_t suspended;
    uint16_t quantum; /* not 0 where it is in use */
    uint16_t left;
    uint32_t mark; /* due mark; 0 where its bit in `marked` is not set */
};

/* What a task wants of the flags of its group; all 0 where it waits for none. plain_check tests it as eight bytes: no padding. */
struct plain_wanted {
    uint32_t mask;
    uint16_t test; /* enum ntk_test */
    uint16_t consume;
};

struct plain_semaphore {
    uint32_t used;
    uint32_t count;
};

struct plain_mutex {
    uint8_t used;
    uint8_t holder; /* PLAIN_NONE for none, 0 where not in use */
    uint8_t nesting;
};

struct plain_group {
    uint32_t used;
    uint32_t flags;
};

/* The message queues, called channels, since a queue is a row of tasks. plain_check tests eight of them at a time. */
struct plain_channels {
    uint8_t used[PLAIN_OBJECTS];
    uint8_t capacity[PLAIN_OBJECTS]; /* not 0 where it is in use */
    uint8_t held[PLAIN_OBJECTS];     /* how many messages there are */
};

struct plain {
    uint32_t tick;
    uint32_t marked; /* the tasks with a due mark, a bit each */
    struct plain_task task[PLAIN_TASKS];
    struct plain_semaphore semaphore[PLAIN_OBJECTS];
    struct plain_mutex mutex[PLAIN_OBJECTS];
    struct plain_group group[PLAIN_GROUPS];
    struct plain_channels channel;
    struct plain_wanted wanted[PLAIN_TASKS];
    uint32_t message[PLAIN_TASKS]; /* that each was given last */
    uint64_t ready; /* the levels that have an able task, a bit each, the top one for level 0 */
    uint8_t next[PLAIN_NODES];
    uint8_t prev[PLAIN_NODES];
    uint8_t work[PLAIN_LEVEL]; /* working priorities; 0 for the heads of waiters and free tasks */
    uint16_t default_quantum;  /* not 0 */
    uint8_t depth;
    uint8_t running; /* PLAIN_NONE for none */
    _Alignas(16) uint32_t slots[PLAIN_OBJECTS][PLAIN_MESSAGES]; /* of the channels: their messages from the first on, then 0 */
};

/* `runs` is the task to run, plus 1; 0 is none. `further` is how many messages a flush took, else 0. */
struct plain_outcome {
    uint32_t answer;
    uint32_t runs;
    uint32_t further;
};

/* Makes the fresh table. */
void plain_fresh(struct plain *k);

/* An outcome as one number, which no processor here gives back through memory: the answer in the lowest byte, in the next what is
 * further, and in the upper half what runs. */
uint64_t plain_packed(struct plain *k, uint8_t kind, uint32_t a, uint32_t b, uint32_t c, uint32_t d, uint32_t e, uint32_t f);

/* One call, kinds and numbers as in nonthachak.h. The table must be sound. */
static inline struct plain_outcome plain_step(struct plain *k, uint8_t kind, uint32_t a, uint32_t b, uint32_t c, uint32_t d, uint32_t e,
                                              uint32_t f)
{
    uint64_t packed = plain_packed(k, kind, a, b, c, d, e, f);
    struct plain_outcome o = {packed & 0xFF, (uint32_t)(packed >> 32), packed >> 8 & 0xFF};

    return o;
}

/* 1 where the table meets every standing rule, else 0; for any contents. */
int plain_check(const struct plain *k);

#endif
