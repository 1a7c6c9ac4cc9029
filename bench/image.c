/* image.c: see image.h. The bytes as docs/IMAGE.md has them; no other file of the benchmark knows their order. */
#include "image.h"

#include <stddef.h>
#include <string.h>

enum { QUEUES = 1 + 3 * PLAIN_OBJECTS + PLAIN_GROUPS };

/* Single bytes alone, so that there is no padding. */
struct columns {
    struct {
        uint8_t used[PLAIN_TASKS], base[PLAIN_TASKS], work[PLAIN_TASKS], suspend[PLAIN_TASKS];
        uint8_t state[PLAIN_TASKS], object[PLAIN_TASKS], marked[PLAIN_TASKS], outcome[PLAIN_TASKS];
        uint8_t test[PLAIN_TASKS], consume[PLAIN_TASKS];
        uint8_t quantum[PLAIN_TASKS][2], left[PLAIN_TASKS][2];
        uint8_t due[PLAIN_TASKS][4], mask[PLAIN_TASKS][4], message[PLAIN_TASKS][4];
    } task;
    struct {
        uint8_t used[PLAIN_OBJECTS];
        uint8_t count[PLAIN_OBJECTS][4];
    } semaphore;
    struct {
        uint8_t used[PLAIN_OBJECTS], holder[PLAIN_OBJECTS], nesting[PLAIN_OBJECTS];
    } mutex;
    struct {
        uint8_t used[PLAIN_GROUPS];
        uint8_t flags[PLAIN_GROUPS][4];
    } group;
    struct {
        uint8_t used[PLAIN_OBJECTS], capacity[PLAIN_OBJECTS], held[PLAIN_OBJECTS];
    } channel;
    uint8_t queue[QUEUES][PLAIN_TASKS];
    uint8_t tick[4], default_quantum[2], depth, running, ready[8];
    uint8_t slots[PLAIN_OBJECTS][PLAIN_MESSAGES][4];
};

_Static_assert(offsetof(struct columns, task.test) == 256, "tests");
_Static_assert(offsetof(struct columns, task.quantum) == 320, "quanta");
_Static_assert(offsetof(struct columns, task.due) == 448, "due marks");
_Static_assert(offsetof(struct columns, task.mask) == 576, "masks");
_Static_assert(offsetof(struct columns, task.message) == 704, "the tasks' messages");
_Static_assert(offsetof(struct columns, semaphore) == 832, "semaphores");
_Static_assert(offsetof(struct columns, mutex) == 912, "mutexes");
_Static_assert(offsetof(struct columns, group) == 960, "groups");
_Static_assert(offsetof(struct columns, channel) == 1000, "channels");
_Static_assert(offsetof(struct columns, queue) == 1048, "queues");
_Static_assert(offsetof(struct columns, tick) == 2872, "tick");
_Static_assert(offsetof(struct columns, depth) == 2878, "depth");
_Static_assert(offsetof(struct columns, ready) == 2880, "ready word");
_Static_assert(offsetof(struct columns, slots) == 2888, "messages");
_Static_assert(sizeof(struct columns) == NTK_IMAGE_SIZE, "size");

static void put16(uint8_t at[2], uint32_t n)
{
    at[0] = (uint8_t)n;
    at[1] = (uint8_t)(n >> 8);
}

static void put32(uint8_t at[4], uint32_t n)
{
    put16(at, n & 0xFFFF);
    put16(at + 2, n >> 16);
}

static void put64(uint8_t at[8], uint64_t n)
{
    put32(at, (uint32_t)n);
    put32(at + 4, (uint32_t)(n >> 32));
}

static void put_task(struct columns *to, const struct plain *k, unsigned i)
{
    const struct plain_task *t = &k->task[i];

    to->task.used[i] = t->used;
    to->task.base[i] = t->base;
    to->task.work[i] = k->work[i];
    to->task.suspend[i] = t->suspended;
    to->task.state[i] = t->state;
    to->task.object[i] = t->object;
    to->task.marked[i] = k->marked >> i & 1;
    to->task.outcome[i] = t->outcome;
    put16(to->task.quantum[i], t->quantum);
    put16(to->task.left[i], t->left);
    put32(to->task.due[i], t->mark);
    to->task.test[i] = (uint8_t)k->wanted[i].test;
    to->task.consume[i] = (uint8_t)k->wanted[i].consume;
    put32(to->task.mask[i], k->wanted[i].mask);
    put32(to->task.message[i], k->message[i]);
}

static void put_objects(struct columns *to, const struct plain *k, unsigned i)
{
    const struct plain_mutex *m = &k->mutex[i];

    to->semaphore.used[i] = (uint8_t)k->semaphore[i].used;
    put32(to->semaphore.count[i], k->semaphore[i].count);
    to->mutex.used[i] = m->used;
    to->mutex.holder[i] = m->used && m->holder != PLAIN_NONE ? m->holder + 1 : 0;
    to->mutex.nesting[i] = m->nesting;
}

static void put_group(struct columns *to, const struct plain *k, unsigned i)
{
    to->group.used[i] = (uint8_t)k->group[i].used;
    put32(to->group.flags[i], k->group[i].flags);
}

static void put_channel(struct columns *to, const struct plain *k, unsigned i)
{
    unsigned j;

    to->channel.used[i] = k->channel.used[i];
    to->channel.capacity[i] = k->channel.capacity[i];
    to->channel.held[i] = k->channel.held[i];
    for (j = 0; j < PLAIN_MESSAGES; j++)
        put32(to->slots[i][j], k->slots[i][j]);
}

/* The head of the waiters in a queue other than 0; those of the channels are the last. */
static unsigned head_of(unsigned queue)
{
    enum { CHANNELS = QUEUES - PLAIN_OBJECTS };

    return queue < CHANNELS ? PLAIN_SEMAPHORE + queue - 1 : PLAIN_CHANNEL + queue - CHANNELS;
}

/* The tasks behind a head go into the slots; gives the slot behind them. */
static uint8_t *put_ring(uint8_t *slot, const struct plain *k, unsigned head)
{
    unsigned i;

    for (i = k->next[head]; i != head; i = k->next[i])
        *slot++ = (uint8_t)(i + 1);
    return slot;
}

/* Queue 0 is that of the able tasks, the most urgent level first. */
static void put_able(struct columns *to, const struct plain *k)
{
    uint8_t *slot = to->queue[0];
    unsigned bit = PLAIN_LEVELS;

    while (bit-- > 0)
        if (k->ready >> bit & 1)
            slot = put_ring(slot, k, PLAIN_LEVEL + bit);
}

void image_of(const struct plain *k, uint8_t image[NTK_IMAGE_SIZE])
{
    struct columns to;
    unsigned i;

    memset(&to, 0, sizeof to);
    for (i = 0; i < PLAIN_TASKS; i++)
        put_task(&to, k, i);
    for (i = 0; i < PLAIN_OBJECTS; i++)
        put_objects(&to, k, i);
    for (i = 0; i < PLAIN_GROUPS; i++)
        put_group(&to, k, i);
    for (i = 0; i < PLAIN_OBJECTS; i++)
        put_channel(&to, k, i);
    put_able(&to, k);
    for (i = 1; i < QUEUES; i++)
        put_ring(to.queue[i], k, head_of(i));
    put32(to.tick, k->tick);
    put16(to.default_quantum, k->default_quantum);
    to.depth = k->depth;
    to.running = k->running == PLAIN_NONE ? 0 : k->running + 1;
    put64(to.ready, k->ready);
    memcpy(image, &to, sizeof to);
}
