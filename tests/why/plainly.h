/* Each standing rule read off the bytes of an image, from docs/IMAGE.md and from nothing of the library: what ntk_why is compared with. */
#ifndef PLAINLY_H
#define PLAINLY_H

#include "../port/decode.h"

enum { SLOTS_FROM = 1048 }; /* of queue 0 */

static uint32_t of(uint32_t field, uint32_t number, const uint8_t *image)
{
    uint64_t shown = decode(field, number, image);
    return shown == NTK_NO_FIELD ? 0 : (uint32_t)shown; /* what is no record is free, and free is 0 */
}

static int able(uint32_t task, const uint8_t *image)
{
    return of(NTK_FIELD_TASK_IN_USE, task, image) == 1 && of(NTK_FIELD_TASK_STATE, task, image) == NTK_PLAIN &&
           of(NTK_FIELD_TASK_SUSPEND, task, image) == 0;
}

/* The queue where a task stands; NTK_QUEUES or more for none. */
static uint32_t place(uint32_t task, const uint8_t *image)
{
    uint32_t object = of(NTK_FIELD_TASK_OBJECT, task, image);

    if (able(task, image))
        return NTK_ABLE_QUEUE;
    switch (of(NTK_FIELD_TASK_STATE, task, image)) {
    case NTK_WAITS_SEMAPHORE: return NTK_SEMAPHORE_QUEUE(object);
    case NTK_WAITS_MUTEX: return NTK_MUTEX_QUEUE(object);
    case NTK_WAITS_FLAGS: return NTK_GROUP_QUEUE(object);
    case NTK_WAITS_MESSAGE: return NTK_CHANNEL_QUEUE(object);
    default: return NTK_QUEUES;
    }
}

/* The holder of the mutex for which a task waits; NTK_TASKS or more for none. */
static uint32_t next(uint32_t task, const uint8_t *image)
{
    uint32_t holder = of(NTK_FIELD_MUTEX_HOLDER, of(NTK_FIELD_TASK_OBJECT, task, image), image);

    return of(NTK_FIELD_TASK_STATE, task, image) == NTK_WAITS_MUTEX && holder != 0 ? holder - 1 : NTK_TASKS;
}

/* The smallest base priority of a task and of those from which a chain of waits leads to it. */
static uint32_t afresh(uint32_t task, const uint8_t *image)
{
    uint32_t least = of(NTK_FIELD_TASK_BASE, task, image), from, at, steps;

    for (from = 0; from < NTK_TASKS; from++) {
        uint32_t base = of(NTK_FIELD_TASK_BASE, from, image);

        for (at = next(from, image), steps = 0; at < NTK_TASKS && steps < NTK_TASKS; at = next(at, image), steps++)
            if (at == task && base < least)
                least = base;
    }
    return least;
}

static int kept_by_task(uint32_t rule, uint32_t i, const uint8_t *image)
{
    uint32_t use = of(NTK_FIELD_TASK_IN_USE, i, image), state = of(NTK_FIELD_TASK_STATE, i, image);
    uint32_t object = of(NTK_FIELD_TASK_OBJECT, i, image), marked = of(NTK_FIELD_TASK_MARKED, i, image);
    uint32_t due = of(NTK_FIELD_TASK_DUE, i, image), mask = of(NTK_FIELD_TASK_MASK, i, image), field;
    int flags = state == NTK_WAITS_FLAGS;

    switch (rule) {
    case NTK_RULE_TASK_USED: return use <= 1;
    case NTK_RULE_TASK_BASE: return of(NTK_FIELD_TASK_BASE, i, image) <= 62;
    case NTK_RULE_TASK_WORK: return of(NTK_FIELD_TASK_WORK, i, image) <= 62;
    case NTK_RULE_TASK_SUSPEND: return of(NTK_FIELD_TASK_SUSPEND, i, image) <= 250;
    case NTK_RULE_TASK_STATE: return state <= NTK_WAITS_MESSAGE;
    case NTK_RULE_TASK_OBJECT:
        return object < (flags ? 8u : state >= NTK_WAITS_SEMAPHORE && state <= NTK_WAITS_MESSAGE ? 16u : 1u);
    case NTK_RULE_TASK_MARKED: return marked <= 1;
    case NTK_RULE_TASK_DUE: return marked != 0 || due == 0;
    case NTK_RULE_TASK_OUTCOME: return of(NTK_FIELD_TASK_OUTCOME, i, image) <= 3;
    case NTK_RULE_TASK_MASK: return flags || mask == 0;
    case NTK_RULE_TASK_TEST: return of(NTK_FIELD_TASK_TEST, i, image) <= (flags ? 3u : 0u);
    case NTK_RULE_TASK_CONSUME: return of(NTK_FIELD_TASK_CONSUME, i, image) <= (flags ? 1u : 0u);
    case NTK_RULE_TASK_FREE:
        for (field = NTK_FIELD_TASK_IN_USE; use == 0 && field <= NTK_FIELD_TASK_MESSAGE; field++)
            if (of(field, i, image) != 0)
                return 0;
        return 1;
    case NTK_RULE_TASK_PLAIN_MARK: return state != NTK_PLAIN || marked == 0;
    case NTK_RULE_TASK_DELAY_MARK: return state != NTK_DELAYED || marked == 1;
    case NTK_RULE_TASK_LEFT_MOST: return of(NTK_FIELD_TASK_LEFT, i, image) <= of(NTK_FIELD_TASK_QUANTUM, i, image);
    case NTK_RULE_TASK_ASKS: return !flags || mask != 0;
    case NTK_RULE_TASK_TURN: return use != 1 || of(NTK_FIELD_TASK_QUANTUM, i, image) != 0;
    case NTK_RULE_TASK_WORKED: return of(NTK_FIELD_TASK_WORK, i, image) == afresh(i, image);
    case NTK_RULE_TASK_NOT_DUE: return marked != 1 || due != of(NTK_FIELD_TICK, 0, image);
    default: return 1;
    }
}

static int kept_by_object(uint32_t rule, uint32_t i, const uint8_t *image)
{
    uint32_t semaphore = of(NTK_FIELD_SEMAPHORE_IN_USE, i, image), mutex = of(NTK_FIELD_MUTEX_IN_USE, i, image);
    uint32_t group = of(NTK_FIELD_GROUP_IN_USE, i, image), holder = of(NTK_FIELD_MUTEX_HOLDER, i, image);
    uint32_t nesting = of(NTK_FIELD_MUTEX_NESTING, i, image);

    switch (rule) {
    case NTK_RULE_SEMAPHORE_USED: return semaphore <= 1;
    case NTK_RULE_SEMAPHORE_FREE: return semaphore != 0 || of(NTK_FIELD_SEMAPHORE_COUNT, i, image) == 0;
    case NTK_RULE_MUTEX_USED: return mutex <= 1;
    case NTK_RULE_MUTEX_HOLDER: return holder <= NTK_TASKS;
    case NTK_RULE_MUTEX_NESTING: return nesting <= 250;
    case NTK_RULE_MUTEX_FREE: return mutex != 0 || (holder == 0 && nesting == 0);
    case NTK_RULE_MUTEX_UNHELD: return holder != 0 || nesting == 0;
    case NTK_RULE_MUTEX_HELD: return holder == 0 || nesting != 0;
    case NTK_RULE_GROUP_USED: return group <= 1;
    case NTK_RULE_GROUP_FREE: return group != 0 || of(NTK_FIELD_GROUP_FLAGS, i, image) == 0;
    case NTK_RULE_HOLDER_USED: return holder == 0 || of(NTK_FIELD_TASK_IN_USE, holder - 1, image) == 1;
    default: return 1;
    }
}

static int kept_by_channel(uint32_t rule, uint32_t i, const uint8_t *image)
{
    uint32_t use = of(NTK_FIELD_CHANNEL_USED, i, image), capacity = of(NTK_FIELD_CHANNEL_CAPACITY, i, image);
    uint32_t held = of(NTK_FIELD_CHANNEL_HELD, i, image);

    switch (rule) {
    case NTK_RULE_CHANNEL_USED: return use <= 1;
    case NTK_RULE_CHANNEL_CAPACITY: return capacity <= 32;
    case NTK_RULE_CHANNEL_HELD: return held <= capacity;
    case NTK_RULE_CHANNEL_FREE: return use != 0 || (capacity == 0 && held == 0);
    case NTK_RULE_CHANNEL_ROOM: return use != 1 || capacity != 0;
    default: return 1;
    }
}

/* Slot j of channel c is number 32 c + j. */
static int kept_by_message(uint32_t rule, uint32_t n, const uint8_t *image)
{
    if (rule != NTK_RULE_MESSAGE_UNUSED)
        return 1;
    return n % 32 < of(NTK_FIELD_CHANNEL_HELD, n / 32, image) || of(NTK_FIELD_MESSAGE, n, image) == 0;
}

/* Whether what a task in this state waits for has something to take: flags are there for each waiter to test. */
static int offers(uint32_t state, uint32_t object, const uint8_t *image)
{
    switch (state) {
    case NTK_WAITS_SEMAPHORE: return of(NTK_FIELD_SEMAPHORE_COUNT, object, image) != 0;
    case NTK_WAITS_MUTEX: return of(NTK_FIELD_MUTEX_HOLDER, object, image) == 0;
    case NTK_WAITS_MESSAGE: return of(NTK_FIELD_CHANNEL_HELD, object, image) != 0;
    default: return 0;
    }
}

static int kept_by_waiter(uint32_t rule, uint32_t i, const uint8_t *image)
{
    static const uint32_t uses[] = {NTK_FIELD_SEMAPHORE_IN_USE, NTK_FIELD_MUTEX_IN_USE, NTK_FIELD_GROUP_IN_USE, NTK_FIELD_CHANNEL_USED};
    uint32_t state = of(NTK_FIELD_TASK_STATE, i, image), object = of(NTK_FIELD_TASK_OBJECT, i, image);

    if (state < NTK_WAITS_SEMAPHORE || state > NTK_WAITS_MESSAGE)
        return 1;
    switch (rule) {
    case NTK_RULE_WAIT_USED: return of(uses[state - NTK_WAITS_SEMAPHORE], object, image) == 1;
    case NTK_RULE_WAIT_NOTHING: return !offers(state, object, image);
    case NTK_RULE_WAIT_APART: return next(i, image) != i;
    default: return 1;
    }
}

static int kept_by_slot(uint32_t rule, uint32_t n, const uint8_t *image)
{
    uint32_t q = n / 32, j = n % 32, k, times = 0;
    const uint8_t *slots = image + SLOTS_FROM + 32 * q;
    uint8_t behind = j + 1 < 32 ? slots[j + 1] : 0;

    switch (rule) {
    case NTK_RULE_QUEUE_PLACES:
        for (k = 0; k < 32; k++)
            times += slots[k] == j + 1;
        return times == (place(j, image) == q);
    case NTK_RULE_QUEUE_NOTHING_ELSE: return slots[j] <= NTK_TASKS;
    case NTK_RULE_QUEUE_ORDERED:
        return behind == 0 || (slots[j] != 0 && of(NTK_FIELD_TASK_WORK, slots[j] - 1u, image) <= of(NTK_FIELD_TASK_WORK, behind - 1u, image));
    default: return 1;
    }
}

/* Level 0 has the top bit of the ready word. */
static int kept_by_level(uint32_t level, const uint8_t *image)
{
    uint64_t word = decode(NTK_FIELD_READY, 0, image);
    uint32_t i, found = 0;

    for (i = 0; i < NTK_TASKS; i++)
        found |= able(i, image) && of(NTK_FIELD_TASK_WORK, i, image) == level;
    return (word >> (63 - level) & 1) == found;
}

static int kept_by_numbers(uint32_t rule, const uint8_t *image)
{
    uint32_t depth = of(NTK_FIELD_DEPTH, 0, image), running = of(NTK_FIELD_RUNNING, 0, image);

    switch (rule) {
    case NTK_RULE_DEPTH_RANGE: return depth <= 250;
    case NTK_RULE_RUNNING_RANGE: return running <= NTK_TASKS;
    case NTK_RULE_RUNNING_FIRST: return depth != 0 || running == image[SLOTS_FROM];
    case NTK_RULE_RUNNING_ABLE: return depth == 0 || running == 0 || able(running - 1, image);
    case NTK_RULE_DEFAULT_LEAST: return of(NTK_FIELD_DEFAULT_QUANTUM, 0, image) != 0;
    default: return 1;
    }
}

/* How many records a rule has. */
static uint32_t records(uint32_t rule)
{
    if (rule == NTK_RULE_READY_LEVELS)
        return NTK_LEVELS;
    if (rule >= 0xB0)
        return 1;
    if (rule >= 0x90 && rule < 0xA0)
        return NTK_QUEUES * NTK_TASKS;
    if (rule == NTK_RULE_MESSAGE_RANGE || rule == NTK_RULE_MESSAGE_UNUSED)
        return NTK_CHANNELS * NTK_MOST_MESSAGES;
    if (rule >= 0x40 && rule < 0x50)
        return NTK_GROUPS;
    return (rule >= 0x20 && rule < 0x80) || rule == NTK_RULE_HOLDER_USED ? 16 : NTK_TASKS;
}

/* Whether the record keeps the rule. */
static int kept_plainly(uint32_t rule, uint32_t number, const uint8_t *image)
{
    if (number >= records(rule))
        return 1;
    if (rule == NTK_RULE_READY_LEVELS)
        return kept_by_level(number, image);
    if (rule >= 0xB0)
        return kept_by_numbers(rule, image);
    if (rule >= 0x90 && rule < 0xA0)
        return kept_by_slot(rule, number, image);
    if (rule == NTK_RULE_MESSAGE_RANGE || rule == NTK_RULE_MESSAGE_UNUSED)
        return kept_by_message(rule, number, image);
    if (rule >= 0x50 && rule < 0x80)
        return kept_by_channel(rule, number, image);
    if ((rule >= 0x20 && rule < 0x50) || rule == NTK_RULE_HOLDER_USED)
        return kept_by_object(rule, number, image);
    if (rule >= 0x80 && rule < 0x90)
        return kept_by_waiter(rule, number, image);
    return kept_by_task(rule, number, image);
}

#endif
