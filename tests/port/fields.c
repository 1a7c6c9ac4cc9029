/* ntk_read beside a decoder of the bytes: every field of every number, of the fresh image, after each of some calls and on bytes at random;
 * then the first level of ready words, what is unknown, and wrong lengths. */
#include <stdio.h>
#include <string.h>

#include "decode.h"
#include "nonthachak.h"

static uint8_t table[2 * NTK_IMAGE_SIZE]; /* an image, and room for one that is too long */
static unsigned long compared, wrong;

static void expect(const char *what, uint32_t field, uint32_t number, uint64_t want, uint64_t got)
{
    compared++;
    if (got == want)
        return;
    if (++wrong > 20)
        return;
    printf("fields: %s, field %lx, number %lu: %llx expected, not %llx\n", what, (unsigned long)field, (unsigned long)number,
           (unsigned long long)want, (unsigned long long)got);
}

static void read_one(const char *what, uint32_t field, uint32_t number, size_t length, uint64_t want)
{
    expect(what, field, number, want, ntk_read(field, number, table, length));
}

/* Every number of every field. */
static void read_all(const char *what)
{
    uint8_t before[sizeof table];
    uint32_t n;
    size_t i;

    memcpy(before, table, sizeof table);
    for (i = 0; i < COLUMNS; i++)
        for (n = 0; n < columns[i].count; n++)
            read_one(what, columns[i].field, n, NTK_IMAGE_SIZE, decode(columns[i].field, n, table));
    expect("bytes that changed", 0, 0, 0, memcmp(before, table, sizeof table) != 0);
}

/* ---- calls */

struct call {
    uint8_t kind;
    uint32_t n[6], answer;
};

/* Tasks 31, 5 and 0 in the order of their urgency: 31 holds a mutex twice over and waits for a semaphore, 5 waits for that mutex, 0 is
 * delayed. 5 comes back by its limit, waits again and comes back by a forced delete; 31 by a post, and 0 by a delay resume. Then 31 posts messages
 * to the end and to the front of a channel and fills another; it takes one, flushes the full one, waits for it and is handed what an interrupt posts
 * there. Then 31 waits for flags, 0 posts one of them, and 31 consumes it; in the end both wait, 31 for all flags and 0 until two are clear. */
static const struct call calls[] = {
    {NTK_LOCK, {0}, NTK_DONE},
    {NTK_TASK_CREATE, {0, 62, 65535}, NTK_DONE},
    {NTK_TASK_CREATE, {31, 0, 1}, NTK_DONE},
    {NTK_SET_DEFAULT_QUANTUM, {0x1234}, NTK_DONE},
    {NTK_TASK_CREATE, {30, 62, 0}, NTK_DONE},
    {NTK_TASK_DELETE, {30}, NTK_DONE},
    {NTK_TASK_CREATE, {5, 10, 300}, NTK_DONE},
    {NTK_UNLOCK, {0}, NTK_DONE},
    {NTK_MUTEX_CREATE, {0}, NTK_DONE},
    {NTK_MUTEX_CREATE, {15}, NTK_DONE},
    {NTK_MUTEX_WAIT, {15, 1}, NTK_DONE},
    {NTK_MUTEX_WAIT, {15, 1}, NTK_DONE},
    {NTK_SEMAPHORE_CREATE, {3, 4294967295u}, NTK_DONE},
    {NTK_SEMAPHORE_CREATE, {15}, NTK_DONE},
    {NTK_CHANGE_PRIORITY, {5, 33}, NTK_DONE},
    {NTK_SEMAPHORE_WAIT, {15, 1, 3000000000u}, NTK_BLOCKS},
    {NTK_MUTEX_WAIT, {15, 1, 2}, NTK_BLOCKS},
    {NTK_DELAY, {70000}, NTK_DONE},
    {NTK_TICK | NTK_INTERRUPT, {0}, NTK_DONE},
    {NTK_TICK | NTK_INTERRUPT, {0}, NTK_DONE},
    {NTK_SEMAPHORE_CREATE, {4}, NTK_DONE},
    {NTK_SEMAPHORE_WAIT, {4, 1}, NTK_BLOCKS},
    {NTK_SUSPEND, {5}, NTK_DONE},
    {NTK_SUSPEND, {5}, NTK_DONE},
    {NTK_SEMAPHORE_POST | NTK_INTERRUPT, {15}, NTK_DONE},
    {NTK_LOCK, {0}, NTK_DONE},
    {NTK_LOCK, {0}, NTK_DONE},
    {NTK_TICK | NTK_INTERRUPT, {0}, NTK_DONE},
    {NTK_SEMAPHORE_DELETE, {4, 1}, NTK_DONE},
    {NTK_DELAY_RESUME, {0}, NTK_DONE},
    {NTK_UNLOCK, {0}, NTK_DONE},
    {NTK_UNLOCK, {0}, NTK_DONE},
    {NTK_CHANNEL_CREATE, {0, 2}, NTK_DONE},
    {NTK_CHANNEL_CREATE, {15, 32}, NTK_DONE},
    {NTK_CHANNEL_POST, {15, 4294967295u, NTK_AT_END}, NTK_DONE},
    {NTK_CHANNEL_POST, {15, 0x04030201, NTK_AT_END}, NTK_DONE},
    {NTK_CHANNEL_POST, {15, 0x80000000u, NTK_IN_FRONT}, NTK_DONE},
    {NTK_CHANNEL_WAIT, {15, 0}, NTK_DONE},
    {NTK_CHANNEL_POST, {0, 7, NTK_IN_FRONT}, NTK_DONE},
    {NTK_CHANNEL_POST, {0, 8, NTK_AT_END}, NTK_DONE},
    {NTK_CHANNEL_POST, {0, 9, NTK_AT_END}, NTK_CHANNEL_FULL},
    {NTK_CHANNEL_FLUSH, {0}, NTK_DONE},
    {NTK_CHANNEL_WAIT, {0, 1, 4000000000u}, NTK_BLOCKS},
    {NTK_CHANNEL_POST | NTK_INTERRUPT, {0, 0x0A0B0C0D, NTK_IN_FRONT}, NTK_DONE},
    {NTK_GROUP_CREATE, {0}, NTK_DONE},
    {NTK_GROUP_CREATE, {7, 0x80000100u}, NTK_DONE},
    {NTK_GROUP_WAIT, {7, 1, 5, 0x40000002, NTK_ANY_SET, 1}, NTK_BLOCKS},
    {NTK_GROUP_POST, {7, 0x40000000, 1}, NTK_DONE},
    {NTK_GROUP_WAIT, {7, 1, 0, 4294967295u, NTK_ALL_SET, 1}, NTK_BLOCKS},
    {NTK_GROUP_WAIT, {7, 1, 4294967295u, 0x80000100u, NTK_ALL_CLEAR, 0}, NTK_BLOCKS},
};

/* The levels of the able tasks, as the ready word has to have them. */
static uint64_t able_levels(void)
{
    uint64_t word = 0;
    uint32_t i;

    for (i = 0; i < NTK_TASKS; i++)
        if (decode(NTK_FIELD_TASK_IN_USE, i, table) == 1 && decode(NTK_FIELD_TASK_STATE, i, table) == NTK_PLAIN &&
            decode(NTK_FIELD_TASK_SUSPEND, i, table) == 0)
            word |= NTK_LEVEL_BIT(decode(NTK_FIELD_TASK_WORK, i, table));
    return word;
}

/* That of the first able task. */
static uint64_t able_level(void)
{
    uint32_t first = ntk_task_of(ntk_slot_of(table, NTK_ABLE_QUEUE, 0));

    return first == NTK_NONE ? NTK_LEVELS : ntk_priority_of(table, first);
}

static void play(void)
{
    uint32_t ticks = 0;
    size_t i;

    for (i = 0; i < sizeof calls / sizeof calls[0]; i++) {
        const struct call *c = &calls[i];
        struct ntk_outcome o = ntk_step(c->kind, c->n[0], c->n[1], c->n[2], c->n[3], c->n[4], c->n[5], table, NTK_IMAGE_SIZE);
        ticks += c->kind == (NTK_TICK | NTK_INTERRUPT);
        expect("the answer of a call", c->kind, (uint32_t)i, c->answer, o.answer);
        expect("what a call tells further", c->kind, (uint32_t)i, c->kind == NTK_CHANNEL_FLUSH ? 2 : 0, o.further);
        read_all("after a call");
        expect("ntk_running", 0, 0, o.runs, ntk_running(table));
        expect("ntk_tick_count", 0, 0, ticks, ntk_tick_count(table));
        expect("ntk_ready", 0, (uint32_t)i, able_levels(), ntk_ready(table));
        expect("ntk_first_level", 0, (uint32_t)i, able_level(), ntk_first_level(table));
    }
}

/* What the calls have brought about, in the header's own words. */
static void after_play(void)
{
    expect("the default quantum", 0, 0, 0x1234, ntk_read(NTK_FIELD_DEFAULT_QUANTUM, 0, table, NTK_IMAGE_SIZE));
    expect("task 31's state", 0, 31, NTK_WAITS_FLAGS, ntk_read(NTK_FIELD_TASK_STATE, 31, table, NTK_IMAGE_SIZE));
    expect("task 31's mask", 0, 31, 4294967295u, ntk_read(NTK_FIELD_TASK_MASK, 31, table, NTK_IMAGE_SIZE));
    expect("task 31's consuming", 0, 31, 1, ntk_read(NTK_FIELD_TASK_CONSUME, 31, table, NTK_IMAGE_SIZE));
    expect("task 0's object", 0, 0, 7, ntk_read(NTK_FIELD_TASK_OBJECT, 0, table, NTK_IMAGE_SIZE));
    expect("task 0's test", 0, 0, NTK_ALL_CLEAR, ntk_read(NTK_FIELD_TASK_TEST, 0, table, NTK_IMAGE_SIZE));
    expect("task 5's mask", 0, 5, 0, ntk_read(NTK_FIELD_TASK_MASK, 5, table, NTK_IMAGE_SIZE));
    expect("group 0's flags", 0, 0, 0, ntk_flags_of(table, 0));
    expect("group 7's flags", 0, 7, 0x80000100u, ntk_flags_of(table, 7));
    expect("the flags of no group", 0, 8, NTK_NO_FIELD, ntk_flags_of(table, 8));
    expect("task 31's message", 0, 31, 0x0A0B0C0D, ntk_message_of(table, 31));
    expect("task 0's message", 0, 0, 0, ntk_message_of(table, 0));
    expect("the message of no task", 0, 32, NTK_NO_FIELD, ntk_message_of(table, 32));
    expect("channel 0's capacity", 0, 0, 2, ntk_read(NTK_FIELD_CHANNEL_CAPACITY, 0, table, NTK_IMAGE_SIZE));
    expect("channel 0's messages", 0, 0, 0, ntk_read(NTK_FIELD_CHANNEL_HELD, 0, table, NTK_IMAGE_SIZE));
    expect("channel 15's messages", 0, 15, 2, ntk_read(NTK_FIELD_CHANNEL_HELD, 15, table, NTK_IMAGE_SIZE));
    expect("channel 15's first message", 0, 15, 4294967295u, ntk_read(NTK_FIELD_MESSAGE, NTK_MESSAGE(15, 0), table, NTK_IMAGE_SIZE));
    expect("channel 15's second message", 0, 15, 0x04030201, ntk_read(NTK_FIELD_MESSAGE, NTK_MESSAGE(15, 1), table, NTK_IMAGE_SIZE));
    expect("what stands behind it", 0, 15, 0, ntk_read(NTK_FIELD_MESSAGE, NTK_MESSAGE(15, 2), table, NTK_IMAGE_SIZE));
    expect("task 31's wait", 0, 31, NTK_GIVEN, ntk_wait_of(table, 31));
    expect("task 5's wait", 0, 5, NTK_DELETED, ntk_wait_of(table, 5));
    expect("the wait of no task", 0, 32, NTK_NO_SUCH_TASK, ntk_wait_of(table, 32));
    expect("the wait of no task", 0, 4294967295u, NTK_NO_SUCH_TASK, ntk_wait_of(table, 4294967295u));
    expect("task 5's priority", 0, 5, 33, ntk_priority_of(table, 5));
    expect("the priority of no task", 0, 32, NTK_NO_FIELD, ntk_priority_of(table, 32));
    expect("task 5's suspends", 0, 5, 2, ntk_read(NTK_FIELD_TASK_SUSPEND, 5, table, NTK_IMAGE_SIZE));
    expect("mutex 15's holder", 0, 15, 32, ntk_read(NTK_FIELD_MUTEX_HOLDER, 15, table, NTK_IMAGE_SIZE));
    expect("mutex 15's nesting", 0, 15, 2, ntk_read(NTK_FIELD_MUTEX_NESTING, 15, table, NTK_IMAGE_SIZE));
    expect("semaphore 3's count", 0, 3, NTK_MOST_COUNT, ntk_read(NTK_FIELD_SEMAPHORE_COUNT, 3, table, NTK_IMAGE_SIZE));
    expect("the first able task", 0, 0, 0, ntk_slot_of(table, NTK_ABLE_QUEUE, 0));
    expect("the ready levels", 0, 0, 0, ntk_ready(table));
    expect("group 7's first waiter", 0, 0, 32, ntk_slot_of(table, NTK_GROUP_QUEUE(7), 0));
    expect("group 7's second waiter", 0, 1, 1, ntk_slot_of(table, NTK_GROUP_QUEUE(7), 1));
    expect("slot 32 of a queue", 0, 32, NTK_NO_FIELD, ntk_slot_of(table, NTK_ABLE_QUEUE, 32));
    expect("a slot of no queue", 0, 0, NTK_NO_FIELD, ntk_slot_of(table, NTK_QUEUES, 0));
    expect("a slot of no queue", 0, 0, NTK_NO_FIELD, ntk_slot_of(table, 134217728u, 0));
}

/* ---- bytes at random */

static uint8_t some_byte(void)
{
    static uint32_t state = 20261115u;
    state = 1664525u * state + 1013904223u;
    return (uint8_t)(state >> 24);
}

static void at_random(void)
{
    int turn;
    size_t i;

    for (turn = 0; turn < 100; turn++) {
        for (i = 0; i < sizeof table; i++)
            table[i] = some_byte();
        read_all("of bytes at random");
    }
    memset(table, 255, sizeof table);
    read_all("of bytes that are all 255");
}

/* ---- ready words */

static void put_ready(uint64_t word)
{
    const struct column *c = columns;
    size_t k;

    while (c->field != NTK_FIELD_READY)
        c++;
    for (k = 0; k < c->width; k++)
        table[c->from + k] = (uint8_t)(word >> (8 * k));
}

/* The first level is the top bit's, whatever stands below it. */
static void first_levels(void)
{
    uint64_t below;
    uint32_t level;
    int turn, k;

    put_ready(0);
    expect("the first level of none", 0, 0, NTK_LEVELS, ntk_first_level(table));
    for (level = 0; level < NTK_LEVELS; level++)
        for (turn = 0; turn < 20; turn++) {
            for (below = 0, k = 0; k < 8; k++)
                below = below << 8 | some_byte();
            below = turn == 0 ? 0 : turn == 1 ? UINT64_MAX : below;
            put_ready(NTK_LEVEL_BIT(level) | (below & (NTK_LEVEL_BIT(level) - 1)));
            expect("the first level", 0, level, level, ntk_first_level(table));
            expect("its bit", 0, level, 1, ntk_ready(table) >> (63 - level));
        }
}

/* ---- what is unknown */

static void unknown(void)
{
    static const uint32_t far[] = {1824, 1825, 65536, 65567, 2147483648u, 4294967264u, 4294967295u};
    static const size_t lengths[] = {0, 1, 31, NTK_IMAGE_SIZE - 1, NTK_IMAGE_SIZE + 1, 2 * NTK_IMAGE_SIZE};
    uint32_t field, n, bit;
    size_t i, k;

    for (field = 0; field < 256; field++) {
        for (n = 0; n < 1900; n++)
            read_one("of any number", field, n, NTK_IMAGE_SIZE, decode(field, n, table));
        for (k = 0; k < sizeof far / sizeof far[0]; k++)
            read_one("of a far number", field, far[k], NTK_IMAGE_SIZE, NTK_NO_FIELD);
        for (bit = 256; bit != 0; bit *= 2)
            read_one("of a far field", field + bit, 0, NTK_IMAGE_SIZE, NTK_NO_FIELD);
        for (k = 0; k < sizeof lengths / sizeof lengths[0]; k++)
            read_one("of a wrong length", field, 0, lengths[k], NTK_NO_FIELD);
    }
    for (i = 0; i < COLUMNS; i++)
        read_one("of the number behind the last", columns[i].field, columns[i].count, NTK_IMAGE_SIZE, NTK_NO_FIELD);
}

int main(void)
{
    read_all("of zeroed memory");
    expect("ntk_fresh", 0, 0, NTK_DONE, ntk_fresh(table, NTK_IMAGE_SIZE));
    read_all("of the fresh image");
    play();
    after_play();
    at_random();
    first_levels();
    unknown();
    printf("fields: %lu compared, %lu wrong\n", compared, wrong);
    return wrong != 0;
}
