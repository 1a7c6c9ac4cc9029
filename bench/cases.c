/* cases.c: see cases.h. */
#include "cases.h"

#include <stdio.h>
#include <stdlib.h>

enum { MOST_CASES = 1200, SAMPLES = 10 };

static const struct kind all_kinds[] = {
    {NTK_TASK_CREATE, "task create"},
    {NTK_TASK_DELETE, "task delete"},
    {NTK_CHANGE_PRIORITY, "change priority"},
    {NTK_SUSPEND, "suspend"},
    {NTK_RESUME, "resume"},
    {NTK_YIELD, "yield"},
    {NTK_DELAY, "delay"},
    {NTK_DELAY_RESUME, "delay resume"},
    {NTK_LOCK, "lock"},
    {NTK_UNLOCK, "unlock"},
    {NTK_TICK, "tick"},
    {NTK_SET_DEFAULT_QUANTUM, "default quantum"},
    {NTK_SEMAPHORE_CREATE, "semaphore create"},
    {NTK_SEMAPHORE_DELETE, "semaphore delete"},
    {NTK_SEMAPHORE_WAIT, "semaphore wait"},
    {NTK_SEMAPHORE_POST, "semaphore post"},
    {NTK_SEMAPHORE_ABORT, "semaphore abort"},
    {NTK_MUTEX_CREATE, "mutex create"},
    {NTK_MUTEX_DELETE, "mutex delete"},
    {NTK_MUTEX_WAIT, "mutex wait"},
    {NTK_MUTEX_POST, "mutex post"},
    {NTK_MUTEX_ABORT, "mutex abort"},
    {NTK_GROUP_CREATE, "group create"},
    {NTK_GROUP_DELETE, "group delete"},
    {NTK_GROUP_WAIT, "group wait"},
    {NTK_GROUP_POST, "group post"},
    {NTK_GROUP_ABORT, "group abort"},
    {NTK_CHANNEL_CREATE, "channel create"},
    {NTK_CHANNEL_DELETE, "channel delete"},
    {NTK_CHANNEL_WAIT, "channel wait"},
    {NTK_CHANNEL_POST, "channel post"},
    {NTK_CHANNEL_ABORT, "channel abort"},
    {NTK_CHANNEL_FLUSH, "channel flush"},
};
_Static_assert(sizeof all_kinds / sizeof all_kinds[0] == KINDS, "a row for each kind");
const struct kind *const kinds = all_kinds;

struct one_case *cases;
unsigned case_count;

static void add_case(const char *name, const struct plain *k, const struct call *c)
{
    if (case_count == MOST_CASES)
        failed("too many cases");
    make_case(&cases[case_count++], name, k, *c);
}

/* Plays a sequence through all variants, compares them, and keeps the tables before some calls of each kind. */
static void verify(const struct sequence *s)
{
    static struct table tables[VARIANTS];
    unsigned v, seen[256] = {0}, total[256] = {0};
    char name[64];
    size_t n;

    for (v = 0; v < VARIANTS; v++)
        make_fresh(&tables[v]);
    for (n = 0; n < s->length; n++)
        total[s->calls[n].kind & 0x7F]++;
    for (n = 0; n < s->length; n++) {
        unsigned kind = s->calls[n].kind & 0x7F, apart = total[kind] / SAMPLES + 1;
        if (seen[kind]++ % apart == apart / 2) {
            snprintf(name, sizeof name, "call %lu of %s", (unsigned long)n, s->name);
            add_case(name, &tables[PLAIN].plain, &s->calls[n]);
        }
        compare(&s->calls[n], tables, s->name, n);
    }
}

/* Cases that are built */

static struct plain built;

static void make(unsigned kind, uint32_t a, uint32_t b, uint32_t c)
{
    must(&built, kind, a, b, c);
}

static void make_wait(uint32_t group, uint32_t limit, uint32_t mask, enum ntk_test test)
{
    must_call(&built, (struct call){NTK_GROUP_WAIT, {group, 1, limit, mask, test, 1}});
}

static void bad_case(const char *name, unsigned kind, uint32_t a, uint32_t b, uint32_t c)
{
    struct call call = {(uint8_t)kind, {a, b, c}};

    add_case(name, &built, &call);
}

static void bad_wait(const char *name, uint32_t group, uint32_t limit, uint32_t mask, enum ntk_test test)
{
    struct call call = {NTK_GROUP_WAIT, {group, 1, limit, mask, test, 1}};

    add_case(name, &built, &call);
}

/* 32 able tasks, all equal; task 0 runs. */
static void build_equals(void)
{
    unsigned i;

    plain_fresh(&built);
    for (i = 0; i < 32; i++)
        make(NTK_TASK_CREATE, i, 30, 1);
    bad_case("32 equals", NTK_YIELD, 0, 0, 0);
    bad_case("32 equals, the turn ends", NTK_TICK, 0, 0, 0);
    bad_case("32 equals, the first goes last", NTK_CHANGE_PRIORITY, 0, 31, 0);
    bad_case("32 equals, the last goes first", NTK_CHANGE_PRIORITY, 31, 29, 0);
    bad_case("the first of 32", NTK_SUSPEND, 0, 0, 0);
    bad_case("the first of 32", NTK_TASK_DELETE, 0, 0, 0);
    bad_case("the first of 32", NTK_DELAY, 5, 0, 0);
    bad_case("32 equals", NTK_LOCK, 0, 0, 0);
    bad_case("32 equals", NTK_SET_DEFAULT_QUANTUM, 7, 0, 0);
    make(NTK_LOCK, 0, 0, 0);
    bad_case("32 equals", NTK_UNLOCK, 0, 0, 0);
    make(NTK_UNLOCK, 0, 0, 0);
    make(NTK_TASK_DELETE, 31, 0, 0);
    bad_case("the 32nd, before all", NTK_TASK_CREATE, 31, 5, 0);
    bad_case("31 able tasks", NTK_SEMAPHORE_CREATE, 15, 7, 0);
    bad_case("31 able tasks", NTK_MUTEX_CREATE, 15, 0, 0);
    make(NTK_TASK_CREATE, 31, 5, 0);
    make(NTK_SUSPEND, 31, 0, 0);
    bad_case("before 31 able tasks", NTK_RESUME, 31, 0, 0);
    make(NTK_RESUME, 31, 0, 0);
    make(NTK_DELAY, 9, 0, 0);
    bad_case("before 31 able tasks", NTK_DELAY_RESUME, 31, 0, 0);
    make(NTK_DELAY_RESUME, 31, 0, 0);
    make(NTK_SEMAPHORE_CREATE, 15, 0, 0);
    make(NTK_SEMAPHORE_WAIT, 15, 1, 0);
    bad_case("before 31 able tasks", NTK_SEMAPHORE_POST, 15, 0, 0);
    bad_case("before 31 able tasks", NTK_SEMAPHORE_ABORT, 15, 0, 0);
    make(NTK_SEMAPHORE_ABORT, 15, 0, 0);
    make(NTK_CHANNEL_CREATE, 15, 1, 0);
    make(NTK_CHANNEL_WAIT, 15, 1, 0);
    bad_case("before 31 able tasks", NTK_CHANNEL_POST, 15, 7, 0);
    bad_case("before 31 able tasks", NTK_CHANNEL_ABORT, 15, 0, 0);
}

/* 31 tasks wait for number 0 of a kind, for one tick, each before all that came; a 32nd runs. */
static void make_waiters(unsigned wait)
{
    unsigned i;

    for (i = 0; i < 31; i++) {
        make(NTK_TASK_CREATE, i, 60 - i, 0);
        make(wait, 0, 1, 1);
    }
    make(NTK_TASK_CREATE, 31, 10, 0);
}

/* 31 tasks wait for a semaphore; one runs. */
static void build_waiters(void)
{
    plain_fresh(&built);
    make(NTK_SEMAPHORE_CREATE, 0, 0, 0);
    make_waiters(NTK_SEMAPHORE_WAIT);
    bad_case("the 32nd waiter, before all", NTK_SEMAPHORE_WAIT, 0, 1, 5);
    bad_case("31 waiters time out", NTK_TICK, 0, 0, 0);
    bad_case("31 waiters, forced", NTK_SEMAPHORE_DELETE, 0, 1, 0);
}

/* 31 tasks wait for flags of a group, each for one of its own and for one that all want; one runs. */
static void build_flags(void)
{
    unsigned i;

    plain_fresh(&built);
    bad_case("a group in the fresh table", NTK_GROUP_CREATE, 0, 0, 0);
    make(NTK_GROUP_CREATE, 0, 0, 0);
    for (i = 0; i < 31; i++) {
        make(NTK_TASK_CREATE, i, 60 - i, 0);
        make_wait(0, 1, UINT32_C(1) << 31 | UINT32_C(1) << i, i % 2 ? NTK_ALL_SET : NTK_ANY_SET);
    }
    make(NTK_TASK_CREATE, 31, 10, 0);
    bad_wait("the 32nd waiter for flags, before all", 0, 5, UINT32_MAX, NTK_ALL_SET);
    bad_case("31 waiters for flags, none met", NTK_GROUP_POST, 0, 1, 0);
    bad_case("31 waiters for flags, every second met", NTK_GROUP_POST, 0, UINT32_C(1) << 31, 1);
    bad_case("31 waiters for flags, all met", NTK_GROUP_POST, 0, UINT32_MAX, 1);
    bad_case("31 waiters for flags time out", NTK_TICK, 0, 0, 0);
    bad_case("31 waiters for flags", NTK_GROUP_ABORT, 0, 0, 0);
    bad_case("31 waiters for flags, forced", NTK_GROUP_DELETE, 0, 1, 0);
    bad_case("the last of 31 waiters for flags goes first", NTK_CHANGE_PRIORITY, 0, 1, 0);
}

/* 31 tasks wait for a message; one runs. */
static void build_listeners(void)
{
    plain_fresh(&built);
    bad_case("a channel in the fresh table", NTK_CHANNEL_CREATE, 0, NTK_MOST_MESSAGES, 0);
    make(NTK_CHANNEL_CREATE, 0, NTK_MOST_MESSAGES, 0);
    make_waiters(NTK_CHANNEL_WAIT);
    bad_case("the 32nd waiter for a message, before all", NTK_CHANNEL_WAIT, 0, 1, 5);
    bad_case("31 waiters for a message", NTK_CHANNEL_POST, 0, 7, 0);
    bad_case("31 waiters for a message time out", NTK_TICK, 0, 0, 0);
    bad_case("31 waiters for a message", NTK_CHANNEL_ABORT, 0, 0, 0);
    bad_case("31 waiters for a message", NTK_CHANNEL_FLUSH, 0, 0, 0);
    bad_case("31 waiters for a message, forced", NTK_CHANNEL_DELETE, 0, 1, 0);
}

static void make_channel(unsigned channel, unsigned messages)
{
    unsigned i;

    make(NTK_CHANNEL_CREATE, channel, NTK_MOST_MESSAGES, 0);
    for (i = 0; i < messages; i++)
        make(NTK_CHANNEL_POST, channel, UINT32_MAX - i, 0);
}

/* 32 able tasks, and all 16 channels in use: one is full, one nearly, and the others have a message each. */
static void build_messages(void)
{
    unsigned i;

    plain_fresh(&built);
    for (i = 0; i < 32; i++)
        make(NTK_TASK_CREATE, i, 30, 0);
    for (i = 0; i < 16; i++)
        make_channel(i, i == 14 ? 31 : i == 15 ? 32 : 1);
    bad_case("the first of 32 messages", NTK_CHANNEL_WAIT, 15, 1, 0);
    bad_case("32 messages", NTK_CHANNEL_FLUSH, 15, 0, 0);
    bad_case("32 messages", NTK_CHANNEL_DELETE, 15, 0, 0);
    bad_case("before 31 messages", NTK_CHANNEL_POST, 14, 7, 1);
    bad_case("behind 31 messages", NTK_CHANNEL_POST, 14, 7, 0);
    bad_case("the one message", NTK_CHANNEL_WAIT, 0, 1, 0);
}

/* 32 tasks sleep until the same tick. */
static void build_sleepers(void)
{
    unsigned i;

    plain_fresh(&built);
    for (i = 0; i < 32; i++) {
        make(NTK_TASK_CREATE, i, 60 - i, 0);
        make(NTK_DELAY, 1, 0, 0);
    }
    bad_case("32 delays end", NTK_TICK, 0, 0, 0);
}

/* Link i of a chain holds mutex i and waits for mutex i - 1; the further it is from link 0, which waits for nothing, the more urgent
 * it is, and the lower its number. All 16 mutexes; the links have the numbers 16 down to 1, and 0 is for a task behind them. */
static unsigned link_number(unsigned i)
{
    return 16 - i;
}

static void build_links(uint32_t limit)
{
    unsigned i;

    plain_fresh(&built);
    for (i = 0; i < 16; i++) {
        make(NTK_TASK_CREATE, link_number(i), 60 - i, 0);
        make(NTK_MUTEX_CREATE, i, 0, 0);
        make(NTK_MUTEX_WAIT, i, 1, 0);
        if (i > 0)
            make(NTK_MUTEX_WAIT, i - 1, 1, limit);
    }
}

static void build_chain(int others, uint32_t limit)
{
    const char *name = others ? "chain of 17, others in its queues" : "chain of 17";
    unsigned i;

    build_links(limit);
    for (i = 15; others && i-- > 0;) { /* each stands before a link, until something more urgent comes along */
        make(NTK_TASK_CREATE, 17 + i, 26 + i, 0);
        make(NTK_MUTEX_WAIT, i, 1, limit);
    }
    for (i = 0; !others && i < 15; i++) {
        make(NTK_TASK_CREATE, 17 + i, 30 - i, 0);
        make(NTK_DELAY, 1, 0, 0);
    }
    make(NTK_TASK_CREATE, 0, 5, 0);
    bad_case(name, NTK_MUTEX_WAIT, 15, 1, 0);
    make(NTK_MUTEX_WAIT, 15, 1, 1);
    bad_case(name, NTK_CHANGE_PRIORITY, 0, 50, 0);
    bad_case(name, NTK_CHANGE_PRIORITY, 0, 1, 0);
    bad_case(name, NTK_TASK_DELETE, 0, 0, 0);
    bad_case(name, NTK_MUTEX_ABORT, 15, 0, 0);
    bad_case(limit ? "chain of 17, all waits and 15 delays end" : name, NTK_TICK, 0, 0, 0);
}

/* 16 waiters before the end of a chain of 16. */
static void build_bunch(void)
{
    unsigned i;

    build_links(0);
    for (i = 0; i < 16; i++) {
        make(NTK_TASK_CREATE, i == 0 ? 0 : 16 + i, 40 - i, 0);
        make(NTK_MUTEX_WAIT, 15, 1, 1);
    }
    bad_case("16 waiters behind a chain of 16, forced", NTK_MUTEX_DELETE, 15, 1, 0);
    bad_case("16 waiters behind a chain of 16 time out", NTK_TICK, 0, 0, 0);
    bad_case("16 waiters behind a chain of 16", NTK_MUTEX_ABORT, 15, 0, 0);
}

/* 16 tasks in a ring of waits, and 16 more waiting for one of them. */
static void build_ring(void)
{
    unsigned i;

    build_links(0);
    make(NTK_MUTEX_WAIT, 15, 1, 0);
    for (i = 0; i < 16; i++) {
        make(NTK_TASK_CREATE, i == 0 ? 0 : 16 + i, 40 - i, 0);
        make(NTK_MUTEX_WAIT, 15, 1, 1);
    }
    /* One of the ring waits there too, raised before each who came; as it rises and falls with the first of them, it goes behind that. */
    make(NTK_CHANGE_PRIORITY, 31, 5, 0);
    make(NTK_CHANGE_PRIORITY, 31, 25, 0);
    bad_case("16 waiters behind a ring of 16, forced", NTK_MUTEX_DELETE, 15, 1, 0);
    bad_case("16 waiters behind a ring of 16 time out", NTK_TICK, 0, 0, 0);
    bad_case("16 waiters behind a ring of 16", NTK_MUTEX_ABORT, 15, 0, 0);
    bad_case("16 waiters behind a ring of 16", NTK_CHANGE_PRIORITY, 31, 60, 0);
}

/* The running task holds 16 mutexes, each with a waiter, and 15 others are able. */
static void build_holder(void)
{
    unsigned i;

    plain_fresh(&built);
    make(NTK_TASK_CREATE, 0, 60, 0);
    for (i = 0; i < 16; i++) {
        make(NTK_MUTEX_CREATE, i, 0, 0);
        make(NTK_MUTEX_WAIT, i, 1, 0);
    }
    for (i = 0; i < 16; i++) {
        make(NTK_TASK_CREATE, 1 + i, i == 15 ? 5 : 40 - i, 0);
        make(NTK_MUTEX_WAIT, i, 1, 0);
    }
    for (i = 0; i < 15; i++)
        make(NTK_TASK_CREATE, 17 + i, 10, 0);
    bad_case("16 mutexes held and waited for, 16 able tasks", NTK_MUTEX_POST, 15, 0, 0);
    bad_case("16 mutexes held and waited for, 16 able tasks", NTK_MUTEX_ABORT, 15, 0, 0);
}

static void build_cases(void)
{
    unsigned first = case_count, i;

    build_equals();
    build_waiters();
    build_flags();
    build_listeners();
    build_messages();
    build_sleepers();
    build_chain(0, 0);
    build_chain(1, 0);
    build_chain(0, 1);
    build_chain(1, 1);
    build_bunch();
    build_ring();
    build_holder();
    for (i = first; i < case_count; i++)
        compare_case(&cases[i], i);
}

void make_cases(void)
{
    unsigned q;

    cases = calloc(MOST_CASES, sizeof *cases);
    if (cases == NULL)
        failed("no memory");
    for (q = 0; q < SEQUENCES; q++)
        verify(sequences[q]);
    build_cases();
}
