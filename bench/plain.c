/* plain.c: see plain.h. */
#include "plain.h"

#include <string.h>

#include "../include/nonthachak.h"

void plain_fresh(struct plain *k)
{
    unsigned i;

    memset(k, 0, sizeof *k);
    for (i = 0; i < PLAIN_LEVEL; i++)
        k->next[i] = k->prev[i] = (uint8_t)i;
    k->next[PLAIN_LEVEL] = PLAIN_NONE;
    k->default_quantum = NTK_FRESH_QUANTUM;
    k->running = PLAIN_NONE;
}

/* Queues */

static inline void insert_behind(struct plain *k, unsigned at, unsigned i)
{
    unsigned after = k->next[at];

    k->next[at] = (uint8_t)i;
    k->prev[i] = (uint8_t)at;
    k->next[i] = (uint8_t)after;
    k->prev[after] = (uint8_t)i;
}

/* Task i joins a queue of waiters, behind its equals. The head's 0 ends the search. */
static inline void join(struct plain *k, unsigned head, unsigned i)
{
    unsigned at = k->prev[head];
    uint8_t p = k->work[i];

    while (k->work[at] > p)
        at = k->prev[at];
    insert_behind(k, at, i);
}

/* The head of a level, and its bit. */
static inline unsigned head_of(unsigned level)
{
    return PLAIN_LEVEL + 63 - level;
}

static inline uint64_t bit_of(unsigned head)
{
    return UINT64_C(1) << (head - PLAIN_LEVEL);
}

/* Task i leaves its queue; it may be in none. */
static inline void leave(struct plain *k, unsigned i)
{
    unsigned before = k->prev[i], after = k->next[i];

    k->next[before] = (uint8_t)after;
    k->prev[after] = (uint8_t)before;
    k->next[i] = k->prev[i] = (uint8_t)i;
}

/* The head of the level that task i comes to, with its bit set. */
static inline unsigned entered_level(struct plain *k, unsigned i)
{
    unsigned head = head_of(k->work[i]);

    if (!(k->ready & bit_of(head))) {
        k->ready |= bit_of(head);
        k->next[head] = k->prev[head] = (uint8_t)head;
    }
    return head;
}

/* Task i joins the able ones, behind those of its level. */
static inline void join_able(struct plain *k, unsigned i)
{
    insert_behind(k, k->prev[entered_level(k, i)], i);
}

/* Task i leaves the able ones. */
static inline void leave_able(struct plain *k, unsigned i)
{
    if (k->prev[i] == k->next[i]) /* both are the head: it is the last of its level */
        k->ready &= ~bit_of(k->next[i]);
    leave(k, i);
}

/* The first of the most urgent level; with bit 0 set too there is one in any case. */
static inline unsigned first_able(const struct plain *k)
{
    return k->next[head_of((unsigned)__builtin_clzll(k->ready | 1))];
}

/* Task i, wherever it stands, works at p from now on, another priority than before: raised it goes before its equals there, lowered behind
 * them. Of the waiters beside it only those are looked at that it passes. */
static void set_work(struct plain *k, unsigned i, uint8_t p)
{
    unsigned before = k->prev[i], after = k->next[i];
    uint8_t old = k->work[i];

    k->work[i] = p;
    if (k->task[i].state == PLAIN_PLAIN) {
        if (after != i) {
            unsigned head;

            leave_able(k, i);
            head = entered_level(k, i);
            insert_behind(k, p < old ? head : k->prev[head], i);
        }
    } else if (p < old) {
        if (before >= PLAIN_TASKS || k->work[before] < p || before == i) /* it is there, or in no queue */
            return;
        do
            before = k->prev[before];
        while (before < PLAIN_TASKS && k->work[before] >= p);
        leave(k, i);
        insert_behind(k, before, i);
    } else {
        if (after >= PLAIN_TASKS || k->work[after] > p || after == i)
            return;
        do
            after = k->next[after];
        while (after < PLAIN_TASKS && k->work[after] <= p);
        leave(k, i);
        insert_behind(k, k->prev[after], i);
    }
}

/* Has the first able task, i, an equal? */
static inline int has_peer(const struct plain *k, unsigned i)
{
    return k->next[i] < PLAIN_TASKS;
}

/* The turn of the first able task, i, which has an equal, ends: it goes behind its equals, with its whole quantum again. */
static inline void end_turn(struct plain *k, unsigned i)
{
    leave(k, i);
    insert_behind(k, k->prev[head_of(k->work[i])], i);
    k->task[i].left = k->task[i].quantum;
}

/* Priorities */

/* The holder of the mutex that task i waits for. */
static inline unsigned holder_before(const struct plain *k, unsigned i)
{
    const struct plain_task *t = &k->task[i];

    return t->state == PLAIN_WAITS_MUTEX ? k->mutex[t->object].holder : PLAIN_NONE;
}

/* The most urgent of p and of the waiters for the mutexes that task i holds, but for those on a ring with i. Only one waiter for
 * these mutexes can be on it. */
static inline uint8_t with_waiters(const struct plain *k, unsigned i, uint8_t p, uint32_t ring)
{
    uint32_t held;

    for (held = k->task[i].held; held; held &= held - 1) {
        unsigned first = k->next[PLAIN_MUTEX + __builtin_ctz(held)];
        if (first < PLAIN_TASKS && ring >> first & 1)
            first = k->next[first];
        if (first < PLAIN_TASKS && k->work[first] < p)
            p = k->work[first];
    }
    return p;
}

/* What task i, on no ring, has to work at. */
static inline uint8_t work_off_rings(const struct plain *k, unsigned i)
{
    return with_waiters(k, i, k->task[i].base, 0);
}

/* The ring of waits that task i is on. */
static inline uint32_t ring_of(const struct plain *k, unsigned i)
{
    uint32_t ring = 0;
    unsigned at = i;

    do {
        ring |= UINT32_C(1) << at;
        at = holder_before(k, at);
    } while (at != i);
    return ring;
}

/* The most urgent that the members of a ring of waits may work at together. */
static inline uint8_t work_of_ring(const struct plain *k, uint32_t ring)
{
    uint32_t rest;
    uint8_t p = UINT8_MAX;

    for (rest = ring; rest; rest &= rest - 1) {
        unsigned i = (unsigned)__builtin_ctz(rest);
        if (k->task[i].base < p)
            p = k->task[i].base;
        p = with_waiters(k, i, p, ring);
    }
    return p;
}

/* Something as urgent as p now leads to task i. */
static void raise_chain(struct plain *k, unsigned i, uint8_t p)
{
    while (i != PLAIN_NONE && k->work[i] > p) {
        set_work(k, i, p);
        i = holder_before(k, i);
    }
}

/* Something that led to task i no longer does. Off a ring the base and the first waiters decide; on a ring these would keep a
 * priority up that nothing outside supports any more. Where one task's priority stays, those further on stay. */
static void lower_chain(struct plain *k, unsigned i)
{
    uint32_t seen = 0;
    unsigned at, entry;
    uint8_t p;

    for (at = i; at != PLAIN_NONE && !(seen >> at & 1); at = holder_before(k, at))
        seen |= UINT32_C(1) << at;
    entry = at;
    for (; i != entry; i = holder_before(k, i)) {
        p = work_off_rings(k, i);
        if (p == k->work[i])
            return;
        set_work(k, i, p);
    }
    if (entry == PLAIN_NONE)
        return;
    p = work_of_ring(k, ring_of(k, entry));
    if (p == k->work[i])
        return;
    do {
        set_work(k, i, p);
        i = holder_before(k, i);
    } while (i != entry);
}

/* Steps that several calls share */

static inline void join_if_able(struct plain *k, unsigned i)
{
    if (k->task[i].suspended == 0)
        join_able(k, i);
}

/* Task i, in no queue any more, becomes plain. */
static inline void become_plain(struct plain *k, unsigned i, uint8_t outcome)
{
    struct plain_task *t = &k->task[i];

    t->state = PLAIN_PLAIN;
    t->object = 0;
    t->mark = 0;
    k->marked &= ~(UINT32_C(1) << i);
    t->outcome = outcome;
    join_if_able(k, i);
}

/* What task i, a waiter, waits for comes to it. */
static inline void give(struct plain *k, unsigned i)
{
    leave(k, i);
    become_plain(k, i, NTK_GIVEN);
}

static inline void want_nothing(struct plain *k, unsigned i)
{
    memset(&k->wanted[i], 0, sizeof k->wanted[i]);
}

/* Task i no longer waits for the mutex that h holds and has left its queue: the chain from h moves. */
static inline void lower_behind(struct plain *k, unsigned i, unsigned h)
{
    if (k->work[i] == k->work[h]) /* else h owes nothing to it */
        lower_chain(k, h);
}

/* Task i, a waiter, does not get what it waits for. */
static void end_wait(struct plain *k, unsigned i, uint8_t outcome)
{
    struct plain_task *t = &k->task[i];

    leave(k, i);
    if (t->state == PLAIN_WAITS_MUTEX) {
        t->state = PLAIN_PLAIN;
        lower_behind(k, i, k->mutex[t->object].holder);
    } else if (t->state == PLAIN_WAITS_FLAGS) {
        want_nothing(k, i);
    }
    become_plain(k, i, outcome);
}

static inline void set_mark(struct plain *k, unsigned i, uint32_t ticks)
{
    k->task[i].mark = k->tick + ticks;
    k->marked |= UINT32_C(1) << i;
}

/* What a call on task a is refused with where there is no such task. */
static inline unsigned task_answer(const struct plain *k, uint32_t a)
{
    if (a >= PLAIN_TASKS)
        return NTK_BEYOND_RANGE;
    return k->task[a].used ? NTK_DONE : NTK_NOT_IN_USE;
}

/* The same of a call by which task a is able no longer: while locked it may not be the one that runs. */
static inline unsigned stop_answer(const struct plain *k, uint32_t a)
{
    unsigned answer = task_answer(k, a);

    return answer == NTK_DONE && k->depth > 0 && k->running == a ? NTK_WHILE_LOCKED : answer;
}

/* Objects: a family is named by the state of who waits for one of it. The steps are inline, so that in each call the family is a constant. */

static inline unsigned object_count(enum plain_state family)
{
    return family == PLAIN_WAITS_FLAGS ? PLAIN_GROUPS : PLAIN_OBJECTS;
}

/* The head of the waiters for object a. */
static inline unsigned object_head(unsigned family, unsigned a)
{
    return 16 * family + a;
}

static inline int is_object_used(const struct plain *k, enum plain_state family, uint32_t a)
{
    switch (family) {
    case PLAIN_WAITS_SEMAPHORE:
        return k->semaphore[a].used != 0;
    case PLAIN_WAITS_MUTEX:
        return k->mutex[a].used != 0;
    case PLAIN_WAITS_FLAGS:
        return k->group[a].used != 0;
    default:
        return k->channel.used[a] != 0;
    }
}

/* What the creation of object a is refused with. */
static inline unsigned create_answer(const struct plain *k, enum plain_state family, uint32_t a)
{
    if (a >= object_count(family))
        return NTK_BEYOND_RANGE;
    return is_object_used(k, family, a) ? NTK_IN_USE : NTK_DONE;
}

/* What any other call on object a is refused with where there is no such object. */
static inline unsigned object_answer(const struct plain *k, enum plain_state family, uint32_t a)
{
    if (a >= object_count(family))
        return NTK_BEYOND_RANGE;
    return is_object_used(k, family, a) ? NTK_DONE : NTK_NOT_IN_USE;
}

/* All of a delete but the record of the object, which is the caller's to clear where the answer is NTK_DONE. */
static inline unsigned object_delete(struct plain *k, enum plain_state family, uint32_t a, uint32_t force)
{
    unsigned answer = object_answer(k, family, a), head = object_head(family, a);

    if (answer != NTK_DONE)
        return answer;
    if (force > 1)
        return NTK_BAD_VALUE;
    if (!force && k->next[head] != head)
        return NTK_STILL_NEEDED;
    while (k->next[head] != head)
        end_wait(k, k->next[head], NTK_DELETED);
    return NTK_DONE;
}

static inline unsigned object_abort(struct plain *k, enum plain_state family, uint32_t a)
{
    unsigned answer = object_answer(k, family, a), head = object_head(family, a);

    if (answer != NTK_DONE)
        return answer;
    if (k->next[head] == head)
        return NTK_NO_WAITER;
    end_wait(k, k->next[head], NTK_ABORTED);
    return NTK_DONE;
}

/* What a wait for object a is refused with, whatever there is to take. */
static inline unsigned wait_answer(const struct plain *k, enum plain_state family, uint32_t a, uint32_t may_block)
{
    unsigned answer;

    if (k->running == PLAIN_NONE)
        return NTK_NONE_RUNNING;
    answer = object_answer(k, family, a);
    return answer == NTK_DONE && may_block > 1 ? NTK_BAD_VALUE : answer;
}

/* Task i, which runs, takes what it would wait for. */
static inline unsigned take_at_once(struct plain *k, unsigned i)
{
    k->task[i].outcome = NTK_GIVEN;
    return NTK_DONE;
}

/* Task i, which runs, finds nothing to take. */
static inline unsigned wait_on(struct plain *k, unsigned i, enum plain_state family, uint32_t a, uint32_t may_block, uint32_t limit)
{
    if (!may_block)
        return NTK_NOTHING_TO_TAKE;
    if (k->depth > 0)
        return NTK_WHILE_LOCKED;
    leave_able(k, i);
    k->task[i].state = (uint8_t)family;
    k->task[i].object = (uint8_t)a;
    if (limit != 0)
        set_mark(k, i, limit);
    join(k, object_head(family, a), i);
    return NTK_BLOCKS;
}

/* The calls: each gives back its answer. */

static unsigned task_create(struct plain *k, uint32_t a, uint32_t b, uint32_t c)
{
    struct plain_task *t;

    if (a >= PLAIN_TASKS)
        return NTK_BEYOND_RANGE;
    t = &k->task[a];
    if (t->used)
        return NTK_IN_USE;
    if (b > 62 || c > 65535)
        return NTK_BAD_VALUE;
    t->used = 1;
    t->base = (uint8_t)b;
    t->quantum = t->left = c == 0 ? k->default_quantum : (uint16_t)c;
    k->work[a] = (uint8_t)b;
    join_able(k, a);
    return NTK_DONE;
}

static unsigned task_delete(struct plain *k, uint32_t a)
{
    unsigned answer = stop_answer(k, a), h;
    struct plain_task *t;

    if (answer != NTK_DONE)
        return answer;
    t = &k->task[a];
    if (t->held)
        return NTK_STILL_NEEDED;
    h = holder_before(k, a);
    if (t->state == PLAIN_PLAIN && t->suspended == 0)
        leave_able(k, a);
    else
        leave(k, a);
    if (h != PLAIN_NONE) {
        t->state = PLAIN_PLAIN;
        lower_behind(k, a, h);
    }
    memset(t, 0, sizeof *t);
    want_nothing(k, a);
    k->message[a] = 0;
    k->work[a] = 0;
    k->marked &= ~(UINT32_C(1) << a);
    return NTK_DONE;
}

static unsigned change_priority(struct plain *k, uint32_t a, uint32_t b)
{
    unsigned answer = task_answer(k, a);
    uint8_t old;

    if (answer != NTK_DONE)
        return answer;
    if (b > 62)
        return NTK_BAD_VALUE;
    old = k->task[a].base;
    k->task[a].base = (uint8_t)b;
    if (b < old)
        raise_chain(k, a, (uint8_t)b);
    else if (b > old && k->work[a] == old)
        lower_chain(k, a);
    return NTK_DONE;
}

static unsigned suspend(struct plain *k, uint32_t a)
{
    unsigned answer = stop_answer(k, a);

    if (answer != NTK_DONE)
        return answer;
    if (k->task[a].suspended == 250)
        return NTK_TOO_DEEP;
    if (k->task[a].suspended++ == 0 && k->task[a].state == PLAIN_PLAIN)
        leave_able(k, a);
    return NTK_DONE;
}

static unsigned resume(struct plain *k, uint32_t a)
{
    unsigned answer = task_answer(k, a);

    if (answer != NTK_DONE)
        return answer;
    if (k->task[a].suspended == 0)
        return NTK_NOT_SUSPENDED;
    k->task[a].suspended--;
    if (k->task[a].state == PLAIN_PLAIN)
        join_if_able(k, a);
    return NTK_DONE;
}

static unsigned yield(struct plain *k)
{
    unsigned i = k->running;

    if (i == PLAIN_NONE)
        return NTK_NONE_RUNNING;
    if (k->depth > 0)
        return NTK_WHILE_LOCKED;
    if (!has_peer(k, i))
        return NTK_NO_PEER;
    end_turn(k, i);
    return NTK_DONE;
}

static unsigned delay(struct plain *k, uint32_t a)
{
    unsigned i = k->running;

    if (i == PLAIN_NONE)
        return NTK_NONE_RUNNING;
    if (a == 0)
        return NTK_BAD_VALUE;
    if (k->depth > 0)
        return NTK_WHILE_LOCKED;
    leave_able(k, i);
    k->task[i].state = PLAIN_DELAYED;
    set_mark(k, i, a);
    return NTK_DONE;
}

static unsigned delay_resume(struct plain *k, uint32_t a)
{
    unsigned answer = task_answer(k, a);

    if (answer != NTK_DONE)
        return answer;
    if (k->task[a].state != PLAIN_DELAYED)
        return NTK_NOT_DELAYED;
    become_plain(k, a, NTK_GIVEN);
    return NTK_DONE;
}

static unsigned lock(struct plain *k)
{
    if (k->depth == 250)
        return NTK_TOO_DEEP;
    k->depth++;
    return NTK_DONE;
}

static unsigned unlock(struct plain *k)
{
    if (k->depth == 0)
        return NTK_NOT_LOCKED;
    k->depth--;
    return NTK_DONE;
}

static unsigned set_default_quantum(struct plain *k, uint32_t a)
{
    if (a == 0 || a > 65535)
        return NTK_BAD_VALUE;
    k->default_quantum = (uint16_t)a;
    return NTK_DONE;
}

static unsigned tick(struct plain *k)
{
    unsigned i = k->running;
    uint32_t rest;

    k->tick++;
    if (i != PLAIN_NONE) {
        struct plain_task *t = &k->task[i];
        if (t->left > 0)
            t->left--;
        if (t->left == 0 && k->depth == 0 && has_peer(k, i))
            end_turn(k, i);
    }
    for (rest = k->marked; rest; rest &= rest - 1) {
        i = (unsigned)__builtin_ctz(rest);
        if (k->task[i].mark == k->tick)
            end_wait(k, i, k->task[i].state == PLAIN_DELAYED ? NTK_GIVEN : NTK_TIMED_OUT);
    }
    return NTK_DONE;
}

static unsigned semaphore_create(struct plain *k, uint32_t a, uint32_t b)
{
    unsigned answer = create_answer(k, PLAIN_WAITS_SEMAPHORE, a);

    if (answer == NTK_DONE)
        k->semaphore[a] = (struct plain_semaphore){1, b};
    return answer;
}

static unsigned semaphore_delete(struct plain *k, uint32_t a, uint32_t b)
{
    unsigned answer = object_delete(k, PLAIN_WAITS_SEMAPHORE, a, b);

    if (answer == NTK_DONE)
        k->semaphore[a] = (struct plain_semaphore){0, 0};
    return answer;
}

static unsigned semaphore_wait(struct plain *k, uint32_t a, uint32_t b, uint32_t c)
{
    unsigned i = k->running, answer = wait_answer(k, PLAIN_WAITS_SEMAPHORE, a, b);

    if (answer != NTK_DONE)
        return answer;
    if (k->semaphore[a].count == 0)
        return wait_on(k, i, PLAIN_WAITS_SEMAPHORE, a, b, c);
    k->semaphore[a].count--;
    return take_at_once(k, i);
}

static unsigned semaphore_post(struct plain *k, uint32_t a)
{
    unsigned answer = object_answer(k, PLAIN_WAITS_SEMAPHORE, a), head = object_head(PLAIN_WAITS_SEMAPHORE, a);

    if (answer != NTK_DONE)
        return answer;
    if (k->next[head] != head) {
        give(k, k->next[head]);
        return NTK_DONE;
    }
    if (k->semaphore[a].count == UINT32_MAX)
        return NTK_COUNT_FULL;
    k->semaphore[a].count++;
    return NTK_DONE;
}

static unsigned mutex_create(struct plain *k, uint32_t a)
{
    unsigned answer = create_answer(k, PLAIN_WAITS_MUTEX, a);

    if (answer != NTK_DONE)
        return answer;
    k->mutex[a].used = 1;
    k->mutex[a].holder = PLAIN_NONE;
    return NTK_DONE;
}

static unsigned mutex_delete(struct plain *k, uint32_t a, uint32_t b)
{
    unsigned answer = object_delete(k, PLAIN_WAITS_MUTEX, a, b);
    struct plain_mutex *m;

    if (answer != NTK_DONE)
        return answer;
    m = &k->mutex[a];
    if (m->holder != PLAIN_NONE)
        k->task[m->holder].held &= (uint16_t)~(1u << a);
    m->used = m->holder = m->nesting = 0;
    return NTK_DONE;
}

static inline void take(struct plain *k, unsigned m, unsigned i)
{
    k->mutex[m].holder = (uint8_t)i;
    k->mutex[m].nesting = 1;
    k->task[i].held |= (uint16_t)(1u << m);
}

static unsigned mutex_wait(struct plain *k, uint32_t a, uint32_t b, uint32_t c)
{
    unsigned i = k->running, answer = wait_answer(k, PLAIN_WAITS_MUTEX, a, b);
    struct plain_mutex *m;

    if (answer != NTK_DONE)
        return answer;
    m = &k->mutex[a];
    if (m->holder == PLAIN_NONE) {
        take(k, a, i);
        return take_at_once(k, i);
    }
    if (m->holder == i) {
        if (m->nesting == 250)
            return NTK_TOO_DEEP;
        m->nesting++;
        return take_at_once(k, i);
    }
    answer = wait_on(k, i, PLAIN_WAITS_MUTEX, a, b, c);
    if (answer == NTK_BLOCKS)
        raise_chain(k, m->holder, k->work[i]);
    return answer;
}

static unsigned mutex_post(struct plain *k, uint32_t a)
{
    unsigned i = k->running, head = object_head(PLAIN_WAITS_MUTEX, a), answer, first;
    struct plain_mutex *m;

    if (i == PLAIN_NONE)
        return NTK_NONE_RUNNING;
    answer = object_answer(k, PLAIN_WAITS_MUTEX, a);
    if (answer != NTK_DONE)
        return answer;
    m = &k->mutex[a];
    if (m->holder != i)
        return NTK_NOT_ITS_HOLDER;
    if (--m->nesting > 0)
        return NTK_DONE;
    k->task[i].held &= (uint16_t)~(1u << a);
    first = k->next[head];
    if (first == head) {
        m->holder = PLAIN_NONE;
        return NTK_DONE;
    }
    if (k->work[first] == k->work[i]) { /* else the releaser owes nothing to it; it waits for nothing */
        uint8_t p = work_off_rings(k, i);
        if (p != k->work[i])
            set_work(k, i, p);
    }
    take(k, a, first);
    give(k, first);
    return NTK_DONE;
}

static unsigned group_create(struct plain *k, uint32_t a, uint32_t b)
{
    unsigned answer = create_answer(k, PLAIN_WAITS_FLAGS, a);

    if (answer == NTK_DONE)
        k->group[a] = (struct plain_group){1, b};
    return answer;
}

static unsigned group_delete(struct plain *k, uint32_t a, uint32_t b)
{
    unsigned answer = object_delete(k, PLAIN_WAITS_FLAGS, a, b);

    if (answer == NTK_DONE)
        k->group[a] = (struct plain_group){0, 0};
    return answer;
}

/* The flags of the mask that are as the test wants them: the second bit of a test wants them clear, the first is for any of them. */
static inline uint32_t right_flags(uint32_t flags, uint32_t mask, uint32_t test)
{
    return (flags ^ -(test >> 1)) & mask;
}

static inline int is_met(uint32_t right, uint32_t mask, uint32_t test)
{
    return test & 1 ? right != 0 : right == mask;
}

static unsigned group_wait(struct plain *k, uint32_t a, uint32_t b, uint32_t c, uint32_t mask, uint32_t test, uint32_t consume)
{
    unsigned i = k->running, answer = wait_answer(k, PLAIN_WAITS_FLAGS, a, b);
    uint32_t right;

    if (answer != NTK_DONE)
        return answer;
    if (mask == 0 || test > 3 || consume > 1)
        return NTK_BAD_VALUE;
    right = right_flags(k->group[a].flags, mask, test);
    if (is_met(right, mask, test)) {
        if (consume)
            k->group[a].flags ^= right;
        return take_at_once(k, i);
    }
    answer = wait_on(k, i, PLAIN_WAITS_FLAGS, a, b, c);
    if (answer == NTK_BLOCKS)
        k->wanted[i] = (struct plain_wanted){mask, (uint16_t)test, (uint16_t)consume};
    return answer;
}

/* Waiters are tested against the flags as the post leaves them; what they consume is turned over afterwards, each flag once. */
static unsigned group_post(struct plain *k, uint32_t a, uint32_t mask, uint32_t on)
{
    unsigned answer = object_answer(k, PLAIN_WAITS_FLAGS, a), head = object_head(PLAIN_WAITS_FLAGS, a), i, after;
    uint32_t flags, consumed = 0;

    if (answer != NTK_DONE)
        return answer;
    if (mask == 0 || on > 1)
        return NTK_BAD_VALUE;
    flags = on ? k->group[a].flags | mask : k->group[a].flags & ~mask;
    for (i = k->next[head]; i != head; i = after) {
        const struct plain_wanted *w = &k->wanted[i];
        uint32_t right = right_flags(flags, w->mask, w->test);

        after = k->next[i];
        if (!is_met(right, w->mask, w->test))
            continue;
        if (w->consume)
            consumed |= right;
        want_nothing(k, i);
        give(k, i);
    }
    k->group[a].flags = flags ^ consumed;
    return NTK_DONE;
}

static unsigned channel_create(struct plain *k, uint32_t a, uint32_t b)
{
    unsigned answer = create_answer(k, PLAIN_WAITS_MESSAGE, a);

    if (answer != NTK_DONE)
        return answer;
    if (b == 0 || b > PLAIN_MESSAGES)
        return NTK_BAD_VALUE;
    k->channel.used[a] = 1;
    k->channel.capacity[a] = (uint8_t)b;
    return NTK_DONE;
}

/* Messages move two at a time, inline: a call of the C library, and vectors too, would have every call of the kernel align its stack. */
static inline void move_two(uint32_t *to, const uint32_t *from)
{
    uint64_t two;

    memcpy(&two, from, sizeof two);
    memcpy(to, &two, sizeof two);
}

static inline uint32_t take_first(struct plain *k, unsigned a)
{
    uint32_t *slot = k->slots[a], message = slot[0];
    unsigned last = --k->channel.held[a], j;

    for (j = 0; j + 1 < last; j += 2)
        move_two(slot + j, slot + j + 1);
    slot[j] = slot[last];
    slot[last] = 0;
    return message;
}

static inline void put_first(struct plain *k, unsigned a, uint32_t message)
{
    uint32_t *slot = k->slots[a];
    unsigned j = k->channel.held[a]++;

    for (; j > 1; j -= 2)
        move_two(slot + j - 1, slot + j - 2);
    slot[j] = slot[0];
    slot[0] = message;
}

/* How many messages went. */
static inline unsigned empty_channel(struct plain *k, unsigned a)
{
    unsigned held = k->channel.held[a], j;

    for (j = 0; j < held; j += 2)
        memset(k->slots[a] + j, 0, 2 * sizeof k->slots[a][0]);
    k->channel.held[a] = 0;
    return held;
}

static unsigned channel_delete(struct plain *k, uint32_t a, uint32_t b)
{
    unsigned answer = object_delete(k, PLAIN_WAITS_MESSAGE, a, b);

    if (answer != NTK_DONE)
        return answer;
    empty_channel(k, a);
    k->channel.used[a] = 0;
    k->channel.capacity[a] = 0;
    return NTK_DONE;
}

static unsigned channel_wait(struct plain *k, uint32_t a, uint32_t b, uint32_t c)
{
    unsigned i = k->running, answer = wait_answer(k, PLAIN_WAITS_MESSAGE, a, b);

    if (answer != NTK_DONE)
        return answer;
    if (k->channel.held[a] == 0)
        return wait_on(k, i, PLAIN_WAITS_MESSAGE, a, b, c);
    k->message[i] = take_first(k, a);
    return take_at_once(k, i);
}

static unsigned channel_post(struct plain *k, uint32_t a, uint32_t message, uint32_t front)
{
    unsigned answer = object_answer(k, PLAIN_WAITS_MESSAGE, a), head = object_head(PLAIN_WAITS_MESSAGE, a), first;

    if (answer != NTK_DONE)
        return answer;
    if (front > 1)
        return NTK_BAD_VALUE;
    if (k->channel.held[a] >= k->channel.capacity[a])
        return NTK_CHANNEL_FULL;
    first = k->next[head];
    if (first != head) {
        k->message[first] = message;
        give(k, first);
        return NTK_DONE;
    }
    if (front)
        put_first(k, a, message);
    else
        k->slots[a][k->channel.held[a]++] = message;
    return NTK_DONE;
}

/* How many messages went stands in the second byte of what it gives back. */
static unsigned channel_flush(struct plain *k, uint32_t a)
{
    unsigned answer = object_answer(k, PLAIN_WAITS_MESSAGE, a);

    return answer == NTK_DONE ? NTK_DONE | empty_channel(k, a) << 8 : answer;
}

static inline unsigned serve(struct plain *k, uint8_t kind, uint32_t a, uint32_t b, uint32_t c, uint32_t d, uint32_t e, uint32_t f)
{
    if (kind & NTK_INTERRUPT) {
        kind &= (uint8_t)~NTK_INTERRUPT;
        if (kind != NTK_TICK && kind != NTK_SEMAPHORE_POST && kind != NTK_GROUP_POST && kind != NTK_CHANNEL_POST)
            return NTK_BY_INTERRUPT;
    }
    switch (kind) {
    case NTK_TASK_CREATE:
        return task_create(k, a, b, c);
    case NTK_TASK_DELETE:
        return task_delete(k, a);
    case NTK_CHANGE_PRIORITY:
        return change_priority(k, a, b);
    case NTK_SUSPEND:
        return suspend(k, a);
    case NTK_RESUME:
        return resume(k, a);
    case NTK_YIELD:
        return yield(k);
    case NTK_DELAY:
        return delay(k, a);
    case NTK_DELAY_RESUME:
        return delay_resume(k, a);
    case NTK_LOCK:
        return lock(k);
    case NTK_UNLOCK:
        return unlock(k);
    case NTK_TICK:
        return tick(k);
    case NTK_SET_DEFAULT_QUANTUM:
        return set_default_quantum(k, a);
    case NTK_SEMAPHORE_CREATE:
        return semaphore_create(k, a, b);
    case NTK_SEMAPHORE_DELETE:
        return semaphore_delete(k, a, b);
    case NTK_SEMAPHORE_WAIT:
        return semaphore_wait(k, a, b, c);
    case NTK_SEMAPHORE_POST:
        return semaphore_post(k, a);
    case NTK_SEMAPHORE_ABORT:
        return object_abort(k, PLAIN_WAITS_SEMAPHORE, a);
    case NTK_MUTEX_CREATE:
        return mutex_create(k, a);
    case NTK_MUTEX_DELETE:
        return mutex_delete(k, a, b);
    case NTK_MUTEX_WAIT:
        return mutex_wait(k, a, b, c);
    case NTK_MUTEX_POST:
        return mutex_post(k, a);
    case NTK_MUTEX_ABORT:
        return object_abort(k, PLAIN_WAITS_MUTEX, a);
    case NTK_GROUP_CREATE:
        return group_create(k, a, b);
    case NTK_GROUP_DELETE:
        return group_delete(k, a, b);
    case NTK_GROUP_WAIT:
        return group_wait(k, a, b, c, d, e, f);
    case NTK_GROUP_POST:
        return group_post(k, a, b, c);
    case NTK_GROUP_ABORT:
        return object_abort(k, PLAIN_WAITS_FLAGS, a);
    case NTK_CHANNEL_CREATE:
        return channel_create(k, a, b);
    case NTK_CHANNEL_DELETE:
        return channel_delete(k, a, b);
    case NTK_CHANNEL_WAIT:
        return channel_wait(k, a, b, c);
    case NTK_CHANNEL_POST:
        return channel_post(k, a, b, c);
    case NTK_CHANNEL_ABORT:
        return object_abort(k, PLAIN_WAITS_MESSAGE, a);
    case NTK_CHANNEL_FLUSH:
        return channel_flush(k, a);
    default:
        return NTK_BEYOND_RANGE;
    }
}

uint64_t plain_packed(struct plain *k, uint8_t kind, uint32_t a, uint32_t b, uint32_t c, uint32_t d, uint32_t e, uint32_t f)
{
    unsigned said = serve(k, kind, a, b, c, d, e, f);

    if (__builtin_expect(k->depth == 0, 1))
        k->running = (uint8_t)first_able(k);
    return k->running == PLAIN_NONE ? said : (uint64_t)(k->running + 1u) << 32 | said;
}

/* The standing rules */

/* On each ring of waits the common priority must come from the base of a member or from a waiter outside. `through` has the tasks
 * that hold a mutex and wait for one. */
static int check_rings(const struct plain *k, uint32_t through)
{
    uint32_t done = 0, rest;

    for (rest = through; rest; rest &= rest - 1) {
        unsigned i = (unsigned)__builtin_ctz(rest);
        uint32_t path = 0;
        while ((through & ~done & ~path) >> i & 1) {
            path |= UINT32_C(1) << i;
            i = holder_before(k, i);
        }
        if (path >> i & 1 && work_of_ring(k, ring_of(k, i)) != k->work[i])
            return 0;
        done |= path;
    }
    return 1;
}

static inline uint64_t eight(const void *at)
{
    uint64_t word;

    memcpy(&word, at, sizeof word);
    return word;
}

#if __BYTE_ORDER__ != __ORDER_LITTLE_ENDIAN__
#error "plain_check reads several bytes as one number, the lowest first"
#endif

/* An object that has a number: a bit is set where it is neither in use nor free, or free with a number that is not 0. */
static inline uint32_t wrong_number(uint32_t used, uint32_t number)
{
    return (used & ~UINT32_C(1)) | (number & (used - 1));
}

/* Eight channels by their fields: a capacity of at most 32, which is not 0 exactly where the channel is in use, and no more messages than
 * that. A bit is set where it is not so. */
static inline uint64_t wrong_channels(const struct plain_channels *c, unsigned from)
{
    const uint64_t each = UINT64_C(0x0101010101010101), high = 128 * each;
    uint64_t used = eight(c->used + from), capacity = eight(c->capacity + from), held = eight(c->held + from);
    uint64_t too_many = capacity | held | (capacity + (127 - PLAIN_MESSAGES) * each) | ~((capacity | high) - held);

    return (too_many & high) | (used ^ ((capacity + 127 * each) >> 7 & each));
}

typedef uint32_t four_slots __attribute__((vector_size(16), may_alias));

/* `any`, and what stands in a row of slots behind its messages. */
static inline four_slots with_unused(four_slots any, const uint32_t *slot, unsigned held)
{
    const four_slots *row = (const four_slots *)slot;

    if (held == 0)
        return any | row[0] | row[1] | row[2] | row[3] | row[4] | row[5] | row[6] | row[7];
    for (; held % 4 != 0; held++)
        any |= (four_slots){slot[held]};
    for (; held < PLAIN_MESSAGES; held += 4)
        any |= row[held / 4];
    return any;
}

/* What stands in the slots without a message, where no channel holds more than a row has. */
static inline uint64_t unused_slots(const struct plain *k)
{
    four_slots any = {0};
    uint64_t halves[2];
    unsigned i;

    for (i = 0; i < PLAIN_OBJECTS; i++)
        any = with_unused(any, k->slots[i], k->channel.held[i]);
    memcpy(halves, &any, sizeof halves);
    return halves[0] | halves[1];
}

/* The tasks behind a head, at least one: each has to belong there, and waiters stand by their priorities. `queued` falls by one for each. The walk
 * comes back to the head, since each step is tested backwards. */
static inline int check_queue(const struct plain *k, const uint8_t *place, unsigned head, int waits, unsigned *queued)
{
    unsigned i, before = head;
    uint8_t p = 0;

    for (i = k->next[head]; i != head; i = k->next[i]) {
        if (i >= PLAIN_TASKS || place[i] != head || k->prev[i] != before || (waits && k->work[i] < p))
            return 0;
        p = k->work[i];
        before = i;
        --*queued;
    }
    return k->prev[head] == before && before != head;
}

/* Several bytes are tested together where that can be done, and with few branches: most of the time goes into the 32 tasks. */
int plain_check(const struct plain *k)
{
    enum { BASE = 8, STATE = 16, OBJECT = 24, OUTCOME = 48, SUSPENDED = 56 }; /* the first bits of these fields */
    const uint64_t too_high = UINT64_C(0xFE) | UINT64_C(0xC0) << BASE | UINT64_C(0xF8) << STATE | UINT64_C(0xF0) << OBJECT |
                              UINT64_C(0xFC) << OUTCOME;
    const uint64_t short_of = UINT64_C(1) << BASE | UINT64_C(2) << STATE; /* of 64 and of 8 */
    const uint64_t not_able = UINT64_C(0xFF) << SUSPENDED | UINT64_C(0xFF) << STATE;
    uint8_t place[PLAIN_TASKS], fresh[PLAIN_TASKS];
    uint32_t held = 0, held_twice = 0, owned = 0, through = 0;
    uint64_t wrong = 0, ready;
    unsigned queued = 0, bad = 0, heads, i;

    /* Each task by itself, and where it belongs. */
    for (i = 0; i < PLAIN_TASKS; i++) {
        const struct plain_task *t = &k->task[i];
        uint64_t word = eight(t), wanted = eight(&k->wanted[i]);
        unsigned marked = k->marked >> i & 1, at = i;

        fresh[i] = t->base;
        if (!t->used) {
            wrong |= word | eight(&t->quantum) | wanted | k->message[i];
            bad |= marked;
        } else {
            const struct plain_wanted *w = &k->wanted[i];
            unsigned waits = t->state >= PLAIN_WAITS_SEMAPHORE;
            wrong |= (word | (word + short_of)) & too_high; /* base 63, states 6 and 7 too */
            if (t->state == PLAIN_WAITS_FLAGS)
                bad |= (w->mask == 0) | (w->test > 3) | (w->consume > 1) | (t->object >= PLAIN_GROUPS);
            else
                wrong |= wanted;
            bad |= word >= UINT64_C(251) << SUSPENDED;
            bad |= (t->left > t->quantum) | (t->quantum == 0);
            wrong |= (t->object | (marked ^ t->state)) & (waits - 1); /* a plain task has no mark, a delayed one has one */
            wrong |= t->mark & (marked - 1);
            bad |= (t->mark == k->tick) & marked;
            held_twice |= held & t->held;
            held |= t->held;
            at = word & not_able ? i : head_of(k->work[i] % 64u); /* the priority itself is tested below */
            at = waits ? object_head(t->state, t->object) : at;
        }
        place[i] = (uint8_t)at;
        if (at != i)
            queued++;
        else
            bad |= (k->next[i] ^ i) | (k->prev[i] ^ i);
    }

    /* Each object by itself */
    for (i = 0; i < PLAIN_OBJECTS; i++)
        bad |= wrong_number(k->semaphore[i].used, k->semaphore[i].count);
    for (i = 0; i < PLAIN_OBJECTS; i++) {
        const struct plain_mutex *m = &k->mutex[i];
        unsigned h = m->holder;

        if (m->used && h < PLAIN_TASKS) {
            owned |= UINT32_C(1) << i;
            bad |= (m->used > 1) | (m->nesting - 1u >= 250) | !(k->task[h].held >> i & 1) | (place[h] == PLAIN_MUTEX + i);
        } else {
            bad |= (m->used > 1) | m->nesting | (h ^ (m->used ? PLAIN_NONE : 0));
        }
    }
    for (i = 0; i < PLAIN_GROUPS; i++)
        bad |= wrong_number(k->group[i].used, k->group[i].flags);
    wrong |= wrong_channels(&k->channel, 0) | wrong_channels(&k->channel, 8);
    if (wrong | bad | held_twice | (held ^ owned) | (k->default_quantum == 0) | (k->next[PLAIN_LEVEL] ^ PLAIN_NONE))
        return 0;
    wrong |= unused_slots(k);

    /* The able tasks, level by level. */
    for (ready = k->ready; ready; ready &= ready - 1)
        if (!check_queue(k, place, PLAIN_LEVEL + (unsigned)__builtin_ctzll(ready), 0, &queued))
            return 0;

    /* Waiters: eight heads at a time, of which only those with tasks are looked at. */
    for (heads = PLAIN_SEMAPHORE; heads < PLAIN_LEVEL; heads += 8) {
        uint64_t own = UINT64_C(0x0706050403020100) + UINT64_C(0x0101010101010101) * heads;
        uint64_t next = eight(k->next + heads) ^ own, prev = eight(k->prev + heads) ^ own;

        wrong |= eight(k->work + heads);
        while (next) {
            unsigned at = (unsigned)__builtin_ctzll(next) / 8, head = heads + at;

            if (!check_queue(k, place, head, 1, &queued))
                return 0;
            if (head < PLAIN_MUTEX) {
                const struct plain_semaphore *s = &k->semaphore[head - PLAIN_SEMAPHORE];
                if (!s->used || s->count != 0)
                    return 0;
            } else if (head < PLAIN_GROUP) {
                unsigned h = k->mutex[head - PLAIN_MUTEX].holder, first = k->next[head];
                if (!(owned >> (head - PLAIN_MUTEX) & 1))
                    return 0;
                if (k->work[first] < fresh[h])
                    fresh[h] = k->work[first];
                if (place[h] >= PLAIN_MUTEX && place[h] < PLAIN_GROUP)
                    through |= UINT32_C(1) << h;
            } else if (head < PLAIN_NONE) {
                if (!k->group[head - PLAIN_GROUP].used)
                    return 0;
            } else if (head >= PLAIN_CHANNEL) {
                if (!k->channel.used[head - PLAIN_CHANNEL] || k->channel.held[head - PLAIN_CHANNEL] != 0)
                    return 0;
            }
            next &= ~(UINT64_C(0xFF) << 8 * at);
            prev &= ~(UINT64_C(0xFF) << 8 * at);
        }
        wrong |= prev;
    }

    /* Priorities: the base and the first waiters decide, and on rings what comes from outside. */
    if (wrong || queued != 0 || memcmp(fresh, k->work, PLAIN_TASKS) != 0 || (through && !check_rings(k, through)))
        return 0;

    /* What runs */
    if (k->depth == 0)
        return k->running == first_able(k);
    return k->depth <= 250 && (k->running == PLAIN_NONE || (k->running < PLAIN_TASKS && place[k->running] >= PLAIN_LEVEL));
}
