/* Every function of include/nonthachak_queue.h beside a plain reading of its promise, over random slots, keys and numbers: queues in order,
 * queues that are not, any bytes, and no slots or keys at all. The bytes around the slots and the keys must stay as they are. */
#include <stdint.h>
#include <stdio.h>
#include <stdlib.h>
#include <string.h>

#include "nonthachak_queue.h"

enum { MOST = 300, EDGE = 8, QUEUES = 200000 };

struct lent {
    size_t slots, count;
    uint8_t ids[EDGE + MOST + EDGE], keys[MOST];
};

static uint64_t seed = 20260701;

static unsigned below(unsigned n)
{
    seed = seed * 6364136223846793005u + 1442695040888963407u;
    return (unsigned)(seed >> 33) % n;
}

/* ---- what is promised, read plainly */

static unsigned key_of(const struct lent *q, uint8_t v)
{
    return v <= q->count ? q->keys[v - 1] : 0;
}

static uint32_t first_in(const struct lent *q)
{
    return q->slots == 0 || q->ids[EDGE] == 0 ? NTQ_NOBODY : q->ids[EDGE] - 1u;
}

/* The first slot from `at` on that holds v, or the number of slots. */
static size_t slot_of(const struct lent *q, size_t at, unsigned v)
{
    while (at < q->slots && q->ids[EDGE + at] != v)
        at++;
    return at;
}

static size_t found_in(const struct lent *q, unsigned id)
{
    size_t at = slot_of(q, 0, id + 1);
    return at < q->slots ? at : NTQ_NOWHERE;
}

/* Behind how many ids one with this key goes: those at the front whose keys are smaller or, where it goes behind its equals, the same. */
static size_t place_in(const struct lent *q, unsigned key, int behind)
{
    size_t at = 0;
    while (at < q->slots && q->ids[EDGE + at] != 0 && key_of(q, q->ids[EDGE + at]) < key + (behind ? 1 : 0))
        at++;
    return at;
}

static uint8_t open_in(struct lent *q, size_t at, uint8_t v)
{
    size_t end;
    uint8_t out;

    if (at >= q->slots)
        return v;
    end = slot_of(q, at, 0);
    out = end < q->slots ? 0 : q->ids[EDGE + q->slots - 1];
    if (end == q->slots)
        end--;
    memmove(q->ids + EDGE + at + 1, q->ids + EDGE + at, end - at);
    q->ids[EDGE + at] = v;
    return out;
}

static uint8_t close_in(struct lent *q, size_t at)
{
    size_t end;
    uint8_t out;

    if (at >= q->slots)
        return 0;
    out = q->ids[EDGE + at];
    end = slot_of(q, at + 1, 0);
    memmove(q->ids + EDGE + at, q->ids + EDGE + at + 1, end - at - 1);
    q->ids[EDGE + end - 1] = 0;
    return out;
}

static int is_known(const struct lent *q, unsigned id)
{
    return id != 255 && id < q->count;
}

static uint32_t insert_in(struct lent *q, unsigned id)
{
    if (!is_known(q, id))
        return NTQ_BEYOND_KEYS;
    if (found_in(q, id) != NTQ_NOWHERE)
        return NTQ_ALREADY_THERE;
    if (slot_of(q, 0, 0) == q->slots)
        return NTQ_FULL;
    (void)open_in(q, place_in(q, q->keys[id], 1), (uint8_t)(id + 1));
    return NTQ_DONE;
}

static uint32_t remove_in(struct lent *q, unsigned id)
{
    if (found_in(q, id) == NTQ_NOWHERE)
        return NTQ_NOT_THERE;
    (void)close_in(q, found_in(q, id));
    return NTQ_DONE;
}

static uint32_t move_in(struct lent *q, unsigned id, int behind)
{
    if (!is_known(q, id))
        return NTQ_BEYOND_KEYS;
    if (remove_in(q, id) != NTQ_DONE)
        return NTQ_NOT_THERE;
    (void)open_in(q, place_in(q, q->keys[id], behind), (uint8_t)(id + 1));
    return NTQ_DONE;
}

static uint32_t ordered_in(const struct lent *q)
{
    size_t end = slot_of(q, 0, 0), i, j;

    for (i = end; i < q->slots; i++)
        if (q->ids[EDGE + i] != 0)
            return 0;
    for (i = 0; i < end; i++) {
        if (q->ids[EDGE + i] > q->count)
            return 0;
        for (j = i + 1; j < end; j++)
            if (q->ids[EDGE + i] == q->ids[EDGE + j] || key_of(q, q->ids[EDGE + i]) > key_of(q, q->ids[EDGE + j]))
                return 0;
    }
    return 1;
}

/* ---- the comparison */

static const char *function;
static unsigned long number, answers[5], ordered[2];

static void hold(uint64_t got, uint64_t wanted, const struct lent *q, const struct lent *reading)
{
    if (got == wanted && memcmp(q, reading, sizeof *q) == 0)
        return;
    printf("queue %lu: %s gives %llu, the promise %llu; the bytes are %s\n", number, function, (unsigned long long)got, (unsigned long long)wanted,
           memcmp(q, reading, sizeof *q) == 0 ? "the same" : "others");
    exit(1);
}

/* The call on one copy, and the reading on another. */
#define HOLD(name, call, wanted)                                                                                                                     \
    do {                                                                                                                                             \
        struct lent q = *from, reading = *from, *r = &reading;                                                                                       \
        uint64_t got = (call), want;                                                                                                                 \
        function = name;                                                                                                                             \
        want = (wanted);                                                                                                                             \
        hold(got, want, &q, r);                                                                                                                      \
    } while (0)

static void compare(const struct lent *from)
{
    uint8_t id = (uint8_t)below(below(2) ? 256 : 12), key = (uint8_t)below(below(2) ? 256 : 4);
    size_t at = below((unsigned)from->slots + 3);

    HOLD("ntq_first", ntq_first(q.ids + EDGE, q.slots), first_in(r));
    HOLD("ntq_find", ntq_find(q.ids + EDGE, q.slots, id), found_in(r, id));
    HOLD("ntq_place_behind", ntq_place_behind(q.ids + EDGE, q.slots, q.keys, q.count, key), place_in(r, key, 1));
    HOLD("ntq_place_before", ntq_place_before(q.ids + EDGE, q.slots, q.keys, q.count, key), place_in(r, key, 0));
    HOLD("ntq_open", ntq_open(q.ids + EDGE, q.slots, at, key), open_in(r, at, key));
    HOLD("ntq_close", ntq_close(q.ids + EDGE, q.slots, at), close_in(r, at));
    HOLD("ntq_remove", ntq_remove(q.ids + EDGE, q.slots, id), remove_in(r, id));
    HOLD("ntq_move_behind", ntq_move_behind(q.ids + EDGE, q.slots, q.keys, q.count, id), move_in(r, id, 1));
    HOLD("ntq_move_before", ntq_move_before(q.ids + EDGE, q.slots, q.keys, q.count, id), move_in(r, id, 0));
    HOLD("ntq_insert", ntq_insert(q.ids + EDGE, q.slots, q.keys, q.count, id), insert_in(r, id));
    HOLD("ntq_is_ordered", ntq_is_ordered(q.ids + EDGE, q.slots, q.keys, q.count), ordered_in(r));
}

/* The promises over many calls: from zeroed slots, ids come, leave and change their keys, and the queue stays in order. */
static void go_on(struct lent *q)
{
    unsigned steps = below(60);

    while (steps-- > 0) {
        uint8_t id = (uint8_t)below((unsigned)q->count + 2);
        uint32_t answer;

        switch (below(4)) {
        case 0: answer = ntq_remove(q->ids + EDGE, q->slots, id); break;
        case 1:
            if (id < q->count)
                q->keys[id] = (uint8_t)below(4);
            answer = (below(2) ? ntq_move_behind : ntq_move_before)(q->ids + EDGE, q->slots, q->keys, q->count, id);
            break;
        default: answer = ntq_insert(q->ids + EDGE, q->slots, q->keys, q->count, id);
        }
        answers[answer]++;
        if (ntq_is_ordered(q->ids + EDGE, q->slots, q->keys, q->count) != 1 || ordered_in(q) != 1) {
            printf("queue %lu: the order is lost\n", number);
            exit(1);
        }
    }
}

static void make(struct lent *q)
{
    size_t i;
    unsigned values = below(4) ? 4 : 256;

    memset(q, 0xA5, sizeof *q);
    q->slots = below(below(50) ? 12 : MOST + 1);
    q->count = below(below(50) ? 12 : MOST + 1);
    memset(q->ids + EDGE, 0, q->slots);
    for (i = 0; i < q->count; i++)
        q->keys[i] = (uint8_t)below(values);
    go_on(q);
    /* Damage of one slot, or any bytes. */
    if (q->slots > 0 && below(3) == 0)
        q->ids[EDGE + below((unsigned)q->slots)] = (uint8_t)below(below(2) ? 12 : 256);
    if (below(10) == 0)
        for (i = 0; i < q->slots; i++)
            q->ids[EDGE + i] = (uint8_t)below(below(2) ? 5 : 256);
}

/* No slots and no keys need no pointers. */
static int takes_none(void)
{
    uint8_t key = 0;

    return ntq_first(NULL, 0) == NTQ_NOBODY && ntq_find(NULL, 0, 0) == NTQ_NOWHERE && ntq_insert(NULL, 0, NULL, 0, 0) == NTQ_BEYOND_KEYS &&
           ntq_insert(NULL, 0, &key, 1, 0) == NTQ_FULL && ntq_remove(NULL, 0, 0) == NTQ_NOT_THERE &&
           ntq_move_behind(NULL, 0, &key, 1, 0) == NTQ_NOT_THERE && ntq_move_before(NULL, 0, &key, 1, 0) == NTQ_NOT_THERE &&
           ntq_is_ordered(NULL, 0, NULL, 0) == 1 && ntq_place_behind(NULL, 0, NULL, 0, 0) == 0 &&
           ntq_place_before(NULL, 0, NULL, 0, 0) == 0 && ntq_open(NULL, 0, 0, 7) == 7 && ntq_close(NULL, 0, 0) == 0;
}

int main(void)
{
    static struct lent q;

    if (!takes_none()) {
        puts("no slots and no keys are not taken");
        return 1;
    }
    for (number = 0; number < QUEUES; number++) {
        make(&q);
        ordered[ordered_in(&q)]++;
        compare(&q);
    }
    printf("queue: %d queues, %lu in order and %lu not; answers on the way: %lu %lu %lu %lu %lu\n", QUEUES, ordered[1], ordered[0], answers[0],
           answers[1], answers[2], answers[3], answers[4]);
    /* A test that met no refusal, or no queue out of order, tried nothing. */
    return answers[0] == 0 || answers[1] == 0 || answers[2] == 0 || answers[3] == 0 || answers[4] == 0 || ordered[0] == 0 || ordered[1] == 0;
}
