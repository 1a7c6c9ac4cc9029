/* nonthachak_queue.h: the ordered queues of the kernel's bookkeeping alone, for C code.
 *
 * A queue is a block of bytes that the caller owns, its slots, zeroed at the start: 0 is a free slot, and v holds the id v - 1. It is packed
 * to the front, in the order of the keys, the smaller first, and among equals by arrival, unless one is moved before them. The keys are the
 * caller's too, one byte for each id: keys[id]. No queue has a state besides its slots.
 *
 * Every function takes any bytes and any lengths, and a refusal leaves the slots as they came. What the pointers must be is C's to see to:
 * `slots` bytes at `ids` and `count` bytes at `keys`, real memory that may be read (and of the slots written, where they are not const), at any
 * alignment, the call's alone while it lasts; where a function changes the slots, they and the keys do not overlap. A pointer with the
 * length 0 is not looked at.
 * docs/QUEUE.md tells how to use it. The archive is libnonthachak_queue.a where it is installed, and target/staticlib/libcqueue.a where it
 * is built; it needs neither nonthachak.h nor its archive, and may stand beside them in one program.
 */
#ifndef NONTHACHAK_QUEUE_H
#define NONTHACHAK_QUEUE_H

#include <stddef.h>
#include <stdint.h>

#ifdef __cplusplus
extern "C" {
#endif

/* Answers. NTQ_DONE alone changes the slots. */
enum ntq_answer {
    NTQ_DONE = 0,
    NTQ_BEYOND_KEYS = 1,   /* the id has no key, or it is 255, which no slot can hold */
    NTQ_ALREADY_THERE = 2, /* insert: the id stands there */
    NTQ_NOT_THERE = 3,     /* remove, move behind, move before: the id does not stand there */
    NTQ_FULL = 4           /* insert: no slot is free */
};

/* What ntq_first gives where nobody is first, and ntq_find where the id stands nowhere. */
#define NTQ_NOBODY 256u
#define NTQ_NOWHERE SIZE_MAX

/* The compiler warns where such an answer is dropped: a refusal would pass unseen, and so would an entry that fell out. */
#if (defined __cplusplus && __cplusplus >= 201703L) || (defined __STDC_VERSION__ && __STDC_VERSION__ > 201710L)
#define NTQ_MUST_USE [[nodiscard]]
#elif defined __GNUC__
#define NTQ_MUST_USE __attribute__((warn_unused_result))
#else
#define NTQ_MUST_USE
#endif

/* The id in the front slot; NTQ_NOBODY where that is free or there is no slot. */
NTQ_MUST_USE uint32_t ntq_first(const uint8_t *ids, size_t slots);

/* The first slot where the id stands; NTQ_NOWHERE where it does not. */
NTQ_MUST_USE size_t ntq_find(const uint8_t *ids, size_t slots, uint8_t id);

/* The id goes behind its equals. Refused, tested in this order: NTQ_BEYOND_KEYS, NTQ_ALREADY_THERE, NTQ_FULL. */
NTQ_MUST_USE uint32_t ntq_insert(uint8_t *ids, size_t slots, const uint8_t *keys, size_t count, uint8_t id);

/* The id leaves. Refused: NTQ_NOT_THERE. */
NTQ_MUST_USE uint32_t ntq_remove(uint8_t *ids, size_t slots, uint8_t id);

/* The id, whose key the caller has changed, leaves and goes behind its equals at the new level. Refused, tested in this order:
 * NTQ_BEYOND_KEYS, NTQ_NOT_THERE. */
NTQ_MUST_USE uint32_t ntq_move_behind(uint8_t *ids, size_t slots, const uint8_t *keys, size_t count, uint8_t id);

/* The id, whose key became smaller, leaves and goes before its equals at the new level: who is raised is served first. Refused as by
 * ntq_move_behind. */
NTQ_MUST_USE uint32_t ntq_move_before(uint8_t *ids, size_t slots, const uint8_t *keys, size_t count, uint8_t id);

/* 1 where the queue is as it should be: packed, each id within the keys, none twice, in order; else 0. Zeroed slots are, and the four changes
 * above keep a queue so, where a key that is changed is followed by a move of its id, behind or before, before the next change. */
NTQ_MUST_USE uint32_t ntq_is_ordered(const uint8_t *ids, size_t slots, const uint8_t *keys, size_t count);

/* Below: the parts that the changes are made of. They keep no order by themselves. */

/* Where an id with this key goes behind its equals: the first slot that is free or whose id has a greater key; `slots` where there is none.
 * An id that has no key counts as one of key 0. */
NTQ_MUST_USE size_t ntq_place_behind(const uint8_t *ids, size_t slots, const uint8_t *keys, size_t count, uint8_t key);

/* Where it goes before them: the first slot that is free or whose id has a key that is no smaller. */
NTQ_MUST_USE size_t ntq_place_before(const uint8_t *ids, size_t slots, const uint8_t *keys, size_t count, uint8_t key);

/* v comes to the slot `at`, and the entries from there on move one further, up to the first free slot. Gives what falls out at the end: 0
 * where a slot was free, and v itself where there is no slot `at`. */
NTQ_MUST_USE uint8_t ntq_open(uint8_t *ids, size_t slots, size_t at, uint8_t v);

/* The slot `at` goes, and the entries behind it move one nearer, up to the first free slot. Gives what stood there; 0 where there is no such
 * slot. */
NTQ_MUST_USE uint8_t ntq_close(uint8_t *ids, size_t slots, size_t at);

/* The name of an answer, in words. "unknown" for a number that is none. */
static inline const char *ntq_answer_name(uint32_t answer)
{
    switch (answer) {
    case NTQ_DONE: return "done";
    case NTQ_BEYOND_KEYS: return "beyond the keys";
    case NTQ_ALREADY_THERE: return "already there";
    case NTQ_NOT_THERE: return "not there";
    case NTQ_FULL: return "full";
    default: return "unknown";
    }
}

#ifdef __cplusplus
}
#endif

#endif
