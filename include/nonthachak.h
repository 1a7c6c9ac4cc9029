/* nonthachak.h: the kernel's bookkeeping, for the C port.
 *
 * The port owns a block of NTK_IMAGE_SIZE bytes, the image. ntk_fresh writes the fresh table into it at start-up; zeroed memory is not the
 * fresh table, and gets 15. Then the port makes each service call and each tick on it, with interrupts shut: by a function for each service
 * (ntk_mutex_wait and so on) or by ntk_step, which they are made of. A call changes the image in place and says how it was answered and
 * which task is to run; ntk_read shows a field of it.
 * docs/PORT-OTHER.md tells how to use it, docs/API.md each service, docs/ANSWERS.md each answer, docs/IMAGE.md what each byte means.
 */
#ifndef NONTHACHAK_H
#define NONTHACHAK_H

#include <stddef.h>
#include <stdint.h>

#ifdef __cplusplus
extern "C" {
#endif

/* The version of this header; ntk_version() is that of the archive. A port is built right where the two are the same. */
#define NTK_VERSION_MAJOR 1
#define NTK_VERSION_MINOR 7
#define NTK_VERSION_PATCH 0
#define NTK_VERSION (NTK_VERSION_MAJOR * 10000u + NTK_VERSION_MINOR * 100u + NTK_VERSION_PATCH)

uint32_t ntk_version(void);

/* How long an image is. */
#define NTK_IMAGE_SIZE 4936

/* The first call of every board: any bytes at `image` become the fresh table, with nothing in use, none running and the default quantum
 * NTK_FRESH_QUANTUM, and the answer is 0. With a `length` other than NTK_IMAGE_SIZE it is 15, and no byte changes.
 * Zeroed memory will not do: its default quantum is 0, which no sound table has, and ntk_step answers it with 15. The answer may be dropped,
 * as with a wrong length every later call says 15 too. What `image` must be is said at ntk_step. */
uint32_t ntk_fresh(uint8_t *image, size_t length);

#define NTK_TASKS 32
#define NTK_SEMAPHORES 16
#define NTK_MUTEXES 16
#define NTK_GROUPS 8    /* of 32 flags each */
#define NTK_CHANNELS 16 /* message queues, called channels, since a queue is a row of tasks */
#define NTK_QUEUES 57
#define NTK_LEVELS 64   /* bits of the ready word; a level is a working priority, and none is 63 */

/* Limits, each the greatest that is taken. */
#define NTK_LAST_PRIORITY 62       /* base and working priority; 0 is the most urgent */
#define NTK_MOST_NESTED 250        /* suspends of a task, nesting of a mutex, lock depth */
#define NTK_MOST_QUANTUM 65535     /* of a task, and the default */
#define NTK_MOST_COUNT 4294967295u /* of a semaphore */
#define NTK_MOST_MESSAGES 32       /* capacity of a channel */

/* The default quantum of the fresh table; NTK_SET_DEFAULT_QUANTUM sets another. */
#define NTK_FRESH_QUANTUM 100

/* Kinds of calls, with the numbers a to f that each looks at, and who may make it:
 * T a running task, I an interrupt (kind | NTK_INTERRUPT), S start-up code, with none running. */
enum ntk_kind {
    NTK_TASK_CREATE = 0x01,      /* a task, b base priority 0..62, c quantum 0..65535,  T S
                                  * where 0 takes the default quantum of that moment          */
    NTK_TASK_DELETE = 0x02,      /* a task                                              T S   */
    NTK_CHANGE_PRIORITY = 0x03,  /* a task, b base priority 0..62                       T S   */
    NTK_SUSPEND = 0x04,          /* a task                                              T S   */
    NTK_RESUME = 0x05,           /* a task                                              T S   */
    NTK_YIELD = 0x06,            /*                                                     T     */
    NTK_DELAY = 0x07,            /* a ticks, 1 or more                                  T     */
    NTK_DELAY_RESUME = 0x08,     /* a task                                              T S   */
    NTK_LOCK = 0x09,             /*                                                     T S   */
    NTK_UNLOCK = 0x0A,           /*                                                     T S   */
    NTK_TICK = 0x0B,             /*                                                     T I S */
    NTK_SET_DEFAULT_QUANTUM = 0x0D, /* a quantum 1..65535                               T S   */
    NTK_SEMAPHORE_CREATE = 0x10, /* a semaphore, b count                                T S   */
    NTK_SEMAPHORE_DELETE = 0x11, /* a semaphore, b force 0 or 1                         T S   */
    NTK_SEMAPHORE_WAIT = 0x12,   /* a semaphore, b block 0 or 1, c limit, 0 for ever    T     */
    NTK_SEMAPHORE_POST = 0x13,   /* a semaphore                                         T I S */
    NTK_SEMAPHORE_ABORT = 0x14,  /* a semaphore                                         T S   */
    NTK_MUTEX_CREATE = 0x20,     /* a mutex                                             T S   */
    NTK_MUTEX_DELETE = 0x21,     /* a mutex, b force 0 or 1                             T S   */
    NTK_MUTEX_WAIT = 0x22,       /* a mutex, b block 0 or 1, c limit, 0 for ever        T     */
    NTK_MUTEX_POST = 0x23,       /* a mutex                                             T     */
    NTK_MUTEX_ABORT = 0x24,      /* a mutex                                             T S   */
    NTK_GROUP_CREATE = 0x30,     /* a group, b flags                                    T S   */
    NTK_GROUP_DELETE = 0x31,     /* a group, b force 0 or 1                             T S   */
    NTK_GROUP_WAIT = 0x32,       /* a group, b block 0 or 1, c limit, 0 for ever,       T
                                  * d mask, not 0, e enum ntk_test, f consume 0 or 1          */
    NTK_GROUP_POST = 0x33,       /* a group, b mask, not 0, c 1 sets, 0 clears          T I S */
    NTK_GROUP_ABORT = 0x34,      /* a group                                             T S   */
    NTK_CHANNEL_CREATE = 0x40,   /* a channel, b capacity 1..32                         T S   */
    NTK_CHANNEL_DELETE = 0x41,   /* a channel, b force 0 or 1                           T S   */
    NTK_CHANNEL_WAIT = 0x42,     /* a channel, b block 0 or 1, c limit, 0 for ever      T     */
    NTK_CHANNEL_POST = 0x43,     /* a channel, b message, c 1 in front, 0 at the end    T I S */
    NTK_CHANNEL_ABORT = 0x44,    /* a channel                                           T S   */
    NTK_CHANNEL_FLUSH = 0x45,    /* a channel                                           T S   */
    NTK_INTERRUPT = 0x80         /* added to a kind: an interrupt makes the call              */
};

/* The tests of a wait for flags: what it asks of the flags of its mask. A wait that consumes turns over those that are as it asks. */
enum ntk_test { NTK_ALL_SET = 0, NTK_ANY_SET = 1, NTK_ALL_CLEAR = 2, NTK_ANY_CLEAR = 3 };

/* The numbers 0 and 1 of a call, by name: the quantum of a task, block, limit, force, consume, what a post of flags does, and where a post puts
 * its message. */
#define NTK_USE_DEFAULT 0u
#define NTK_NO_BLOCK 0u
#define NTK_MAY_BLOCK 1u
#define NTK_FOREVER 0u
#define NTK_NO_FORCE 0u
#define NTK_FORCE 1u
#define NTK_KEEP 0u
#define NTK_CONSUME 1u
#define NTK_CLEAR 0u
#define NTK_SET 1u
#define NTK_AT_END 0u
#define NTK_IN_FRONT 1u

/* Answers. NTK_DONE and NTK_BLOCKS alone change the image. */
enum ntk_answer {
    NTK_DONE = 0,
    NTK_BEYOND_RANGE = 1,    /* a number beyond its range, or an unknown kind */
    NTK_NOT_IN_USE = 2,      /* the number is not in use */
    NTK_IN_USE = 3,          /* create: the number is in use */
    NTK_BAD_VALUE = 4,       /* base above 62, a yes/no above 1, a delay of 0, a quantum above 65535, a default quantum of 0, a mask of 0,
                              * a fifth test, a capacity of 0 or above 32 */
    NTK_BY_INTERRUPT = 5,    /* not a tick, a semaphore post, a group post or a channel post */
    NTK_NONE_RUNNING = 6,    /* the call wants a running task */
    NTK_WHILE_LOCKED = 7,    /* not while the scheduler is locked */
    NTK_NOTHING_TO_TAKE = 8, /* a non-blocking wait */
    NTK_NOT_ITS_HOLDER = 9,  /* mutex post */
    NTK_TOO_DEEP = 10,       /* the 251st nesting of a mutex, lock or suspend */
    NTK_COUNT_FULL = 11,     /* semaphore post at 4294967295 */
    NTK_NOT_LOCKED = 12,     /* unlock at depth 0 */
    NTK_STILL_NEEDED = 13,   /* an object with waiters, or a task that holds a mutex */
    NTK_BLOCKS = 14,         /* the caller waits: run another task */
    NTK_NOT_SOUND = 15,      /* the image breaks a standing rule or has the wrong length: nothing may run */
    NTK_CHANNEL_FULL = 16,   /* channel post: it holds as many messages as its capacity */
    NTK_NOT_SUSPENDED = 17,  /* resume at suspend count 0 */
    NTK_NOT_DELAYED = 18,    /* delay resume of a task that is not delayed */
    NTK_NO_WAITER = 19,      /* abort where nobody waits for the object */
    NTK_NO_PEER = 20         /* yield without another able task of the same working priority */
};

/* The outcome of a task's last wait or delay; NTK_NO_SUCH_TASK for a number that is no task's. */
enum ntk_wait { NTK_GIVEN = 0, NTK_TIMED_OUT = 1, NTK_ABORTED = 2, NTK_DELETED = 3, NTK_NO_SUCH_TASK = 255 };

/* `runs` is the task to run, plus 1; 0 is none: ntk_task_of(o.runs) is its number. `further` is how many messages a flush took; 0 for every
 * other call and every refusal. */
struct ntk_outcome {
    uint16_t answer;
    uint16_t further;
    uint32_t runs;
};

/* The compiler warns where an outcome is dropped: a refusal would pass unseen, and so would the task to run. */
#if (defined __cplusplus && __cplusplus >= 201703L) || (defined __STDC_VERSION__ && __STDC_VERSION__ > 201710L)
#define NTK_MUST_USE [[nodiscard]]
#elif defined __GNUC__
#define NTK_MUST_USE __attribute__((warn_unused_result))
#else
#define NTK_MUST_USE
#endif

/* One call on the image of `length` bytes at `image`. Any kind, numbers, bytes and length are taken; a refused call leaves every byte as it
 * came. Numbers that the kind does not use are not looked at.
 * What `image` must be is C's to see to, as no kernel can test it, here and in every function below: real memory of `length` bytes, which
 * may be read and written, at any alignment; no part of it the kernel's own, its code and its stack; and the call's alone while it lasts.
 * So it is not reentrant on one image: call it with interrupts shut. */
NTK_MUST_USE struct ntk_outcome ntk_step(uint8_t kind, uint32_t a, uint32_t b, uint32_t c, uint32_t d, uint32_t e, uint32_t f,
                                         uint8_t *image, size_t length);

/* The same without the test of the image, and quicker: for an image that ntk_fresh has written and that only these two functions have
 * changed since. There it gives what ntk_step gives. On an image that breaks a standing rule it gives no sensible table. */
NTK_MUST_USE struct ntk_outcome ntk_serve(uint8_t kind, uint32_t a, uint32_t b, uint32_t c, uint32_t d, uint32_t e, uint32_t f,
                                          uint8_t *image, size_t length);

/* Fields, for ntk_read: what each shows, and which numbers it has. The first digit says whose it is, as with the kinds of calls.
 * Where "none" may stand (a holder, the running task, a slot), a task is its number plus 1, and 0 is none. */
enum ntk_field {
    NTK_FIELD_TASK_IN_USE = 0x00,      /* 1 in use, 0 free; free, all its fields are 0     task 0..31        */
    NTK_FIELD_TASK_BASE = 0x01,        /* base priority                                    task 0..31        */
    NTK_FIELD_TASK_WORK = 0x02,        /* working priority                                 task 0..31        */
    NTK_FIELD_TASK_SUSPEND = 0x03,     /* suspend count                                    task 0..31        */
    NTK_FIELD_TASK_QUANTUM = 0x04,     /* quantum, 1 or more                               task 0..31        */
    NTK_FIELD_TASK_LEFT = 0x05,        /* what is left of the quantum                      task 0..31        */
    NTK_FIELD_TASK_STATE = 0x06,       /* enum ntk_state                                   task 0..31        */
    NTK_FIELD_TASK_OBJECT = 0x07,      /* the object waited for; 0 where it waits for none task 0..31        */
    NTK_FIELD_TASK_MARKED = 0x08,      /* 1 if it has a due mark, else 0                   task 0..31        */
    NTK_FIELD_TASK_DUE = 0x09,         /* its due mark; 0 where it has none                task 0..31        */
    NTK_FIELD_TASK_OUTCOME = 0x0A,     /* enum ntk_wait                                    task 0..31        */
    NTK_FIELD_TASK_MASK = 0x0B,        /* the flags it waits for; 0 where for none         task 0..31        */
    NTK_FIELD_TASK_TEST = 0x0C,        /* enum ntk_test; 0 where it waits for no flags     task 0..31        */
    NTK_FIELD_TASK_CONSUME = 0x0D,     /* 1 if it consumes the flags it waits for, else 0  task 0..31        */
    NTK_FIELD_TASK_MESSAGE = 0x0E,     /* the last message that it was given; 0 before     task 0..31        */
    NTK_FIELD_SEMAPHORE_IN_USE = 0x10, /* 1 in use, 0 free                                 semaphore 0..15   */
    NTK_FIELD_SEMAPHORE_COUNT = 0x11,  /* count                                            semaphore 0..15   */
    NTK_FIELD_MUTEX_IN_USE = 0x20,     /* 1 in use, 0 free                                 mutex 0..15       */
    NTK_FIELD_MUTEX_HOLDER = 0x21,     /* holder plus 1; 0 for none                        mutex 0..15       */
    NTK_FIELD_MUTEX_NESTING = 0x22,    /* how many times over it is held                   mutex 0..15       */
    NTK_FIELD_GROUP_IN_USE = 0x30,     /* 1 in use, 0 free                                 group 0..7        */
    NTK_FIELD_GROUP_FLAGS = 0x31,      /* its flags, flag n in bit n                       group 0..7        */
    NTK_FIELD_CHANNEL_USED = 0x40,     /* 1 in use, 0 free                                 channel 0..15     */
    NTK_FIELD_CHANNEL_CAPACITY = 0x41, /* how many messages it has room for                channel 0..15     */
    NTK_FIELD_CHANNEL_HELD = 0x42,     /* how many it holds                                channel 0..15     */
    NTK_FIELD_QUEUE_SLOT = 0xE0,       /* task plus 1; 0 for none                          NTK_SLOT(q, j)    */
    NTK_FIELD_MESSAGE = 0xE1,          /* a message; 0 where the channel holds none there  NTK_MESSAGE(c, j) */
    NTK_FIELD_TICK = 0xF0,             /* tick counter                                     0                 */
    NTK_FIELD_DEPTH = 0xF1,            /* lock depth                                       0                 */
    NTK_FIELD_RUNNING = 0xF2,          /* running task plus 1; 0 for none                  0                 */
    NTK_FIELD_DEFAULT_QUANTUM = 0xF3,  /* default quantum, 1 or more                       0                 */
    NTK_FIELD_READY = 0xF4             /* the ready word: the levels with an able task     0                 */
};

/* The states of a task. */
enum ntk_state { NTK_PLAIN = 0, NTK_DELAYED = 1, NTK_WAITS_SEMAPHORE = 2, NTK_WAITS_MUTEX = 3, NTK_WAITS_FLAGS = 4, NTK_WAITS_MESSAGE = 5 };

/* Queues: the able tasks, and the waiters of each semaphore, of each mutex, of each group and of each channel, the most urgent first. */
#define NTK_ABLE_QUEUE 0
#define NTK_SEMAPHORE_QUEUE(s) (1 + (s))
#define NTK_MUTEX_QUEUE(m) (17 + (m))
#define NTK_GROUP_QUEUE(g) (33 + (g))
#define NTK_CHANNEL_QUEUE(c) (41 + (c))

/* The number of slot j, 0..31, of queue q, 0..56, where slot 0 is the front. */
#define NTK_SLOT(q, j) (NTK_TASKS * (q) + (j))

/* The number of message j, 0..31, of channel c, where message 0 is the next one that is taken. */
#define NTK_MESSAGE(c, j) (NTK_MOST_MESSAGES * (c) + (j))

/* The bit of level l, 0..63, in the ready word: set exactly if an able task has this working priority. The most urgent level has the top bit,
 * so that the first one is found by counting leading zeros. */
#define NTK_LEVEL_BIT(l) (UINT64_C(1) << (63 - (l)))

/* What no field of a sound table shows: a field has 32 bits, but for the ready word, whose lowest bit is never set. */
#define NTK_NO_FIELD UINT64_MAX

/* What a field shows in the image of `length` bytes at `image`. Any field, number, bytes and length are taken: where the field or the
 * number is unknown, or the length wrong, it is NTK_NO_FIELD. The image is not tested, and not changed: it must be as for ntk_step, but need
 * not be writable. Call it with interrupts shut, or on a copy. */
uint64_t ntk_read(uint32_t field, uint32_t number, const uint8_t *image, size_t length);

/* The standing rules, for ntk_why: what each asks, and which numbers it has, as with ntk_read. docs/IMAGE.md has the list in full. Later numbers come
 * between these. */
enum ntk_rule {
    NTK_RULE_NONE = 0x00,               /* none is broken: the table is sound            0                 */
    NTK_RULE_TASK_USED = 0x01,          /* in use is 0 or 1                              task 0..31        */
    NTK_RULE_TASK_BASE = 0x02,          /* base priority 0..62                           task 0..31        */
    NTK_RULE_TASK_WORK = 0x03,          /* working priority 0..62                        task 0..31        */
    NTK_RULE_TASK_SUSPEND = 0x04,       /* suspend count 0..250                          task 0..31        */
    NTK_RULE_TASK_QUANTUM = 0x05,       /* quantum 0..65535; no bytes break it           task 0..31        */
    NTK_RULE_TASK_LEFT = 0x06,          /* what is left 0..65535; no bytes break it      task 0..31        */
    NTK_RULE_TASK_STATE = 0x07,         /* state 0..5                                    task 0..31        */
    NTK_RULE_TASK_OBJECT = 0x08,        /* object of its kind; 0 where it waits for none task 0..31        */
    NTK_RULE_TASK_MARKED = 0x09,        /* has a mark is 0 or 1                          task 0..31        */
    NTK_RULE_TASK_DUE = 0x0A,           /* due mark 0 where it has none                  task 0..31        */
    NTK_RULE_TASK_OUTCOME = 0x0B,       /* outcome 0..3                                  task 0..31        */
    NTK_RULE_TASK_MASK = 0x0C,          /* mask 0 where it waits for no flags            task 0..31        */
    NTK_RULE_TASK_TEST = 0x0D,          /* test 0..3; 0 where it waits for no flags      task 0..31        */
    NTK_RULE_TASK_CONSUME = 0x0E,       /* consume 0 or 1; 0 where it waits for no flags task 0..31        */
    NTK_RULE_TASK_MESSAGE = 0x0F,       /* message 0..4294967295; no bytes break it      task 0..31        */
    NTK_RULE_TASK_FREE = 0x10,          /* free, its fields are 0                        task 0..31        */
    NTK_RULE_TASK_PLAIN_MARK = 0x11,    /* plain, it has no due mark                     task 0..31        */
    NTK_RULE_TASK_DELAY_MARK = 0x12,    /* delayed, it has a due mark                    task 0..31        */
    NTK_RULE_TASK_LEFT_MOST = 0x13,     /* what is left is at most the quantum           task 0..31        */
    NTK_RULE_TASK_ASKS = 0x14,          /* waiting for flags, its mask is not 0          task 0..31        */
    NTK_RULE_TASK_TURN = 0x15,          /* in use, its quantum is not 0                  task 0..31        */
    NTK_RULE_SEMAPHORE_USED = 0x20,     /* in use is 0 or 1                              semaphore 0..15   */
    NTK_RULE_SEMAPHORE_COUNTS = 0x21,   /* count 0..4294967295; no bytes break it        semaphore 0..15   */
    NTK_RULE_SEMAPHORE_FREE = 0x22,     /* free, its fields are 0                        semaphore 0..15   */
    NTK_RULE_MUTEX_USED = 0x30,         /* in use is 0 or 1                              mutex 0..15       */
    NTK_RULE_MUTEX_HOLDER = 0x31,       /* holder is a task or none                      mutex 0..15       */
    NTK_RULE_MUTEX_NESTING = 0x32,      /* nesting 0..250                                mutex 0..15       */
    NTK_RULE_MUTEX_FREE = 0x33,         /* free, its fields are 0                        mutex 0..15       */
    NTK_RULE_MUTEX_UNHELD = 0x34,       /* not held, its nesting is 0                    mutex 0..15       */
    NTK_RULE_MUTEX_HELD = 0x35,         /* held, its nesting is not 0                    mutex 0..15       */
    NTK_RULE_GROUP_USED = 0x40,         /* in use is 0 or 1                              group 0..7        */
    NTK_RULE_GROUP_FLAGS = 0x41,        /* flags 0..4294967295; no bytes break it        group 0..7        */
    NTK_RULE_GROUP_FREE = 0x42,         /* free, its fields are 0                        group 0..7        */
    NTK_RULE_CHANNEL_USED = 0x50,       /* in use is 0 or 1                              channel 0..15     */
    NTK_RULE_CHANNEL_CAPACITY = 0x51,   /* capacity 0..32                                channel 0..15     */
    NTK_RULE_CHANNEL_HELD = 0x52,       /* it holds at most its capacity                 channel 0..15     */
    NTK_RULE_CHANNEL_FREE = 0x53,       /* free, its fields are 0                        channel 0..15     */
    NTK_RULE_CHANNEL_ROOM = 0x54,       /* in use, its capacity is not 0                 channel 0..15     */
    NTK_RULE_MESSAGE_RANGE = 0x55,      /* message 0..4294967295; no bytes break it      NTK_MESSAGE(c, j) */
    NTK_RULE_MESSAGE_UNUSED = 0x56,     /* 0 where the channel holds no message there    NTK_MESSAGE(c, j) */
    NTK_RULE_WAIT_USED = 0x80,          /* what it waits for is in use                   task 0..31        */
    NTK_RULE_WAIT_NOTHING = 0x81,       /* what it waits for has nothing to take         task 0..31        */
    NTK_RULE_WAIT_APART = 0x82,         /* it does not hold what it waits for            task 0..31        */
    NTK_RULE_HOLDER_USED = 0x83,        /* its holder is in use                          mutex 0..15       */
    NTK_RULE_QUEUE_PLACES = 0x90,       /* once in its queue, and in no other            NTK_SLOT(q, task) */
    NTK_RULE_QUEUE_NOTHING_ELSE = 0x91, /* a task or none                                NTK_SLOT(q, j)    */
    NTK_RULE_QUEUE_ORDERED = 0x92,      /* it may stand before the next slot             NTK_SLOT(q, j)    */
    NTK_RULE_TASK_WORKED = 0xA0,        /* working priority as worked out afresh         task 0..31        */
    NTK_RULE_TASK_NOT_DUE = 0xA1,       /* its due mark is not the tick counter          task 0..31        */
    NTK_RULE_TICK_RANGE = 0xB0,         /* tick counter 0..4294967295; no bytes break it 0                 */
    NTK_RULE_DEPTH_RANGE = 0xB1,        /* lock depth 0..250                             0                 */
    NTK_RULE_RUNNING_RANGE = 0xB2,      /* the running task is a task or none            0                 */
    NTK_RULE_RUNNING_FIRST = 0xB3,      /* at lock depth 0 the first able task runs      0                 */
    NTK_RULE_RUNNING_ABLE = 0xB4,       /* at a greater one an able task runs, or none   0                 */
    NTK_RULE_DEFAULT_LEAST = 0xB5,      /* the default quantum is not 0                  0                 */
    NTK_RULE_DEFAULT_MOST = 0xB6,       /* default quantum ..65535; no bytes break it    0                 */
    NTK_RULE_READY_WORD = 0xB7,         /* ready word below 2^64; no bytes break it      0                 */
    NTK_RULE_READY_LEVELS = 0xB8,       /* its bit is set exactly if it has an able task level 0..63       */
    NTK_RULE_WRONG_LENGTH = 0xFF        /* the length is not NTK_IMAGE_SIZE              0                 */
};

/* The queue, and the slot or task, that the number of a rule on the queues names: the other way from NTK_SLOT. */
#define NTK_QUEUE_AT(number) ((number) / NTK_TASKS)
#define NTK_SLOT_AT(number) ((number) % NTK_TASKS)

/* The channel, and which of its messages, that the number of a rule on messages names: the other way from NTK_MESSAGE. */
#define NTK_CHANNEL_AT(number) ((number) / NTK_MOST_MESSAGES)
#define NTK_MESSAGE_AT(number) ((number) % NTK_MOST_MESSAGES)

/* `rule` is the first standing rule that is broken, `number` the first record that breaks it; 0 and 0 where the table is sound. */
struct ntk_reason {
    uint32_t rule;
    uint32_t number;
};

/* Why the image of `length` bytes at `image` gets NTK_NOT_SOUND: NTK_RULE_NONE exactly where it does not. Any bytes and length are taken, and none is
 * changed: it must be as for ntk_read. It tests each rule by itself, and takes longer than a call: it is for a port that has stopped, and for tools. */
struct ntk_reason ntk_why(const uint8_t *image, size_t length);

/* The same of an image of NTK_IMAGE_SIZE bytes, for what a port asks most. */

#ifdef __cplusplus
#define NTK_AS(type, x) static_cast<type>(x)
#else
#define NTK_AS(type, x) ((type)(x))
#endif

/* What the last wait of a task came to. A task that is not in use has the outcome 0; a number that is no task's NTK_NO_SUCH_TASK. */
static inline enum ntk_wait ntk_wait_of(const uint8_t *image, uint32_t task)
{
    uint64_t wait = ntk_read(NTK_FIELD_TASK_OUTCOME, task, image, NTK_IMAGE_SIZE);
    return wait == NTK_NO_FIELD ? NTK_NO_SUCH_TASK : NTK_AS(enum ntk_wait, wait);
}

/* The working priority of a task; NTK_NO_FIELD for a number that is no task's. */
static inline uint64_t ntk_priority_of(const uint8_t *image, uint32_t task)
{
    return ntk_read(NTK_FIELD_TASK_WORK, task, image, NTK_IMAGE_SIZE);
}

/* The task in slot j of queue q, plus 1; 0 where the slot is free, and NTK_NO_FIELD where there is no such slot. */
static inline uint64_t ntk_slot_of(const uint8_t *image, uint32_t q, uint32_t j)
{
    if (q >= NTK_QUEUES || j >= NTK_TASKS)
        return NTK_NO_FIELD;
    return ntk_read(NTK_FIELD_QUEUE_SLOT, NTK_SLOT(q, j), image, NTK_IMAGE_SIZE);
}

/* The flags of a group, flag n in bit n; 0 where it is not in use, and NTK_NO_FIELD for a number that is no group's. */
static inline uint64_t ntk_flags_of(const uint8_t *image, uint32_t group)
{
    return ntk_read(NTK_FIELD_GROUP_FLAGS, group, image, NTK_IMAGE_SIZE);
}

/* The message in a task's record: the last that it was given, 0 before the first. It stays where a later wait brings none: ntk_wait_of tells
 * whether one did. NTK_NO_FIELD for a number that is no task's. */
static inline uint64_t ntk_message_of(const uint8_t *image, uint32_t task)
{
    return ntk_read(NTK_FIELD_TASK_MESSAGE, task, image, NTK_IMAGE_SIZE);
}

/* The running task, plus 1; 0 for none. */
static inline uint32_t ntk_running(const uint8_t *image)
{
    return NTK_AS(uint32_t, ntk_read(NTK_FIELD_RUNNING, 0, image, NTK_IMAGE_SIZE));
}

static inline uint32_t ntk_tick_count(const uint8_t *image)
{
    return NTK_AS(uint32_t, ntk_read(NTK_FIELD_TICK, 0, image, NTK_IMAGE_SIZE));
}

/* The ready word: NTK_LEVEL_BIT(l) is set in it exactly if level l has an able task; 0 where none is able. */
static inline uint64_t ntk_ready(const uint8_t *image)
{
    return ntk_read(NTK_FIELD_READY, 0, image, NTK_IMAGE_SIZE);
}

/* The most urgent level that has an able task: how many leading zeros the ready word has, NTK_LEVELS where none is able. */
static inline uint32_t ntk_first_level(const uint8_t *image)
{
    uint64_t word = ntk_ready(image);
    uint32_t level = 0, step;

    if (word == 0)
        return NTK_LEVELS;
    for (step = 32; step > 0; step /= 2)
        if (word >> (64 - step) == 0) {
            word <<= step;
            level += step;
        }
    return level;
}

/* No task: a number that no task has. */
#define NTK_NONE UINT32_MAX

/* The number of the task that `runs`, a holder, the running task or a slot shows, plus 1 as they have it; NTK_NONE where they show none.
 * What it gives is NTK_NONE or below NTK_TASKS, whatever it takes. */
static inline uint32_t ntk_task_of(uint64_t shown)
{
    return shown >= 1 && shown <= NTK_TASKS ? NTK_AS(uint32_t, shown - 1) : NTK_NONE;
}

#undef NTK_AS

/* The name of an answer, in words; docs/ANSWERS.md has what to do about each. "unknown" for a number that is none. */
static inline const char *ntk_answer_name(uint32_t answer)
{
    switch (answer) {
    case NTK_DONE: return "done";
    case NTK_BEYOND_RANGE: return "beyond range";
    case NTK_NOT_IN_USE: return "not in use";
    case NTK_IN_USE: return "in use";
    case NTK_BAD_VALUE: return "bad value";
    case NTK_BY_INTERRUPT: return "by interrupt";
    case NTK_NONE_RUNNING: return "none running";
    case NTK_WHILE_LOCKED: return "while locked";
    case NTK_NOTHING_TO_TAKE: return "nothing to take";
    case NTK_NOT_ITS_HOLDER: return "not its holder";
    case NTK_TOO_DEEP: return "nested too deep";
    case NTK_COUNT_FULL: return "count full";
    case NTK_NOT_LOCKED: return "not locked";
    case NTK_STILL_NEEDED: return "still needed";
    case NTK_BLOCKS: return "blocks";
    case NTK_NOT_SOUND: return "not sound";
    case NTK_CHANNEL_FULL: return "channel full";
    case NTK_NOT_SUSPENDED: return "not suspended";
    case NTK_NOT_DELAYED: return "not delayed";
    case NTK_NO_WAITER: return "no waiter";
    case NTK_NO_PEER: return "no peer";
    default: return "unknown";
    }
}

/* What is wrong where a rule is broken, in words. "unknown" for a number that is none. */
static inline const char *ntk_rule_name(uint32_t rule)
{
    switch (rule) {
    case NTK_RULE_NONE: return "sound";
    case NTK_RULE_TASK_USED: return "in use is neither 0 nor 1";
    case NTK_RULE_TASK_BASE: return "base priority above 62";
    case NTK_RULE_TASK_WORK: return "working priority above 62";
    case NTK_RULE_TASK_SUSPEND: return "suspend count above 250";
    case NTK_RULE_TASK_QUANTUM: return "quantum above 65535";
    case NTK_RULE_TASK_LEFT: return "what is left of the quantum above 65535";
    case NTK_RULE_TASK_STATE: return "state above 5";
    case NTK_RULE_TASK_OBJECT: return "object that its state does not have";
    case NTK_RULE_TASK_MARKED: return "has a due mark is neither 0 nor 1";
    case NTK_RULE_TASK_DUE: return "due mark where it has none";
    case NTK_RULE_TASK_OUTCOME: return "outcome above 3";
    case NTK_RULE_TASK_MASK: return "mask where it waits for no flags";
    case NTK_RULE_TASK_TEST: return "test above 3, or one where it waits for no flags";
    case NTK_RULE_TASK_CONSUME: return "consume above 1, or 1 where it waits for no flags";
    case NTK_RULE_TASK_MESSAGE: return "message above 4294967295";
    case NTK_RULE_TASK_FREE: return "free, and not all of its fields are 0";
    case NTK_RULE_TASK_PLAIN_MARK: return "plain, and it has a due mark";
    case NTK_RULE_TASK_DELAY_MARK: return "delayed, and it has no due mark";
    case NTK_RULE_TASK_LEFT_MOST: return "more is left than its quantum";
    case NTK_RULE_TASK_ASKS: return "waits for flags with a mask of 0";
    case NTK_RULE_TASK_TURN: return "in use with a quantum of 0";
    case NTK_RULE_SEMAPHORE_USED: return "in use is neither 0 nor 1";
    case NTK_RULE_SEMAPHORE_COUNTS: return "count above 4294967295";
    case NTK_RULE_SEMAPHORE_FREE: return "free, and not all of its fields are 0";
    case NTK_RULE_MUTEX_USED: return "in use is neither 0 nor 1";
    case NTK_RULE_MUTEX_HOLDER: return "holder is no task";
    case NTK_RULE_MUTEX_NESTING: return "nesting above 250";
    case NTK_RULE_MUTEX_FREE: return "free, and not all of its fields are 0";
    case NTK_RULE_MUTEX_UNHELD: return "not held, and its nesting is not 0";
    case NTK_RULE_MUTEX_HELD: return "held, and its nesting is 0";
    case NTK_RULE_GROUP_USED: return "in use is neither 0 nor 1";
    case NTK_RULE_GROUP_FLAGS: return "flags above 4294967295";
    case NTK_RULE_GROUP_FREE: return "free, and not all of its fields are 0";
    case NTK_RULE_CHANNEL_USED: return "in use is neither 0 nor 1";
    case NTK_RULE_CHANNEL_CAPACITY: return "capacity above 32";
    case NTK_RULE_CHANNEL_HELD: return "holds more messages than its capacity";
    case NTK_RULE_CHANNEL_FREE: return "free, and not all of its fields are 0";
    case NTK_RULE_CHANNEL_ROOM: return "in use with a capacity of 0";
    case NTK_RULE_MESSAGE_RANGE: return "message above 4294967295";
    case NTK_RULE_MESSAGE_UNUSED: return "message where its channel holds none";
    case NTK_RULE_WAIT_USED: return "waits for an object that is not in use";
    case NTK_RULE_WAIT_NOTHING: return "waits for an object that has something to take";
    case NTK_RULE_WAIT_APART: return "waits for the mutex that it holds";
    case NTK_RULE_HOLDER_USED: return "its holder is not in use";
    case NTK_RULE_QUEUE_PLACES: return "stands there more or less often than it should";
    case NTK_RULE_QUEUE_NOTHING_ELSE: return "its number is no task";
    case NTK_RULE_QUEUE_ORDERED: return "may not stand before the next slot";
    case NTK_RULE_TASK_WORKED: return "working priority is not the one worked out afresh";
    case NTK_RULE_TASK_NOT_DUE: return "due mark is the tick counter";
    case NTK_RULE_TICK_RANGE: return "tick counter above 4294967295";
    case NTK_RULE_DEPTH_RANGE: return "lock depth above 250";
    case NTK_RULE_RUNNING_RANGE: return "running task is no task";
    case NTK_RULE_RUNNING_FIRST: return "lock depth 0, and the running task is not the first able one";
    case NTK_RULE_RUNNING_ABLE: return "locked, and the running task is not able";
    case NTK_RULE_DEFAULT_LEAST: return "default quantum 0: not begun by ntk_fresh?";
    case NTK_RULE_DEFAULT_MOST: return "default quantum above 65535";
    case NTK_RULE_READY_WORD: return "ready word above 18446744073709551615";
    case NTK_RULE_READY_LEVELS: return "its bit of the ready word is not as the able tasks have it";
    case NTK_RULE_WRONG_LENGTH: return "wrong length";
    default: return "unknown";
    }
}

/* A function for each kind, on an image of NTK_IMAGE_SIZE bytes: its name is the kind's in small letters, and its numbers are a, b and so
 * on in their order. Those that an interrupt may make have a form for it too, _isr. docs/API.md has a section for each.
 * They are made of ntk_step. A port that has settled on ntk_serve defines NTK_CALL as ntk_serve before it includes this header. */
#ifndef NTK_CALL
#define NTK_CALL ntk_step
#endif

NTK_MUST_USE static inline struct ntk_outcome ntk_task_create(uint8_t *image, uint32_t task, uint32_t base, uint32_t quantum)
{
    return NTK_CALL(NTK_TASK_CREATE, task, base, quantum, 0, 0, 0, image, NTK_IMAGE_SIZE);
}

NTK_MUST_USE static inline struct ntk_outcome ntk_task_delete(uint8_t *image, uint32_t task)
{
    return NTK_CALL(NTK_TASK_DELETE, task, 0, 0, 0, 0, 0, image, NTK_IMAGE_SIZE);
}

NTK_MUST_USE static inline struct ntk_outcome ntk_change_priority(uint8_t *image, uint32_t task, uint32_t base)
{
    return NTK_CALL(NTK_CHANGE_PRIORITY, task, base, 0, 0, 0, 0, image, NTK_IMAGE_SIZE);
}

NTK_MUST_USE static inline struct ntk_outcome ntk_suspend(uint8_t *image, uint32_t task)
{
    return NTK_CALL(NTK_SUSPEND, task, 0, 0, 0, 0, 0, image, NTK_IMAGE_SIZE);
}

NTK_MUST_USE static inline struct ntk_outcome ntk_resume(uint8_t *image, uint32_t task)
{
    return NTK_CALL(NTK_RESUME, task, 0, 0, 0, 0, 0, image, NTK_IMAGE_SIZE);
}

NTK_MUST_USE static inline struct ntk_outcome ntk_yield(uint8_t *image)
{
    return NTK_CALL(NTK_YIELD, 0, 0, 0, 0, 0, 0, image, NTK_IMAGE_SIZE);
}

NTK_MUST_USE static inline struct ntk_outcome ntk_delay(uint8_t *image, uint32_t ticks)
{
    return NTK_CALL(NTK_DELAY, ticks, 0, 0, 0, 0, 0, image, NTK_IMAGE_SIZE);
}

NTK_MUST_USE static inline struct ntk_outcome ntk_delay_resume(uint8_t *image, uint32_t task)
{
    return NTK_CALL(NTK_DELAY_RESUME, task, 0, 0, 0, 0, 0, image, NTK_IMAGE_SIZE);
}

NTK_MUST_USE static inline struct ntk_outcome ntk_lock(uint8_t *image)
{
    return NTK_CALL(NTK_LOCK, 0, 0, 0, 0, 0, 0, image, NTK_IMAGE_SIZE);
}

NTK_MUST_USE static inline struct ntk_outcome ntk_unlock(uint8_t *image)
{
    return NTK_CALL(NTK_UNLOCK, 0, 0, 0, 0, 0, 0, image, NTK_IMAGE_SIZE);
}

NTK_MUST_USE static inline struct ntk_outcome ntk_tick(uint8_t *image)
{
    return NTK_CALL(NTK_TICK, 0, 0, 0, 0, 0, 0, image, NTK_IMAGE_SIZE);
}

NTK_MUST_USE static inline struct ntk_outcome ntk_tick_isr(uint8_t *image)
{
    return NTK_CALL(NTK_TICK | NTK_INTERRUPT, 0, 0, 0, 0, 0, 0, image, NTK_IMAGE_SIZE);
}

NTK_MUST_USE static inline struct ntk_outcome ntk_set_default_quantum(uint8_t *image, uint32_t quantum)
{
    return NTK_CALL(NTK_SET_DEFAULT_QUANTUM, quantum, 0, 0, 0, 0, 0, image, NTK_IMAGE_SIZE);
}

NTK_MUST_USE static inline struct ntk_outcome ntk_semaphore_create(uint8_t *image, uint32_t semaphore, uint32_t count)
{
    return NTK_CALL(NTK_SEMAPHORE_CREATE, semaphore, count, 0, 0, 0, 0, image, NTK_IMAGE_SIZE);
}

NTK_MUST_USE static inline struct ntk_outcome ntk_semaphore_delete(uint8_t *image, uint32_t semaphore, uint32_t force)
{
    return NTK_CALL(NTK_SEMAPHORE_DELETE, semaphore, force, 0, 0, 0, 0, image, NTK_IMAGE_SIZE);
}

NTK_MUST_USE static inline struct ntk_outcome ntk_semaphore_wait(uint8_t *image, uint32_t semaphore, uint32_t block, uint32_t limit)
{
    return NTK_CALL(NTK_SEMAPHORE_WAIT, semaphore, block, limit, 0, 0, 0, image, NTK_IMAGE_SIZE);
}

NTK_MUST_USE static inline struct ntk_outcome ntk_semaphore_post(uint8_t *image, uint32_t semaphore)
{
    return NTK_CALL(NTK_SEMAPHORE_POST, semaphore, 0, 0, 0, 0, 0, image, NTK_IMAGE_SIZE);
}

NTK_MUST_USE static inline struct ntk_outcome ntk_semaphore_post_isr(uint8_t *image, uint32_t semaphore)
{
    return NTK_CALL(NTK_SEMAPHORE_POST | NTK_INTERRUPT, semaphore, 0, 0, 0, 0, 0, image, NTK_IMAGE_SIZE);
}

NTK_MUST_USE static inline struct ntk_outcome ntk_semaphore_abort(uint8_t *image, uint32_t semaphore)
{
    return NTK_CALL(NTK_SEMAPHORE_ABORT, semaphore, 0, 0, 0, 0, 0, image, NTK_IMAGE_SIZE);
}

NTK_MUST_USE static inline struct ntk_outcome ntk_mutex_create(uint8_t *image, uint32_t mutex)
{
    return NTK_CALL(NTK_MUTEX_CREATE, mutex, 0, 0, 0, 0, 0, image, NTK_IMAGE_SIZE);
}

NTK_MUST_USE static inline struct ntk_outcome ntk_mutex_delete(uint8_t *image, uint32_t mutex, uint32_t force)
{
    return NTK_CALL(NTK_MUTEX_DELETE, mutex, force, 0, 0, 0, 0, image, NTK_IMAGE_SIZE);
}

NTK_MUST_USE static inline struct ntk_outcome ntk_mutex_wait(uint8_t *image, uint32_t mutex, uint32_t block, uint32_t limit)
{
    return NTK_CALL(NTK_MUTEX_WAIT, mutex, block, limit, 0, 0, 0, image, NTK_IMAGE_SIZE);
}

NTK_MUST_USE static inline struct ntk_outcome ntk_mutex_post(uint8_t *image, uint32_t mutex)
{
    return NTK_CALL(NTK_MUTEX_POST, mutex, 0, 0, 0, 0, 0, image, NTK_IMAGE_SIZE);
}

NTK_MUST_USE static inline struct ntk_outcome ntk_mutex_abort(uint8_t *image, uint32_t mutex)
{
    return NTK_CALL(NTK_MUTEX_ABORT, mutex, 0, 0, 0, 0, 0, image, NTK_IMAGE_SIZE);
}

NTK_MUST_USE static inline struct ntk_outcome ntk_group_create(uint8_t *image, uint32_t group, uint32_t flags)
{
    return NTK_CALL(NTK_GROUP_CREATE, group, flags, 0, 0, 0, 0, image, NTK_IMAGE_SIZE);
}

NTK_MUST_USE static inline struct ntk_outcome ntk_group_delete(uint8_t *image, uint32_t group, uint32_t force)
{
    return NTK_CALL(NTK_GROUP_DELETE, group, force, 0, 0, 0, 0, image, NTK_IMAGE_SIZE);
}

NTK_MUST_USE static inline struct ntk_outcome ntk_group_wait(uint8_t *image, uint32_t group, uint32_t block, uint32_t limit,
                                                             uint32_t mask, uint32_t test, uint32_t consume)
{
    return NTK_CALL(NTK_GROUP_WAIT, group, block, limit, mask, test, consume, image, NTK_IMAGE_SIZE);
}

NTK_MUST_USE static inline struct ntk_outcome ntk_group_post(uint8_t *image, uint32_t group, uint32_t mask, uint32_t on)
{
    return NTK_CALL(NTK_GROUP_POST, group, mask, on, 0, 0, 0, image, NTK_IMAGE_SIZE);
}

NTK_MUST_USE static inline struct ntk_outcome ntk_group_post_isr(uint8_t *image, uint32_t group, uint32_t mask, uint32_t on)
{
    return NTK_CALL(NTK_GROUP_POST | NTK_INTERRUPT, group, mask, on, 0, 0, 0, image, NTK_IMAGE_SIZE);
}

NTK_MUST_USE static inline struct ntk_outcome ntk_group_abort(uint8_t *image, uint32_t group)
{
    return NTK_CALL(NTK_GROUP_ABORT, group, 0, 0, 0, 0, 0, image, NTK_IMAGE_SIZE);
}

NTK_MUST_USE static inline struct ntk_outcome ntk_channel_create(uint8_t *image, uint32_t channel, uint32_t capacity)
{
    return NTK_CALL(NTK_CHANNEL_CREATE, channel, capacity, 0, 0, 0, 0, image, NTK_IMAGE_SIZE);
}

NTK_MUST_USE static inline struct ntk_outcome ntk_channel_delete(uint8_t *image, uint32_t channel, uint32_t force)
{
    return NTK_CALL(NTK_CHANNEL_DELETE, channel, force, 0, 0, 0, 0, image, NTK_IMAGE_SIZE);
}

NTK_MUST_USE static inline struct ntk_outcome ntk_channel_wait(uint8_t *image, uint32_t channel, uint32_t block, uint32_t limit)
{
    return NTK_CALL(NTK_CHANNEL_WAIT, channel, block, limit, 0, 0, 0, image, NTK_IMAGE_SIZE);
}

NTK_MUST_USE static inline struct ntk_outcome ntk_channel_post(uint8_t *image, uint32_t channel, uint32_t message, uint32_t front)
{
    return NTK_CALL(NTK_CHANNEL_POST, channel, message, front, 0, 0, 0, image, NTK_IMAGE_SIZE);
}

NTK_MUST_USE static inline struct ntk_outcome ntk_channel_post_isr(uint8_t *image, uint32_t channel, uint32_t message, uint32_t front)
{
    return NTK_CALL(NTK_CHANNEL_POST | NTK_INTERRUPT, channel, message, front, 0, 0, 0, image, NTK_IMAGE_SIZE);
}

NTK_MUST_USE static inline struct ntk_outcome ntk_channel_abort(uint8_t *image, uint32_t channel)
{
    return NTK_CALL(NTK_CHANNEL_ABORT, channel, 0, 0, 0, 0, 0, image, NTK_IMAGE_SIZE);
}

NTK_MUST_USE static inline struct ntk_outcome ntk_channel_flush(uint8_t *image, uint32_t channel)
{
    return NTK_CALL(NTK_CHANNEL_FLUSH, channel, 0, 0, 0, 0, 0, image, NTK_IMAGE_SIZE);
}

#ifdef __cplusplus
}
#endif

#endif
