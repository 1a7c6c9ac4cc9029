/* sequences.c: see sequences.h. */
#include "record.h"

static struct sequence kiosk = {.name = "kiosk"}, chains = {.name = "chains"}, ticks = {.name = "ticks"}, mixed = {.name = "random"},
                       flags = {.name = "flags"}, channels = {.name = "channels"};

struct sequence *const sequences[SEQUENCES] = {&kiosk, &chains, &ticks, &mixed, &flags, &channels};

enum { READER = 8, DECODER, OUTPUT, KEEPER };
enum { ROOM, DATA, EMPTY, FULL, SHOW };
enum { FRAMES = 4, CLOCK };

/* The kiosk's four tasks. */
static void create_household(struct sequence *s)
{
    create_task(s, OUTPUT, 10, 0);
    create_task(s, READER, 20, 0);
    create_task(s, DECODER, 30, 0);
    create_task(s, KEEPER, 40, 0);
}

static void create_kiosk(struct sequence *s)
{
    begin(s);
    record(s, NTK_LOCK, 0, 0, 0);
    record(s, NTK_SEMAPHORE_CREATE, ROOM, 4, 0);
    record(s, NTK_SEMAPHORE_CREATE, DATA, 0, 0);
    record(s, NTK_SEMAPHORE_CREATE, EMPTY, 3, 0);
    record(s, NTK_SEMAPHORE_CREATE, FULL, 0, 0);
    record(s, NTK_SEMAPHORE_CREATE, SHOW, 0, 0);
    record(s, NTK_MUTEX_CREATE, FRAMES, 0, 0);
    record(s, NTK_MUTEX_CREATE, CLOCK, 0, 0);
    create_household(s);
    record(s, NTK_UNLOCK, 0, 0, 0);
}

static void add_kiosk_steps(void)
{
    add_step(OUTPUT, NTK_SEMAPHORE_WAIT, SHOW, 1, 0, 0);
    add_step(OUTPUT, NTK_SEMAPHORE_WAIT, FULL, 1, 6, 0);
    add_step(OUTPUT, NTK_SEMAPHORE_POST, EMPTY, 0, 0, 1);
    add_step(OUTPUT, NTK_MUTEX_WAIT, FRAMES, 1, 0, 0);
    add_step(OUTPUT, NTK_MUTEX_POST, FRAMES, 0, 0, 0);
    add_step(OUTPUT, NTK_MUTEX_WAIT, CLOCK, 1, 0, 0);
    add_step(OUTPUT, NTK_MUTEX_POST, CLOCK, 0, 0, 0);
    add_step(READER, NTK_SEMAPHORE_WAIT, ROOM, 1, 0, 0);
    add_step(READER, NTK_DELAY, 1, 0, 0, 0);
    add_step(READER, NTK_MUTEX_WAIT, CLOCK, 1, 0, 0);
    add_step(READER, NTK_MUTEX_POST, CLOCK, 0, 0, 0);
    add_step(READER, NTK_SEMAPHORE_POST, DATA, 0, 0, 0);
    add_step(DECODER, NTK_SEMAPHORE_WAIT, DATA, 1, 0, 0);
    add_step(DECODER, NTK_SEMAPHORE_WAIT, EMPTY, 1, 0, 0);
    add_step(DECODER, NTK_MUTEX_WAIT, FRAMES, 1, 0, 0);
    add_step(DECODER, NTK_MUTEX_WAIT, CLOCK, 1, 0, 0);
    add_step(DECODER, NTK_DELAY, 1, 0, 0, 0);
    add_step(DECODER, NTK_MUTEX_POST, FRAMES, 0, 0, 0);
    add_step(DECODER, NTK_MUTEX_POST, CLOCK, 0, 0, 0);
    add_step(DECODER, NTK_SEMAPHORE_POST, FULL, 0, 0, 0);
    add_step(DECODER, NTK_SEMAPHORE_POST, ROOM, 0, 0, 0);
    add_step(KEEPER, NTK_DELAY, 5, 0, 0, 0);
    add_step(KEEPER, NTK_MUTEX_WAIT, CLOCK, 1, 0, 0);
    add_step(KEEPER, NTK_LOCK, 0, 0, 0, 0);
    add_step(KEEPER, NTK_UNLOCK, 0, 0, 0, 0);
    add_step(KEEPER, NTK_MUTEX_POST, CLOCK, 0, 0, 0);
}

/* The loop of the kiosk: the reader fetches, the decoder takes the frames and the clock together, the output shows a frame at each
 * second tick, the housekeeper looks at the clock now and then. Every sixth call is a tick. */
static void record_kiosk(void)
{
    struct sequence *s = &kiosk;
    unsigned n;

    create_kiosk(s);
    add_kiosk_steps();
    for (n = 0; s->length < CALLS; n++) {
        if (recorder.running != PLAIN_NONE && n % 6 != 0)
            work(s);
        else if (recorder.tick % 2 == 0 && recorder.semaphore[SHOW].count == 0 && n % 2 == 0)
            record(s, NTK_SEMAPHORE_POST | NTK_INTERRUPT, SHOW, 0, 0);
        else
            record(s, NTK_TICK | NTK_INTERRUPT, 0, 0, 0);
    }
}

/* Task i holds mutex i and then waits for mutex i - 1, the more urgent ones behind the less urgent ones, so that chains form; four
 * further tasks wait at their ends, with limits, and one changes priorities. Every eighth call is a tick. */
static void record_chains(void)
{
    enum { LINKS = 12, ENDS = 4, MANAGER = 31 };
    struct sequence *s = &chains;
    unsigned i, n;

    begin(s);
    record(s, NTK_LOCK, 0, 0, 0);
    for (i = 0; i < LINKS; i++) {
        record(s, NTK_MUTEX_CREATE, i, 0, 0);
        create_task(s, i, 50 - 3 * i, 2);
        add_step(i, NTK_MUTEX_WAIT, i, 1, 0, 0);
        add_step(i, NTK_DELAY, 5 + i % 4, 0, 0, 0);
        if (i > 0) {
            add_step(i, NTK_MUTEX_WAIT, i - 1, 1, 30 + i, 0);
            add_step(i, NTK_MUTEX_POST, i - 1, 0, 0, 1);
        }
        add_step(i, NTK_MUTEX_POST, i, 0, 0, 0);
        add_step(i, NTK_DELAY, 1, 0, 0, 0);
    }
    for (i = 0; i < ENDS; i++) {
        unsigned task = 20 + i, mutex = LINKS - 1 - 3 * i;
        create_task(s, task, 8 + i, 2);
        add_step(task, NTK_MUTEX_WAIT, mutex, 1, 4 + 3 * i, 0);
        add_step(task, NTK_MUTEX_WAIT, mutex, 0, 0, 1);
        add_step(task, NTK_MUTEX_POST, mutex, 0, 0, 1);
        add_step(task, NTK_MUTEX_POST, mutex, 0, 0, 1);
        add_step(task, NTK_DELAY, 2 + i, 0, 0, 0);
    }
    create_task(s, MANAGER, 2, 0);
    add_step(MANAGER, NTK_DELAY, 5, 0, 0, 0);
    add_step(MANAGER, NTK_CHANGE_PRIORITY, LINKS - 2, 4, 0, 0);
    add_step(MANAGER, NTK_DELAY, 2, 0, 0, 0);
    add_step(MANAGER, NTK_CHANGE_PRIORITY, LINKS - 2, 20, 0, 0);
    record(s, NTK_UNLOCK, 0, 0, 0);

    for (n = 0; s->length < CALLS; n++) {
        if (recorder.running != PLAIN_NONE && n % 8 != 0)
            work(s);
        else
            record(s, NTK_TICK | NTK_INTERRUPT, 0, 0, 0);
    }
}

/* All 32 tasks, four on each level, taking turns; they sleep and wait with limits. Four calls of five are ticks. */
static void record_ticks(void)
{
    struct sequence *s = &ticks;
    unsigned i, n;

    begin(s);
    record(s, NTK_LOCK, 0, 0, 0);
    for (i = 0; i < 4; i++)
        record(s, NTK_SEMAPHORE_CREATE, i, 1, 0);
    for (i = 0; i < NTK_TASKS; i++) {
        create_task(s, i, 20 + i / 4, 2 + i % 2);
        add_step(i, NTK_DELAY, 90 + i * 7 % 23, 0, 0, 0);
        add_step(i, NTK_SEMAPHORE_WAIT, i % 4, 1, 20 + i % 9, 0);
        add_step(i, NTK_SEMAPHORE_POST, i % 4, 0, 0, 1);
        add_step(i, NTK_DELAY, 30 + i * 5 % 17, 0, 0, 0);
    }
    record(s, NTK_UNLOCK, 0, 0, 0);
    for (n = 0; s->length < CALLS; n++) {
        if (recorder.running != PLAIN_NONE && n % 5 == 0)
            work(s);
        else
            record(s, NTK_TICK | NTK_INTERRUPT, 0, 0, 0);
    }
}

static uint64_t seed = 20240229;

static uint32_t below(uint32_t n)
{
    uint64_t z = seed += UINT64_C(0x9E3779B97F4A7C15);

    z = (z ^ z >> 30) * UINT64_C(0xBF58476D1CE4E5B9);
    z = (z ^ z >> 27) * UINT64_C(0x94D049BB133111EB);
    return (uint32_t)((z ^ z >> 31) >> 32) % n;
}

static const struct {
    uint8_t kind, weight;
} weights[] = {
    {NTK_TASK_CREATE, 12},     {NTK_TASK_DELETE, 2},      {NTK_CHANGE_PRIORITY, 5},  {NTK_SUSPEND, 3},
    {NTK_RESUME, 6},           {NTK_YIELD, 3},            {NTK_DELAY, 5},            {NTK_DELAY_RESUME, 3},
    {NTK_LOCK, 2},             {NTK_UNLOCK, 6},           {NTK_TICK, 15},            {NTK_TICK | NTK_INTERRUPT, 5},
    {NTK_SEMAPHORE_CREATE, 4}, {NTK_SEMAPHORE_DELETE, 1}, {NTK_SEMAPHORE_WAIT, 12},  {NTK_SEMAPHORE_POST, 10},
    {NTK_SEMAPHORE_POST | NTK_INTERRUPT, 3},              {NTK_SEMAPHORE_ABORT, 2},  {NTK_MUTEX_CREATE, 6},
    {NTK_MUTEX_DELETE, 1},     {NTK_MUTEX_WAIT, 25},      {NTK_MUTEX_POST, 15},      {NTK_MUTEX_ABORT, 2},
    {NTK_SET_DEFAULT_QUANTUM, 1},
};

enum { WEIGHTS = sizeof weights / sizeof weights[0] };

static uint8_t some_kind(void)
{
    unsigned i, sum = 0;
    uint32_t at;

    for (i = 0; i < WEIGHTS; i++)
        sum += weights[i].weight;
    at = below(sum);
    for (i = 0; at >= weights[i].weight; i++)
        at -= weights[i].weight;
    return weights[i].kind;
}

/* A call with numbers that are mostly valid. */
static struct call some_call(void)
{
    struct call call = {some_kind(), {0}};

    call.n[0] = below(NTK_TASKS);
    call.n[1] = below(63);
    switch (call.kind) {
    case NTK_TASK_CREATE:
        call.n[2] = below(4);
        break;
    case NTK_DELAY:
        call.n[0] = 1 + below(12);
        break;
    case NTK_SET_DEFAULT_QUANTUM:
        call.n[0] = below(4);
        break;
    case NTK_SEMAPHORE_CREATE:
        call.n[0] = below(8);
        call.n[1] = below(3);
        break;
    case NTK_SEMAPHORE_WAIT:
    case NTK_MUTEX_WAIT:
        call.n[0] = below(12);
        call.n[1] = below(8) != 0;
        call.n[2] = below(3) != 0 ? 1 + below(20) : 0;
        break;
    default:
        if ((call.kind & ~NTK_INTERRUPT) >= NTK_SEMAPHORE_CREATE) {
            call.n[0] = below(12);
            call.n[1] = below(2);
        }
    }
    return call;
}

/* Random calls of every kind but those of flag groups and channels, from a fixed seed, on a well filled table. One refused call of twenty
 * stays, the rest are valid. */
static void record_mixed(void)
{
    struct sequence *s = &mixed;

    begin(s);
    while (s->length < CALLS) {
        struct call call = some_call();
        struct plain before = recorder;
        struct plain_outcome o = make_call(&recorder, &call);

        recorder = before;
        if (o.answer == NTK_DONE || o.answer == NTK_BLOCKS || below(20) == 0)
            record_call(s, call);
    }
}

enum { SIGNS, STAGE };                            /* groups */
enum { CARD = 1, TIME = 2, FRAME = 4, DOOR = 8 }; /* flags of SIGNS */
enum { GO = 1, LAMP = 2 };                        /* flags of STAGE */
enum { VIEWERS = 16, VIEWER_COUNT = 8 };

static void add_flag_wait(unsigned task, uint32_t group, uint32_t limit, uint32_t mask, enum ntk_test test, uint32_t consume)
{
    add_call(task, (struct call){NTK_GROUP_WAIT, {group, 1, limit, mask, test, consume}}, 0);
}

static void add_flag_steps(void)
{
    unsigned i;

    add_flag_wait(OUTPUT, STAGE, 5, LAMP, NTK_ALL_SET, 1);
    add_step(OUTPUT, NTK_DELAY, 2, 0, 0, 0);
    add_flag_wait(READER, SIGNS, 0, CARD | TIME, NTK_ALL_SET, 1);
    add_step(READER, NTK_GROUP_POST, SIGNS, FRAME, 1, 0);
    add_step(READER, NTK_DELAY, 1, 0, 0, 0);
    add_flag_wait(DECODER, SIGNS, 6, FRAME | DOOR, NTK_ANY_SET, 1);
    add_step(DECODER, NTK_GROUP_POST, STAGE, GO, 1, 1);
    add_step(DECODER, NTK_DELAY, 1, 0, 0, 0);
    add_step(DECODER, NTK_GROUP_POST, STAGE, GO, 0, 0);
    add_flag_wait(KEEPER, SIGNS, 9, CARD | FRAME, NTK_ALL_CLEAR, 0);
    add_step(KEEPER, NTK_GROUP_POST, SIGNS, DOOR, 1, 1);
    add_step(KEEPER, NTK_DELAY, 3, 0, 0, 0);
    add_flag_wait(KEEPER, STAGE, 0, LAMP | GO, NTK_ANY_CLEAR, 0);
    add_step(KEEPER, NTK_GROUP_POST, STAGE, LAMP, 1, 0);
    for (i = 0; i < VIEWER_COUNT; i++) {
        add_flag_wait(VIEWERS + i, STAGE, i % 2 ? 8 : 0, GO, NTK_ALL_SET, 0);
        add_flag_wait(VIEWERS + i, STAGE, 0, GO, NTK_ALL_CLEAR, 0);
    }
}

/* The kiosk with flags: the reader waits for card and clock together, the decoder for a frame or the door, the output and the
 * housekeeper for others; eight viewers go together, and stop together. Every sixth call is an interrupt's, and others where nobody
 * runs: of six of them three are ticks, two the clock's posts and one the card's. */
static void record_flags(void)
{
    struct sequence *s = &flags;
    unsigned i, n, interrupts = 0;

    begin(s);
    record(s, NTK_LOCK, 0, 0, 0);
    record(s, NTK_GROUP_CREATE, SIGNS, 0, 0);
    record(s, NTK_GROUP_CREATE, STAGE, 0, 0);
    create_household(s);
    for (i = 0; i < VIEWER_COUNT; i++)
        create_task(s, VIEWERS + i, 32 + i / 4, 0);
    record(s, NTK_UNLOCK, 0, 0, 0);
    add_flag_steps();
    for (n = 0; s->length < CALLS; n++) {
        if (recorder.running != PLAIN_NONE && n % 6 != 0)
            work(s);
        else if (++interrupts % 3 == 1)
            record(s, NTK_GROUP_POST | NTK_INTERRUPT, SIGNS, TIME, 1);
        else if (interrupts % 6 == 2)
            record(s, NTK_GROUP_POST | NTK_INTERRUPT, SIGNS, CARD, 1);
        else
            record(s, NTK_TICK | NTK_INTERRUPT, 0, 0, 0);
    }
}

enum { ORDERS, FEED, SCREEN, PACE, SEATS, LOG, CHANNEL_COUNT };
enum { USHERS = 16, USHER_COUNT = 4 };

static void create_channels(struct sequence *s)
{
    static const uint32_t capacities[CHANNEL_COUNT] = {8, 4, 3, 2, 6, NTK_MOST_MESSAGES};
    unsigned i;

    for (i = 0; i < CHANNEL_COUNT; i++)
        record(s, NTK_CHANNEL_CREATE, i, capacities[i], 0);
    for (i = 0; i < NTK_MOST_MESSAGES; i++)
        record(s, NTK_CHANNEL_POST, LOG, 0, NTK_AT_END);
}

static void add_channel_steps(void)
{
    unsigned i;

    add_step(OUTPUT, NTK_CHANNEL_WAIT, PACE, 1, 0, 0);
    add_step(OUTPUT, NTK_CHANNEL_WAIT, SCREEN, 1, 3, 0);
    add_step(OUTPUT, NTK_CHANNEL_POST, LOG, 0, NTK_AT_END, 1);
    add_step(READER, NTK_CHANNEL_WAIT, ORDERS, 1, 6, 0);
    add_step(READER, NTK_CHANNEL_POST, FEED, 0, NTK_AT_END, 0);
    add_step(READER, NTK_CHANNEL_WAIT, ORDERS, 1, 0, 0);
    add_step(READER, NTK_CHANNEL_POST, FEED, 0, NTK_IN_FRONT, 0);
    add_step(DECODER, NTK_CHANNEL_WAIT, FEED, 1, 0, 0);
    add_step(DECODER, NTK_CHANNEL_POST, SCREEN, 0, NTK_AT_END, 0);
    add_step(DECODER, NTK_CHANNEL_WAIT, FEED, 0, 0, 0);
    add_step(DECODER, NTK_CHANNEL_POST, SEATS, 0, NTK_AT_END, 0);
    add_step(DECODER, NTK_DELAY, 1, 0, 0, 0);
    add_step(KEEPER, NTK_CHANNEL_WAIT, LOG, 1, 0, 0);
    add_step(KEEPER, NTK_CHANNEL_POST, ORDERS, 0, NTK_IN_FRONT, 0);
    add_step(KEEPER, NTK_DELAY, 2, 0, 0, 0);
    add_step(KEEPER, NTK_CHANNEL_FLUSH, SCREEN, 0, 0, 0);
    for (i = 0; i < USHER_COUNT; i++) {
        add_step(USHERS + i, NTK_CHANNEL_WAIT, SEATS, 1, i % 2 ? 8 : 0, 0);
        add_step(USHERS + i, NTK_CHANNEL_WAIT, SEATS, 1, 0, 0);
        add_step(USHERS + i, NTK_DELAY, 3 + i, 0, 0, 0);
    }
}

static void record_interrupt(struct sequence *s, unsigned number)
{
    enum { TICK = CHANNEL_COUNT };
    static const uint8_t turns[] = {TICK, ORDERS, PACE, TICK, ORDERS, SEATS};
    unsigned turn = turns[number % (sizeof turns / sizeof turns[0])];

    if (turn == TICK)
        record(s, NTK_TICK | NTK_INTERRUPT, 0, 0, 0);
    else
        record(s, NTK_CHANNEL_POST | NTK_INTERRUPT, turn, 0, NTK_AT_END);
}

/* The kiosk with channels: the clock posts orders, and each makes the reader post a frame, every second one in front; the decoder takes
 * frames and posts to the screen, the output takes from there at the clock's pace and notes it in a log that is full, of which the
 * housekeeper takes now and then; it also flushes the screen. Four ushers wait for seats, or find some. Every sixth call is an
 * interrupt's, and others where nobody runs: of six of them two are ticks, and four posts. */
static void record_channels(void)
{
    struct sequence *s = &channels;
    unsigned i, n, interrupts = 0;

    begin(s);
    record(s, NTK_LOCK, 0, 0, 0);
    create_channels(s);
    create_household(s);
    for (i = 0; i < USHER_COUNT; i++)
        create_task(s, USHERS + i, 32 + i / 2, 0);
    record(s, NTK_UNLOCK, 0, 0, 0);
    add_channel_steps();
    for (n = 0; s->length < CALLS; n++) {
        if (recorder.running != PLAIN_NONE && n % 6 != 0)
            work(s);
        else
            record_interrupt(s, interrupts++);
    }
}

void record_sequences(void)
{
    record_kiosk();
    record_chains();
    record_ticks();
    record_mixed();
    record_flags();
    record_channels();
}
