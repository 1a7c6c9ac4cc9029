/* kiosk.c: see kiosk.h. */
#include "kiosk.h"

#include <stdio.h>

#include "board.h"
#include "devices.h"
#include "record.h"

const char *const worker_names[WORKERS] = {"output", "reader", "housekeeping", "decoder"};
const uint8_t worker_bases[WORKERS] = {10, 20, 25, 30};
const char *const mutex_names[MUTEXES] = {"frames", "screen"};

static const struct kernel *kernel;
static volatile uint32_t decoded; /* frames in the store since the first pass began, those shown included */
static int telling;               /* from the first turn until the output has the screen: the calls are printed */

/* This kernel's mutexes. */

static void create_mutex(uint32_t mutex)
{
    leave(ntk_mutex_create(enter(), mutex));
}

static void take_mutex(uint32_t mutex)
{
    leave(ntk_mutex_wait(enter(), mutex, NTK_MAY_BLOCK, NTK_FOREVER));
}

static void post_mutex(uint32_t mutex)
{
    leave(ntk_mutex_post(enter(), mutex));
}

static uint32_t holder_of(uint32_t mutex)
{
    return (uint32_t)ntk_read(NTK_FIELD_MUTEX_HOLDER, mutex, board_table(), NTK_IMAGE_SIZE);
}

const struct kernel this_kernel = {"this kernel", create_mutex, take_mutex, post_mutex, holder_of};

/* What the tasks do. */

/* A line is printed when the next one is told: then it has what the decoder works at after the call. */
static void tell(const char *does, uint32_t mutex)
{
    static char line[64];

    if (line[0] != '\0')
        printf("%s  the decoder works at %u\n", line, (unsigned)ntk_priority_of(board_table(), DECODER));
    line[0] = '\0';
    if (telling)
        snprintf(line, sizeof line, "  tick %u  %-7s  %-9s %s", (unsigned)ticks_now(), worker_names[board_task()], does, mutex_names[mutex]);
}

static void take(uint32_t mutex)
{
    int held = kernel->holder(mutex) != 0;

    if (held)
        tell("waits for", mutex);
    kernel->take(mutex);
    if (held || board_task() == DECODER)
        tell("has", mutex);
    telling = telling && !(held && board_task() == OUTPUT);
}

static void post(uint32_t mutex)
{
    if (board_task() == DECODER)
        tell("posts", mutex);
    kernel->post(mutex);
}

/* All of these flags, which are consumed. */
static enum ntk_wait wait_for(uint32_t flags, uint32_t limit)
{
    return leave(ntk_group_wait(enter(), SIGNS, NTK_MAY_BLOCK, limit, flags, NTK_ALL_SET, NTK_CONSUME));
}

/* The most urgent: hands the screen a frame in each frame's time, if it is decoded, and gives up those whose time has passed. */
static void output(void)
{
    uint32_t gone = 0;

    for (;;) {
        take(SCREEN);
        work(1);
        if (frame_due() < decoded)
            screen_hand(frame_due());
        post(SCREEN);
        for (; gone < frame_due(); gone++)
            leave(ntk_semaphore_post(enter(), ROOM));
        wait_for(SYNC, NTK_FOREVER);
    }
}

/* Puts a block into the store when the card has it and the clock says that it is time. */
static void reader(void)
{
    for (;;) {
        card_ask();
        wait_for(CARD | CLOCK, NTK_FOREVER);
        take(FRAMES);
        work(1);
        post(FRAMES);
        leave(ntk_semaphore_post(enter(), BLOCKS));
    }
}

/* Writes the log when the film has turned; else looks at the lamp now and then. */
static void keeper(void)
{
    for (;;) {
        if (wait_for(TURN, LAMP_LIMIT) == NTK_TIMED_OUT)
            work(1);
        else
            work(LOG_WORK);
    }
}

/* At the film's end the store and the screen are set to its start. Nobody may find the one set and the other not, so both are taken first. */
static void turn(uint32_t frame)
{
    telling = frame == FILM;
    take(FRAMES);
    take(SCREEN);
    work(STORE_WORK);
    leave(ntk_group_post(enter(), SIGNS, TURN, NTK_SET));
    record_first_post(ticks_now());
    post(FRAMES);
    work(SCREEN_WORK);
    post(SCREEN);
}

/* Takes what time the others leave, and so has the lowest priority; it works ahead. */
static void decoder(void)
{
    uint32_t frame;

    for (frame = AHEAD;; frame++) {
        leave(ntk_semaphore_wait(enter(), ROOM, NTK_MAY_BLOCK, NTK_FOREVER));
        if (frame % FILM == 0)
            turn(frame);
        if (frame % BLOCK == 0)
            leave(ntk_semaphore_wait(enter(), BLOCKS, NTK_MAY_BLOCK, NTK_FOREVER));
        work(1);
        take(FRAMES);
        decoded = frame + 1;
        post(FRAMES);
    }
}

/* Creates all that there is and ends, and so deletes itself. Nobody runs before: it is the most urgent. */
static void start(void)
{
    static void (*const bodies[WORKERS])(void) = {output, reader, keeper, decoder};
    uint32_t i;

    leave(ntk_group_create(enter(), SIGNS, 0));
    leave(ntk_semaphore_create(enter(), BLOCKS, 1));
    leave(ntk_semaphore_create(enter(), ROOM, 0));
    for (i = 0; i < MUTEXES; i++)
        kernel->create(i);
    for (i = 0; i < WORKERS; i++)
        board_create(i, worker_bases[i], bodies[i]);
}

void kiosk_run(const struct kernel *with, struct screening *screening)
{
    kernel = with;
    telling = 0;
    decoded = AHEAD; /* the store was filled before the film began */
    devices_begin(screening);
    board_run(start, one_tick, ALL_TICKS);
}
