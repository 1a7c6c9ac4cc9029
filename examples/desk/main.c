/* A port on the desk: a table in static memory, the calls of a loop, and what runs printed. Instead of a context switch it only
 * remembers who runs. docs/PORT-OTHER.md tells how to build and run it. */
#include <stdio.h>

#include "nonthachak.h"

static uint8_t table[NTK_IMAGE_SIZE]; /* ntk_fresh makes it the fresh table, before the first call */

static void tell(const char *what, struct ntk_outcome o)
{
    printf("%-34s answer %2u, ", what, (unsigned)o.answer);
    if (o.runs == 0)
        printf("none runs\n");
    else
        printf("task %u runs\n", (unsigned)(o.runs - 1));
}

/* A call of a kind that looks at three numbers at most: all but the wait for flags. */
static void call(const char *what, uint8_t kind, uint32_t a, uint32_t b, uint32_t c)
{
    tell(what, ntk_step(kind, a, b, c, 0, 0, 0, table, sizeof table));
}

/* The case P1 of the bench. */
static void first_case(void)
{
    puts("P1:");
    call("create task 3, base 10", NTK_TASK_CREATE, 3, 10, 2);
    call("create mutex 0", NTK_MUTEX_CREATE, 0, 0, 0);
    call("task 3 takes mutex 0", NTK_MUTEX_WAIT, 0, 1, 0);
    call("create task 1, base 5", NTK_TASK_CREATE, 1, 5, 0);
    call("task 1 waits for mutex 0", NTK_MUTEX_WAIT, 0, 1, 0);
    call("create task 2, base 7", NTK_TASK_CREATE, 2, 7, 0);
    call("task 3 posts mutex 0", NTK_MUTEX_POST, 0, 0, 0);
}

/* The loop that lost eleven frames: the decoder holds two mutexes, the output waits for the one and the reader for the other. The
 * decoder stays raised until it has released both. */
static void two_mutexes(void)
{
    enum { READER = 8, DECODER = 9, OUTPUT = 10, KEEPER = 11, FRAMES = 4, CLOCK = 5 };

    puts("the kiosk's loop:");
    ntk_fresh(table, sizeof table);
    call("create the decoder, base 30", NTK_TASK_CREATE, DECODER, 30, 0);
    call("create the mutex of the frames", NTK_MUTEX_CREATE, FRAMES, 0, 0);
    call("create the mutex of the clock", NTK_MUTEX_CREATE, CLOCK, 0, 0);
    call("decoder takes the frames", NTK_MUTEX_WAIT, FRAMES, 1, 0);
    call("decoder takes the clock", NTK_MUTEX_WAIT, CLOCK, 1, 0);
    call("create the reader, base 20", NTK_TASK_CREATE, READER, 20, 0);
    call("reader waits for the clock", NTK_MUTEX_WAIT, CLOCK, 1, 0);
    call("create the output, base 10", NTK_TASK_CREATE, OUTPUT, 10, 0);
    call("output waits for the frames", NTK_MUTEX_WAIT, FRAMES, 1, 0);
    call("create the housekeeper, base 25", NTK_TASK_CREATE, KEEPER, 25, 0);
    call("decoder posts the frames", NTK_MUTEX_POST, FRAMES, 0, 0);
    call("output sleeps 2 ticks", NTK_DELAY, 2, 0, 0);
    printf("  the decoder still works at the reader's 20: %u\n", (unsigned)ntk_priority_of(table, DECODER));
    printf("  so the first level with an able task is 20: %u\n", (unsigned)ntk_first_level(table));
    printf("  the holder of the clock, plus 1: %u\n", (unsigned)ntk_read(NTK_FIELD_MUTEX_HOLDER, CLOCK, table, sizeof table));
    call("decoder posts the clock", NTK_MUTEX_POST, CLOCK, 0, 0);
    call("tick", NTK_TICK | NTK_INTERRUPT, 0, 0, 0);
    call("tick", NTK_TICK | NTK_INTERRUPT, 0, 0, 0);
    printf("  the output's delay ended with outcome %u\n", (unsigned)ntk_wait_of(table, OUTPUT));
    printf("  of a number that is no task's, 32 or 4294967295: %u, %u\n", (unsigned)ntk_wait_of(table, NTK_TASKS), (unsigned)ntk_wait_of(table, 4294967295u));
}

enum { SIGNS = 2, CARD = 1, CLOCK = 2 }; /* a group, and the masks of its flags 0 and 1 */

static void reader_waits(void)
{
    tell("reader waits for card and clock", ntk_step(NTK_GROUP_WAIT, SIGNS, 1, 0, CARD | CLOCK, NTK_ALL_SET, 1, table, sizeof table));
}

static void interrupt_posts(const char *what, uint32_t flag)
{
    call(what, NTK_GROUP_POST | NTK_INTERRUPT, SIGNS, flag, 1);
    printf("  the flags are %u\n", (unsigned)ntk_flags_of(table, SIGNS));
}

/* The reader wants card and clock together: it waits until both flags are set, and consumes them. They are posted by an interrupt each, in
 * either order. */
static void card_and_clock(void)
{
    puts("card and clock:");
    ntk_fresh(table, sizeof table);
    call("create the group, no flag set", NTK_GROUP_CREATE, SIGNS, 0, 0);
    call("create the reader, base 20", NTK_TASK_CREATE, 8, 20, 0);
    reader_waits();
    interrupt_posts("the clock posts", CLOCK);
    interrupt_posts("the card posts", CARD);
    reader_waits();
    interrupt_posts("the card posts", CARD);
    interrupt_posts("the clock posts", CLOCK);
}

/* Two tasks of one level, both created without a quantum of their own: each takes turns by the default of the moment of its creation. */
static void film_house(void)
{
    unsigned i;

    puts("the film house:");
    ntk_fresh(table, sizeof table);
    call("the default quantum is set to 1", NTK_SET_DEFAULT_QUANTUM, 1, 0, 0);
    call("create task 1, base 5", NTK_TASK_CREATE, 1, 5, NTK_USE_DEFAULT);
    call("the default quantum is set to 2", NTK_SET_DEFAULT_QUANTUM, 2, 0, 0);
    call("create task 2, base 5", NTK_TASK_CREATE, 2, 5, NTK_USE_DEFAULT);
    for (i = 0; i < 6; i++)
        call("tick", NTK_TICK | NTK_INTERRUPT, 0, 0, 0);
}

enum { READER = 8, DECODER = 9, NEXT_FRAMES = 3 }; /* two tasks, and a channel */

static void reader_posts(uint32_t frame)
{
    char what[32];

    snprintf(what, sizeof what, "reader posts frame %u", (unsigned)frame);
    call(what, NTK_CHANNEL_POST, NEXT_FRAMES, frame, NTK_AT_END);
}

static void decoder_waits(void)
{
    call("decoder waits for a frame", NTK_CHANNEL_WAIT, NEXT_FRAMES, NTK_MAY_BLOCK, NTK_FOREVER);
}

static void tell_frame(void)
{
    printf("  the decoder has frame %u\n", (unsigned)ntk_message_of(table, DECODER));
}

static void reader_flushes(void)
{
    struct ntk_outcome o = ntk_channel_flush(table, NEXT_FRAMES);

    tell("reader flushes the channel", o);
    printf("  frames that went: %u\n", (unsigned)o.further);
}

/* The reader hands the decoder the numbers of frames through a channel, a message queue, with room for two. A third is refused, and nothing is
 * overwritten. Posted again while the decoder waits, it goes to the decoder directly. What nobody has taken is flushed. */
static void frame_numbers(void)
{
    puts("the reader's frames:");
    ntk_fresh(table, sizeof table);
    call("create the channel, room for 2", NTK_CHANNEL_CREATE, NEXT_FRAMES, 2, 0);
    call("create the decoder, base 30", NTK_TASK_CREATE, DECODER, 30, 0);
    call("create the reader, base 20", NTK_TASK_CREATE, READER, 20, 0);
    reader_posts(1);
    reader_posts(2);
    reader_posts(3);
    call("reader sleeps 1 tick", NTK_DELAY, 1, 0, 0);
    decoder_waits();
    tell_frame();
    decoder_waits();
    tell_frame();
    decoder_waits();
    printf("  the first waiter, plus 1: %u\n", (unsigned)ntk_slot_of(table, NTK_CHANNEL_QUEUE(NEXT_FRAMES), 0));
    call("tick", NTK_TICK | NTK_INTERRUPT, 0, 0, 0);
    reader_posts(3);
    tell_frame();
    reader_posts(4);
    reader_posts(5);
    reader_flushes();
    reader_flushes();
}

int main(void)
{
    ntk_fresh(table, sizeof table);
    first_case();
    two_mutexes();
    card_and_clock();
    film_house();
    frame_numbers();
    return 0;
}
