/* record.c: see record.h. */
#include "record.h"

#include <string.h>

#include "board.h"

static struct recording *into;

void record_into(struct recording *recording, const struct kernel *kernel)
{
    memset(recording, 0, sizeof *recording);
    recording->kernel = kernel;
    into = recording;
}

static uint32_t field(uint32_t which, uint32_t number)
{
    return (uint32_t)ntk_read(which, number, board_table(), NTK_IMAGE_SIZE);
}

static struct standing standing_of(uint32_t task)
{
    struct standing s;

    s.works = (uint8_t)field(NTK_FIELD_TASK_WORK, task);
    s.state = (uint8_t)field(NTK_FIELD_TASK_STATE, task);
    s.object = (uint8_t)field(s.state == NTK_WAITS_FLAGS ? NTK_FIELD_TASK_MASK : NTK_FIELD_TASK_OBJECT, task);
    if (s.state == NTK_WAITS_SEMAPHORE && s.object >= BOUGHT_MUTEX) {
        s.state = NTK_WAITS_MUTEX;
        s.object = (uint8_t)(s.object - BOUGHT_MUTEX);
    }
    return s;
}

void record_moment(uint32_t tick)
{
    struct moment *m = &into->at[tick];
    uint32_t i;

    m->runs = ntk_running(board_table());
    for (i = 0; i < WORKERS; i++)
        m->of[i] = standing_of(i);
    for (i = 0; i < MUTEXES; i++)
        m->holder[i] = into->kernel->holder(i);
}

void record_first_post(uint32_t tick)
{
    if (into->first_post == 0)
        into->first_post = tick;
}
