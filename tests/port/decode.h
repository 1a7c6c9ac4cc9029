/* The fields of an image by the offsets of docs/IMAGE.md, and by nothing of the library: what ntk_read is compared with. */
#ifndef DECODE_H
#define DECODE_H

#include "nonthachak.h"

/* A field, how many there are of it, where the first stands, and how many bytes each has; they stand one behind another. */
struct column {
    uint32_t field;
    uint32_t count;
    size_t from;
    size_t width;
};

static const struct column columns[] = {
    {NTK_FIELD_TASK_IN_USE, 32, 0, 1},
    {NTK_FIELD_TASK_BASE, 32, 32, 1},
    {NTK_FIELD_TASK_WORK, 32, 64, 1},
    {NTK_FIELD_TASK_SUSPEND, 32, 96, 1},
    {NTK_FIELD_TASK_STATE, 32, 128, 1},
    {NTK_FIELD_TASK_OBJECT, 32, 160, 1},
    {NTK_FIELD_TASK_MARKED, 32, 192, 1},
    {NTK_FIELD_TASK_OUTCOME, 32, 224, 1},
    {NTK_FIELD_TASK_TEST, 32, 256, 1},
    {NTK_FIELD_TASK_CONSUME, 32, 288, 1},
    {NTK_FIELD_TASK_QUANTUM, 32, 320, 2},
    {NTK_FIELD_TASK_LEFT, 32, 384, 2},
    {NTK_FIELD_TASK_DUE, 32, 448, 4},
    {NTK_FIELD_TASK_MASK, 32, 576, 4},
    {NTK_FIELD_TASK_MESSAGE, 32, 704, 4},
    {NTK_FIELD_SEMAPHORE_IN_USE, 16, 832, 1},
    {NTK_FIELD_SEMAPHORE_COUNT, 16, 848, 4},
    {NTK_FIELD_MUTEX_IN_USE, 16, 912, 1},
    {NTK_FIELD_MUTEX_HOLDER, 16, 928, 1},
    {NTK_FIELD_MUTEX_NESTING, 16, 944, 1},
    {NTK_FIELD_GROUP_IN_USE, 8, 960, 1},
    {NTK_FIELD_GROUP_FLAGS, 8, 968, 4},
    {NTK_FIELD_CHANNEL_USED, 16, 1000, 1},
    {NTK_FIELD_CHANNEL_CAPACITY, 16, 1016, 1},
    {NTK_FIELD_CHANNEL_HELD, 16, 1032, 1},
    {NTK_FIELD_QUEUE_SLOT, 1824, 1048, 1},
    {NTK_FIELD_TICK, 1, 2872, 4},
    {NTK_FIELD_DEFAULT_QUANTUM, 1, 2876, 2},
    {NTK_FIELD_DEPTH, 1, 2878, 1},
    {NTK_FIELD_RUNNING, 1, 2879, 1},
    {NTK_FIELD_READY, 1, 2880, 8},
    {NTK_FIELD_MESSAGE, 512, 2888, 4},
};

enum { COLUMNS = sizeof columns / sizeof columns[0] };

static uint64_t decode(uint32_t field, uint32_t number, const uint8_t *image)
{
    size_t i, k;

    for (i = 0; i < COLUMNS; i++) {
        const struct column *c = &columns[i];
        uint64_t shown = 0;
        if (c->field != field || number >= c->count)
            continue;
        for (k = c->width; k > 0; k--)
            shown = 256 * shown + image[c->from + number * c->width + k - 1];
        return shown;
    }
    return NTK_NO_FIELD;
}

#endif
