/* Each function of the header beside ntk_step: random calls, each by its function on one image and by ntk_step on another, and then the
 * outcomes and the images are compared. Then the fresh image and the helpers. */
#include <inttypes.h>
#include <stdio.h>
#include <string.h>

#include "nonthachak.h"

static uint8_t by_function[NTK_IMAGE_SIZE + 1], by_step[NTK_IMAGE_SIZE];
static unsigned long compared, wrong, flushed;

static void expect(const char *what, uint32_t number, uint64_t want, uint64_t got)
{
    compared++;
    if (got == want || ++wrong > 20)
        return;
    printf("header: %s %" PRIx32 ": %" PRIx64 " expected, not %" PRIx64 "\n", what, number, want, got);
}

/* ---- the calls */

/* A kind, and for each of its numbers the first that is too great to be drawn; how often it changed the table. */
struct service {
    uint8_t kind;
    uint32_t below[6];
    unsigned long changed;
};

static struct service services[] = {
    {NTK_TASK_CREATE, {9, 5, 4}, 0},
    {NTK_TASK_DELETE, {9}, 0},
    {NTK_CHANGE_PRIORITY, {9, 5}, 0},
    {NTK_SUSPEND, {9}, 0},
    {NTK_RESUME, {9}, 0},
    {NTK_YIELD, {0}, 0},
    {NTK_DELAY, {4}, 0},
    {NTK_DELAY_RESUME, {9}, 0},
    {NTK_LOCK, {0}, 0},
    {NTK_UNLOCK, {0}, 0},
    {NTK_TICK, {0}, 0},
    {NTK_TICK | NTK_INTERRUPT, {0}, 0},
    {NTK_SET_DEFAULT_QUANTUM, {4}, 0},
    {NTK_SEMAPHORE_CREATE, {4, 2}, 0},
    {NTK_SEMAPHORE_DELETE, {4, 3}, 0},
    {NTK_SEMAPHORE_WAIT, {4, 3, 20}, 0},
    {NTK_SEMAPHORE_POST, {4}, 0},
    {NTK_SEMAPHORE_POST | NTK_INTERRUPT, {4}, 0},
    {NTK_SEMAPHORE_ABORT, {4}, 0},
    {NTK_MUTEX_CREATE, {4}, 0},
    {NTK_MUTEX_DELETE, {4, 3}, 0},
    {NTK_MUTEX_WAIT, {4, 3, 20}, 0},
    {NTK_MUTEX_POST, {4}, 0},
    {NTK_MUTEX_ABORT, {4}, 0},
    {NTK_GROUP_CREATE, {3, 8}, 0},
    {NTK_GROUP_DELETE, {3, 3}, 0},
    {NTK_GROUP_WAIT, {3, 3, 20, 8, 5, 3}, 0},
    {NTK_GROUP_POST, {3, 8, 3}, 0},
    {NTK_GROUP_POST | NTK_INTERRUPT, {3, 8, 3}, 0},
    {NTK_GROUP_ABORT, {3}, 0},
    {NTK_CHANNEL_CREATE, {3, 4}, 0},
    {NTK_CHANNEL_DELETE, {3, 3}, 0},
    {NTK_CHANNEL_WAIT, {3, 3, 20}, 0},
    {NTK_CHANNEL_POST, {3, 8, 3}, 0},
    {NTK_CHANNEL_POST | NTK_INTERRUPT, {3, 8, 3}, 0},
    {NTK_CHANNEL_ABORT, {3}, 0},
    {NTK_CHANNEL_FLUSH, {3}, 0},
};
#define SERVICES (sizeof services / sizeof services[0])

static struct ntk_outcome call(uint8_t kind, const uint32_t *n, uint8_t *image)
{
    struct ntk_outcome unknown = {99, 99, 99};

    switch (kind) {
    case NTK_TASK_CREATE: return ntk_task_create(image, n[0], n[1], n[2]);
    case NTK_TASK_DELETE: return ntk_task_delete(image, n[0]);
    case NTK_CHANGE_PRIORITY: return ntk_change_priority(image, n[0], n[1]);
    case NTK_SUSPEND: return ntk_suspend(image, n[0]);
    case NTK_RESUME: return ntk_resume(image, n[0]);
    case NTK_YIELD: return ntk_yield(image);
    case NTK_DELAY: return ntk_delay(image, n[0]);
    case NTK_DELAY_RESUME: return ntk_delay_resume(image, n[0]);
    case NTK_LOCK: return ntk_lock(image);
    case NTK_UNLOCK: return ntk_unlock(image);
    case NTK_TICK: return ntk_tick(image);
    case NTK_TICK | NTK_INTERRUPT: return ntk_tick_isr(image);
    case NTK_SET_DEFAULT_QUANTUM: return ntk_set_default_quantum(image, n[0]);
    case NTK_SEMAPHORE_CREATE: return ntk_semaphore_create(image, n[0], n[1]);
    case NTK_SEMAPHORE_DELETE: return ntk_semaphore_delete(image, n[0], n[1]);
    case NTK_SEMAPHORE_WAIT: return ntk_semaphore_wait(image, n[0], n[1], n[2]);
    case NTK_SEMAPHORE_POST: return ntk_semaphore_post(image, n[0]);
    case NTK_SEMAPHORE_POST | NTK_INTERRUPT: return ntk_semaphore_post_isr(image, n[0]);
    case NTK_SEMAPHORE_ABORT: return ntk_semaphore_abort(image, n[0]);
    case NTK_MUTEX_CREATE: return ntk_mutex_create(image, n[0]);
    case NTK_MUTEX_DELETE: return ntk_mutex_delete(image, n[0], n[1]);
    case NTK_MUTEX_WAIT: return ntk_mutex_wait(image, n[0], n[1], n[2]);
    case NTK_MUTEX_POST: return ntk_mutex_post(image, n[0]);
    case NTK_MUTEX_ABORT: return ntk_mutex_abort(image, n[0]);
    case NTK_GROUP_CREATE: return ntk_group_create(image, n[0], n[1]);
    case NTK_GROUP_DELETE: return ntk_group_delete(image, n[0], n[1]);
    case NTK_GROUP_WAIT: return ntk_group_wait(image, n[0], n[1], n[2], n[3], n[4], n[5]);
    case NTK_GROUP_POST: return ntk_group_post(image, n[0], n[1], n[2]);
    case NTK_GROUP_POST | NTK_INTERRUPT: return ntk_group_post_isr(image, n[0], n[1], n[2]);
    case NTK_GROUP_ABORT: return ntk_group_abort(image, n[0]);
    case NTK_CHANNEL_CREATE: return ntk_channel_create(image, n[0], n[1]);
    case NTK_CHANNEL_DELETE: return ntk_channel_delete(image, n[0], n[1]);
    case NTK_CHANNEL_WAIT: return ntk_channel_wait(image, n[0], n[1], n[2]);
    case NTK_CHANNEL_POST: return ntk_channel_post(image, n[0], n[1], n[2]);
    case NTK_CHANNEL_POST | NTK_INTERRUPT: return ntk_channel_post_isr(image, n[0], n[1], n[2]);
    case NTK_CHANNEL_ABORT: return ntk_channel_abort(image, n[0]);
    case NTK_CHANNEL_FLUSH: return ntk_channel_flush(image, n[0]);
    default: return unknown;
    }
}

static uint32_t some_number(void)
{
    static uint32_t state = 20261116u;

    state ^= state << 13;
    state ^= state >> 17;
    state ^= state << 5;
    return state;
}

/* One call of the service on both images; now and then with a number that is mostly beyond its range. The image of the functions stands
 * at an odd address, as any alignment will do. */
static void call_both(struct service *s)
{
    uint8_t *image = by_function + 1;
    uint32_t n[6];
    struct ntk_outcome f, o;
    unsigned i;

    for (i = 0; i < 6; i++)
        n[i] = s->below[i] == 0 ? 0 : some_number() % 32 == 0 ? some_number() : some_number() % s->below[i];
    f = call(s->kind, n, image);
    o = ntk_step(s->kind, n[0], n[1], n[2], n[3], n[4], n[5], by_step, NTK_IMAGE_SIZE);
    expect("the answer of kind", s->kind, o.answer, f.answer);
    expect("who runs after kind", s->kind, o.runs, f.runs);
    expect("what is told further by kind", s->kind, s->kind == NTK_CHANNEL_FLUSH ? o.further : 0, f.further);
    expect("images that differ after kind", s->kind, 0, memcmp(image, by_step, NTK_IMAGE_SIZE) != 0);
    s->changed += o.answer == NTK_DONE || o.answer == NTK_BLOCKS;
    flushed += o.further;
}

/* The next service. What leaves few tasks to run, and so few calls that are accepted, comes more seldom. */
static struct service *some_service(void)
{
    struct service *s = &services[some_number() % SERVICES];

    if ((s->kind == NTK_LOCK || s->kind == NTK_SUSPEND || s->kind == NTK_TASK_DELETE) && some_number() % 4 > 0)
        return &services[0];
    return s;
}

static void call_all(void)
{
    unsigned long i;

    for (i = 0; i < 200000; i++) {
        if (i % 500 == 0) {
            expect("the fresh image of the functions", 0, 0, ntk_fresh(by_function + 1, NTK_IMAGE_SIZE));
            expect("the fresh image", 0, 0, ntk_fresh(by_step, NTK_IMAGE_SIZE));
        }
        call_both(some_service());
    }
    for (i = 0; i < SERVICES; i++)
        if (services[i].changed < 20)
            expect("calls that changed the table, 20 and more, of kind", services[i].kind, 20, services[i].changed);
    if (flushed < 20)
        expect("messages that were flushed, 20 and more,", 0, 20, flushed);
}

/* ---- the fresh image */

/* What the header says of it, in the header's words; of a wrong length; and of zeroed memory. */
static void make_fresh(void)
{
    static uint8_t before[NTK_IMAGE_SIZE];
    uint32_t field;

    memset(by_step, 0xA5, sizeof by_step);
    memcpy(before, by_step, sizeof before);
    expect("the fresh image of one byte less", 0, NTK_NOT_SOUND, ntk_fresh(by_step, NTK_IMAGE_SIZE - 1));
    expect("the fresh image of no byte", 0, NTK_NOT_SOUND, ntk_fresh(by_step, 0));
    expect("bytes that a wrong length changed", 0, 0, memcmp(before, by_step, sizeof before) != 0);
    expect("the fresh image", 0, NTK_DONE, ntk_fresh(by_step, NTK_IMAGE_SIZE));
    expect("its default quantum", 0, NTK_FRESH_QUANTUM, ntk_read(NTK_FIELD_DEFAULT_QUANTUM, 0, by_step, NTK_IMAGE_SIZE));
    for (field = 0; field <= NTK_FIELD_READY; field++)
        if (field != NTK_FIELD_DEFAULT_QUANTUM && ntk_read(field, 0, by_step, NTK_IMAGE_SIZE) != NTK_NO_FIELD)
            expect("what the fresh image has in field", field, 0, ntk_read(field, 0, by_step, NTK_IMAGE_SIZE));
    expect("a tick on it", 0, NTK_DONE, ntk_step(NTK_TICK, 0, 0, 0, 0, 0, 0, by_step, NTK_IMAGE_SIZE).answer);
    memset(by_step, 0, sizeof by_step);
    expect("a tick on zeroed memory", 0, NTK_NOT_SOUND, ntk_step(NTK_TICK, 0, 0, 0, 0, 0, 0, by_step, NTK_IMAGE_SIZE).answer);
}

/* A task that is created with NTK_USE_DEFAULT has the default quantum of that moment. */
static void use_default(void)
{
    ntk_fresh(by_step, NTK_IMAGE_SIZE);
    expect("a new default", 0, NTK_DONE, ntk_set_default_quantum(by_step, NTK_MOST_QUANTUM).answer);
    expect("a task by it", 0, NTK_DONE, ntk_task_create(by_step, 3, 10, NTK_USE_DEFAULT).answer);
    expect("a default of 0", 0, NTK_BAD_VALUE, ntk_set_default_quantum(by_step, 0).answer);
    expect("a default that is too great", 0, NTK_BAD_VALUE, ntk_set_default_quantum(by_step, NTK_MOST_QUANTUM + 1).answer);
    expect("a later default", 0, NTK_DONE, ntk_set_default_quantum(by_step, 7).answer);
    expect("the task's quantum", 3, NTK_MOST_QUANTUM, ntk_read(NTK_FIELD_TASK_QUANTUM, 3, by_step, NTK_IMAGE_SIZE));
    expect("what is left of it", 3, NTK_MOST_QUANTUM, ntk_read(NTK_FIELD_TASK_LEFT, 3, by_step, NTK_IMAGE_SIZE));
    expect("the default", 0, 7, ntk_read(NTK_FIELD_DEFAULT_QUANTUM, 0, by_step, NTK_IMAGE_SIZE));
}

/* The levels with an able task: the top bit is that of level 0. */
static void be_ready(void)
{
    ntk_fresh(by_step, NTK_IMAGE_SIZE);
    expect("the ready word of none", 0, 0, ntk_ready(by_step));
    expect("the first level of none", 0, NTK_LEVELS, ntk_first_level(by_step));
    expect("a task of level 62", 62, NTK_DONE, ntk_task_create(by_step, 1, NTK_LAST_PRIORITY, 0).answer);
    expect("its bit", 62, 2, ntk_ready(by_step));
    expect("its level, the first", 62, 62, ntk_first_level(by_step));
    expect("a task of level 0", 0, NTK_DONE, ntk_task_create(by_step, 2, 0, 0).answer);
    expect("another", 0, NTK_DONE, ntk_task_create(by_step, 3, 0, 0).answer);
    expect("their bits", 0, NTK_LEVEL_BIT(0) | NTK_LEVEL_BIT(62), ntk_ready(by_step));
    expect("their level, the first", 0, 0, ntk_first_level(by_step));
    expect("one of two sleeps", 0, NTK_DONE, ntk_delay(by_step, 9).answer);
    expect("the level that the other has", 0, 0, ntk_first_level(by_step));
    expect("the other sleeps", 0, NTK_DONE, ntk_delay(by_step, 9).answer);
    expect("the level that is left", 62, 62, ntk_first_level(by_step));
}

/* ---- the helpers */

static void read_tasks(void)
{
    uint32_t i;

    expect("a task that NTK_NONE names", NTK_NONE, 0, NTK_NONE < NTK_TASKS);
    expect("no task", 0, NTK_NONE, ntk_task_of(0));
    expect("the task of no field", 0, NTK_NONE, ntk_task_of(NTK_NO_FIELD));
    for (i = 0; i < 300; i++)
        expect("the task of", i + 1, i < NTK_TASKS ? i : NTK_NONE, ntk_task_of(i + 1u));
    expect("the task of 2^32 + 1", 0, NTK_NONE, ntk_task_of(4294967297u));
}

static void name_answers(void)
{
    const uint32_t last = NTK_NO_PEER;
    uint32_t i, j;

    for (i = 0; i <= last; i++)
        for (j = 0; j <= last + 1; j++)
            expect("the same name as another, answer", i, i == j, strcmp(ntk_answer_name(i), ntk_answer_name(j)) == 0);
    expect("a name of no answer", last + 1, 0, strcmp(ntk_answer_name(last + 1), "unknown") != 0);
    expect("a name of no answer", 4294967295u, 0, strcmp(ntk_answer_name(4294967295u), "unknown") != 0);
}

int main(void)
{
    call_all();
    make_fresh();
    use_default();
    be_ready();
    read_tasks();
    name_answers();
    if (wrong > 0) {
        printf("header: %lu of %lu wrong\n", wrong, compared);
        return 1;
    }
    printf("header: %lu calls and names compared, all right\n", compared);
    return 0;
}
