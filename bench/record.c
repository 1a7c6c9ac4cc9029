/* record.c: see record.h. */
#include "record.h"

#include <string.h>

struct plain recorder;

/* How many tasks the chain from task i has, also where it leads into a ring. */
static unsigned chain_from(const struct plain *k, unsigned i)
{
    uint32_t seen = UINT32_C(1) << i;
    unsigned length = 1;

    while (k->task[i].state == PLAIN_WAITS_MUTEX) {
        i = k->mutex[k->task[i].object].holder;
        if (seen >> i & 1)
            break;
        seen |= UINT32_C(1) << i;
        length++;
    }
    return length;
}

void record_call(struct sequence *s, struct call call)
{
    unsigned caller = recorder.running;
    struct plain_outcome o;

    if (s->length == CALLS)
        return;
    if ((call.kind & 0x7F) == NTK_CHANNEL_POST)
        call.n[1] = (uint32_t)s->length;
    s->calls[s->length++] = call;
    o = make_call(&recorder, &call);
    if (call.kind == NTK_MUTEX_WAIT && o.answer == NTK_BLOCKS && chain_from(&recorder, caller) > s->deepest)
        s->deepest = chain_from(&recorder, caller);
}

void record(struct sequence *s, unsigned kind, uint32_t a, uint32_t b, uint32_t c)
{
    record_call(s, (struct call){(uint8_t)kind, {a, b, c}});
}

struct step {
    struct call call;
    int given;
};

struct worker {
    struct step steps[12];
    unsigned length, at;
};

static struct worker workers[NTK_TASKS];

void add_call(unsigned task, struct call call, int given)
{
    struct step *s = &workers[task].steps[workers[task].length++];

    s->call = call;
    s->given = given;
}

void add_step(unsigned task, unsigned kind, uint32_t a, uint32_t b, uint32_t c, int given)
{
    add_call(task, (struct call){(uint8_t)kind, {a, b, c}}, given);
}

void work(struct sequence *s)
{
    unsigned i = recorder.running;
    struct worker *w = &workers[i];
    const struct step *next;

    do {
        next = &w->steps[w->at];
        w->at = (w->at + 1) % w->length;
    } while (next->given && recorder.task[i].outcome != NTK_GIVEN);
    record_call(s, next->call);
}

void begin(struct sequence *s)
{
    s->length = 0;
    memset(workers, 0, sizeof workers);
    plain_fresh(&recorder);
}

void create_task(struct sequence *s, unsigned task, unsigned base, unsigned quantum)
{
    record(s, NTK_TASK_CREATE, task, base, quantum);
}
