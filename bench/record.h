/* record.h: how a sequence is recorded: calls made by the plain kernel, which says who runs, and what each task does when it does. */
#ifndef RECORD_H
#define RECORD_H

#include "sequences.h"

extern struct plain recorder;

/* The fresh table, no calls yet, and nothing for any task to do. */
void begin(struct sequence *s);

/* Makes a call, and keeps it while there is room. A post to a channel has the number of the call as its message. */
void record_call(struct sequence *s, struct call call);
void record(struct sequence *s, unsigned kind, uint32_t a, uint32_t b, uint32_t c);
void create_task(struct sequence *s, unsigned task, unsigned base, unsigned quantum);

/* What a task does, over and over. A step with `given` is left out where the last wait was not given. */
void add_call(unsigned task, struct call call, int given);
void add_step(unsigned task, unsigned kind, uint32_t a, uint32_t b, uint32_t c, int given);

/* The running task does its next step. */
void work(struct sequence *s);

#endif
