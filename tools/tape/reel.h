/* reel.h: a tape read call by call. */
#ifndef REEL_H
#define REEL_H

#include <stdint.h>
#include <stdio.h>

#include "kinds.h"
#include "line.h"

struct reel {
    FILE *file;
    uint64_t calls;              /* how many were read */
    uint64_t at;                 /* where the last one begins, counted from 0 */
    size_t count;                /* its bytes, as far as they were read */
    uint8_t bytes[LONGEST_CALL];
};

enum got { GOT_CALL, GOT_END, GOT_BAD };

struct reel reel_of(FILE *file);
enum got reel_next(struct reel *reel, struct call *call);

/* Where and why the call that was read last is bad. */
void reel_bad(struct line *line, const struct reel *reel);

#endif
