/* sequences.h: the calls that are timed, recorded with the plain kernel saying who runs. */
#ifndef SEQUENCES_H
#define SEQUENCES_H

#include "play.h"

enum { CALLS = 20000, SEQUENCES = 6 };

struct sequence {
    const char *name;
    struct call calls[CALLS];
    size_t length;
    unsigned deepest; /* tasks in the longest chain that a wait joined */
};

extern struct sequence *const sequences[SEQUENCES];

void record_sequences(void);

#endif
