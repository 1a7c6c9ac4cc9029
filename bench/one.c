/* one.c: plays one sequence through one variant, some rounds: what bench/count counts the instructions of. */
#include <stdio.h>
#include <stdlib.h>

#include "sequences.h"

static volatile uint64_t kept;

int main(int argc, char **argv)
{
    static struct table t;
    unsigned sequence, variant, rounds;

    if (argc != 4) {
        fprintf(stderr, "one SEQUENCE VARIANT ROUNDS\n");
        return 2;
    }
    sequence = (unsigned)atoi(argv[1]);
    variant = (unsigned)atoi(argv[2]);
    if (sequence >= SEQUENCES || variant >= VARIANTS)
        return 2;
    record_sequences();
    for (rounds = (unsigned)atoi(argv[3]); rounds > 0; rounds--) {
        make_fresh(&t);
        kept += play((enum variant)variant, sequences[sequence]->calls, CALLS, &t);
    }
    return 0;
}
