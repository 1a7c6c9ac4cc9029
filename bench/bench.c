/* bench.c: the same calls through the port and through a plain C kernel, timed in one run.
 *
 *     bench [ROUNDS]
 *     bench --growth FILE
 *
 * The calls of each sequence are recorded first, with the plain kernel saying who runs; then all variants play them, answers, running
 * tasks, further results and every byte of the image are compared after each call, and only then the clock is used.
 *
 * Times of a sequence: it is played from the fresh table in each round, the variants in turn, and the clock is read every CHUNK
 * calls; of each chunk the median of the rounds counts, so that a round in which another program had the processor is not counted.
 * One pass over the bytes (the C library compares the image with an equal copy) is timed in the same way and the same rounds: what
 * the test of the image costs is told as a multiple of it.
 *
 * Longest call: tables taken from the sequences, and others built to be bad cases. */
#include <stdio.h>
#include <stdlib.h>
#include <string.h>

#include "cases.h"
#include "growth.h"
#include "times.h"

enum { CHUNK = 400, CHUNKS = CALLS / CHUNK, MOST_ROUNDS = 1001 };

/* What is timed in a sequence: the variants, and a pass over the bytes. */
enum { PASS = VARIANTS, TIMED };

static double ns_of_sequence[SEQUENCES][TIMED];

typedef double round_times[TIMED][CHUNKS][MOST_ROUNDS];

/* Through a variable that the compiler does not look into, so that each pass is made. */
static int (*volatile compare_bytes)(const void *, const void *, size_t) = memcmp;

static uint64_t pass_over(const uint8_t *image, size_t n)
{
    static _Alignas(64) uint8_t copy[NTK_IMAGE_SIZE];
    uint64_t differ = 0;
    size_t i;

    memcpy(copy, image, sizeof copy);
    for (i = 0; i < n; i++)
        differ += compare_bytes(image, copy, sizeof copy) != 0;
    return differ;
}

/* Plays a sequence in one way and notes the time of each chunk; gives back a sum over the outcomes. */
static uint64_t time_chunks(const struct sequence *s, unsigned what, unsigned round, round_times times)
{
    static struct table table;
    uint64_t sum = 0;
    unsigned chunk;

    if (what != PASS) /* the pass takes the image as the sequence before left it */
        make_fresh(&table);
    for (chunk = 0; chunk < CHUNKS; chunk++) {
        uint64_t from = now();
        if (what == PASS)
            sum += pass_over(table.image, CHUNK);
        else
            sum += play((enum variant)what, s->calls + chunk * CHUNK, CHUNK, &table);
        times[what][chunk][round] = ((double)(now() - from) - clock_time) / CHUNK;
    }
    return sum;
}

static void time_round(const struct sequence *s, unsigned round, round_times times)
{
    uint64_t sums[TIMED];
    unsigned turn, v;

    for (turn = 0; turn < TIMED; turn++) {
        v = (turn + round) % TIMED;
        sums[v] = time_chunks(s, v, round, times);
    }
    for (v = 0; v < VARIANTS; v++)
        if (sums[v] != sums[PLAIN])
            failed("the variants differ in a timed round");
    if (sums[PASS] != 0)
        failed("an image differs from its copy");
}

static void time_sequences(unsigned rounds)
{
    round_times *times = calloc(SEQUENCES, sizeof *times);
    unsigned round, q, v, chunk;

    if (times == NULL)
        failed("no memory");
    for (q = 0; q < SEQUENCES; q++) /* does not count */
        time_round(sequences[q], 0, times[q]);
    for (round = 0; round < rounds; round++)
        for (q = 0; q < SEQUENCES; q++)
            time_round(sequences[q], round, times[q]);
    for (q = 0; q < SEQUENCES; q++)
        for (v = 0; v < TIMED; v++)
            for (chunk = 0; chunk < CHUNKS; chunk++)
                ns_of_sequence[q][v] += median(times[q][v][chunk], rounds) / CHUNKS;
    free(times);
}

/* The longest call */

enum { BEST = 3 };

struct longest {
    double ns;
    const struct one_case *one;
};

static struct longest longest[KINDS][VARIANTS];

static void keep_best(struct longest best[BEST], struct longest l)
{
    unsigned j;

    for (j = 0; j < BEST && l.one != NULL; j++)
        if (best[j].one == NULL || l.ns > best[j].ns) {
            struct longest moved = best[j];
            best[j] = l;
            l = moved;
        }
}

/* A quick look at every case of a kind: the slowest for each variant. */
static void look_at_kind(unsigned kind, struct longest best[VARIANTS][BEST])
{
    unsigned i, v;

    for (i = 0; i < case_count; i++) {
        if ((cases[i].call.kind & 0x7F) != kinds[kind].kind)
            continue;
        for (v = 0; v < VARIANTS; v++) {
            struct longest l = {time_case((enum variant)v, &cases[i], 15), &cases[i]};
            keep_best(best[v], l);
        }
    }
}

/* The slowest again, in passes in which the variants take turns, so that a processor that changes its speed does so for all of them. Of
 * the passes the median counts. */
static void time_kind(unsigned kind)
{
    enum { PASSES = 9, BATCHES = 35 };
    struct longest best[VARIANTS][BEST] = {{{0, NULL}}};
    double times[VARIANTS][BEST][PASSES];
    unsigned v, j, pass;

    look_at_kind(kind, best);
    for (pass = 0; pass < PASSES; pass++)
        for (j = 0; j < BEST; j++)
            for (v = 0; v < VARIANTS; v++)
                if (best[v][j].one != NULL)
                    times[v][j][pass] = time_case((enum variant)v, best[v][j].one, BATCHES);
    for (v = 0; v < VARIANTS; v++)
        for (j = 0; j < BEST && best[v][j].one != NULL; j++) {
            double ns = median(times[v][j], PASSES);
            if (longest[kind][v].one == NULL || ns > longest[kind][v].ns) {
                longest[kind][v].ns = ns;
                longest[kind][v].one = best[v][j].one;
            }
        }
}

/* What is printed; bench/median reads it: names stand in the first 18 columns, and the heads of ratios have a slash. */

static void print_what(unsigned rounds)
{
    unsigned q;

    printf("%d calls a sequence, %u rounds; the deepest chain that a wait joined:", CALLS, rounds);
    for (q = 0; q < SEQUENCES; q++)
        printf(" %s %u%s", sequences[q]->name, sequences[q]->deepest, q + 1 < SEQUENCES ? "," : "\n");
    printf("all variants agree: answers, running tasks, further results and tables, after each of %d calls and in %u cases\n",
           SEQUENCES * CALLS, case_count);
}

static void print_tests(const double all[TIMED])
{
    unsigned q;

    printf("\n%-18s%10s%10s%12s\n", "test of the image", "pass", "test", "test/pass");
    for (q = 0; q <= SEQUENCES; q++) {
        const double *ns = q < SEQUENCES ? ns_of_sequence[q] : all;
        double test = ns[STEP] - ns[SERVE];
        printf("%-18s%10.1f%10.1f%12.1f\n", q < SEQUENCES ? sequences[q]->name : "mean of the six", ns[PASS], test, test / ns[PASS]);
    }
}

static void print_sequences(void)
{
    double all[TIMED] = {0};
    unsigned q, v;

    print_head("ns per call");
    for (q = 0; q < SEQUENCES; q++) {
        print_row(sequences[q]->name, ns_of_sequence[q]);
        for (v = 0; v < TIMED; v++)
            all[v] += ns_of_sequence[q][v] / SEQUENCES;
    }
    print_row("mean of the six", all);
    print_tests(all);
}

static void print_longest(void)
{
    unsigned kind, v;

    print_head("longest call, ns");
    for (kind = 0; kind < KINDS; kind++) {
        double ns[VARIANTS];
        for (v = 0; v < VARIANTS; v++)
            ns[v] = longest[kind][v].ns;
        print_row(kinds[kind].name, ns);
    }
    putchar('\n');
    for (v = 0; v < VARIANTS; v++) {
        unsigned slowest = 0;
        for (kind = 1; kind < KINDS; kind++)
            if (longest[kind][v].ns > longest[slowest][v].ns)
                slowest = kind;
        printf("slowest of %-8s %10.1f ns: %s (%s)\n", variant_names[v], longest[slowest][v].ns, kinds[slowest].name,
               longest[slowest][v].one->name);
    }
}

static void bench(unsigned rounds)
{
    unsigned kind;

    record_sequences();
    make_cases();
    time_clock();
    time_sequences(rounds);
    for (kind = 0; kind < KINDS; kind++)
        time_kind(kind);
    print_what(rounds);
    print_sequences();
    print_longest();
}

int main(int argc, char **argv)
{
    long rounds = argc > 1 ? strtol(argv[1], NULL, 10) : 15;

    if (argc == 3 && strcmp(argv[1], "--growth") == 0) {
        time_clock();
        growth(argv[2]);
        return 0;
    }
    if (argc > 2 || rounds < 1 || rounds > MOST_ROUNDS)
        failed("usage: bench [ROUNDS], from 1 to 1001, or bench --growth FILE");
    bench((unsigned)rounds);
    return 0;
}
