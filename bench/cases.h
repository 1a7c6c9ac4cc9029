/* cases.h: calls on tables among which the longest call is looked for: some of the sequences, and others built to be bad cases. */
#ifndef CASES_H
#define CASES_H

#include "sequences.h"

/* The kinds of calls, by name. */
struct kind {
    uint8_t kind;
    const char *name;
};
enum { KINDS = 33 };
extern const struct kind *const kinds;

extern struct one_case *cases;
extern unsigned case_count;

/* Plays the sequences through all variants, compares them after each call, keeps the tables before some calls of each kind; then builds
 * the bad cases and compares the variants in each. */
void make_cases(void);

#endif
