/* longest.c: makes the call of each case by each variant between two marks, which counter.c looks out for, and prints the variant, the kind and
 * the case: what bench/count finds the longest call by. Before the cases each variant makes no call: that is what the marks take themselves. */
#define _POSIX_C_SOURCE 200809L
#include <stdio.h>
#include <unistd.h>

#include "cases.h"

static volatile uint64_t kept;

static void make_calls(enum variant v, const struct call *calls, size_t n, const struct table *from)
{
    static struct table t;

    t = *from;
    (void)getppid();
    kept += play(v, calls, n, &t);
    (void)getppid();
}

static const char *kind_name(uint8_t kind)
{
    unsigned i;

    for (i = 0; i < KINDS; i++)
        if (kinds[i].kind == (kind & 0x7F))
            return kinds[i].name;
    failed("a case of no kind");
}

int main(void)
{
    unsigned i, v;

    record_sequences();
    make_cases();
    for (v = 0; v < VARIANTS; v++) {
        make_calls((enum variant)v, &cases[0].call, 0, &cases[0].table);
        printf("%u|none|none\n", v);
    }
    for (i = 0; i < case_count; i++)
        for (v = 0; v < VARIANTS; v++) {
            make_calls((enum variant)v, &cases[i].call, 1, &cases[i].table);
            printf("%u|%s|%s\n", v, kind_name(cases[i].call.kind), cases[i].name);
        }
    return 0;
}
