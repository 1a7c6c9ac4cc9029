/* times.c: see times.h. */
#define _POSIX_C_SOURCE 200809L

#include "times.h"

#include <stdlib.h>
#include <string.h>
#include <time.h>

uint64_t now(void)
{
    struct timespec t;

    clock_gettime(CLOCK_MONOTONIC, &t);
    return (uint64_t)t.tv_sec * 1000000000u + (uint64_t)t.tv_nsec;
}

static int in_order(const void *x, const void *y)
{
    double a = *(const double *)x, b = *(const double *)y;

    return (a > b) - (a < b);
}

double median(double *times, unsigned n)
{
    qsort(times, n, sizeof *times, in_order);
    return n % 2 ? times[n / 2] : (times[n / 2 - 1] + times[n / 2]) / 2;
}

double clock_time;

void time_clock(void)
{
    double times[1001];
    unsigned i;

    for (i = 0; i < 1001; i++) {
        uint64_t from = now();
        times[i] = (double)(now() - from);
    }
    clock_time = median(times, 1001);
}

static volatile uint64_t kept_sum;

double time_case(enum variant v, const struct one_case *one, unsigned batches)
{
    static struct table copies[COPIES];
    static double times[1001];
    unsigned batch, i;

    for (batch = 0; batch < batches + 2; batch++) { /* the first two do not count */
        uint64_t from;
        if (v == PLAIN || v == CHECKED)
            for (i = 0; i < COPIES; i++)
                copies[i].plain = one->table.plain;
        else
            for (i = 0; i < COPIES; i++)
                memcpy(copies[i].image, one->table.image, NTK_IMAGE_SIZE);
        from = now();
        kept_sum += play_copies(v, &one->call, copies);
        times[batch >= 2 ? batch - 2 : 0] = ((double)(now() - from) - clock_time) / COPIES;
    }
    return median(times, batches);
}
