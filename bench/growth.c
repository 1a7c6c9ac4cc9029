/* growth.c: see growth.h. */
#include "growth.h"

#include <stdio.h>
#include <stdlib.h>

#include "svg.h"
#include "times.h"

enum { MOST = 32, PASSES = 15, BATCHES = 35 };

/* A table with n of something, and a call on it. */
typedef struct call builder(struct plain *k, unsigned n);

/* Task 0 runs, and n - 1 others sleep for long: a tick that wakes nobody. */
static struct call tick_of(struct plain *k, unsigned n)
{
    unsigned i;

    for (i = 1; i < n; i++) {
        must(k, NTK_TASK_CREATE, i, 60 - i, 0);
        must(k, NTK_DELAY, 1000, 0, 0);
    }
    must(k, NTK_TASK_CREATE, 0, 60, 0);
    return (struct call){NTK_TICK | NTK_INTERRUPT, {0}};
}

/* n tasks wait for semaphore 0, each before those that came earlier. */
static void queue_up(struct plain *k, unsigned n)
{
    unsigned i;

    must(k, NTK_SEMAPHORE_CREATE, 0, 0, 0);
    for (i = 0; i < n; i++) {
        must(k, NTK_TASK_CREATE, i, 60 - i, 0);
        must(k, NTK_SEMAPHORE_WAIT, 0, 1, 0);
    }
    must(k, NTK_TASK_CREATE, 31, 5, 0);
}

/* The running task joins, before all others, a queue that then has n. */
static struct call join_of(struct plain *k, unsigned n)
{
    queue_up(k, n - 1);
    return (struct call){NTK_SEMAPHORE_WAIT, {0, 1}};
}

/* The first of n waiters is given the semaphore. */
static struct call leave_of(struct plain *k, unsigned n)
{
    queue_up(k, n);
    return (struct call){NTK_SEMAPHORE_POST, {0}};
}

/* n tasks wait for flags 0 and 1 of a group, each before those that came earlier. */
static void wait_for_flags(struct plain *k, unsigned n)
{
    unsigned i;

    must(k, NTK_GROUP_CREATE, 0, 0, 0);
    for (i = 0; i < n; i++) {
        must(k, NTK_TASK_CREATE, i, 60 - i, 0);
        must_call(k, (struct call){NTK_GROUP_WAIT, {0, 1, 0, 3, NTK_ALL_SET, 1}});
    }
    must(k, NTK_TASK_CREATE, 31, 5, 0);
}

/* A post that meets none of n waiters. */
static struct call pass_of(struct plain *k, unsigned n)
{
    wait_for_flags(k, n);
    return (struct call){NTK_GROUP_POST, {0, 1, 1}};
}

/* A post that meets all of n waiters. */
static struct call wake_of(struct plain *k, unsigned n)
{
    wait_for_flags(k, n);
    return (struct call){NTK_GROUP_POST, {0, 3, 1}};
}

/* A task runs, and channel 0 holds n messages. */
static void fill_channel(struct plain *k, unsigned n)
{
    unsigned i;

    must(k, NTK_TASK_CREATE, 0, 5, 0);
    must(k, NTK_CHANNEL_CREATE, 0, NTK_MOST_MESSAGES, 0);
    for (i = 0; i < n; i++)
        must(k, NTK_CHANNEL_POST, 0, 1 + i, NTK_AT_END);
}

/* The first of n messages is taken. */
static struct call take_of(struct plain *k, unsigned n)
{
    fill_channel(k, n);
    return (struct call){NTK_CHANNEL_WAIT, {0, 1}};
}

/* A message goes before all others, into a channel that then has n. */
static struct call front_of(struct plain *k, unsigned n)
{
    fill_channel(k, n - 1);
    return (struct call){NTK_CHANNEL_POST, {0, n, NTK_IN_FRONT}};
}

/* Tasks 1 to n hold a mutex each, and each but the first waits for that of the one before; task 0, the most urgent, runs. */
static void link_up(struct plain *k, unsigned n)
{
    unsigned i;

    for (i = 0; i < n; i++) {
        must(k, NTK_TASK_CREATE, 1 + i, 60 - i, 0);
        must(k, NTK_MUTEX_CREATE, i, 0, 0);
        must(k, NTK_MUTEX_WAIT, i, 1, 0);
        if (i > 0)
            must(k, NTK_MUTEX_WAIT, i - 1, 1, 0);
    }
    must(k, NTK_TASK_CREATE, 0, 5, 0);
}

/* It waits for the last of them: all n rise. */
static struct call rise_of(struct plain *k, unsigned n)
{
    link_up(k, n);
    return (struct call){NTK_MUTEX_WAIT, {n - 1, 1}};
}

/* Its wait is aborted: all n fall. */
static struct call fall_of(struct plain *k, unsigned n)
{
    link_up(k, n);
    must(k, NTK_MUTEX_WAIT, n - 1, 1, 0);
    return (struct call){NTK_MUTEX_ABORT, {n - 1}};
}

static const struct {
    const char *name, *counted;
    unsigned last; /* from 1 */
    builder *build;
} series[] = {
    {"tick, none due", "tasks in use", 32, tick_of},
    {"semaphore wait", "in its queue", 32, join_of},
    {"semaphore post", "in its queue", 31, leave_of},
    {"flag post: none", "in its queue", 31, pass_of},
    {"flag post: all", "in its queue", 31, wake_of},
    {"channel take", "messages", 32, take_of},
    {"channel front post", "messages", 32, front_of},
    {"mutex wait: rises", "holders in the chain", 16, rise_of},
    {"mutex abort: falls", "holders in the chain", 16, fall_of},
};

enum { SERIES = sizeof series / sizeof series[0] };

static double ns_of[SERIES][VARIANTS][MOST];

static void build(struct one_case *one, unsigned s, unsigned n)
{
    struct plain k;
    struct call c;

    plain_fresh(&k);
    c = series[s].build(&k, n);
    make_case(one, series[s].name, &k, c);
    compare_case(one, n);
}

/* The variants in turn, all series in each pass; of the passes the median. */
static void time_series(void)
{
    static struct one_case all[SERIES][MOST];
    static double times[SERIES][VARIANTS][MOST][PASSES];
    unsigned s, n, v, pass;

    for (s = 0; s < SERIES; s++)
        for (n = 0; n < series[s].last; n++)
            build(&all[s][n], s, n + 1);
    for (pass = 0; pass < PASSES; pass++)
        for (s = 0; s < SERIES; s++)
            for (n = 0; n < series[s].last; n++)
                for (v = 0; v < VARIANTS; v++)
                    times[s][v][n][pass] = time_case((enum variant)v, &all[s][n], BATCHES);
    for (s = 0; s < SERIES; s++)
        for (n = 0; n < series[s].last; n++)
            for (v = 0; v < VARIANTS; v++)
                ns_of[s][v][n] = median(times[s][v][n], PASSES);
}

/* What one more costs: the slope of the line with the least squares. */
static double slope(const double *ns, unsigned count)
{
    double x_mean = (count + 1) / 2.0, y_mean = 0, above = 0, below = 0;
    unsigned n;

    for (n = 0; n < count; n++)
        y_mean += ns[n] / count;
    for (n = 0; n < count; n++) {
        above += (n + 1 - x_mean) * (ns[n] - y_mean);
        below += (n + 1 - x_mean) * (n + 1 - x_mean);
    }
    return above / below;
}

static void print_series(unsigned s)
{
    double ns[VARIANTS];
    char name[32];
    unsigned n, v;

    print_head(series[s].name);
    for (n = 1; n <= series[s].last; n = 2 * n > series[s].last && n < series[s].last ? series[s].last : 2 * n) {
        for (v = 0; v < VARIANTS; v++)
            ns[v] = ns_of[s][v][n - 1];
        snprintf(name, sizeof name, "%u", n);
        print_row(name, ns);
    }
    printf("%-18s", "each one more");
    for (v = 0; v < VARIANTS; v++)
        printf("%10.1f", slope(ns_of[s][v], series[s].last));
    printf("   (%s)\n", series[s].counted);
}

/* Above, without the test: C and serve. Below, with it. */
static void draw(const char *file)
{
    FILE *f = fopen(file, "w");
    unsigned s;

    if (f == NULL)
        failed("the file for the plots cannot be written");
    svg_begin(f, SERIES, 2);
    for (s = 0; s < SERIES; s++) {
        struct plot without = {series[s].name, series[s].counted, series[s].last, {ns_of[s][PLAIN], ns_of[s][SERVE]}};
        struct plot with = {series[s].name, series[s].counted, series[s].last, {ns_of[s][CHECKED], ns_of[s][STEP]}};
        svg_plot(f, s, 0, &without);
        svg_plot(f, s, 1, &with);
    }
    svg_key(f, 0, "plain C", "ntk_serve");
    svg_key(f, 1, "plain C with check", "ntk_step");
    svg_end(f);
    if (fclose(f) != 0)
        failed("the file for the plots cannot be written");
}

void growth(const char *file)
{
    unsigned s;

    time_series();
    printf("growth: ns of one call, by how many there are; all variants agree in each\n");
    for (s = 0; s < SERIES; s++)
        print_series(s);
    draw(file);
    printf("\nplots: %s\n", file);
}
