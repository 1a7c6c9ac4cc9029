/* The call of docs/BOARDS.md on a Cortex-M3: interrupts are shut as they were before, and PendSV comes where another task is to run, once they are
 * open. shut.h is the code on the page. */
#include <stdio.h>

#include "nonthachak.h"
#include "shut.h"

static volatile uint32_t switches;

/* The name is that of the C library's table of handlers. */
void arm_pendsv_isr(void);

void arm_pendsv_isr(void)
{
    on_processor = ntk_running(table);
    switches++;
}

static uint32_t are_shut(void)
{
    uint32_t shut;

    __asm__ volatile("mrs %0, primask" : "=r"(shut));
    return shut;
}

static int wrong;

static void expect(const char *what, uint32_t runs, uint32_t want_runs, uint32_t shut, uint32_t want_switches)
{
    if (runs == want_runs && are_shut() == shut && switches == want_switches)
        return;
    printf("shut: %s: runs %u, shut %u, %u switches\n", what, (unsigned)runs, (unsigned)are_shut(), (unsigned)switches);
    wrong = 1;
}

int main(void)
{
    wrong = ntk_fresh(table, sizeof table) != NTK_DONE;
    expect("task 3 comes", call(NTK_TASK_CREATE, 3, 10, 0, 0, 0, 0).runs, 4, 0, 1);
    expect("task 5 comes behind it", call(NTK_TASK_CREATE, 5, 20, 0, 0, 0, 0).runs, 4, 0, 1);
    __asm__ volatile("cpsid i" : : : "memory");
    expect("task 3 sleeps, interrupts shut before", call(NTK_DELAY, 2, 0, 0, 0, 0, 0).runs, 6, 1, 1);
    __asm__ volatile("cpsie i\n\tisb" : : : "memory");
    expect("interrupts opened", on_processor, 6, 0, 2);
    expect("a tick, nobody due", call(NTK_TICK | NTK_INTERRUPT, 0, 0, 0, 0, 0, 0).runs, 6, 0, 2);
    expect("a tick, task 3 due", call(NTK_TICK | NTK_INTERRUPT, 0, 0, 0, 0, 0, 0).runs, 4, 0, 3);
    table[0] = 255;
    expect("a broken table", call(NTK_TICK | NTK_INTERRUPT, 0, 0, 0, 0, 0, 0).runs, 0, 0, 3);
    return wrong;
}
