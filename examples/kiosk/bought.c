/* bought.c: WRONG ON PURPOSE. The mutexes of the kernel that was bought, as it had them: a semaphore of one, a note of who holds it, and a
 * loan of priority. It is here to show its fault beside this kernel; never take it for a port.
 *
 * The fault is in bought_post: the poster gets its base priority back, as if what it posts were all that it holds. Who waits for another mutex
 * of its is forgotten, and the poster falls behind tasks that are less urgent than that waiter. */
#include "board.h"
#include "kiosk.h"

static uint32_t holders[MUTEXES]; /* plus 1; 0 for none */

static void bought_create(uint32_t mutex)
{
    holders[mutex] = 0;
    leave(ntk_semaphore_create(enter(), BOUGHT_MUTEX + mutex, 1));
}

/* The wait comes before the loan: a holder that is raised to the level of the task that runs would take the processor from it. */
static void bought_take(uint32_t mutex)
{
    uint8_t *image = enter();
    uint64_t own = ntk_priority_of(image, board_task());
    uint32_t holder = holders[mutex];
    struct ntk_outcome o = ntk_semaphore_wait(image, BOUGHT_MUTEX + mutex, NTK_MAY_BLOCK, NTK_FOREVER);

    if (holder == 0) {
        holders[mutex] = board_task() + 1;
    } else if (ntk_priority_of(image, holder - 1) > own) {
        taken(o);
        o = ntk_change_priority(image, holder - 1, (uint32_t)own);
    }
    leave(o);
}

static void bought_post(uint32_t mutex)
{
    uint8_t *image = enter();

    holders[mutex] = (uint32_t)ntk_slot_of(image, NTK_SEMAPHORE_QUEUE(BOUGHT_MUTEX + mutex), 0);
    taken(ntk_semaphore_post(image, BOUGHT_MUTEX + mutex));
    leave(ntk_change_priority(image, board_task(), worker_bases[board_task()])); /* the fault */
}

static uint32_t bought_holder(uint32_t mutex)
{
    return holders[mutex];
}

const struct kernel bought_kernel = {"the kernel that was bought (wrong on purpose)", bought_create, bought_take, bought_post, bought_holder};
