/* The queues and the kernel in one program. */
#include "nonthachak.h"
#include "nonthachak_queue.h"

int main(void)
{
    static uint8_t table[NTK_IMAGE_SIZE];
    uint8_t ids[2] = {0}, keys[1] = {0};
    uint32_t fresh = ntk_fresh(table, sizeof table);
    struct ntk_outcome outcome = ntk_task_create(table, 3, 10, 0);

    return fresh != NTK_DONE || outcome.answer != NTK_DONE || ntk_task_of(outcome.runs) != 3 || ntq_insert(ids, sizeof ids, keys, sizeof keys, 0) != NTQ_DONE ||
           ntq_first(ids, sizeof ids) != 0;
}
