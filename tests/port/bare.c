/* A board without a C library: the archive needs nothing of one. Only linked. */
#include "nonthachak.h"

uint64_t start(void);
uint64_t start(void)
{
    static uint8_t table[NTK_IMAGE_SIZE];
    uint64_t sum = ntk_fresh(table, sizeof table);

    sum += ntk_tick(table).answer;
    sum += ntk_serve(NTK_TICK, 0, 0, 0, 0, 0, 0, table, sizeof table).runs;
    return sum + ntk_read(NTK_FIELD_TICK, 0, table, sizeof table) + ntk_version();
}
