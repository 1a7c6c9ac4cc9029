/* queue.c: makes one change of a queue of 32 slots between two marks, which counter.c looks out for, and prints the change and how many ids
 * stand there: what bench/queue counts by. Keys rise with the place, 8 from one to the next. The first pair of marks has nothing between. */
#define _POSIX_C_SOURCE 200809L
#include <stdio.h>
#include <string.h>
#include <unistd.h>

#include "nonthachak_queue.h"

enum { SLOTS = 32 };

static uint8_t ids[SLOTS], keys[SLOTS];
static volatile size_t kept;

static void fill(size_t n)
{
    size_t i;

    for (i = 0; i < SLOTS; i++) {
        ids[i] = (uint8_t)(i < n ? i + 1 : 0);
        keys[i] = (uint8_t)(8 * i);
    }
}

/* The id at `from` gets the key that brings it to `to`, and moves. */
static size_t moves(size_t from, size_t to)
{
    keys[from] = (uint8_t)(from < to ? 8 * to + 4 : to == 0 ? 0 : 8 * to - 4);
    if (from > to && to == 0)
        keys[0] = 1;
    return ntq_move_behind(ids, SLOTS, keys, SLOTS, (uint8_t)from);
}

static size_t change(unsigned which, size_t n)
{
    switch (which) {
    case 1:
        return ntq_open(ids, SLOTS, 0, SLOTS);
    case 2:
        return ntq_close(ids, SLOTS, 0);
    case 3:
        return ntq_remove(ids, SLOTS, 0);
    case 4:
        return ntq_remove(ids, SLOTS, (uint8_t)(n / 2));
    case 5:
        keys[SLOTS - 1] = 0;
        return ntq_insert(ids, SLOTS, keys, SLOTS, SLOTS - 1);
    case 6:
        return moves(0, n > 1 ? 1 : 0);
    case 7:
        return moves(n / 2, n / 2 + 1 < n ? n / 2 + 1 : n / 2);
    case 8:
        return moves(0, n - 1);
    case 9:
        return moves(n - 1, 0);
    default:
        return 0;
    }
}

int main(void)
{
    static const char *const names[] = { "none", "open in front", "close in front", "remove the first", "remove from the middle", "insert in front",
                                         "move the first by one", "move the middle by one", "move from front to end", "move from end to front" };
    unsigned which;
    size_t n;

    for (which = 0; which < sizeof names / sizeof *names; which++)
        for (n = 1; n < SLOTS; n++) {
            fill(n);
            (void)getppid();
            kept += change(which, n);
            (void)getppid();
            printf("%s|%zu\n", names[which], n);
        }
    return 0;
}
