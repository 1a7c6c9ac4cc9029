/* tapes.c: plays a call tape through the plain kernel and prints its lines. The tape is the file named, or standard input. The table
 * is tested before each call; exit status 3 where it was not sound. */
#include <stdio.h>
#include <stdlib.h>

#include "../include/nonthachak.h"
#include "plain.h"

enum { NUMBERS = 6 };

/* The lengths in bytes of the numbers a to f in the body of a kind, or 0 for an unknown kind. */
static int body(unsigned kind, int lengths[NUMBERS])
{
    int a = 0, b = 0, c = 0, d = 0, e = 0, f = 0;

    switch (kind) {
    case NTK_TASK_CREATE:
        a = 1, b = 1, c = 2;
        break;
    case NTK_CHANGE_PRIORITY:
    case NTK_SEMAPHORE_DELETE:
    case NTK_MUTEX_DELETE:
    case NTK_GROUP_DELETE:
    case NTK_CHANNEL_CREATE:
    case NTK_CHANNEL_DELETE:
        a = 1, b = 1;
        break;
    case NTK_TASK_DELETE:
    case NTK_SUSPEND:
    case NTK_RESUME:
    case NTK_DELAY_RESUME:
    case NTK_SEMAPHORE_POST:
    case NTK_SEMAPHORE_ABORT:
    case NTK_MUTEX_CREATE:
    case NTK_MUTEX_POST:
    case NTK_MUTEX_ABORT:
    case NTK_GROUP_ABORT:
    case NTK_CHANNEL_ABORT:
    case NTK_CHANNEL_FLUSH:
        a = 1;
        break;
    case NTK_DELAY:
        a = 4;
        break;
    case NTK_SET_DEFAULT_QUANTUM:
        a = 2;
        break;
    case NTK_SEMAPHORE_CREATE:
    case NTK_GROUP_CREATE:
        a = 1, b = 4;
        break;
    case NTK_SEMAPHORE_WAIT:
    case NTK_MUTEX_WAIT:
    case NTK_CHANNEL_WAIT:
        a = 1, b = 1, c = 4;
        break;
    case NTK_GROUP_WAIT:
        a = 1, b = 1, c = 4, d = 4, e = 1, f = 1;
        break;
    case NTK_GROUP_POST:
    case NTK_CHANNEL_POST:
        a = 1, b = 4, c = 1;
        break;
    case NTK_YIELD:
    case NTK_LOCK:
    case NTK_UNLOCK:
    case NTK_TICK:
        break;
    default:
        return 0;
    }
    lengths[0] = a;
    lengths[1] = b;
    lengths[2] = c;
    lengths[3] = d;
    lengths[4] = e;
    lengths[5] = f;
    return 1;
}

static int read_number(FILE *tape, int bytes, uint32_t *number)
{
    int i, byte;

    *number = 0;
    for (i = 0; i < bytes; i++) {
        if ((byte = getc(tape)) == EOF)
            return 0;
        *number |= (uint32_t)byte << (8 * i);
    }
    return 1;
}

/* The body of a kind; 0 where the kind is unknown or the body cut. */
static int read_body(FILE *tape, unsigned kind, uint32_t n[NUMBERS])
{
    int lengths[NUMBERS], i;

    if (!body(kind & 0x7F, lengths))
        return 0;
    for (i = 0; i < NUMBERS; i++)
        if (!read_number(tape, lengths[i], &n[i]))
            return 0;
    return 1;
}

int main(int argc, char **argv)
{
    static struct plain k;
    FILE *tape = argc > 1 ? fopen(argv[1], "rb") : stdin;
    int kind, status = 0;
    uint32_t n[NUMBERS];

    if (tape == NULL) {
        perror(argv[1]);
        return 2;
    }
    plain_fresh(&k);
    while ((kind = getc(tape)) != EOF) {
        struct plain_outcome o;
        if (!read_body(tape, (unsigned)kind, n)) {
            puts("bad");
            break;
        }
        if (!plain_check(&k)) {
            fputs("tapes: the table is not sound\n", stderr);
            status = 3;
        }
        o = plain_step(&k, (uint8_t)kind, n[0], n[1], n[2], n[3], n[4], n[5]);
        if (o.runs == 0)
            printf("%u -\n", (unsigned)o.answer);
        else
            printf("%u %u\n", (unsigned)o.answer, (unsigned)o.runs - 1);
    }
    return status;
}
