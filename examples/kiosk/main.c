/* main.c: the kiosk under two kernels. Prints what became of the frames, and the calls of the first turn of the film; `kiosk FILE` also draws
 * both into FILE, as SVG. */
#include <stdio.h>

#include "board.h"
#include "record.h"
#include "timeline.h"

static struct recording recordings[2];

static void tell_pass(const struct screening *s, unsigned pass)
{
    const unsigned char *shown = s->shown + pass * FILM;
    unsigned i, lost = 0, first = 0, last = 0;

    for (i = 0; i < FILM; i++)
        if (!shown[i]) {
            first = lost++ == 0 ? i : first;
            last = i;
        }
    printf("  pass %u: %u frames shown, %u lost", pass + 1, FILM - lost, lost);
    if (lost > 0)
        printf(": from frame %u to %u of %u", first, last, (unsigned)FILM);
    printf("\n");
}

static void show(const struct kernel *kernel, struct recording *recording)
{
    struct board_counts counts;
    unsigned pass;

    printf("%s:\n", kernel->name);
    record_into(recording, kernel);
    kiosk_run(kernel, &recording->screening);
    for (pass = 0; pass < PASSES; pass++)
        tell_pass(&recording->screening, pass);
    counts = board_counts();
    printf("  %u interrupts, %u of them in the midst of another; %u registers lost; %u stacks in use\n", counts.interrupts, counts.nested,
           counts.registers_lost, counts.stacks_in_use);
}

int main(int words, char **word)
{
    if (words > 2) {
        fprintf(stderr, "usage: kiosk [FILE]\n");
        return 2;
    }
    show(&bought_kernel, &recordings[0]);
    show(&this_kernel, &recordings[1]);
    if (words == 2 && !timeline_draw(word[1], &recordings[0], &recordings[1])) {
        fprintf(stderr, "kiosk: cannot write %s\n", word[1]);
        return 2;
    }
    return 0;
}
