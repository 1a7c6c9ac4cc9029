/* tapes FILE..: plays call tapes by ntk_step, each on a fresh table, and prints their lines. */
#include <stdio.h>

#include "../../tools/tape/reel.h"
#include "nonthachak.h"

static void play(FILE *file)
{
    static uint8_t image[NTK_IMAGE_SIZE];
    struct reel reel = reel_of(file);
    struct call call;
    enum got got;

    if (ntk_fresh(image, sizeof image) != NTK_DONE)
        puts("no fresh table");
    while ((got = reel_next(&reel, &call)) == GOT_CALL) {
        const uint32_t *n = call.numbers;
        struct ntk_outcome o = ntk_step(reel.bytes[0], n[0], n[1], n[2], n[3], n[4], n[5], image, sizeof image);
        if (o.runs == 0)
            printf("%u -\n", (unsigned)o.answer);
        else
            printf("%u %u\n", (unsigned)o.answer, (unsigned)o.runs - 1);
    }
    if (got == GOT_BAD)
        puts("bad");
}

int main(int argc, char **argv)
{
    int i;

    for (i = 1; i < argc; i++) {
        FILE *file = fopen(argv[i], "rb");
        if (!file) {
            printf("tapes: cannot open %s\n", argv[i]);
            return 2;
        }
        play(file);
        fclose(file);
    }
    return 0;
}
