/* Writes the fresh image to standard output, for `tape why`; with a word, one with task 1 able at level 5, tasks 3 and 2 at level 10. */
#include <stdio.h>

#include "nonthachak.h"

int main(int count, char **words)
{
    static uint8_t image[NTK_IMAGE_SIZE];
    unsigned refused = ntk_fresh(image, sizeof image);

    (void)words;
    if (count > 1) {
        refused |= ntk_task_create(image, 3, 10, 0).answer;
        refused |= ntk_task_create(image, 2, 10, 0).answer;
        refused |= ntk_task_create(image, 1, 5, 0).answer;
    }
    return refused || fwrite(image, 1, sizeof image, stdout) != sizeof image;
}
