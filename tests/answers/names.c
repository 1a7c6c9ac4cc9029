/* names LAST: the numbers from 0 to LAST, each with the name that the header gives it. */
#include <stdio.h>
#include <stdlib.h>

#include "nonthachak.h"

int main(int count, char **words)
{
    unsigned long i, last = count == 2 ? strtoul(words[1], NULL, 10) : 0;

    for (i = 0; i <= last; i++)
        printf("%lu %s\n", i, ntk_answer_name((uint32_t)i));
    return count != 2;
}
