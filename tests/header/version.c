/* The version that the archive says is the header's, and is made of its parts. */
#include <inttypes.h>
#include <stdio.h>

#include "nonthachak.h"

#if NTK_VERSION < 1
#error "the preprocessor can compare versions"
#endif

int main(void)
{
    uint32_t parts = NTK_VERSION_MAJOR;

    parts = 100 * parts + NTK_VERSION_MINOR;
    parts = 100 * parts + NTK_VERSION_PATCH;
    if (ntk_version() == NTK_VERSION && parts == NTK_VERSION)
        return 0;
    printf("header: the header is version %" PRIu32 ", its parts %" PRIu32 ", and the archive says %" PRIu32 "\n", NTK_VERSION, parts,
           ntk_version());
    return 1;
}
