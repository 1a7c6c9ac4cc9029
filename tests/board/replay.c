/* replay FILE: makes the calls of a record (tests/model/record.rs writes it) and compares what each gives with what stands there: by ntk_step
 * on every image, and by ntk_serve beside it on a sound one. Ends with 1 at the first difference.
 *
 * Of each image the record has, with all numbers of four bytes but the hashes, the least significant byte first: its length, its bytes, a
 * byte that is 1 where it is sound, how many calls are made on it, and of each call the kind in one byte, its six numbers, the answer, the task
 * to run, what is told further, and the hash of the image behind it, of eight bytes. */
#include <stdio.h>
#include <stdlib.h>
#include <string.h>

#include "nonthachak.h"

static FILE *record;
static unsigned long images, calls, served;

static void fail(const char *what)
{
    printf("replay: %s at image %lu, call %lu\n", what, images, calls);
    exit(1);
}

static void get(void *to, size_t n)
{
    if (fread(to, 1, n, record) != n)
        fail("the record is cut");
}

static uint64_t number(unsigned bytes)
{
    uint8_t b[8];
    uint64_t all = 0;

    get(b, bytes);
    while (bytes > 0)
        all = all << 8 | b[--bytes];
    return all;
}

static uint64_t hash(const uint8_t *bytes, size_t n)
{
    uint64_t sum = UINT64_C(0xCBF29CE484222325);
    size_t i;

    for (i = 0; i < n; i++)
        sum = (sum ^ bytes[i]) * UINT64_C(0x100000001B3);
    return sum;
}

/* Memory that ends with the image, at any alignment: what reads or writes behind it is seen by a sanitizer. */
struct lent {
    uint8_t *block, *image;
};

static struct lent lend(const uint8_t *bytes, size_t length, size_t shift)
{
    struct lent l;

    l.block = malloc(shift + length + !(shift + length));
    if (!l.block)
        fail("no memory");
    l.image = l.block + shift;
    if (length > 0)
        memcpy(l.image, bytes, length);
    return l;
}

static void one_call(const struct lent *step, const struct lent *serve, size_t length)
{
    uint8_t kind = (uint8_t)number(1);
    uint32_t n[9];
    struct ntk_outcome o;
    uint64_t after;
    size_t i;

    for (i = 0; i < 9; i++)
        n[i] = (uint32_t)number(4);
    after = number(8);
    calls++;
    o = ntk_step(kind, n[0], n[1], n[2], n[3], n[4], n[5], step->image, length);
    if (o.answer != n[6] || o.runs != n[7] || o.further != n[8])
        fail("ntk_step has another outcome");
    if (hash(step->image, length) != after)
        fail("ntk_step leaves other bytes");
    if (!serve)
        return;
    served++;
    o = ntk_serve(kind, n[0], n[1], n[2], n[3], n[4], n[5], serve->image, length);
    if (o.answer != n[6] || o.runs != n[7] || o.further != n[8])
        fail("ntk_serve has another outcome");
    if (memcmp(step->image, serve->image, length) != 0)
        fail("ntk_serve leaves other bytes");
}

static void one_image(size_t length)
{
    static uint8_t bytes[8192];
    struct lent step, serve;
    uint64_t left;
    int is_sound;

    if (length > sizeof bytes)
        fail("too long an image");
    get(bytes, length);
    is_sound = (int)number(1);
    step = lend(bytes, length, images % 8);
    serve = lend(bytes, length, (images + 3) % 8);
    for (left = number(4); left > 0; left--)
        one_call(&step, is_sound ? &serve : NULL, length);
    free(step.block);
    free(serve.block);
}

/* A length that ends in the bits of the right one is a wrong one too. */
static void long_image(size_t more)
{
    uint8_t *image = malloc(NTK_IMAGE_SIZE + more);
    struct ntk_outcome o;

    if (!image) {
        printf("no memory for an image of %lu bytes too many; ", (unsigned long)more);
        return;
    }
    if (ntk_fresh(image, NTK_IMAGE_SIZE) != NTK_DONE)
        fail("no fresh table");
    o = ntk_step(NTK_TICK, 0, 0, 0, 0, 0, 0, image, NTK_IMAGE_SIZE + more);
    if (o.answer != NTK_NOT_SOUND || o.runs != 0 || ntk_read(NTK_FIELD_TICK, 0, image, NTK_IMAGE_SIZE + more) != NTK_NO_FIELD)
        fail("too long an image is taken");
    free(image);
}

int main(int argc, char **argv)
{
    int first;

    record = argc == 2 ? fopen(argv[1], "rb") : NULL;
    if (!record) {
        printf("usage: replay FILE, one that can be read\n");
        return 2;
    }
    if (ntk_version() != NTK_VERSION)
        fail("another version");
    long_image(65536);
#if SIZE_MAX > UINT32_MAX
    long_image((size_t)UINT32_MAX + 1);
#endif
    while ((first = getc(record)) != EOF) {
        ungetc(first, record);
        one_image((size_t)number(4));
        images++;
    }
    printf("%lu calls on %lu images by ntk_step, %lu of them by ntk_serve too\n", calls, images, served);
    return calls > 0 ? 0 : 1;
}
