/* 1,000 random tapes to text and back: the same bytes, and a line for each call. The lengths of the bodies are written here from
 * docs/TAPE.md, so that the tapes do not come from the table that is tested. */
#include <stdio.h>
#include <stdlib.h>
#include <string.h>

#include "tape.h"

#define TAPES 1000
#define MOST_CALLS 400

static const struct {
    uint8_t kind, body;
} kinds_of_the_page[] = {
    {0x01, 4},  {0x02, 1}, {0x03, 2}, {0x04, 1}, {0x05, 1}, {0x06, 0}, {0x07, 4}, {0x08, 1}, {0x09, 0},
    {0x0A, 0},  {0x0B, 0}, {0x0D, 2}, {0x10, 5}, {0x11, 2}, {0x12, 6}, {0x13, 1}, {0x14, 1}, {0x20, 1}, {0x21, 2},
    {0x22, 6},  {0x23, 1}, {0x24, 1}, {0x30, 5}, {0x31, 2}, {0x32, 12}, {0x33, 6}, {0x34, 1},
    {0x40, 2},  {0x41, 2}, {0x42, 6}, {0x43, 6}, {0x44, 1}, {0x45, 1},
};
#define KINDS (sizeof kinds_of_the_page / sizeof *kinds_of_the_page)

static uint64_t state = 20260115;

static unsigned below(unsigned n)
{
    state = state * 6364136223846793005u + 1442695040888963407u;
    return (unsigned)(state >> 33) % n;
}

/* Mostly what a kernel takes, now and then any byte. */
static uint8_t any_byte(void)
{
    unsigned how = below(4);

    return (uint8_t)(how == 0 ? below(256) : how == 1 ? below(3) : below(33));
}

/* A tape: whole calls, and behind them nothing, a cut call or an unknown kind with any bytes. Gives the number of whole calls. */
static unsigned make_tape(struct bytes *tape)
{
    unsigned calls = below(MOST_CALLS), end = below(4), i, b;

    for (i = 0; i <= calls; i++) {
        size_t k = below(KINDS);
        unsigned body = kinds_of_the_page[k].body;

        if (i == calls && end == 1 && body > 0)
            body = below(body);
        else if (i == calls)
            break;
        bytes_add(tape, (uint8_t)(kinds_of_the_page[k].kind | (below(4) == 0 ? 0x80 : 0)));
        for (b = 0; b < body; b++)
            bytes_add(tape, any_byte());
    }
    if (end == 2) {
        static const uint8_t unknown[] = {0x00, 0x0F, 0x1F, 0x2F, 0x3F, 0x46, 0x7F, 0x80, 0x8F, 0xBF, 0xFF};

        bytes_add(tape, unknown[below(sizeof unknown)]);
        for (b = below(60); b > 0; b--)
            bytes_add(tape, any_byte());
    }
    return calls;
}

/* The lines of a text that are calls: neither comments nor bad bytes. */
static unsigned calls_in(FILE *text)
{
    char line[512];
    unsigned calls = 0;

    rewind(text);
    while (fgets(line, sizeof line, text))
        calls += line[0] != '#' && strncmp(line, "bad ", 4) != 0;
    rewind(text);
    return calls;
}

static FILE *room(void)
{
    FILE *file = tmpfile();

    if (!file) {
        perror("ways: a temporary file");
        exit(2);
    }
    return file;
}

static int goes_both_ways(unsigned number)
{
    struct bytes tape = {0}, back = {0};
    unsigned calls = make_tape(&tape), lines;
    FILE *file = room(), *text = room();
    int same;

    if (tape.count > 0)
        fwrite(tape.data, 1, tape.count, file);
    rewind(file);
    disassemble(file, "the tape", text);
    lines = calls_in(text);
    assemble(text, "its text", &back);
    same = back.count == tape.count && (tape.count == 0 || memcmp(back.data, tape.data, tape.count) == 0);
    if (!same)
        printf("ways: tape %u comes back as other bytes\n", number);
    if (lines != calls)
        printf("ways: tape %u has %u calls, its text %u\n", number, calls, lines);
    free(tape.data);
    free(back.data);
    return same && lines == calls;
}

int main(void)
{
    unsigned i, good = 0;

    for (i = 0; i < TAPES; i++)
        good += (unsigned)goes_both_ways(i);
    printf("ways: %u of %u random tapes come back from text as the same bytes\n", good, TAPES);
    return good == TAPES ? 0 : 1;
}
