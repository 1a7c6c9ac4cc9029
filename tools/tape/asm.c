/* Text to bytes. */
#define _POSIX_C_SOURCE 200809L
#include <ctype.h>
#include <stdarg.h>
#include <stdlib.h>
#include <string.h>
#include <sys/types.h>

#include "kinds.h"
#include "tape.h"
#include "tell.h"

struct reader {
    const char *name;
    unsigned long line;
    char *word;  /* the last that was read */
    char *rest;  /* what stands behind it */
    struct bytes *bytes;
    unsigned long bad_line; /* the first of bytes that are no call, or 0 */
    size_t bad_at;
};

void bytes_add(struct bytes *bytes, uint8_t byte)
{
    if (bytes->count == bytes->room) {
        bytes->room = bytes->room ? 2 * bytes->room : 4096;
        bytes->data = realloc(bytes->data, bytes->room);
        if (!bytes->data)
            fail("there is no room for %zu bytes", bytes->room);
    }
    bytes->data[bytes->count++] = byte;
}

static void refuse(const struct reader *reader, unsigned long line, const char *format, ...)
    __attribute__((noreturn, format(printf, 3, 4)));

static void refuse(const struct reader *reader, unsigned long line, const char *format, ...)
{
    char what[512];
    va_list words;

    va_start(words, format);
    vsnprintf(what, sizeof what, format, words);
    va_end(words);
    fail("%s, line %lu: %s", name_of(reader->name), line, what);
}

static int next_word(struct reader *reader)
{
    static const char spaces[] = " \t\r\n\v\f";
    char *word = reader->rest + strspn(reader->rest, spaces);
    char *end = word + strcspn(word, spaces);

    if (end == word)
        return 0;
    reader->word = word;
    reader->rest = *end ? end + 1 : end;
    *end = '\0';
    return 1;
}

/* The number in a word, decimal or with 0x in hex, at most `most`. */
static uint32_t number_in(const struct reader *reader, const char *word, const struct form *form)
{
    static const char digits[] = "0123456789abcdef";
    unsigned radix = 10;
    uint64_t number = 0;
    const char *at = word;

    if (at[0] == '0' && (at[1] == 'x' || at[1] == 'X') && at[2]) {
        radix = 16;
        at += 2;
    }
    do {
        const char *digit = *at ? strchr(digits, tolower((unsigned char)*at)) : NULL;

        if (!digit || digit >= digits + radix)
            refuse(reader, reader->line, "%s: no number: %.40s", form->name, word);
        number = number * radix + (uint64_t)(digit - digits);
        if (number > form_most(form))
            refuse(reader, reader->line, "%s: %.40s is above %lu", form->name, word, (unsigned long)form_most(form));
    } while (*++at);
    return (uint32_t)number;
}

static void want_word(struct reader *reader, const struct kind *kind, const struct form *form)
{
    struct line usage = {0};

    if (next_word(reader))
        return;
    form_usage(&usage, form);
    refuse(reader, reader->line, "%s: the %s is missing: %s", kind->name, form->name, usage.text);
}

static uint32_t read_number(struct reader *reader, const struct kind *kind, const struct form *form)
{
    struct line usage = {0};
    size_t length = strlen(form->name);
    uint32_t n;

    want_word(reader, kind, form);
    for (n = 0; form->values[n].text; n++)
        if (strcmp(reader->word, form->values[n].text) == 0)
            return n;
    if (form->labelled && strcmp(reader->word, form->name) == 0) {
        want_word(reader, kind, form);
        return number_in(reader, reader->word, form);
    }
    if (n == 0 && !form->labelled)
        return number_in(reader, reader->word, form);
    if (!form->labelled && strncmp(reader->word, form->name, length) == 0 && reader->word[length] == '=')
        return number_in(reader, reader->word + length + 1, form);
    form_usage(&usage, form);
    refuse(reader, reader->line, "%s: not %.40s here, but %s", kind->name, reader->word, usage.text);
}

/* Bytes that are no call: only more of them may follow. */
static void read_bad(struct reader *reader)
{
    size_t before = reader->bytes->count;

    if (reader->bad_line == 0) {
        reader->bad_line = reader->line;
        reader->bad_at = before;
    }
    while (next_word(reader)) {
        const char *word = reader->word;

        if (strlen(word) != 2 || !isxdigit((unsigned char)word[0]) || !isxdigit((unsigned char)word[1]))
            refuse(reader, reader->line, "bad: two hex digits a byte, not %.40s", word);
        bytes_add(reader->bytes, (uint8_t)strtoul(word, NULL, 16));
    }
    if (reader->bytes->count == before)
        refuse(reader, reader->line, "bad: its bytes are missing");
}

static void read_call(struct reader *reader)
{
    struct call call = {0};
    uint8_t bytes[LONGEST_CALL];
    size_t i, count;

    if (reader->bad_line)
        refuse(reader, reader->line, "a call behind the bad bytes of line %lu", reader->bad_line);
    if (strcmp(reader->word, "interrupt") == 0) {
        call.interrupt = 1;
        if (!next_word(reader))
            refuse(reader, reader->line, "interrupt: its call is missing");
    }
    call.kind = kind_of_name(reader->word);
    if (!call.kind)
        refuse(reader, reader->line, "no such call: %.40s", reader->word);
    for (i = 0; i < kind_numbers(call.kind); i++)
        call.numbers[i] = read_number(reader, call.kind, call.kind->forms[i]);
    if (next_word(reader))
        refuse(reader, reader->line, "%s: nothing more stands here: %.40s", call.kind->name, reader->word);
    count = call_to_bytes(&call, bytes);
    for (i = 0; i < count; i++)
        bytes_add(reader->bytes, bytes[i]);
}

static void read_line(struct reader *reader, char *line, size_t length)
{
    if (memchr(line, '\0', length))
        refuse(reader, reader->line, "a zero byte: this is no text");
    line[strcspn(line, "#")] = '\0';
    reader->rest = line;
    if (!next_word(reader))
        return;
    if (strcmp(reader->word, "bad") == 0)
        read_bad(reader);
    else
        read_call(reader);
}

/* A text that says `bad` of a whole call would come back from `dis` as another. */
static void test_bad(const struct reader *reader)
{
    const struct bytes *bytes = reader->bytes;
    const struct kind *kind;

    if (reader->bad_line == 0)
        return;
    kind = kind_of_byte(bytes->data[reader->bad_at]);
    if (kind && bytes->count - reader->bad_at >= 1 + kind_body(kind))
        refuse(reader, reader->bad_line, "bad: these bytes are a call: %s", kind->name);
}

void assemble(FILE *text, const char *name, struct bytes *bytes)
{
    struct reader reader = {.name = name, .bytes = bytes};
    char *line = NULL;
    size_t room = 0;
    ssize_t length;

    while ((length = getline(&line, &room, text)) >= 0) {
        reader.line++;
        read_line(&reader, line, (size_t)length);
        progress(reader.line, "lines");
    }
    end_reading(text, name);
    test_bad(&reader);
    free(line);
}
