/* tape: call tapes written, read and told. tape.1 is its page. */
#include <errno.h>
#include <stdlib.h>
#include <string.h>

#include "kinds.h"
#include "tape.h"
#include "tell.h"

static void help(void)
{
    size_t i;

    write_line(stdout, "usage: tape asm [-o TAPE] [TEXT]    a tape from text, a call a line");
    write_line(stdout, "       tape dis [TAPE]              the text of a tape");
    write_line(stdout, "       tape trace [--table] [TAPE]  plays a tape, and tells each call and, with --table, what it changed");
    write_line(stdout, "       tape why [IMAGE]             which standing rule a saved table breaks");
    write_line(stdout, "Without a file it is standard input. The calls, each also with `interrupt` before it:");
    for (i = 0; i < kind_count; i++) {
        struct line line = {0};

        line_add(&line, "  ");
        kind_usage(&line, &kinds[i]);
        write_line(stdout, line.text);
    }
    end_writing(stdout, NULL);
}

/* The one word that is left, a file, or NULL. */
static const char *file_of(int count, char **words)
{
    if (count > 0 && words[0][0] == '-' && words[0][1] != '\0')
        fail("no such option: %s (tape --help)", words[0]);
    if (count > 1)
        fail("more than one file: %s", words[1]);
    return count > 0 && strcmp(words[0], "-") != 0 ? words[0] : NULL;
}

/* The text is read to its end before the tape is opened: a bad line leaves a tape that is there. */
static void run_asm(int count, char **words)
{
    struct bytes bytes = {0};
    const char *name, *tape = NULL;
    FILE *out = stdout;

    if (count > 0 && strcmp(words[0], "-o") == 0) {
        if (count < 2)
            fail("-o: its file is missing");
        tape = words[1];
        count -= 2;
        words += 2;
    }
    name = file_of(count, words);
    assemble(open_to_read(name), name, &bytes);
    if (tape && !(out = fopen(tape, "wb")))
        fail("%s: %s", tape, strerror(errno));
    if (bytes.count > 0 && fwrite(bytes.data, 1, bytes.count, out) != bytes.count)
        cannot_write(tape);
    end_writing(out, tape);
    free(bytes.data);
}

static void run_trace(int count, char **words)
{
    int with_table = count > 0 && strcmp(words[0], "--table") == 0;
    const char *name = file_of(count - with_table, words + with_table);

    trace(open_to_read(name), name, stdout, with_table);
    end_writing(stdout, NULL);
}

static void run_reading(void (*reading)(FILE *, const char *, FILE *), int count, char **words)
{
    const char *name = file_of(count, words);

    reading(open_to_read(name), name, stdout);
    end_writing(stdout, NULL);
}

int main(int count, char **words)
{
    const char *command = count > 1 ? words[1] : "";

    if (strcmp(command, "asm") == 0)
        run_asm(count - 2, words + 2);
    else if (strcmp(command, "dis") == 0)
        run_reading(disassemble, count - 2, words + 2);
    else if (strcmp(command, "trace") == 0)
        run_trace(count - 2, words + 2);
    else if (strcmp(command, "why") == 0)
        run_reading(why, count - 2, words + 2);
    else if (strcmp(command, "--help") == 0)
        help();
    else
        fail("a command is wanted, asm, dis, trace or why, not '%s' (tape --help)", command);
    return 0;
}
