/* Bytes to text. */
#include "kinds.h"
#include "reel.h"
#include "tape.h"
#include "tell.h"

#define BYTES_A_LINE 16

/* What is bad and all behind it, so that the text gives the same bytes. */
static void write_bad(struct reel *reel, FILE *out)
{
    struct line line = {0};
    size_t i, count = reel->count;
    int byte;

    line_add(&line, "# ");
    reel_bad(&line, reel);
    write_line(out, line.text);
    line = (struct line){0};
    line_add(&line, "bad");
    for (i = 0; i < reel->count; i++)
        line_add(&line, " %02X", reel->bytes[i]);
    while ((byte = fgetc(reel->file)) != EOF) {
        if (count++ % BYTES_A_LINE == 0) {
            write_line(out, line.text);
            line = (struct line){0};
            line_add(&line, "bad");
        }
        line_add(&line, " %02X", (unsigned)byte);
    }
    write_line(out, line.text);
}

void disassemble(FILE *tape, const char *name, FILE *out)
{
    struct reel reel = reel_of(tape);
    struct call call;
    enum got got;

    while ((got = reel_next(&reel, &call)) == GOT_CALL) {
        struct line line = {0};

        call_text(&line, &call);
        write_line(out, line.text);
        progress(reel.calls, "calls");
    }
    if (got == GOT_BAD)
        write_bad(&reel, out);
    end_reading(tape, name);
}
