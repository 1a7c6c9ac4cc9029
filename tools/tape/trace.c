/* A tape played call by call, each told in words. */
#include <string.h>

#include "kinds.h"
#include "nonthachak.h"
#include "reel.h"
#include "tape.h"
#include "tell.h"

/* Fills up to a column, and leaves two spaces in any case: a column is told from the next by them. */
static void pad(struct line *line, size_t column)
{
    line_add(line, "  ");
    while (line->length < column)
        line_add(line, " ");
}

static void add_task(struct line *line, uint32_t runs, const char *none)
{
    if (runs == 0)
        line_add(line, "%s", none);
    else
        line_add(line, "task %lu", (unsigned long)(runs - 1));
}

enum { CALLER = 8, WORDS = 19, ANSWER = 74, RUNS = 95 };

static void write_heading(FILE *out)
{
    struct line line = {0};

    line_add(&line, "  call");
    pad(&line, CALLER);
    line_add(&line, "caller");
    pad(&line, WORDS);
    line_add(&line, "what");
    pad(&line, ANSWER);
    line_add(&line, "answer");
    pad(&line, RUNS);
    line_add(&line, "runs");
    write_line(out, line.text);
}

static void write_call(FILE *out, const struct reel *reel, const struct call *call, uint32_t caller, struct ntk_outcome outcome)
{
    struct line line = {0};

    line_add(&line, "%6llu", (unsigned long long)reel->calls);
    pad(&line, CALLER);
    if (call->interrupt)
        line_add(&line, "interrupt");
    else
        add_task(&line, caller, "none");
    pad(&line, WORDS);
    call_words(&line, call);
    pad(&line, ANSWER);
    line_add(&line, "%lu %s", (unsigned long)outcome.answer, ntk_answer_name(outcome.answer));
    if (outcome.further > 0)
        line_add(&line, ", %lu message%s", (unsigned long)outcome.further, outcome.further == 1 ? "" : "s");
    pad(&line, RUNS);
    add_task(&line, outcome.runs, "none");
    write_line(out, line.text);
}

static void write_bad(FILE *out, const struct reel *reel)
{
    struct line line = {0};

    if (reel->at == 0)
        write_heading(out);
    line_add(&line, "%6llu", (unsigned long long)(reel->calls + 1));
    pad(&line, CALLER);
    line_add(&line, "bad, ");
    reel_bad(&line, reel);
    write_line(out, line.text);
}

void trace(FILE *tape, const char *name, FILE *out, int with_table)
{
    static uint8_t image[NTK_IMAGE_SIZE], before[NTK_IMAGE_SIZE];
    struct reel reel = reel_of(tape);
    struct call call;
    enum got got;

    ntk_fresh(image, sizeof image);
    while ((got = reel_next(&reel, &call)) == GOT_CALL) {
        const uint32_t *n = call.numbers;
        uint8_t kind = reel.bytes[0];
        struct ntk_outcome outcome;

        if (reel.at == 0)
            write_heading(out);
        memcpy(before, image, sizeof image);
        outcome = ntk_step(kind, n[0], n[1], n[2], n[3], n[4], n[5], image, sizeof image);
        write_call(out, &reel, &call, ntk_running(before), outcome);
        if (with_table)
            write_changes(out, before, image);
        progress(reel.calls, "calls");
    }
    if (got == GOT_BAD)
        write_bad(out, &reel);
    end_reading(tape, name);
}
