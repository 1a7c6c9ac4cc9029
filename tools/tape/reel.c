#include "reel.h"

#include <string.h>

struct reel reel_of(FILE *file)
{
    struct reel reel;

    memset(&reel, 0, sizeof reel);
    reel.file = file;
    return reel;
}

enum got reel_next(struct reel *reel, struct call *call)
{
    size_t body;

    reel->at += reel->count;
    reel->count = fread(reel->bytes, 1, 1, reel->file);
    if (reel->count == 0)
        return GOT_END;
    call->kind = kind_of_byte(reel->bytes[0]);
    if (!call->kind)
        return GOT_BAD;
    body = kind_body(call->kind);
    reel->count += fread(reel->bytes + 1, 1, body, reel->file);
    if (reel->count < 1 + body)
        return ferror(reel->file) ? GOT_END : GOT_BAD;
    call->interrupt = reel->bytes[0] != call->kind->byte;
    call_from_body(call, reel->bytes + 1);
    reel->calls++;
    return GOT_CALL;
}

void reel_bad(struct line *line, const struct reel *reel)
{
    const struct kind *kind = kind_of_byte(reel->bytes[0]);

    line_add(line, "byte %llu: ", (unsigned long long)reel->at);
    if (!kind)
        line_add(line, "%02X is no kind", reel->bytes[0]);
    else
        line_add(line, "a %s has %zu bytes, and the tape ends after %zu", kind->name, 1 + kind_body(kind), reel->count);
}
