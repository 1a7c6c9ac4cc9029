#include "kinds.h"

#include <string.h>

#include "nonthachak.h"

/* ---- the table */

static const struct form number = {.name = "number", .width = 1};
static const struct form base = {.name = "base", .width = 1, .labelled = 1};
static const struct form quantum = {.name = "quantum", .width = 2, .labelled = 1};
static const struct form ticks = {.name = "ticks", .width = 4, .unit = "tick"};
static const struct form count = {.name = "count", .width = 4, .labelled = 1};
static const struct form flags = {.name = "flags", .width = 4, .labelled = 1, .hex = 1};
static const struct form mask = {.name = "mask", .width = 4, .labelled = 1, .hex = 1};
static const struct form capacity = {.name = "capacity", .width = 1, .labelled = 1};
static const struct form message = {.name = "message", .width = 4, .labelled = 1};
static const struct form limit = {
    .name = "limit", .width = 4, .labelled = 1, .before = "for at most ", .unit = "tick", .values = {{"forever", "for ever"}}};
static const struct form block = {.name = "block", .width = 1, .values = {{"noblock", "not blocking"}, {"block", "blocking"}}};
static const struct form force = {.name = "force", .width = 1, .values = {{"unforced", "unforced"}, {"forced", "forced"}}};
static const struct form on = {.name = "on", .width = 1, .values = {{"clear", "cleared"}, {"set", "set"}}};
static const struct form front = {.name = "front", .width = 1, .values = {{"end", "at the end"}, {"front", "in front"}}};
const struct form form_test = {
    .name = "test",
    .width = 1,
    .values = {{"all_set", "all set"}, {"any_set", "any set"}, {"all_clear", "all clear"}, {"any_clear", "any clear"}}};
const struct form form_consume = {.name = "consume", .width = 1, .values = {{"keep", "keeping them"}, {"consume", "consuming them"}}};

const struct kind kinds[] = {
    {NTK_TASK_CREATE, "task_create", "create task %, base priority %, quantum %", {&number, &base, &quantum}},
    {NTK_TASK_DELETE, "task_delete", "delete task %", {&number}},
    {NTK_CHANGE_PRIORITY, "change_priority", "give task % the base priority %", {&number, &base}},
    {NTK_SUSPEND, "suspend", "suspend task %", {&number}},
    {NTK_RESUME, "resume", "resume task %", {&number}},
    {NTK_YIELD, "yield", "yield", {NULL}},
    {NTK_DELAY, "delay", "sleep for %", {&ticks}},
    {NTK_DELAY_RESUME, "delay_resume", "end the delay of task %", {&number}},
    {NTK_LOCK, "lock", "lock", {NULL}},
    {NTK_UNLOCK, "unlock", "unlock", {NULL}},
    {NTK_TICK, "tick", "tick", {NULL}},
    {NTK_SET_DEFAULT_QUANTUM, "set_default_quantum", "set the default quantum to %", {&quantum}},
    {NTK_SEMAPHORE_CREATE, "semaphore_create", "create semaphore %, count %", {&number, &count}},
    {NTK_SEMAPHORE_DELETE, "semaphore_delete", "delete semaphore %, %", {&number, &force}},
    {NTK_SEMAPHORE_WAIT, "semaphore_wait", "wait for semaphore %, %, %", {&number, &block, &limit}},
    {NTK_SEMAPHORE_POST, "semaphore_post", "post semaphore %", {&number}},
    {NTK_SEMAPHORE_ABORT, "semaphore_abort", "abort the first wait for semaphore %", {&number}},
    {NTK_MUTEX_CREATE, "mutex_create", "create mutex %", {&number}},
    {NTK_MUTEX_DELETE, "mutex_delete", "delete mutex %, %", {&number, &force}},
    {NTK_MUTEX_WAIT, "mutex_wait", "wait for mutex %, %, %", {&number, &block, &limit}},
    {NTK_MUTEX_POST, "mutex_post", "post mutex %", {&number}},
    {NTK_MUTEX_ABORT, "mutex_abort", "abort the first wait for mutex %", {&number}},
    {NTK_GROUP_CREATE, "group_create", "create group %, flags %", {&number, &flags}},
    {NTK_GROUP_DELETE, "group_delete", "delete group %, %", {&number, &force}},
    {NTK_GROUP_WAIT,
     "group_wait",
     "wait for group %, %, %, flags % %, %",
     {&number, &block, &limit, &mask, &form_test, &form_consume}},
    {NTK_GROUP_POST, "group_post", "post group %, flags % %", {&number, &mask, &on}},
    {NTK_GROUP_ABORT, "group_abort", "abort the first wait for group %", {&number}},
    {NTK_CHANNEL_CREATE, "channel_create", "create channel %, capacity %", {&number, &capacity}},
    {NTK_CHANNEL_DELETE, "channel_delete", "delete channel %, %", {&number, &force}},
    {NTK_CHANNEL_WAIT, "channel_wait", "wait for channel %, %, %", {&number, &block, &limit}},
    {NTK_CHANNEL_POST, "channel_post", "post channel %, message % %", {&number, &message, &front}},
    {NTK_CHANNEL_ABORT, "channel_abort", "abort the first wait for channel %", {&number}},
    {NTK_CHANNEL_FLUSH, "channel_flush", "flush channel %", {&number}},
};
const size_t kind_count = sizeof kinds / sizeof *kinds;

/* ---- rows of it */

const struct kind *kind_of_byte(uint8_t byte)
{
    size_t i;

    for (i = 0; i < kind_count; i++)
        if (kinds[i].byte == (byte & ~NTK_INTERRUPT))
            return &kinds[i];
    return NULL;
}

const struct kind *kind_of_name(const char *name)
{
    size_t i;

    for (i = 0; i < kind_count; i++)
        if (strcmp(kinds[i].name, name) == 0)
            return &kinds[i];
    return NULL;
}

size_t kind_numbers(const struct kind *kind)
{
    size_t i = 0;

    while (i < MOST_NUMBERS && kind->forms[i])
        i++;
    return i;
}

size_t kind_body(const struct kind *kind)
{
    size_t i, bytes = 0;

    for (i = 0; i < kind_numbers(kind); i++)
        bytes += kind->forms[i]->width;
    return bytes;
}

/* ---- one number */

uint32_t form_most(const struct form *form)
{
    return UINT32_MAX >> (32 - 8 * form->width);
}

static size_t value_count(const struct form *form)
{
    size_t i = 0;

    while (i < sizeof form->values / sizeof *form->values && form->values[i].text)
        i++;
    return i;
}

static void add_number(struct line *line, const struct form *form, uint32_t n)
{
    if (form->hex)
        line_add(line, "0x%lx", (unsigned long)n);
    else
        line_add(line, "%lu", (unsigned long)n);
}

/* What stands in text before a number that has no name. */
static void add_label(struct line *line, const struct form *form)
{
    if (form->labelled)
        line_add(line, "%s ", form->name);
    else if (value_count(form) > 0)
        line_add(line, "%s=", form->name);
}

void form_text(struct line *line, const struct form *form, uint32_t n)
{
    if (n < value_count(form)) {
        line_add(line, "%s", form->values[n].text);
        return;
    }
    add_label(line, form);
    add_number(line, form, n);
}

void form_words(struct line *line, const struct form *form, uint32_t n)
{
    if (n < value_count(form)) {
        line_add(line, "%s", form->values[n].words);
        return;
    }
    if (form->before)
        line_add(line, "%s", form->before);
    else if (value_count(form) > 0)
        line_add(line, "%s ", form->name);
    add_number(line, form, n);
    if (form->unit)
        line_add(line, " %s%s", form->unit, n == 1 ? "" : "s");
}

void form_usage(struct line *line, const struct form *form)
{
    size_t i;

    for (i = 0; i < value_count(form); i++)
        line_add(line, "%s|", form->values[i].text);
    add_label(line, form);
    line_add(line, "N");
}

/* ---- one call */

void call_from_body(struct call *call, const uint8_t *body)
{
    size_t i;
    unsigned b;

    memset(call->numbers, 0, sizeof call->numbers);
    for (i = 0; i < kind_numbers(call->kind); i++)
        for (b = 0; b < call->kind->forms[i]->width; b++)
            call->numbers[i] |= (uint32_t)*body++ << 8 * b;
}

size_t call_to_bytes(const struct call *call, uint8_t *bytes)
{
    uint8_t *at = bytes;
    size_t i;
    unsigned b;

    *at++ = (uint8_t)(call->kind->byte | (call->interrupt ? NTK_INTERRUPT : 0));
    for (i = 0; i < kind_numbers(call->kind); i++)
        for (b = 0; b < call->kind->forms[i]->width; b++)
            *at++ = (uint8_t)(call->numbers[i] >> 8 * b & 0xFF);
    return (size_t)(at - bytes);
}

void call_text(struct line *line, const struct call *call)
{
    size_t i;

    line_add(line, "%s%s", call->interrupt ? "interrupt " : "", call->kind->name);
    for (i = 0; i < kind_numbers(call->kind); i++) {
        line_add(line, " ");
        form_text(line, call->kind->forms[i], call->numbers[i]);
    }
}

void call_words(struct line *line, const struct call *call)
{
    const char *at;
    size_t i = 0;

    for (at = call->kind->words; *at; at++)
        if (*at == '%' && i < kind_numbers(call->kind)) {
            form_words(line, call->kind->forms[i], call->numbers[i]);
            i++;
        } else {
            line_add(line, "%c", *at);
        }
}

void kind_usage(struct line *line, const struct kind *kind)
{
    size_t i;

    line_add(line, "%s", kind->name);
    for (i = 0; i < kind_numbers(kind); i++) {
        line_add(line, " ");
        form_usage(line, kind->forms[i]);
    }
}
