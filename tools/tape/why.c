/* What a saved image breaks, in words, and the numbers of the record where. Every field is read with ntk_read: no byte of the image is known here. */
#include <stdlib.h>

#include "line.h"
#include "nonthachak.h"
#include "tape.h"
#include "tell.h"

#define COUNT(a) (sizeof(a) / sizeof *(a))

/* A field as it stands in the bytes: a damaged one may mean nothing. */
struct shown {
    uint32_t field;
    const char *name;
};

static const struct shown task_fields[] = {
    {NTK_FIELD_TASK_IN_USE, "in use"},
    {NTK_FIELD_TASK_BASE, "base priority"},
    {NTK_FIELD_TASK_WORK, "working priority"},
    {NTK_FIELD_TASK_SUSPEND, "suspend count"},
    {NTK_FIELD_TASK_QUANTUM, "quantum"},
    {NTK_FIELD_TASK_LEFT, "left of it"},
    {NTK_FIELD_TASK_STATE, "state"},
    {NTK_FIELD_TASK_OBJECT, "object"},
    {NTK_FIELD_TASK_MARKED, "has a due mark"},
    {NTK_FIELD_TASK_DUE, "due mark"},
    {NTK_FIELD_TASK_OUTCOME, "outcome"},
    {NTK_FIELD_TASK_MASK, "mask"},
    {NTK_FIELD_TASK_TEST, "test"},
    {NTK_FIELD_TASK_CONSUME, "consume"},
    {NTK_FIELD_TASK_MESSAGE, "message"},
};

static const struct shown semaphore_fields[] = {{NTK_FIELD_SEMAPHORE_IN_USE, "in use"}, {NTK_FIELD_SEMAPHORE_COUNT, "count"}};

static const struct shown mutex_fields[] = {
    {NTK_FIELD_MUTEX_IN_USE, "in use"},
    {NTK_FIELD_MUTEX_HOLDER, "holder plus 1"},
    {NTK_FIELD_MUTEX_NESTING, "nesting"},
};

static const struct shown group_fields[] = {{NTK_FIELD_GROUP_IN_USE, "in use"}, {NTK_FIELD_GROUP_FLAGS, "flags"}};

static const struct shown channel_fields[] = {
    {NTK_FIELD_CHANNEL_USED, "in use"},
    {NTK_FIELD_CHANNEL_CAPACITY, "capacity"},
    {NTK_FIELD_CHANNEL_HELD, "messages held"},
};

static const struct shown single_fields[] = {
    {NTK_FIELD_TICK, "tick counter"},
    {NTK_FIELD_DEFAULT_QUANTUM, "default quantum"},
    {NTK_FIELD_DEPTH, "lock depth"},
    {NTK_FIELD_RUNNING, "running task plus 1"},
};

/* Whose the rules of a range are. The table's own numbers have no name. */
static const struct owner {
    uint32_t first, last;
    const char *name;
    const struct shown *fields;
    size_t count;
} owners[] = {
    {NTK_RULE_TASK_USED, NTK_RULE_TASK_TURN, "task", task_fields, COUNT(task_fields)},
    {NTK_RULE_SEMAPHORE_USED, NTK_RULE_SEMAPHORE_FREE, "semaphore", semaphore_fields, COUNT(semaphore_fields)},
    {NTK_RULE_MUTEX_USED, NTK_RULE_MUTEX_HELD, "mutex", mutex_fields, COUNT(mutex_fields)},
    {NTK_RULE_GROUP_USED, NTK_RULE_GROUP_FREE, "group", group_fields, COUNT(group_fields)},
    {NTK_RULE_CHANNEL_USED, NTK_RULE_CHANNEL_ROOM, "channel", channel_fields, COUNT(channel_fields)},
    {NTK_RULE_WAIT_USED, NTK_RULE_WAIT_APART, "task", task_fields, COUNT(task_fields)},
    {NTK_RULE_HOLDER_USED, NTK_RULE_HOLDER_USED, "mutex", mutex_fields, COUNT(mutex_fields)},
    {NTK_RULE_TASK_WORKED, NTK_RULE_TASK_NOT_DUE, "task", task_fields, COUNT(task_fields)},
    {NTK_RULE_TICK_RANGE, NTK_RULE_READY_WORD, NULL, single_fields, COUNT(single_fields)},
};

static void add_queue_name(struct line *line, unsigned long queue)
{
    if (queue == NTK_ABLE_QUEUE)
        line_add(line, "the able queue");
    else if (queue < NTK_MUTEX_QUEUE(0))
        line_add(line, "the queue of semaphore %lu", queue - NTK_SEMAPHORE_QUEUE(0));
    else if (queue < NTK_GROUP_QUEUE(0))
        line_add(line, "the queue of mutex %lu", queue - NTK_MUTEX_QUEUE(0));
    else if (queue < NTK_CHANNEL_QUEUE(0))
        line_add(line, "the queue of group %lu", queue - NTK_GROUP_QUEUE(0));
    else
        line_add(line, "the queue of channel %lu", queue - NTK_CHANNEL_QUEUE(0));
}

static void write_fields(FILE *out, const struct shown *fields, size_t count, uint32_t number, const uint8_t *image)
{
    struct line line = {0};
    size_t i;

    for (i = 0; i < count; i++)
        line_add(&line, "%s%s %llu", i ? ", " : "    ", fields[i].name,
                 (unsigned long long)ntk_read(fields[i].field, number, image, NTK_IMAGE_SIZE));
    write_line(out, line.text);
}

/* The entries of a field from number `first` on, at most `count`, up to the last that is not 0. */
static void write_entries(FILE *out, const char *what, uint32_t field, uint32_t first, uint32_t count, const uint8_t *image)
{
    struct line line = {0};
    uint32_t j;

    while (count > 0 && ntk_read(field, first + count - 1, image, NTK_IMAGE_SIZE) == 0)
        count--;
    line_add(&line, "    %s:", what);
    for (j = 0; j < count; j++)
        line_add(&line, " %llu", (unsigned long long)ntk_read(field, first + j, image, NTK_IMAGE_SIZE));
    if (count == 0)
        line_add(&line, " all free");
    write_line(out, line.text);
}

static void write_headline(FILE *out, const char *where, uint32_t rule)
{
    struct line line = {0};

    line_add(&line, "not sound: %s%s%s (rule 0x%02lX)", where, where[0] ? ": " : "", ntk_rule_name(rule), (unsigned long)rule);
    write_line(out, line.text);
}

static void write_queue_rule(FILE *out, struct ntk_reason reason, const uint8_t *image)
{
    uint32_t queue = NTK_QUEUE_AT(reason.number), slot = NTK_SLOT_AT(reason.number);
    int of_task = reason.rule == NTK_RULE_QUEUE_PLACES;
    struct line where = {0};

    line_add(&where, of_task ? "task %lu in " : "slot %lu of ", (unsigned long)slot);
    add_queue_name(&where, queue);
    write_headline(out, where.text, reason.rule);
    write_entries(out, "slots, task plus 1", NTK_FIELD_QUEUE_SLOT, NTK_SLOT(queue, 0), NTK_TASKS, image);
    if (of_task)
        write_fields(out, task_fields, COUNT(task_fields), slot, image);
}

static void write_message_rule(FILE *out, struct ntk_reason reason, const uint8_t *image)
{
    uint32_t channel = NTK_CHANNEL_AT(reason.number);
    struct line where = {0};

    line_add(&where, "slot %lu of channel %lu", (unsigned long)NTK_MESSAGE_AT(reason.number), (unsigned long)channel);
    write_headline(out, where.text, reason.rule);
    write_fields(out, channel_fields, COUNT(channel_fields), channel, image);
    write_entries(out, "messages", NTK_FIELD_MESSAGE, NTK_MESSAGE(channel, 0), NTK_MOST_MESSAGES, image);
}

/* The word's levels, and beside them the able tasks with theirs: their queue is right, as its rules come before. */
static void write_ready_rule(FILE *out, struct ntk_reason reason, const uint8_t *image)
{
    struct line where = {0}, word = {0}, able = {0};
    uint32_t j, task;

    line_add(&where, "level %lu", (unsigned long)reason.number);
    write_headline(out, where.text, reason.rule);
    line_add(&word, "    ready word 0x%016llx, its levels: ", (unsigned long long)ntk_ready(image));
    add_levels(&word, image);
    write_line(out, word.text);
    line_add(&able, "    able tasks:");
    for (j = 0; j < NTK_TASKS && (task = ntk_task_of(ntk_slot_of(image, NTK_ABLE_QUEUE, j))) != NTK_NONE; j++)
        line_add(&able, "%s %lu at level %llu", j ? "," : "", (unsigned long)task, (unsigned long long)ntk_priority_of(image, task));
    if (j == 0)
        line_add(&able, " none");
    write_line(out, able.text);
}

static void write_reason(FILE *out, struct ntk_reason reason, const uint8_t *image)
{
    struct line where = {0};
    size_t i;

    for (i = 0; i < COUNT(owners); i++) {
        const struct owner *o = &owners[i];

        if (reason.rule < o->first || reason.rule > o->last)
            continue;
        if (o->name)
            line_add(&where, "%s %lu", o->name, (unsigned long)reason.number);
        write_headline(out, where.text, reason.rule);
        write_fields(out, o->fields, o->count, reason.number, image);
        return;
    }
    if (reason.rule == NTK_RULE_MESSAGE_RANGE || reason.rule == NTK_RULE_MESSAGE_UNUSED)
        write_message_rule(out, reason, image);
    else if (reason.rule == NTK_RULE_READY_LEVELS)
        write_ready_rule(out, reason, image);
    else
        write_queue_rule(out, reason, image);
}

static void write_wrong_length(FILE *out, size_t length)
{
    struct line line = {0};

    line_add(&line, "not sound: wrong length (rule 0x%02X): %lu bytes, not %d", NTK_RULE_WRONG_LENGTH, (unsigned long)length, NTK_IMAGE_SIZE);
    write_line(out, line.text);
}

void why(FILE *image, const char *name, FILE *out)
{
    struct bytes bytes = {0};
    struct ntk_reason reason;
    int byte;

    bytes_add(&bytes, 0); /* so that there is memory for an empty file too */
    bytes.count = 0;
    while ((byte = fgetc(image)) != EOF)
        bytes_add(&bytes, (uint8_t)byte);
    end_reading(image, name);
    reason = ntk_why(bytes.data, bytes.count);
    if (reason.rule == NTK_RULE_NONE)
        write_line(out, "sound");
    else if (reason.rule == NTK_RULE_WRONG_LENGTH)
        write_wrong_length(out, bytes.count);
    else
        write_reason(out, reason, bytes.data);
    free(bytes.data);
}
