/* What changed in the table, in words. Every field is read with ntk_read: no byte of the image is known here. */
#include <string.h>

#include "kinds.h"
#include "nonthachak.h"
#include "tape.h"
#include "tell.h"

#define MOST_FIELDS 5
#define COUNT(a) (sizeof(a) / sizeof *(a))

/* Something that is said of a task or an object, with the fields it is read from. */
struct trait {
    const char *before; /* words before it */
    size_t count;
    uint32_t fields[MOST_FIELDS];
    void (*say)(struct line *line, const uint32_t *values);
};

/* Tasks, or the objects of a kind. The first trait is whether the number is in use. */
struct family {
    const char *name;
    uint32_t members;
    uint32_t first_queue; /* that of its member 0 */
    size_t count;
    const struct trait *traits;
};

/* ---- how values are said */

static void say_number(struct line *line, const uint32_t *v)
{
    line_add(line, "%lu", (unsigned long)v[0]);
}

static void say_hex(struct line *line, const uint32_t *v)
{
    line_add(line, "0x%lx", (unsigned long)v[0]);
}

static void say_use(struct line *line, const uint32_t *v)
{
    line_add(line, "%s", v[0] ? "in use" : "free");
}

static void say_task(struct line *line, const uint32_t *v)
{
    if (v[0] == 0)
        line_add(line, "none");
    else
        line_add(line, "task %lu", (unsigned long)(v[0] - 1));
}

/* State, object, mask, test, consume. */
static void say_state(struct line *line, const uint32_t *v)
{
    static const char *const states[] = {
        [NTK_PLAIN] = "plain",
        [NTK_DELAYED] = "delayed",
        [NTK_WAITS_SEMAPHORE] = "waits for semaphore",
        [NTK_WAITS_MUTEX] = "waits for mutex",
        [NTK_WAITS_FLAGS] = "waits for group",
        [NTK_WAITS_MESSAGE] = "waits for channel",
    };

    line_add(line, "%s", v[0] < COUNT(states) ? states[v[0]] : "in an unknown state");
    if (v[0] >= NTK_WAITS_SEMAPHORE)
        line_add(line, " %lu", (unsigned long)v[1]);
    if (v[0] != NTK_WAITS_FLAGS)
        return;
    line_add(line, ", flags 0x%lx ", (unsigned long)v[2]);
    form_words(line, &form_test, v[3]);
    line_add(line, ", ");
    form_words(line, &form_consume, v[4]);
}

/* Whether there is a mark, and the mark. */
static void say_due(struct line *line, const uint32_t *v)
{
    if (v[0])
        line_add(line, "due at tick %lu", (unsigned long)v[1]);
    else
        line_add(line, "no due mark");
}

static void say_outcome(struct line *line, const uint32_t *v)
{
    static const char *const outcomes[] = {
        [NTK_GIVEN] = "given",
        [NTK_TIMED_OUT] = "timed out",
        [NTK_ABORTED] = "aborted",
        [NTK_DELETED] = "object deleted",
    };

    line_add(line, "%s", v[0] < COUNT(outcomes) ? outcomes[v[0]] : "unknown");
}

/* ---- the table's fields */

static const struct trait task_traits[] = {
    {"", 1, {NTK_FIELD_TASK_IN_USE}, say_use},
    {"base priority ", 1, {NTK_FIELD_TASK_BASE}, say_number},
    {"working priority ", 1, {NTK_FIELD_TASK_WORK}, say_number},
    {"suspend count ", 1, {NTK_FIELD_TASK_SUSPEND}, say_number},
    {"quantum ", 1, {NTK_FIELD_TASK_QUANTUM}, say_number},
    {"left of it ", 1, {NTK_FIELD_TASK_LEFT}, say_number},
    {"",
     5,
     {NTK_FIELD_TASK_STATE, NTK_FIELD_TASK_OBJECT, NTK_FIELD_TASK_MASK, NTK_FIELD_TASK_TEST, NTK_FIELD_TASK_CONSUME},
     say_state},
    {"", 2, {NTK_FIELD_TASK_MARKED, NTK_FIELD_TASK_DUE}, say_due},
    {"last wait ", 1, {NTK_FIELD_TASK_OUTCOME}, say_outcome},
    {"message ", 1, {NTK_FIELD_TASK_MESSAGE}, say_number},
};

static const struct trait semaphore_traits[] = {
    {"", 1, {NTK_FIELD_SEMAPHORE_IN_USE}, say_use},
    {"count ", 1, {NTK_FIELD_SEMAPHORE_COUNT}, say_number},
};

static const struct trait mutex_traits[] = {
    {"", 1, {NTK_FIELD_MUTEX_IN_USE}, say_use},
    {"holder ", 1, {NTK_FIELD_MUTEX_HOLDER}, say_task},
    {"nesting ", 1, {NTK_FIELD_MUTEX_NESTING}, say_number},
};

static const struct trait group_traits[] = {
    {"", 1, {NTK_FIELD_GROUP_IN_USE}, say_use},
    {"flags ", 1, {NTK_FIELD_GROUP_FLAGS}, say_hex},
};

/* How many messages it holds is told with the messages. */
static const struct trait channel_traits[] = {
    {"", 1, {NTK_FIELD_CHANNEL_USED}, say_use},
    {"capacity ", 1, {NTK_FIELD_CHANNEL_CAPACITY}, say_number},
};

/* The tasks have one queue together, that of the able ones. */
static const struct family families[] = {
    {"task", NTK_TASKS, NTK_ABLE_QUEUE, COUNT(task_traits), task_traits},
    {"semaphore", NTK_SEMAPHORES, NTK_SEMAPHORE_QUEUE(0), COUNT(semaphore_traits), semaphore_traits},
    {"mutex", NTK_MUTEXES, NTK_MUTEX_QUEUE(0), COUNT(mutex_traits), mutex_traits},
    {"group", NTK_GROUPS, NTK_GROUP_QUEUE(0), COUNT(group_traits), group_traits},
    {"channel", NTK_CHANNELS, NTK_CHANNEL_QUEUE(0), COUNT(channel_traits), channel_traits},
};

static const struct trait singles[] = {
    {"tick counter ", 1, {NTK_FIELD_TICK}, say_number},
    {"default quantum ", 1, {NTK_FIELD_DEFAULT_QUANTUM}, say_number},
    {"lock depth ", 1, {NTK_FIELD_DEPTH}, say_number},
    {"running ", 1, {NTK_FIELD_RUNNING}, say_task},
};

/* ---- what changed */

static void read_trait(const struct trait *trait, uint32_t number, const uint8_t *image, uint32_t *values)
{
    size_t i;

    for (i = 0; i < trait->count; i++)
        values[i] = (uint32_t)ntk_read(trait->fields[i], number, image, NTK_IMAGE_SIZE);
}

static int is_used(const struct family *family, uint32_t number, const uint8_t *image)
{
    return ntk_read(family->traits[0].fields[0], number, image, NTK_IMAGE_SIZE) != 0;
}

/* Adds the trait where it changed, with what it was where that is wanted. */
static void add_change(struct line *line, const struct trait *trait, uint32_t number, const uint8_t *before, const uint8_t *after, int was)
{
    uint32_t old[MOST_FIELDS] = {0}, new[MOST_FIELDS] = {0};

    read_trait(trait, number, before, old);
    read_trait(trait, number, after, new);
    if (memcmp(old, new, sizeof old) == 0)
        return;
    line_add(line, "%s%s", line->length ? ", " : "", trait->before);
    trait->say(line, new);
    if (!was)
        return;
    line_add(line, " (was ");
    trait->say(line, old);
    line_add(line, ")");
}

static void write_what(FILE *out, const char *whose, uint32_t number, const struct line *what)
{
    struct line line = {0};

    if (what->length == 0)
        return;
    line_add(&line, "          %s %lu: %s", whose, (unsigned long)number, what->text);
    write_line(out, line.text);
}

/* Of a number that comes into use there is nothing that was, and of one that is freed nothing is left. */
static void write_member(FILE *out, const struct family *family, uint32_t number, const uint8_t *before, const uint8_t *after)
{
    struct line what = {0};
    int used = is_used(family, number, before);
    size_t i;

    add_change(&what, &family->traits[0], number, before, after, 0);
    if (is_used(family, number, after))
        for (i = 1; i < family->count; i++)
            add_change(&what, &family->traits[i], number, before, after, used);
    write_what(out, family->name, number, &what);
}

/* ---- rows: queues, ready levels and messages */

static void add_queue(struct line *line, const uint8_t *image, uint32_t queue)
{
    uint64_t entry;
    uint32_t j;

    for (j = 0; j < NTK_TASKS && (entry = ntk_slot_of(image, queue, j)) != 0; j++)
        line_add(line, "%s%lu", j ? " " : "", (unsigned long)(entry - 1));
    if (j == 0)
        line_add(line, "empty");
}

void add_levels(struct line *line, const uint8_t *image)
{
    uint64_t word = ntk_ready(image);
    uint32_t l;

    for (l = 0; l < NTK_LEVELS; l++)
        if (word & NTK_LEVEL_BIT(l))
            line_add(line, "%s%lu", word >> (63 - l) == 1 ? "" : " ", (unsigned long)l);
    if (word == 0)
        line_add(line, "none");
}

static void add_ready(struct line *line, const uint8_t *image, uint32_t number)
{
    (void)number; /* there is one word */
    add_levels(line, image);
}

static void add_messages(struct line *line, const uint8_t *image, uint32_t channel)
{
    uint64_t held = ntk_read(NTK_FIELD_CHANNEL_HELD, channel, image, NTK_IMAGE_SIZE);
    uint32_t j;

    for (j = 0; j < held; j++)
        line_add(line, "%s%lu", j ? " " : "", (unsigned long)ntk_read(NTK_FIELD_MESSAGE, NTK_MESSAGE(channel, j), image, NTK_IMAGE_SIZE));
    if (j == 0)
        line_add(line, "empty");
}

/* The row with a number, as `add` has it, where it changed. */
static void write_row(FILE *out, const char *whose, const uint8_t *before, const uint8_t *after,
                      void (*add)(struct line *, const uint8_t *, uint32_t), uint32_t number)
{
    struct line old = {0}, new = {0}, line = {0};

    add(&old, before, number);
    add(&new, after, number);
    if (strcmp(old.text, new.text) == 0)
        return;
    line_add(&line, "          %s: %s (was %s)", whose, new.text, old.text);
    write_line(out, line.text);
}

static void write_queues(FILE *out, const uint8_t *before, const uint8_t *after)
{
    size_t i;
    uint32_t n;

    write_row(out, "able", before, after, add_queue, NTK_ABLE_QUEUE);
    write_row(out, "ready levels", before, after, add_ready, 0);
    for (i = 1; i < COUNT(families); i++)
        for (n = 0; n < families[i].members; n++) {
            struct line whose = {0};

            line_add(&whose, "waiters of %s %lu", families[i].name, (unsigned long)n);
            write_row(out, whose.text, before, after, add_queue, families[i].first_queue + n);
        }
}

static void write_messages(FILE *out, const uint8_t *before, const uint8_t *after)
{
    uint32_t n;

    for (n = 0; n < NTK_CHANNELS; n++) {
        struct line whose = {0};

        line_add(&whose, "messages of channel %lu", (unsigned long)n);
        write_row(out, whose.text, before, after, add_messages, n);
    }
}

void write_changes(FILE *out, const uint8_t *before, const uint8_t *after)
{
    struct line line = {0}, what = {0};
    size_t i;
    uint32_t n;

    if (memcmp(before, after, NTK_IMAGE_SIZE) == 0)
        return;
    for (i = 0; i < COUNT(families); i++)
        for (n = 0; n < families[i].members; n++)
            write_member(out, &families[i], n, before, after);
    write_queues(out, before, after);
    write_messages(out, before, after);
    for (i = 0; i < COUNT(singles); i++)
        add_change(&what, &singles[i], 0, before, after, 1);
    if (what.length == 0)
        return;
    line_add(&line, "          %s", what.text);
    write_line(out, line.text);
}
