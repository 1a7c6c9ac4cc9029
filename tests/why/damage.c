/* Images out of played tapes, damaged: ntk_why beside ntk_step and beside a plain reading of each rule. damage TAPE.. plays each tape, and at each
 * 1000th call and at its end takes the image: as it is, with each field of each record set to several values, with each bit of the ready word turned
 * over, with slots and queues exchanged, with several damages at once, and with a wrong length. So does it with a table of channels and with one of
 * levels, where of some damages the rule and the record are known beforehand. Prints what was met; 0 where all is well. */
#include <stdarg.h>
#include <stdio.h>
#include <stdlib.h>
#include <string.h>

#include "plainly.h"
#include "reel.h"

#define COUNT_OF(array) (sizeof(array) / sizeof *(array))

enum { EVERY = 1000, RULES = 256, DAMAGES = 400 };

/* No bytes break these: their columns have just that width. */
static const uint32_t unbreakable[] = {
    NTK_RULE_TASK_QUANTUM, NTK_RULE_TASK_LEFT, NTK_RULE_TASK_MESSAGE, NTK_RULE_SEMAPHORE_COUNTS, NTK_RULE_GROUP_FLAGS, NTK_RULE_MESSAGE_RANGE,
    NTK_RULE_TICK_RANGE, NTK_RULE_DEFAULT_MOST, NTK_RULE_READY_WORD,
};

static uint8_t sound[NTK_IMAGE_SIZE], image[NTK_IMAGE_SIZE + 1];
static unsigned long tried, broken_ones, met[RULES], wrong;
static uint64_t state = 20261115;

static uint32_t below(uint32_t n)
{
    state = state * 6364136223846793005u + 1442695040888963407u;
    return (uint32_t)(state >> 33) % n;
}

static void fails(const char *what, ...)
{
    va_list words;

    va_start(words, what);
    printf("why: ");
    vprintf(what, words);
    printf("\n");
    va_end(words);
    wrong++;
}

static void expect(const char *what, int holds, struct ntk_reason reason)
{
    if (holds || ++wrong > 20)
        return;
    printf("why: image %lu, rule 0x%02lX, number %lu: %s\n", tried, (unsigned long)reason.rule, (unsigned long)reason.number, what);
}

/* The first rule that is broken, read plainly. */
static struct ntk_reason why_plainly(void)
{
    struct ntk_reason reason = {NTK_RULE_NONE, 0};
    uint32_t rule, n;

    for (rule = 1; rule < NTK_RULE_WRONG_LENGTH; rule++)
        for (n = 0; n < records(rule); n++)
            if (!kept_plainly(rule, n, image)) {
                reason.rule = rule;
                reason.number = n;
                return reason;
            }
    return reason;
}

/* What ntk_why says of the image; then the image is the sound one again. */
static struct ntk_reason try_image(void)
{
    static uint8_t before[sizeof image];
    struct ntk_reason reason, plain;
    uint32_t answer;

    memcpy(before, image, sizeof image);
    reason = ntk_why(image, NTK_IMAGE_SIZE);
    tried++;
    expect("the image changed", memcmp(before, image, sizeof image) == 0, reason);
    plain = why_plainly();
    expect("a plain reading finds another rule first", reason.rule == plain.rule, reason);
    expect("a plain reading finds another record first", reason.number == plain.number, reason);
    if (reason.rule < RULES) {
        met[reason.rule]++;
        broken_ones += reason.rule != NTK_RULE_NONE;
        expect("the rule is kept there", reason.rule == NTK_RULE_NONE || !kept_plainly(reason.rule, reason.number, image), reason);
        answer = ntk_step(0, 0, 0, 0, 0, 0, 0, image, NTK_IMAGE_SIZE).answer;
        expect("ntk_step disagrees", (answer == NTK_NOT_SOUND) == (reason.rule != NTK_RULE_NONE), reason);
    }
    memcpy(image, sound, sizeof sound);
    return reason;
}

static void put(const struct column *c, uint32_t number, uint64_t value)
{
    size_t k;

    for (k = 0; k < c->width; k++)
        image[c->from + number * c->width + k] = (uint8_t)(value >> (8 * k));
}

/* A value at a border of some field, or any. */
static uint32_t value_of(size_t k)
{
    static const uint32_t values[] = {0, 1, 2, 3, 4, 8, 16, 33, 63, 251, 255};

    return k < COUNT_OF(values) ? values[k] : below(40);
}

/* Each field of each record, set to values; a slot to one of them. */
static void try_fields(void)
{
    size_t i, k;
    uint32_t n;

    for (i = 0; i < COLUMNS; i++)
        for (n = 0; n < columns[i].count; n++)
            for (k = 0; k < (columns[i].count > 32 ? 1 : 5); k++) {
                put(&columns[i], n, value_of(below(14)));
                try_image();
            }
}

static void exchange(uint32_t a, uint32_t b, uint32_t count)
{
    while (count-- > 0) {
        uint8_t kept = image[SLOTS_FROM + a + count];
        image[SLOTS_FROM + a + count] = image[SLOTS_FROM + b + count];
        image[SLOTS_FROM + b + count] = kept;
    }
}

/* Two slots of a queue, two queues, or fields at random: some at once. */
static void try_several(void)
{
    uint32_t i, d;

    for (d = 0; d < DAMAGES; d++) {
        uint32_t how = below(4), q = below(NTK_QUEUES) % (1 + below(NTK_QUEUES));

        if (how == 0)
            exchange(NTK_SLOT(q, below(4)), NTK_SLOT(q, below(4)), 1);
        if (how == 1)
            exchange(NTK_SLOT(q, 0), NTK_SLOT(below(NTK_QUEUES), 0), NTK_TASKS);
        for (i = 0; how >= 2 && i < how; i++) {
            const struct column *c = &columns[below(COLUMNS)];
            put(c, below(c->count), value_of(below(14)));
        }
        try_image();
    }
}

static const struct column *column_of(uint32_t field)
{
    const struct column *column = columns;

    while (column->field != field)
        column++;
    return column;
}

/* A field set to a value, and what is broken by it. */
struct known {
    uint32_t field, number;
    uint64_t value;
    struct ntk_reason reason;
};

static void try_known(const char *what, struct known known)
{
    struct ntk_reason reason;

    put(column_of(known.field), known.number, known.value);
    reason = try_image();
    expect(what, reason.rule == known.reason.rule && reason.number == known.reason.number, reason);
}

/* The tick counter comes to a due mark. */
static void try_ticks(void)
{
    uint32_t i;

    for (i = 0; i < NTK_TASKS; i++)
        if (of(NTK_FIELD_TASK_MARKED, i, sound) == 1) {
            struct ntk_reason reason;

            put(column_of(NTK_FIELD_TICK), 0, of(NTK_FIELD_TASK_DUE, i, sound));
            reason = try_image();
            expect("a tick at a due mark", reason.rule != NTK_RULE_NONE, reason);
        }
}

/* A bit of the ready word that is not as it was breaks the rule of its level, and no other. */
static void try_levels(void)
{
    uint64_t word = decode(NTK_FIELD_READY, 0, sound);
    uint32_t level;

    for (level = 0; level < NTK_LEVELS; level++)
        try_known("a bit of the ready word", (struct known){NTK_FIELD_READY, 0, word ^ NTK_LEVEL_BIT(level), {NTK_RULE_READY_LEVELS, level}});
}

static void try_lengths(void)
{
    size_t length;

    for (length = 0; length <= sizeof image; length++) {
        struct ntk_reason reason = ntk_why(image, length);
        int right = length == NTK_IMAGE_SIZE;

        expect("a wrong length", (reason.rule == NTK_RULE_WRONG_LENGTH) == !right && reason.number == 0, reason);
        met[NTK_RULE_WRONG_LENGTH] += !right;
    }
}

static void try_all(void)
{
    struct ntk_reason reason;

    memcpy(image, sound, sizeof sound);
    reason = try_image();
    expect("a table that was played is broken", reason.rule == NTK_RULE_NONE, reason);
    try_fields();
    try_several();
    try_ticks();
    try_levels();
}

static void make_fresh(void)
{
    if (ntk_fresh(sound, sizeof sound) != NTK_DONE)
        fails("no fresh table");
}

/* ---- tables of which something is known */

static void make_call(uint8_t kind, uint32_t a, uint32_t b, uint32_t c, uint32_t want)
{
    uint32_t answer = ntk_step(kind, a, b, c, 0, 0, 0, sound, sizeof sound).answer;

    if (answer != want)
        fails("kind 0x%02X is answered %lu", kind, (unsigned long)answer);
}

/* Task 1 waits for channel 0, channel 7 holds two of three messages, and channel 15 is full. */
static void make_channels(void)
{
    uint32_t i;

    make_fresh();
    make_call(NTK_TASK_CREATE, 1, 10, 5, NTK_DONE);
    make_call(NTK_CHANNEL_CREATE, 0, 1, 0, NTK_DONE);
    make_call(NTK_CHANNEL_CREATE, 7, 3, 0, NTK_DONE);
    make_call(NTK_CHANNEL_CREATE, 15, 32, 0, NTK_DONE);
    make_call(NTK_CHANNEL_POST, 7, 70, NTK_AT_END, NTK_DONE);
    make_call(NTK_CHANNEL_POST, 7, 71, NTK_AT_END, NTK_DONE);
    for (i = 0; i < NTK_MOST_MESSAGES; i++)
        make_call(NTK_CHANNEL_POST, 15, i, NTK_AT_END, NTK_DONE);
    make_call(NTK_CHANNEL_WAIT, 0, NTK_MAY_BLOCK, 9, NTK_BLOCKS);
}

static const struct known of_channels[] = {
    {NTK_FIELD_TASK_STATE, 1, 6, {NTK_RULE_TASK_STATE, 1}},
    {NTK_FIELD_TASK_OBJECT, 1, 16, {NTK_RULE_TASK_OBJECT, 1}},
    {NTK_FIELD_TASK_OBJECT, 1, 3, {NTK_RULE_WAIT_USED, 1}},
    {NTK_FIELD_TASK_MESSAGE, 1, 4294967295u, {NTK_RULE_NONE, 0}},
    {NTK_FIELD_TASK_MESSAGE, 2, 0x80000000u, {NTK_RULE_TASK_FREE, 2}},
    {NTK_FIELD_CHANNEL_USED, 7, 2, {NTK_RULE_CHANNEL_USED, 7}},
    {NTK_FIELD_CHANNEL_USED, 7, 0, {NTK_RULE_CHANNEL_FREE, 7}},
    {NTK_FIELD_CHANNEL_USED, 1, 1, {NTK_RULE_CHANNEL_ROOM, 1}},
    {NTK_FIELD_CHANNEL_CAPACITY, 7, 33, {NTK_RULE_CHANNEL_CAPACITY, 7}},
    {NTK_FIELD_CHANNEL_CAPACITY, 7, 32, {NTK_RULE_NONE, 0}},
    {NTK_FIELD_CHANNEL_CAPACITY, 7, 1, {NTK_RULE_CHANNEL_HELD, 7}},
    {NTK_FIELD_CHANNEL_HELD, 0, 1, {NTK_RULE_WAIT_NOTHING, 1}},
    {NTK_FIELD_CHANNEL_HELD, 7, 1, {NTK_RULE_MESSAGE_UNUSED, NTK_MESSAGE(7, 1)}},
    {NTK_FIELD_CHANNEL_HELD, 7, 3, {NTK_RULE_NONE, 0}},
    {NTK_FIELD_CHANNEL_HELD, 15, 33, {NTK_RULE_CHANNEL_HELD, 15}},
    {NTK_FIELD_MESSAGE, NTK_MESSAGE(7, 1), 4294967295u, {NTK_RULE_NONE, 0}},
    {NTK_FIELD_MESSAGE, NTK_MESSAGE(7, 2), 1, {NTK_RULE_MESSAGE_UNUSED, NTK_MESSAGE(7, 2)}},
    {NTK_FIELD_MESSAGE, NTK_MESSAGE(14, 31), 0x80000000u, {NTK_RULE_MESSAGE_UNUSED, NTK_MESSAGE(14, 31)}},
    {NTK_FIELD_MESSAGE, NTK_MESSAGE(15, 31), 0, {NTK_RULE_NONE, 0}},
    {NTK_FIELD_QUEUE_SLOT, NTK_SLOT(NTK_CHANNEL_QUEUE(0), 0), 0, {NTK_RULE_QUEUE_PLACES, NTK_SLOT(NTK_CHANNEL_QUEUE(0), 1)}},
    {NTK_FIELD_QUEUE_SLOT, NTK_SLOT(NTK_CHANNEL_QUEUE(15), 31), 33, {NTK_RULE_QUEUE_NOTHING_ELSE, NTK_SLOT(NTK_CHANNEL_QUEUE(15), 31)}},
};

/* Task 3 runs at level 0, tasks 1 and 2 are able at level 10; task 4, of level 62, is suspended, and task 5, of level 30, sleeps. */
static void make_levels(void)
{
    make_fresh();
    make_call(NTK_TASK_CREATE, 5, 30, 5, NTK_DONE);
    make_call(NTK_DELAY, 9, 0, 0, NTK_DONE);
    make_call(NTK_TASK_CREATE, 4, 62, 5, NTK_DONE);
    make_call(NTK_SUSPEND, 4, 0, 0, NTK_DONE);
    make_call(NTK_TASK_CREATE, 1, 10, 5, NTK_DONE);
    make_call(NTK_TASK_CREATE, 2, 10, 5, NTK_DONE);
    make_call(NTK_TASK_CREATE, 3, 0, 5, NTK_DONE);
}

#define TWO_LEVELS (NTK_LEVEL_BIT(0) | NTK_LEVEL_BIT(10))

/* The ready word is the last that is looked at. */
static const struct known of_levels[] = {
    {NTK_FIELD_READY, 0, TWO_LEVELS, {NTK_RULE_NONE, 0}},
    {NTK_FIELD_READY, 0, NTK_LEVEL_BIT(0), {NTK_RULE_READY_LEVELS, 10}},
    {NTK_FIELD_READY, 0, NTK_LEVEL_BIT(10), {NTK_RULE_READY_LEVELS, 0}},
    {NTK_FIELD_READY, 0, 0, {NTK_RULE_READY_LEVELS, 0}},
    {NTK_FIELD_READY, 0, TWO_LEVELS | NTK_LEVEL_BIT(30), {NTK_RULE_READY_LEVELS, 30}},
    {NTK_FIELD_READY, 0, TWO_LEVELS | NTK_LEVEL_BIT(62), {NTK_RULE_READY_LEVELS, 62}},
    {NTK_FIELD_READY, 0, TWO_LEVELS | 1, {NTK_RULE_READY_LEVELS, 63}},
    {NTK_FIELD_READY, 0, TWO_LEVELS >> 1, {NTK_RULE_READY_LEVELS, 0}},
    {NTK_FIELD_READY, 0, UINT64_MAX, {NTK_RULE_READY_LEVELS, 1}},
    {NTK_FIELD_TASK_SUSPEND, 4, 0, {NTK_RULE_QUEUE_PLACES, NTK_SLOT(NTK_ABLE_QUEUE, 4)}},
    {NTK_FIELD_TASK_WORK, 1, 11, {NTK_RULE_QUEUE_ORDERED, NTK_SLOT(NTK_ABLE_QUEUE, 1)}},
    {NTK_FIELD_TASK_WORK, 2, 11, {NTK_RULE_TASK_WORKED, 2}},
    {NTK_FIELD_RUNNING, 0, 0, {NTK_RULE_RUNNING_FIRST, 0}},
};

static void try_table(void (*make)(void), const struct known *known, size_t count)
{
    size_t i;

    make();
    try_all();
    for (i = 0; i < count; i++)
        try_known("another rule is known to be broken", known[i]);
}

/* ---- tapes */

static void play(const char *name)
{
    FILE *file = fopen(name, "rb");
    struct reel reel;
    struct call call;

    if (!file) {
        fails("cannot open %s", name);
        exit(2);
    }
    reel = reel_of(file);
    make_fresh();
    while (reel_next(&reel, &call) == GOT_CALL) {
        const uint32_t *n = call.numbers;

        if (ntk_step(reel.bytes[0], n[0], n[1], n[2], n[3], n[4], n[5], sound, sizeof sound).answer == NTK_NOT_SOUND)
            fails("%s: a call on a table that was played gets 15", name);
        if (reel.calls % EVERY == 0)
            try_all();
    }
    fclose(file);
    try_all();
}

/* Each rule that bytes can break is met. */
static void tell_met(void)
{
    uint32_t rule, kinds = 0;
    size_t i;

    for (rule = 1; rule < RULES; rule++) {
        int can = strcmp(ntk_rule_name(rule), "unknown") != 0;

        for (i = 0; i < COUNT_OF(unbreakable); i++)
            can = can && rule != unbreakable[i];
        if (can != (met[rule] > 0))
            fails("rule 0x%02lX (%s) was met %lu times", (unsigned long)rule, ntk_rule_name(rule), met[rule]);
        else if (can)
            kinds++;
    }
    printf("why: %lu images, %lu of them broken, %lu rules met (", tried, broken_ones, (unsigned long)kinds);
    for (rule = 1, kinds = 0; rule < RULES; rule++)
        if (met[rule] > 0)
            printf("%s%02lX", kinds++ ? " " : "", (unsigned long)rule);
    printf(")\n");
}

int main(int count, char **names)
{
    int i;

    for (i = 1; i < count; i++)
        play(names[i]);
    try_table(make_channels, of_channels, COUNT_OF(of_channels));
    try_table(make_levels, of_levels, COUNT_OF(of_levels));
    try_lengths();
    tell_met();
    return wrong != 0;
}
