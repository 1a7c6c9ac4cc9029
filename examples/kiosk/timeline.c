/* timeline.c: see timeline.h.
 *
 * Time goes to the right, urgency upwards: a task stands in the lane of the priority at which it works. A lane's upper row is that of the
 * task whose base it is, its lower row that of one that was raised to it. */
#include "timeline.h"

#include <string.h>

#include "svg.h"

enum { SHOWN = 100, BEFORE = 17 };                              /* ticks: in the picture, and before the first post */
enum { TICK = 9, LEFT = 156, WIDE = LEFT + SHOWN * TICK + 20 }; /* pixels, as all below */
enum { ROW = 14, LANE = 34, LANES_AT = 96, HOLDS_AT = LANES_AT + 3 * LANE + ROW + 14, PANEL = HOLDS_AT + 2 * ROW + 52 };
enum { TOP = 74, HIGH = TOP + 2 * PANEL + 48 };

static const char ink[] = "#1f2937", grey[] = "#6b7280", faint[] = "#e5e7eb", red[] = "#c8102e", green[] = "#15803d";
static const char *const colours[WORKERS] = {"#0072b2", "#009e73", "#e69f00", "#7b3fa0"};

static FILE *f;
static uint32_t first; /* the first tick in the picture */

static double x_of(uint32_t tick)
{
    return LEFT + TICK * (double)(tick - first);
}

/* The upper edge of the row of a task at a working priority, in a panel whose lanes begin at `lanes`. */
static double row_of(double lanes, unsigned task, unsigned works)
{
    unsigned i;

    for (i = 0; i < WORKERS - 1 && worker_bases[i] < works; i++)
        continue;
    return lanes + i * (double)LANE + (i == task ? 0 : ROW + 2);
}

/* What a task does in a tick's time. */
enum doing { RUNS, COULD_RUN, WAITS_MUTEX, WAITS_ELSE };

struct stretch {
    enum doing doing;
    unsigned works, object;
};

static struct stretch stretch_at(const struct recording *r, unsigned task, uint32_t tick)
{
    const struct standing *s = &r->at[tick].of[task];
    struct stretch is = {COULD_RUN, s->works, 0};

    if (r->at[tick].runs == task + 1) {
        is.doing = RUNS;
    } else if (s->state != NTK_PLAIN) {
        is.doing = s->state == NTK_WAITS_MUTEX ? WAITS_MUTEX : WAITS_ELSE;
        is.object = s->object + (s->state == NTK_WAITS_FLAGS ? 16u : 0u); /* flags by their mask, semaphores by their number */
    }
    return is;
}

static const char *waits_for(const struct stretch *is)
{
    if (is->doing == WAITS_MUTEX)
        return mutex_names[is->object];
    switch (is->object) {
    case 16 + SYNC:
        return "sync";
    case 16 + TURN:
        return "the turn";
    case 16 + (CARD | CLOCK):
        return "card and clock";
    case ROOM:
        return "room";
    default:
        return "a block";
    }
}

/* Words on a white ground, where they fit into the box. */
static int label(double x, double y, double wide, double size, const char *colour, const char *words)
{
    double room = 0.62 * size * (double)strlen(words);

    if (room + 4 > wide)
        return 0;
    svg_box(f, x + (wide - room) / 2, y + 1.5, room, ROW - 3, "white", "none", NULL);
    svg_text(f, x + wide / 2, y + ROW - 3.5, "middle", "bold", size, colour, words);
    return 1;
}

static void draw_wait(double x, double y, double wide, unsigned task, const char *what, const char *title)
{
    char fill[32], words[40];

    snprintf(fill, sizeof fill, "url(#%s)", worker_names[task]);
    svg_box(f, x + 0.5, y, wide - 1, ROW, fill, colours[task], title);
    snprintf(words, sizeof words, "waits for %s", what);
    if (!label(x, y, wide, 10.5, colours[task], words))
        label(x, y, wide, 8, colours[task], what);
}

static void draw_stretch(double lanes, unsigned task, uint32_t from, uint32_t to, const struct stretch *is)
{
    static const char *const words[] = {"runs", "could run", "waits for ", "waits for "};
    double x = x_of(from), y = row_of(lanes, task, is->works), wide = x_of(to) - x, middle = y + ROW / 2.0;
    const char *what = is->doing < WAITS_MUTEX ? "" : waits_for(is);
    char title[96];

    snprintf(title, sizeof title, "%s, from tick %u to %u: %s%s, working priority %u", worker_names[task], (unsigned)from, (unsigned)to,
             words[is->doing], what, is->works);
    if (is->doing == RUNS) {
        svg_box(f, x + 0.5, y, wide - 1, ROW, colours[task], "none", title);
    } else if (is->doing == COULD_RUN) {
        svg_box(f, x, middle - 1.5, wide, 3, colours[task], "none", title);
    } else if (is->doing == WAITS_MUTEX) {
        draw_wait(x, y, wide, task, what, title);
    } else {
        svg_line(f, x + 2, middle, x + wide - 1, middle, colours[task], 1, "1 3");
        svg_box(f, x, y, wide, ROW, "transparent", "none", title);
    }
}

static void draw_task(double lanes, const struct recording *r, unsigned task)
{
    uint32_t from = first, tick;
    struct stretch is = stretch_at(r, task, first), next;

    for (tick = first + 1; tick <= first + SHOWN; tick++) {
        next = stretch_at(r, task, tick);
        if (tick < first + SHOWN && next.doing == is.doing && next.works == is.works && next.object == is.object)
            continue;
        draw_stretch(lanes, task, from, tick, &is);
        if (tick < first + SHOWN && next.works != is.works)
            svg_line(f, x_of(tick), row_of(lanes, task, is.works) + ROW / 2.0, x_of(tick), row_of(lanes, task, next.works) + ROW / 2.0,
                     colours[task], 1.5, "");
        is = next;
        from = tick;
    }
}

/* The screen: each frame where it stands, from the sync that ends the time in which it is handed. */
static void draw_screen(double y, const struct recording *r)
{
    uint32_t frame;
    char words[16];

    svg_text(f, 20, y + 15, "start", "bold", 12, ink, "screen");
    for (frame = first / FRAME - 1; (frame + 2) * FRAME <= first + SHOWN; frame++) {
        int shown = r->screening.shown[frame];
        double x = x_of((frame + 1) * FRAME);

        svg_box(f, x + 1, y, FRAME * TICK - 2, 22, shown ? "#dbeafe" : red, "none", NULL);
        snprintf(words, sizeof words, "%u", (unsigned)(frame % FILM));
        svg_text(f, x + FRAME * TICK / 2.0, y + 15, "middle", shown ? "normal" : "bold", 11, shown ? "#1e40af" : "white", shown ? words : "lost");
    }
}

static void draw_lanes(double panel)
{
    double lanes = panel + LANES_AT;
    char words[16];
    unsigned i;

    svg_text(f, LEFT - 10, lanes - 10, "end", "normal", 10, grey, "working at");
    for (i = 0; i < WORKERS; i++) {
        double y = lanes + i * (double)LANE;

        svg_box(f, LEFT, y - 2, SHOWN * TICK, i == DECODER ? ROW + 4 : LANE - 2, "#f6f7f9", "none", NULL);
        svg_text(f, 20, y + 11, "start", "bold", 12, colours[i], worker_names[i]);
        snprintf(words, sizeof words, "%u", worker_bases[i]);
        svg_text(f, LEFT - 10, y + 11, "end", "normal", 12, grey, words);
    }
    for (i = 0; i <= SHOWN; i += FRAME)
        svg_line(f, x_of(first + i), lanes - 2, x_of(first + i), lanes + 3 * LANE + ROW + 2, "white", 1.5, "");
}

static void draw_ticks(double y)
{
    char words[16];
    unsigned i;

    svg_text(f, 20, y, "start", "normal", 11, grey, "tick");
    for (i = 0; i <= SHOWN; i += 2 * FRAME) {
        snprintf(words, sizeof words, "%u", (unsigned)first + i);
        svg_text(f, x_of(first + i), y, "middle", "normal", 10, grey, words);
    }
}

/* Who holds each mutex. */
static void draw_holds(double y, const struct recording *r)
{
    unsigned m;
    uint32_t tick, from;

    for (m = 0; m < MUTEXES; m++, y += ROW + 2) {
        svg_text(f, 20, y + 9, "start", "normal", 11, grey, m == FRAMES ? "who holds frames" : "who holds screen");
        svg_line(f, LEFT, y + 5, LEFT + SHOWN * TICK, y + 5, faint, 1, "");
        for (tick = from = first; tick < first + SHOWN; tick++) {
            uint32_t holder = r->at[tick].holder[m];

            if (tick + 1 < first + SHOWN && r->at[tick + 1].holder[m] == holder)
                continue;
            if (holder != 0)
                svg_box(f, x_of(from), y + 1, x_of(tick + 1) - x_of(from), 8, colours[holder - 1], "none", NULL);
            from = tick + 1;
        }
    }
}

static unsigned lost_in(const struct recording *r)
{
    unsigned i, lost = 0;

    for (i = 0; i < FILM; i++)
        lost += !r->screening.shown[i];
    return lost;
}

/* What a panel says of its kernel: its name, more about it, and what happens at the first post. */
struct words {
    const char *name, *more, *at_post;
};

static void draw_panel(double panel, const struct recording *r, const struct words *says)
{
    double post = x_of(r->first_post);
    unsigned i, lost = lost_in(r);
    char count[32];

    svg_text(f, 20, panel + 18, "start", "bold", 15, ink, says->name);
    svg_text(f, LEFT + 120, panel + 18, "start", "normal", 12, grey, says->more);
    snprintf(count, sizeof count, "%u frames lost", lost);
    svg_text(f, WIDE - 20, panel + 18, "end", "bold", 15, lost > 0 ? red : green, count);
    draw_screen(panel + 32, r);
    draw_lanes(panel);
    svg_line(f, post, panel + 72, post, panel + HOLDS_AT + 2 * ROW, ink, 1, "3 2");
    svg_text(f, post + 5, panel + 80, "start", "normal", 12, ink, says->at_post);
    for (i = 0; i < WORKERS; i++)
        draw_task(panel + LANES_AT, r, i);
    draw_holds(panel + HOLDS_AT, r);
    draw_ticks(panel + HOLDS_AT + 2 * ROW + 16);
}

static void draw_key(double y)
{
    double x = 20;

    svg_box(f, x, y, 26, ROW, grey, "none", NULL);
    svg_text(f, x + 34, y + 11, "start", "normal", 12, ink, "runs");
    x = 112;
    svg_box(f, x, y + 5.5, 26, 3, grey, "none", NULL);
    svg_text(f, x + 34, y + 11, "start", "normal", 12, ink, "could run");
    x = 232;
    svg_box(f, x, y, 26, ROW, "url(#key)", grey, NULL);
    svg_text(f, x + 34, y + 11, "start", "normal", 12, ink, "waits for a mutex");
    x = 394;
    svg_line(f, x, y + 7, x + 26, y + 7, ink, 1, "1 3");
    svg_text(f, x + 34, y + 11, "start", "normal", 12, ink,
             "waits: output for sync, reader for card and clock, housekeeping for the turn, decoder for room");
}

int timeline_draw(const char *file, const struct recording *wrong, const struct recording *right)
{
    static const struct words of_wrong = {"The kernel that was bought", "wrong on purpose: a post gives the base priority back",
                                          "first of two posts: the decoder falls to 30, housekeeping's 25 runs, and the output's 10 waits on"};
    static const struct words of_right = {"This kernel", "a task works at the most urgent priority of its own and of those that wait for it",
                                          "first of two posts: the decoder keeps the output's 10 until it has posted the screen too"};
    unsigned i;
    int good;

    f = fopen(file, "w");
    if (f == NULL)
        return 0;
    first = (wrong->first_post - BEFORE) / FRAME * FRAME;
    svg_begin(f, WIDE, HIGH);
    for (i = 0; i < WORKERS; i++)
        svg_hatch(f, worker_names[i], colours[i]);
    svg_hatch(f, "key", grey);
    svg_text(f, 20, 32, "start", "bold", 19, ink, "The end of a pass, under two kernels");
    svg_text(f, 20, 53, "start", "normal", 12, grey,
             "One processor, four tasks, the most urgent on top. A task that is raised goes up, into the lower row of the lane at whose priority it works.");
    draw_panel(TOP, wrong, &of_wrong);
    draw_panel(TOP + PANEL, right, &of_right);
    draw_key(TOP + 2 * PANEL + 8);
    svg_end(f);
    good = !ferror(f);
    return fclose(f) == 0 && good;
}
