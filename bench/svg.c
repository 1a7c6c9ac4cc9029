/* svg.c: see svg.h. */
#include "svg.h"

/* In pixels: a plot with its room, the plot itself, and what is left and above of it. */
enum { ROOM_X = 190, ROOM_Y = 200, WIDE = 140, HIGH = 120, LEFT = 44, ABOVE = 48, GRID = 4 };

static const char *const colours[2] = {"#777777", "#1f5fa8"};

static double left_of(unsigned column)
{
    return LEFT + column * (double)ROOM_X;
}

static double foot_of(unsigned row)
{
    return ABOVE + HIGH + row * (double)ROOM_Y;
}

static void text(FILE *f, double x, double y, const char *anchor, const char *colour, const char *words)
{
    fprintf(f, "<text x=\"%.1f\" y=\"%.1f\" text-anchor=\"%s\" fill=\"%s\">%s</text>\n", x, y, anchor, colour, words);
}

static void line(FILE *f, double x1, double y1, double x2, double y2, const char *colour)
{
    fprintf(f, "<line x1=\"%.1f\" y1=\"%.1f\" x2=\"%.1f\" y2=\"%.1f\" stroke=\"%s\"/>\n", x1, y1, x2, y2, colour);
}

/* A round number of nanoseconds between grid lines, so that GRID of them hold the greatest time. */
static double grid_step(const struct plot *p)
{
    static const double round[] = {1, 2, 2.5, 5, 10};
    double most = 1, tens = 1;
    unsigned i, n;

    for (i = 0; i < 2; i++)
        for (n = 0; n < p->last; n++)
            if (p->ns[i][n] > most)
                most = p->ns[i][n];
    while (tens * 10 * GRID < most)
        tens *= 10;
    for (i = 0; round[i] * tens * GRID < most; i++)
        continue;
    return round[i] * tens;
}

void svg_begin(FILE *f, unsigned columns, unsigned rows)
{
    unsigned wide = columns * ROOM_X + 10, high = rows * ROOM_Y + 10;

    fprintf(f, "<svg xmlns=\"http://www.w3.org/2000/svg\" width=\"%u\" height=\"%u\" viewBox=\"0 0 %u %u\" "
               "font-family=\"sans-serif\" font-size=\"11\">\n", wide, high, wide, high);
    fprintf(f, "<rect width=\"%u\" height=\"%u\" fill=\"white\"/>\n", wide, high);
}

static void draw_axes(FILE *f, double left, double foot, double step, const struct plot *p)
{
    char words[64];
    unsigned i;

    for (i = 0; i <= GRID; i++) {
        double y = foot - HIGH * (double)i / GRID;
        line(f, left, y, left + WIDE, y, i == 0 ? "black" : "#dddddd");
        snprintf(words, sizeof words, "%g", i * step);
        text(f, left - 4, y + 4, "end", "black", words);
    }
    text(f, left, foot + 14, "middle", "black", "1");
    snprintf(words, sizeof words, "%u", p->last);
    text(f, left + WIDE, foot + 14, "middle", "black", words);
    text(f, left + WIDE / 2.0, foot + 14, "middle", "black", p->counted);
    text(f, left + WIDE / 2.0, foot - HIGH - 8, "middle", "black", p->title);
}

void svg_plot(FILE *f, unsigned column, unsigned row, const struct plot *p)
{
    double left = left_of(column), foot = foot_of(row), step = grid_step(p);
    unsigned i, n;

    draw_axes(f, left, foot, step, p);
    for (i = 0; i < 2; i++) {
        fprintf(f, "<polyline fill=\"none\" stroke-width=\"1.5\" stroke=\"%s\" points=\"", colours[i]);
        for (n = 0; n < p->last; n++)
            fprintf(f, "%s%.1f,%.1f", n > 0 ? " " : "", left + WIDE * (double)n / (p->last - 1), foot - HIGH * p->ns[i][n] / (step * GRID));
        fputs("\"/>\n", f);
    }
}

void svg_key(FILE *f, unsigned row, const char *grey, const char *blue)
{
    double y = foot_of(row) - HIGH - 28;

    text(f, left_of(0), y, "start", colours[0], grey);
    text(f, left_of(0) + WIDE, y, "start", colours[1], blue);
    text(f, left_of(2), y, "start", "black", "ns of one call");
}

void svg_end(FILE *f)
{
    fputs("</svg>\n", f);
}
