/* svg.h: small plots of two lines, in rows and columns, as an SVG file. */
#ifndef SVG_H
#define SVG_H

#include <stdio.h>

/* Nanoseconds for 1 to `last` of what is counted: a grey line and a blue one. */
struct plot {
    const char *title, *counted;
    unsigned last;
    const double *ns[2];
};

void svg_begin(FILE *f, unsigned columns, unsigned rows);
void svg_plot(FILE *f, unsigned column, unsigned row, const struct plot *p);

/* What the two lines of a row are. */
void svg_key(FILE *f, unsigned row, const char *grey, const char *blue);
void svg_end(FILE *f);

#endif
