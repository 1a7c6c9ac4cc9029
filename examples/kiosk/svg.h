/* svg.h: the few shapes of an SVG file that the timeline is made of. Places and sizes are in pixels. */
#ifndef SVG_H
#define SVG_H

#include <stdio.h>

void svg_begin(FILE *f, double wide, double high);
void svg_end(FILE *f);

/* A pattern of slanted lines in a colour, to be used as the fill "url(#name)". */
void svg_hatch(FILE *f, const char *name, const char *colour);

/* Where `title` is not NULL, a viewer shows it for the shape under the mouse. */
void svg_box(FILE *f, double x, double y, double wide, double high, const char *fill, const char *edge, const char *title);

/* `dashes` as SVG has them, "" for a plain line. */
void svg_line(FILE *f, double x1, double y1, double x2, double y2, const char *colour, double width, const char *dashes);

/* `anchor` is start, middle or end; `weight` normal or bold. */
void svg_text(FILE *f, double x, double y, const char *anchor, const char *weight, double size, const char *colour, const char *words);

#endif
