/* svg.c: see svg.h. */
#include "svg.h"

void svg_begin(FILE *f, double wide, double high)
{
    fprintf(f, "<svg xmlns=\"http://www.w3.org/2000/svg\" width=\"%g\" height=\"%g\" viewBox=\"0 0 %g %g\" "
               "font-family=\"Helvetica, Arial, 'DejaVu Sans', sans-serif\">\n", wide, high, wide, high);
    fprintf(f, "<rect width=\"%g\" height=\"%g\" fill=\"white\"/>\n", wide, high);
}

void svg_end(FILE *f)
{
    fputs("</svg>\n", f);
}

void svg_hatch(FILE *f, const char *name, const char *colour)
{
    fprintf(f, "<pattern id=\"%s\" width=\"5\" height=\"5\" patternUnits=\"userSpaceOnUse\" patternTransform=\"rotate(45)\">"
               "<rect width=\"5\" height=\"5\" fill=\"white\"/><rect width=\"1.6\" height=\"5\" fill=\"%s\" fill-opacity=\"0.55\"/>"
               "</pattern>\n", name, colour);
}

void svg_box(FILE *f, double x, double y, double wide, double high, const char *fill, const char *edge, const char *title)
{
    fprintf(f, "<rect x=\"%g\" y=\"%g\" width=\"%g\" height=\"%g\" rx=\"1.5\" fill=\"%s\" stroke=\"%s\"", x, y, wide, high, fill, edge);
    if (title == NULL)
        fputs("/>\n", f);
    else
        fprintf(f, "><title>%s</title></rect>\n", title);
}

void svg_line(FILE *f, double x1, double y1, double x2, double y2, const char *colour, double width, const char *dashes)
{
    fprintf(f, "<line x1=\"%g\" y1=\"%g\" x2=\"%g\" y2=\"%g\" stroke=\"%s\" stroke-width=\"%g\"", x1, y1, x2, y2, colour, width);
    if (dashes[0] != '\0')
        fprintf(f, " stroke-dasharray=\"%s\"", dashes);
    fputs("/>\n", f);
}

void svg_text(FILE *f, double x, double y, const char *anchor, const char *weight, double size, const char *colour, const char *words)
{
    fprintf(f, "<text x=\"%g\" y=\"%g\" text-anchor=\"%s\" font-weight=\"%s\" font-size=\"%g\" fill=\"%s\">%s</text>\n", x, y, anchor, weight,
            size, colour, words);
}
