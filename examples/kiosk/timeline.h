/* timeline.h: two runs of the kiosk drawn one above the other. */
#ifndef TIMELINE_H
#define TIMELINE_H

#include "record.h"

/* Draws the time around the first turn into the file, as SVG. Tells whether all was written. */
int timeline_draw(const char *file, const struct recording *wrong, const struct recording *right);

#endif
