/* growth.h: how the time of a call grows with the number of tasks, the length of a queue, the messages of a channel and the length of a
 * chain. */
#ifndef GROWTH_H
#define GROWTH_H

/* Prints tables and writes plots into the file, as SVG. */
void growth(const char *file);

#endif
