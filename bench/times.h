/* times.h: the clock, medians, and the time of one call on one table. */
#ifndef TIMES_H
#define TIMES_H

#include "play.h"

/* In nanoseconds. */
uint64_t now(void);

/* Sorts the times. */
double median(double *times, unsigned n);

/* Between two readings of the clock with nothing between them; time_clock measures it. */
extern double clock_time;

void time_clock(void);

/* The call is made on COPIES copies of the table, which are restored outside the timed part; the mean of the copies, less the time of
 * the clock itself, and of as many such means as there are batches the median. */
double time_case(enum variant v, const struct one_case *one, unsigned batches);

#endif
