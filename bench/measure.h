/* How long a call takes. */
#ifndef MEASURE_H
#define MEASURE_H

#include <stddef.h>

/* The processor time of one call in seconds: the median of several samples, after one that warms. A short call is made many
 * times for a sample. Processor time doesn't count the time in which others have the processor. */
double measure(void (*call)(void *), void *context);

/* From now on a single sample, for a program that is run many times. */
void measure_once(void);

/* The middle one. Leaves them sorted, the lowest first. */
double median(double *samples, size_t n);

#endif
