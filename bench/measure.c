#include "measure.h"

#include <stdlib.h>
#include <time.h>

/* As in oracle/measure: of a call that takes longer than LONG seconds there are fewer samples. */
#define SAMPLES 7
#define SAMPLES_OF_LONG 3
#define LONG 1.0

/* A sample takes at least so many seconds. */
#define SAMPLE 0.02

static int is_once;

static double processor_seconds(void)
{
    struct timespec now;

    clock_gettime(CLOCK_PROCESS_CPUTIME_ID, &now);
    return (double)now.tv_sec + (double)now.tv_nsec * 1e-9;
}

static double sample(void (*call)(void *), void *context, unsigned times)
{
    double start = processor_seconds();

    for (unsigned i = 0; i < times; i++)
        call(context);
    return (processor_seconds() - start) / times;
}

/* How often a call is made for a sample. */
static unsigned times_for(void (*call)(void *), void *context)
{
    unsigned times = 1;

    while (sample(call, context, times) * times < SAMPLE)
        times *= 2;
    return times;
}

static int compare(const void *a, const void *b)
{
    double x = *(const double *)a;
    double y = *(const double *)b;

    return (x > y) - (x < y);
}

double median(double *samples, size_t n)
{
    qsort(samples, n, sizeof *samples, compare);
    return samples[n / 2];
}

void measure_once(void)
{
    is_once = 1;
}

/* How many samples there are of a call whose first one is this. */
static size_t samples_of(double first)
{
    if (is_once)
        return 1;
    return first < LONG ? SAMPLES : SAMPLES_OF_LONG;
}

double measure(void (*call)(void *), void *context)
{
    double samples[SAMPLES];
    unsigned times = times_for(call, context);
    size_t n = 0;

    do {
        samples[n++] = sample(call, context, times);
    } while (n < samples_of(samples[0]));
    return median(samples, n);
}
