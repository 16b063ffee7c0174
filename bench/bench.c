/* bench.c: timing several implementations of one job against each other. */
#define _POSIX_C_SOURCE 200809L
#include "bench.h"

#include <stdlib.h>
#include <time.h>

enum { ROUNDS = 41 };

static const double BATCH_NANOSECONDS = 400e3;

/* The processor time of this thread: what other programs take is not counted. */
static double now(void)
{
    struct timespec t;
    clock_gettime(CLOCK_THREAD_CPUTIME_ID, &t);
    return (double)t.tv_sec * 1e9 + (double)t.tv_nsec;
}

static double time_batch(const struct runner *runner, size_t times)
{
    double begin = now();
    for (size_t i = 0; i < times; i++)
        runner->run(runner->job);
    return (now() - begin) / (double)times;
}

/* How many runs fill a batch. */
static size_t batch_size(const struct runner *runner)
{
    size_t times = 1;
    while (times < 1000000 && time_batch(runner, times) * (double)times < BATCH_NANOSECONDS / 2)
        times *= 2;
    return times;
}

static int by_size(const void *x, const void *y)
{
    double a = *(const double *)x, b = *(const double *)y;
    return (a > b) - (a < b);
}

static double median(double *values, size_t count)
{
    qsort(values, count, sizeof *values, by_size);
    return values[count / 2];
}

void time_runners(const struct runner *runners, size_t count, double *nanoseconds, double *ratios)
{
    static double times[MOST_RUNNERS][ROUNDS], relative[MOST_RUNNERS][ROUNDS];
    size_t batch[MOST_RUNNERS];
    for (size_t i = 0; i < count; i++)
        if (runners[i].run != NULL)
            batch[i] = batch_size(&runners[i]);
    for (size_t round = 0; round < ROUNDS; round++) {
        for (size_t i = 0; i < count; i++) {
            if (runners[i].run == NULL)
                continue;
            times[i][round] = time_batch(&runners[i], batch[i]);
            relative[i][round] = times[i][round] / times[0][round];
        }
    }
    for (size_t i = 0; i < count; i++) {
        nanoseconds[i] = runners[i].run == NULL ? 0 : median(times[i], ROUNDS);
        ratios[i] = runners[i].run == NULL ? 0 : median(relative[i], ROUNDS);
    }
}
