/* bench.h: timing several implementations of one job against each other. */
#ifndef BENCH_H
#define BENCH_H

#include <stddef.h>

enum { MOST_RUNNERS = 4 };

/* One implementation of a job. Each call of run does the whole job once. */
struct runner {
    void (*run)(void *job);
    void *job;
};

/*
 * Times the runners in turn, round by round, and gives for each the median time of one run in nanoseconds, and the median over the rounds of its time
 * divided by that of the first runner in the same round. A runner without a function is left out.
 */
void time_runners(const struct runner *runners, size_t count, double *nanoseconds, double *ratios);

#endif
