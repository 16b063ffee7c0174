/* jobs.h: the measured jobs, each done by the proved library, by plain C and, where it does the same, by OpenFst. */
#ifndef JOBS_H
#define JOBS_H

#include "bench.h"
#include "inputs.h"
#include "openfst.h"

enum { LIBRARY, PLAIN, OPENFST, IMPLEMENTATIONS };

/* What the jobs read, and what they write. */
struct job {
    struct bytes policy, first, second;
    size_t request, outcome;
    struct pairs pairs;
    struct automaton *policy_automaton, *first_automaton, *second_automaton;
    struct written {
        uint8_t book[BOOK_ROOM], conflict[128], missing[128], blocked[128], history[256], page[PAGE_ROOM];
        uint64_t answer;
    } written;
};

/* Median times in nanoseconds, and times as multiples of the library's. 0 where an implementation does not do the job. */
struct result {
    double nanoseconds[IMPLEMENTATIONS], ratio[IMPLEMENTATIONS];
};

/* Each measures a job, after the answers of library and plain C (and what OpenFst says) were found to agree; else it ends the program. */
void measure_build(struct job *job, struct result *result);
void measure_verdict(struct job *job, struct result *result);
void measure_compare(struct job *job, struct result *result);
void measure_page(struct job *job, struct result *result);
void measure_way(struct job *job, struct result *result);
void measure_equal_bytes(struct job *job, struct result *result);
void measure_pairs(struct job *job, struct result *result);

#endif
