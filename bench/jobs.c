/* jobs.c: the measured jobs, each done by the proved library, by plain C and, where it does the same, by OpenFst. */
#include "jobs.h"

#include "plain.h"
#include "policybook.h"

#include <stdbool.h>
#include <stdio.h>
#include <stdlib.h>
#include <string.h>

static void library_build(void *at)
{
    struct job *j = at;
    j->written.answer = policybook_build(j->policy.at, j->policy.length, j->written.book, BOOK_ROOM);
}

static void plainly_build(void *at)
{
    struct job *j = at;
    j->written.answer = plain_build(j->policy.at, j->policy.length, j->written.book, BOOK_ROOM);
}

static void openfst_build(void *at)
{
    struct job *j = at;
    j->written.answer = openfst_states(j->policy_automaton);
}

static void library_verdict(void *at)
{
    struct job *j = at;
    struct written *w = &j->written;
    w->answer = policybook_verdict(j->first.at, j->first.length, w->conflict, 128, w->missing, 128, w->blocked, 128);
}

static void plainly_verdict(void *at)
{
    struct job *j = at;
    struct written *w = &j->written;
    w->answer = plain_verdict(j->first.at, j->first.length, w->conflict, 128, w->missing, 128, w->blocked, 128);
}

static void library_compare(void *at)
{
    struct job *j = at;
    j->written.answer = policybook_compare(j->first.at, j->first.length, j->second.at, j->second.length, j->written.history, 256);
}

static void plainly_compare(void *at)
{
    struct job *j = at;
    j->written.answer = plain_compare(j->first.at, j->first.length, j->second.at, j->second.length, j->written.history, 256);
}

static void openfst_compare(void *at)
{
    struct job *j = at;
    j->written.answer = (uint64_t)openfst_same(j->first_automaton, j->second_automaton);
}

static void library_page(void *at)
{
    struct job *j = at;
    j->written.answer = policybook_page(j->first.at, j->first.length, j->written.page, PAGE_ROOM);
}

static void plainly_page(void *at)
{
    struct job *j = at;
    j->written.answer = plain_page(j->first.at, j->first.length, j->written.page, PAGE_ROOM);
}

static void library_way(void *at)
{
    struct job *j = at;
    j->written.answer = policybook_way(j->first.at, j->first.length, j->request, j->outcome, j->written.history, 128);
}

static void plainly_way(void *at)
{
    struct job *j = at;
    j->written.answer = plain_way(j->first.at, j->first.length, j->request, j->outcome, j->written.history, 128);
}

static void library_equal_bytes(void *at)
{
    struct job *j = at;
    j->written.answer = policybook_same_bytes(j->first.at, j->first.length, j->second.at, j->second.length);
}

static void plainly_equal_bytes(void *at)
{
    struct job *j = at;
    j->written.answer = plain_same_bytes(j->first.at, j->first.length, j->second.at, j->second.length);
}

static void openfst_equal_bytes(void *at)
{
    struct job *j = at;
    j->written.answer = (uint64_t)openfst_equal(j->first_automaton, j->second_automaton);
}

typedef uint64_t equality(const uint8_t *first, size_t first_len, const uint8_t *second, size_t second_len);

/*
 * How many of the pairs are equal. A test of short strings takes a few nanoseconds; with many in one run, the call through the runner's pointer and the
 * store of the answer count for little. The arguments of each test are read from memory, so that none is lifted out of the loop or done without looking at
 * the lengths. The loop is inlined for each implementation, as it would be in a program that uses one of them.
 */
static inline uint64_t count_equal(const struct pairs *pairs, equality *are_equal)
{
    const struct pair *end = pairs->at + pairs->count;
    uint64_t equal = 0;
    for (const struct pair *p = pairs->at; p < end; p++)
        equal += are_equal(p->first, p->first_length, p->second, p->second_length);
    return equal;
}

static void library_pairs(void *at)
{
    struct job *j = at;
    j->written.answer = count_equal(&j->pairs, policybook_same_bytes);
}

static void plainly_pairs(void *at)
{
    struct job *j = at;
    j->written.answer = count_equal(&j->pairs, plain_same_bytes);
}

static void demand(bool holds, const char *job)
{
    if (holds)
        return;
    fprintf(stderr, "%s: the answers differ\n", job);
    exit(1);
}

/* Does the job by the library and by plain C; every byte written must be the same. Gives the answer. */
static uint64_t agreed(struct job *j, void (*library)(void *), void (*plain)(void *), const char *job)
{
    static struct written given;
    memset(&j->written, 0xA5, sizeof j->written);
    plain(j);
    given = j->written;
    memset(&j->written, 0xA5, sizeof j->written);
    library(j);
    demand(memcmp(&given, &j->written, sizeof given) == 0, job);
    return given.answer;
}

static uint64_t by_openfst(struct job *j, void (*openfst)(void *))
{
    openfst(j);
    return j->written.answer;
}

static void measure(struct job *j, void (*library)(void *), void (*plain)(void *), void (*openfst)(void *), struct result *result)
{
    struct runner runners[IMPLEMENTATIONS] = { { library, j }, { plain, j }, { openfst, j } };
    time_runners(runners, IMPLEMENTATIONS, result->nanoseconds, result->ratio);
    library(j);
}

void measure_build(struct job *j, struct result *result)
{
    agreed(j, library_build, plainly_build, "build");
    unsigned states = j->written.book[11];
    openfst_free(j->policy_automaton);
    j->policy_automaton = openfst_of_policy(j->policy.at, j->policy.length);
    demand(by_openfst(j, openfst_build) == states, "build and OpenFst");
    measure(j, library_build, plainly_build, openfst_build, result);
}

void measure_verdict(struct job *j, struct result *result)
{
    agreed(j, library_verdict, plainly_verdict, "verdict");
    measure(j, library_verdict, plainly_verdict, NULL, result);
}

/* The automata of the two books of a job, made again. */
static void make_automata(struct job *j)
{
    openfst_free(j->first_automaton);
    openfst_free(j->second_automaton);
    j->first_automaton = openfst_of_book(j->first.at, j->first.length);
    j->second_automaton = openfst_of_book(j->second.at, j->second.length);
}

void measure_compare(struct job *j, struct result *result)
{
    uint64_t answer = agreed(j, library_compare, plainly_compare, "compare");
    make_automata(j);
    demand(by_openfst(j, openfst_compare) == (answer == 0), "compare and OpenFst");
    measure(j, library_compare, plainly_compare, openfst_compare, result);
}

void measure_page(struct job *j, struct result *result)
{
    agreed(j, library_page, plainly_page, "page");
    measure(j, library_page, plainly_page, NULL, result);
}

void measure_way(struct job *j, struct result *result)
{
    agreed(j, library_way, plainly_way, "way");
    measure(j, library_way, plainly_way, NULL, result);
}

void measure_equal_bytes(struct job *j, struct result *result)
{
    uint64_t answer = agreed(j, library_equal_bytes, plainly_equal_bytes, "equal bytes");
    make_automata(j);
    demand(by_openfst(j, openfst_equal_bytes) == answer, "equal bytes and OpenFst");
    measure(j, library_equal_bytes, plainly_equal_bytes, openfst_equal_bytes, result);
}

void measure_pairs(struct job *j, struct result *result)
{
    demand(agreed(j, library_pairs, plainly_pairs, "equal bytes of pairs") == j->pairs.equal, "equal bytes and the pairs made");
    measure(j, library_pairs, plainly_pairs, NULL, result);
}
