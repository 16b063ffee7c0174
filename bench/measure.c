/* measure.c: the tables of docs/MEASUREMENTS.md, in Markdown. Usage: measure jobs, measure places or measure growth */
#include "jobs.h"
#include "policybook.h"

#include <stdio.h>
#include <string.h>

static void print_time(double nanoseconds)
{
    double t = nanoseconds / 1000;
    printf(t < 1 ? " %.3f |" : t < 10 ? " %.2f |" : t < 100 ? " %.1f |" : " %.0f |", t);
}

static void print_ratio(double ratio) { printf(ratio < 10 ? " %.2f |" : " %.0f |", ratio); }

/* One of the functions of jobs.h that measure a job. */
typedef void measurement(struct job *job, struct result *result);

/* A job measured: its row. */
static void row(const char *job, const char *input, measurement *measure, struct job *j)
{
    struct result r;
    measure(j, &r);
    printf("| %s | %s |", job, input);
    print_time(r.nanoseconds[LIBRARY]);
    print_time(r.nanoseconds[PLAIN]);
    print_ratio(1 / r.ratio[PLAIN]);
    if (r.nanoseconds[OPENFST] == 0) {
        printf(" - | - |");
    } else {
        print_time(r.nanoseconds[OPENFST]);
        print_ratio(r.ratio[OPENFST]);
    }
    printf("\n");
    fflush(stdout);
}

/* The way to an outcome of request 0 in the first book. */
static void way_row(const char *job, const char *input, size_t outcome, struct job *j)
{
    j->request = 0;
    j->outcome = outcome;
    row(job, input, measure_way, j);
}

/* The book that build gave last becomes the first book. */
static void take_book(struct job *j)
{
    j->first.length = j->written.answer / 256;
    memcpy(j->first.at, j->written.book, j->first.length);
}

/* All jobs of a policy that never leaves request 0 unanswered: its book, the verdict on it, a way to request 0 unanswered, sought in vain, its page, and the book
 * beside itself and beside one with a late difference. */
static void policy_rows(const char *input, struct job *j)
{
    row("build", input, measure_build, j);
    take_book(j);
    row("verdict", input, measure_verdict, j);
    way_row("way, no history", input, POLICYBOOK_OUTCOME_NONE, j);
    row("page", input, measure_page, j);
    j->second = j->first;
    row("compare, same", input, measure_compare, j);
    late_difference(&j->first, &j->second);
    row("compare, one entry differs", input, measure_compare, j);
}

/* Jobs on the widest books with the most states. */
static void book_rows(const char *input, struct job *j)
{
    late_findings(&j->first);
    row("verdict, late findings", input, measure_verdict, j);
    way_row("way, late findings, 126 codes", input, POLICYBOOK_OUTCOME_BOTH, j);
    way_row("way, late findings, no history", input, POLICYBOOK_OUTCOME_NONE, j);
    all_codes(&j->first);
    row("verdict, all codes possible", input, measure_verdict, j);
    way_row("way, all codes possible, 126 codes", input, POLICYBOOK_OUTCOME_ACCEPT, j);
    way_row("way, all codes possible, no history", input, POLICYBOOK_OUTCOME_NONE, j);
    one_code_away(&j->first);
    row("verdict, every state one code away", input, measure_verdict, j);
    way_row("way, every state one code away, no history", input, POLICYBOOK_OUTCOME_NONE, j);
    late_findings(&j->first);
    renumbered(&j->first, &j->second);
    row("compare, same, other numbers", input, measure_compare, j);
    farthest_pair(&j->first, &j->second, 1);
    row("compare, 253 codes, full rows", input, measure_compare, j);
    farthest_pair(&j->first, &j->second, 0);
    row("compare, 253 codes, rows of 10", input, measure_compare, j);
    all_pairs(&j->first, &j->second);
    row("compare, all pairs reached", input, measure_compare, j);
    half_reached(&j->first);
    row("page, half of the states reached", input, measure_page, j);
    late_findings(&j->first);
    j->second = j->first;
    row("equal bytes, equal", input, measure_equal_bytes, j);
    late_difference(&j->first, &j->second);
    row("equal bytes, last differs", input, measure_equal_bytes, j);
    early_difference(&j->first, &j->second);
    same_pair(&j->first, &j->second, SHORT_PAIRS, &j->pairs);
    row("equal bytes, entry of state 1 differs, 100 times", input, measure_pairs, j);
    equal_pairs(&j->first, j->first.length, SHELF_PAIRS, &j->pairs);
    row("equal bytes, 1,000 equal pairs", "shelf of 2,000 books 127 × 136", measure_pairs, j);
}

/* Equal strings: none, a frame's bytes, whole words, and a tail that is as long as it can be. */
static void string_rows(struct job *j)
{
    static const size_t lengths[] = { 0, 6, 7, 8, 15, 16, 23, 24 };
    char input[40];
    late_findings(&j->first);
    for (size_t i = 0; i < sizeof lengths / sizeof *lengths; i++) {
        snprintf(input, sizeof input, "strings of %zu bytes", lengths[i]);
        equal_pairs(&j->first, lengths[i], SHORT_PAIRS, &j->pairs);
        row("equal bytes, 100 equal pairs", input, measure_pairs, j);
    }
}

/* The narrowest book with the most states, in which writing the history is the greatest part of a way. */
static void chain_rows(const char *input, struct job *j)
{
    chain(&j->first);
    row("verdict", input, measure_verdict, j);
    way_row("way, 126 codes", input, POLICYBOOK_OUTCOME_REJECT, j);
    way_row("way, no history", input, POLICYBOOK_OUTCOME_NONE, j);
}

static void print_jobs(struct job *j)
{
    printf("| job | input | library, µs | plain C, µs | library / plain C | OpenFst, µs | OpenFst / library |\n|---|---|---:|---:|---:|---:|---:|\n");
    case_s(&j->policy);
    policy_rows("case S", j);
    forty_states(&j->policy);
    policy_rows("40 states", j);
    forty_states_started(&j->policy);
    row("build", "40 states, version 2", measure_build, j);
    no_rules(&j->policy);
    row("build", "no rules, 136 codes", measure_build, j);
    take_book(j);
    row("verdict", "no rules, 136 codes", measure_verdict, j);
    many_states(&j->policy, 63, 8, 16, 4, 5);
    policy_rows("127 states, 136 codes", j);
    book_rows("books 127 × 136", j);
    string_rows(j);
    chain_rows("chain of 127 states, 2 codes", j);
}

/* Two equal books at several places in memory. */
static void print_places(struct job *j)
{
    static const unsigned places[][2] = { { 0, 16 }, { 16, 32 }, { 0, 0 }, { 0, 32 }, { 8, 24 }, { 8, 8 }, { 0, 8 }, { 1, 17 }, { 1, 1 }, { 0, 1 } };
    late_findings(&j->first);
    printf("| first book | second book | library, µs | plain C, µs | library / plain C |\n|---:|---:|---:|---:|---:|\n");
    for (size_t i = 0; i < sizeof places / sizeof *places; i++) {
        struct result r;
        pair_at(&j->first, places[i][0], places[i][1], &j->pairs);
        measure_pairs(j, &r);
        printf("| at %u | at %u |", places[i][0], places[i][1]);
        print_time(r.nanoseconds[LIBRARY]);
        print_time(r.nanoseconds[PLAIN]);
        print_ratio(1 / r.ratio[PLAIN]);
        printf("\n");
    }
}

/* A job measured: the library's time, and its ratio to plain C's. */
static void growth_cells(measurement *measure, struct job *j)
{
    struct result r;
    measure(j, &r);
    print_time(r.nanoseconds[LIBRARY]);
    print_ratio(1 / r.ratio[PLAIN]);
}

/* One row of a table of growth: the number that grows, then build, verdict and compare. */
static void growth_row(unsigned number, struct job *j)
{
    printf("| %u |", number);
    growth_cells(measure_build, j);
    take_book(j);
    growth_cells(measure_verdict, j);
    renumbered(&j->first, &j->second);
    growth_cells(measure_compare, j);
    printf("\n");
    fflush(stdout);
}

static void growth_head(const char *what, const char *rest)
{
    printf("\n%s (%s):\n\n| %s | build, µs | / plain C | verdict, µs | / plain C | compare, µs | / plain C |\n|---:|---:|---:|---:|---:|---:|---:|\n", what, rest, what);
}

/* Valuations from one, which is a policy without rules, to where the arrays that build takes are the largest. */
static void valuation_rows(const char *rest, unsigned events, unsigned high, unsigned low, struct job *j)
{
    static const unsigned valuations[] = { 1, 2, 3, 4, 6, 7, 16, 64 };
    growth_head("valuations", rest);
    for (size_t i = 0; i < sizeof valuations / sizeof *valuations; i++) {
        some_valuations(&j->policy, valuations[i], events, high, low);
        growth_row(valuations[i], j);
    }
}

static void print_growth(struct job *j)
{
    static const unsigned tops[] = { 3, 7, 15, 31, 47, 63 }, widths[][2] = { { 2, 1 }, { 4, 1 }, { 8, 1 }, { 16, 1 }, { 16, 2 }, { 16, 4 } };
    static const unsigned rules[] = { 5, 10, 20, 32 };
    growth_head("situations", "136 codes, 5 rules");
    for (size_t i = 0; i < sizeof tops / sizeof *tops; i++) {
        many_states(&j->policy, tops[i], 8, 16, 4, 5);
        growth_row(2 * tops[i] + 1, j);
    }
    growth_head("codes", "127 situations, 5 rules");
    for (size_t i = 0; i < sizeof widths / sizeof *widths; i++) {
        many_states(&j->policy, 63, 0, widths[i][0], widths[i][1], 5);
        growth_row(2 * widths[i][0] * widths[i][1], j);
    }
    growth_head("rules", "127 situations, 136 codes");
    for (size_t i = 0; i < sizeof rules / sizeof *rules; i++) {
        many_states(&j->policy, 63, 8, 16, 4, rules[i]);
        growth_row(rules[i], j);
    }
    valuation_rows("7 codes; 1 is a policy without rules", 1, 3, 1, j);
    valuation_rows("34 codes; 1 is a policy without rules", 2, 16, 1, j);
    valuation_rows("136 codes; 1 is a policy without rules", 8, 16, 4, j);
}

int main(int argc, char **argv)
{
    static struct job j;
    if (argc == 2 && strcmp(argv[1], "jobs") == 0)
        print_jobs(&j);
    else if (argc == 2 && strcmp(argv[1], "places") == 0)
        print_places(&j);
    else if (argc == 2 && strcmp(argv[1], "growth") == 0)
        print_growth(&j);
    else
        return 2;
    return 0;
}
