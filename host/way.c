/*
 * The trainer's host: tells in words the earliest history after which a request has an outcome under a policy, or that there is none.
 * A book may be given in place of a policy. The outcome is one of the words none, accept, reject and both, or its number, 0 to 3.
 *   way FILE REQUEST OUTCOME
 * Exit status: 0 the way was told, or that there is none; 1 something was refused; 2 bad usage, or a file that cannot be read or an answer
 * that cannot be written.
 */
#include <stdio.h>
#include <stdlib.h>
#include <string.h>

#include "books.h"
#include "policybook.h"

static const struct {
    const char *name, *in_words;
} outcomes[] = {
    [POLICYBOOK_OUTCOME_NONE] = { "none", "is unanswered" },
    [POLICYBOOK_OUTCOME_ACCEPT] = { "accept", "may only be accepted" },
    [POLICYBOOK_OUTCOME_REJECT] = { "reject", "may only be rejected" },
    [POLICYBOOK_OUTCOME_BOTH] = { "both", "may be both accepted and rejected" },
};

enum { OUTCOMES = sizeof outcomes / sizeof *outcomes };

/* Reads an outcome's word or number. 0 if it is neither. */
static int read_outcome(const char *text, size_t *outcome)
{
    for (*outcome = 0; *outcome < OUTCOMES; ++*outcome)
        if (strcmp(text, outcomes[*outcome].name) == 0) return 1;
    return read_number(text, outcome);
}

static void print_step(const uint8_t *book, unsigned code)
{
    struct policybook_step step = policybook_step_of(book, code);
    if (step.is_event) printf("%5u  event %u\n", code, step.number);
    else printf("%5u  request %u %s\n", code, step.number, step.accepted ? "accepted" : "rejected");
}

/* A line for the whole, and one for each step with its code. */
static void print_way(const uint8_t *book, size_t request, size_t outcome, struct policybook_finding way, const uint8_t *history)
{
    if (!way.found) {
        printf("there is no history after which request %zu %s\n", request, outcomes[outcome].in_words);
        return;
    }
    printf("request %zu %s", request, outcomes[outcome].in_words);
    if (way.length == 0) printf(", already at the start\n");
    else printf(", first after %u step%s:\n", way.length, way.length == 1 ? "" : "s");
    for (unsigned i = 0; i < way.length; i++) print_step(book, history[i]);
}

/* The exit status. */
static int find_way(const char *name, struct bytes book, size_t request, size_t outcome)
{
    uint8_t *history = lent_buffer(POLICYBOOK_WAY_SIZE, 0);
    uint64_t answer = policybook_way(book.data, book.length, request, outcome, history, POLICYBOOK_WAY_SIZE);
    int status = is_refused(name, answer);
    if (status == 0) {
        print_way(book.data, request, outcome, policybook_way_of(answer), history);
        if (fflush(stdout) != 0 || ferror(stdout)) {
            fprintf(stderr, "%s: the way cannot be written in full\n", name);
            status = 2;
        }
    } else if (policybook_refusal_of(answer) == POLICYBOOK_NOT_IN_BOOK) {
        fprintf(stderr, "%s: its requests are 0 to %u\n", name, policybook_requests_of(book.data) - 1);
    }
    free(history);
    return status;
}

int main(int argc, char **argv)
{
    struct bytes book;
    size_t request, outcome;
    if (argc != 4 || !read_number(argv[2], &request) || !read_outcome(argv[3], &outcome)) {
        fprintf(stderr, "usage: way FILE REQUEST OUTCOME\n  REQUEST is a number, from 0; OUTCOME is none, accept, reject or both, or its number, 0 to 3\n");
        return 2;
    }
    int status = read_book(argv[1], &book);
    if (status != 0) return status;
    status = find_way(argv[1], book, request, outcome);
    free(book.data);
    return status;
}
