/*
 * A host that walks a book: takes steps by their codes, from the start on, and says after each which state it led to and what may happen to each request there.
 * A step that is not possible leaves the state as it is. A book may be given in place of a policy.
 *   walk FILE CODE..
 * Exit status: 0 the steps were tried, possible or not; 1 the file was refused; 2 bad usage, or a file that cannot be read or lines that cannot be written.
 */
#include <limits.h>
#include <stdio.h>
#include <stdlib.h>

#include "books.h"
#include "policybook.h"

static const char *const outcomes[] = {
    [POLICYBOOK_OUTCOME_NONE] = "none",
    [POLICYBOOK_OUTCOME_ACCEPT] = "accept",
    [POLICYBOOK_OUTCOME_REJECT] = "reject",
    [POLICYBOOK_OUTCOME_BOTH] = "both",
};

/* Ends a line: the state and the outcome of each request in it. */
static void print_state(const uint8_t *book, unsigned state)
{
    printf("state %u", state);
    for (unsigned request = 0; request < policybook_requests_of(book); request++)
        printf("%s request %u %s", request == 0 ? ":" : ",", request, outcomes[policybook_outcome_of(book, state, request)]);
    printf("\n");
}

static void print_step(struct policybook_step step)
{
    if (step.is_event) printf("event %u", step.number);
    else printf("request %u %s", step.number, step.accepted ? "accepted" : "rejected");
}

/* Says where the step leads. The state after it; the same where it is not possible. */
static unsigned take_step(const uint8_t *book, unsigned state, unsigned code)
{
    struct policybook_step step = policybook_step_of(book, code);
    unsigned next = policybook_next(book, state, code);
    if (!step.found) {
        printf("no such code: they are 0 to %u\n", policybook_codes_of(book) - 1);
        return state;
    }
    print_step(step);
    if (next == 0) {
        printf(": not possible\n");
        return state;
    }
    printf(", to ");
    print_state(book, next);
    return next;
}

/* A code in decimal digits; one above UINT_MAX is read as UINT_MAX, which is no code of any book either. 0 if there is anything else. */
static int read_code(const char *text, unsigned *code)
{
    size_t number;
    int is_number = read_number(text, &number);
    *code = number > UINT_MAX ? UINT_MAX : (unsigned)number;
    return is_number;
}

/* The exit status. A book that was built is never refused, but one from a file may be anything, and what reads it here does not check it. */
static int walk(const char *name, struct bytes book, char **codes, int count)
{
    unsigned state = 1, code;
    if (is_refused(name, policybook_check(book.data, book.length))) return 1;
    printf("at the start, ");
    print_state(book.data, state);
    for (int i = 0; i < count; i++) {
        read_code(codes[i], &code);
        printf("%5s  ", codes[i]);
        state = take_step(book.data, state, code);
    }
    if (fflush(stdout) == 0 && !ferror(stdout)) return 0;
    fprintf(stderr, "%s: the steps cannot be written in full\n", name);
    return 2;
}

int main(int argc, char **argv)
{
    struct bytes book;
    unsigned code;
    int is_usable = argc >= 2;
    for (int i = 2; i < argc; i++) is_usable = is_usable && read_code(argv[i], &code);
    if (!is_usable) {
        fprintf(stderr, "usage: walk FILE CODE..\n  With E events, the CODE of event e is e, of request r accepted E + 2r, rejected E + 2r + 1.\n");
        return 2;
    }
    int status = read_book(argv[1], &book);
    if (status != 0) return status;
    status = walk(argv[1], book, argv + 2, argc - 2);
    free(book.data);
    return status;
}
