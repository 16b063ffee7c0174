/*
 * A sample host: builds the books of two policy files, tells their findings in words, and compares them.
 *   sample FIRST SECOND
 * Exit status: 0 both were built and compared, 1 something was refused, 2 bad usage or a file that cannot be read.
 */
#include <stdio.h>
#include <stdlib.h>

#include "files.h"
#include "policybook.h"

static int is_refused(const char *what, uint64_t answer)
{
    unsigned number = policybook_refusal_of(answer);
    if (number == POLICYBOOK_OK) return 0;
    printf("%s: refused by number %u: %s\n", what, number, policybook_refusal_text(number));
    return 1;
}

static void print_step(const uint8_t *book, unsigned code)
{
    struct policybook_step step = policybook_step_of(book, code);
    if (step.is_event) printf("event %u", step.number);
    else printf("request %u %s", step.number, step.accepted ? "accepted" : "rejected");
}

static void print_history(const uint8_t *book, const uint8_t *history, uint64_t length)
{
    for (uint64_t i = 0; i < length; i++) {
        if (i > 0) printf(", ");
        print_step(book, history[i]);
    }
    printf("\n");
}

/* Ends a line of a finding: when it holds first. */
static void print_when(const uint8_t *book, struct policybook_finding finding, const uint8_t *history)
{
    printf("%s", finding.length == 0 ? ", already at the start" : ", first after: ");
    print_history(book, history, finding.length);
}

static void print_request_finding(const char *name, const char *what, struct policybook_finding finding, const uint8_t *book, const uint8_t *history)
{
    if (!finding.found) {
        printf("  %s: none\n", name);
        return;
    }
    printf("  %s: request %u %s", name, finding.request, what);
    print_when(book, finding, history);
}

static void print_blocked(struct policybook_finding finding, const uint8_t *book, const uint8_t *history)
{
    if (!finding.found) {
        printf("  blocked: none\n");
    } else if (finding.length == 0) {
        printf("  blocked: no request is ever answered\n");
    } else {
        printf("  blocked: no request is answered any more");
        print_when(book, finding, history);
    }
}

/* Prints the three findings. 1 if the book is refused, which no built book is. */
static int judge(const char *name, struct bytes book)
{
    uint8_t *conflict = lent_buffer(POLICYBOOK_FINDING_SIZE, 0);
    uint8_t *missing = lent_buffer(POLICYBOOK_FINDING_SIZE, 0);
    uint8_t *blocked = lent_buffer(POLICYBOOK_FINDING_SIZE, 0);
    uint64_t answer = policybook_verdict(book.data, book.length, conflict, POLICYBOOK_FINDING_SIZE,
                                         missing, POLICYBOOK_FINDING_SIZE, blocked, POLICYBOOK_FINDING_SIZE);
    int refused = is_refused(name, answer);
    if (!refused) {
        print_request_finding("conflict", "may be both accepted and rejected", policybook_conflict_of(answer), book.data, conflict);
        print_request_finding("missing", "is unanswered", policybook_missing_of(answer), book.data, missing);
        print_blocked(policybook_blocked_of(answer), book.data, blocked);
    }
    free(conflict);
    free(missing);
    free(blocked);
    return refused;
}

/* 0 if the policy was built and judged, 1 if it was refused, 2 if it cannot be read. Only with 0 there is a book, to be freed. */
static int build_and_judge(const char *name, struct bytes *book)
{
    struct bytes policy;
    if (!read_file(name, POLICYBOOK_POLICY_MOST + 1, &policy)) return 2;
    uint8_t *buffer = lent_buffer(POLICYBOOK_BOOK_SIZE, 0);
    uint64_t answer = policybook_build(policy.data, policy.length, buffer, POLICYBOOK_BOOK_SIZE);
    int refused = is_refused(name, answer);
    if (!refused) {
        *book = exact_copy(buffer, (size_t)policybook_value_of(answer));
        printf("%s: a book of %zu bytes, states: %u\n", name, book->length, policybook_states_of(book->data));
        refused = judge(name, *book);
    }
    free(buffer);
    free(policy.data);
    return refused;
}

static int compare(const char *first_name, struct bytes first, const char *second_name, struct bytes second)
{
    uint8_t *history = lent_buffer(POLICYBOOK_HISTORY_SIZE, 0);
    uint64_t answer = policybook_compare(first.data, first.length, second.data, second.length, history, POLICYBOOK_HISTORY_SIZE);
    int refused = is_refused("comparison", answer);
    size_t length = (size_t)policybook_value_of(answer);
    const char *name = !refused && policybook_after(first.data, history, length) != 0 ? first_name : second_name;
    if (!refused && length == 0) {
        printf("comparison: the same histories are possible under both\n");
    } else if (!refused) {
        printf("comparison: the earliest history possible under just one of them, %s: ", name);
        print_history(first.data, history, length);
    }
    free(history);
    return refused;
}

int main(int argc, char **argv)
{
    struct bytes first = { NULL, 0 }, second = { NULL, 0 };
    if (argc != 3) {
        fprintf(stderr, "usage: sample FIRST SECOND\n");
        return 2;
    }
    int one = build_and_judge(argv[1], &first);
    int two = build_and_judge(argv[2], &second);
    int status = one > two ? one : two;
    if (status == 0) status = compare(argv[1], first, argv[2], second);
    free(first.data);
    free(second.data);
    return status;
}
