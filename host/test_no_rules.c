/* Tests of policies without rules: their books, every call on these, and what is refused of their files. */
#include "test.h"

#include <stdlib.h>
#include <string.h>

#include "policybook.h"

/* samples/norules.policy: one event, one field of three values, no variables. */
static const uint8_t policy_plain[] = { 0x50, 0x4F, 0x4C, 0x00, 0x01, 0x01, 0x01, 0x00, 0x00, 0x03 };

/* samples/norules-started.policy: the same with two variables, which start at 5 and 63; the event sets the first to zero and adds one to the second. */
static const uint8_t policy_started[] = { 0x50, 0x4F, 0x4C, 0x00, 0x02, 0x01, 0x01, 0x02, 0x00, 0x03, 0x05, 0x3F, 0x02, 0x01 };

static const uint8_t book_plain[] = { 0x42, 0x4F, 0x4B, 0x00, 0x01, 0x01, 0x01, 0x03, 0x00, 0x00, 0x00, 0x01, 1, 0, 0, 0, 0, 0, 0 };

/* No event and one request: no file is shorter. */
static const uint8_t policy_smallest[] = { 0x50, 0x4F, 0x4C, 0x00, 0x01, 0x00, 0x01, 0x00, 0x00, 0x01 };
static const uint8_t book_smallest[] = { 0x42, 0x4F, 0x4B, 0x00, 0x01, 0x00, 0x01, 0x01, 0x00, 0x00, 0x00, 0x01, 0, 0 };

/* Eight events, four fields with 64 requests and four variables in version 2: no file without rules is longer. */
static const uint8_t policy_largest[] = {
    0x50, 0x4F, 0x4C, 0x00, 0x02, 0x08, 0x04, 0x04, 0x00, 0x04, 0x02, 0x04, 0x02, 63, 0, 1, 62,
    1, 0, 0, 0, 2, 1, 1, 2, 1, 1, 1, 1, 1, 1, 1, 1, 1, 1, 1, 1, 1, 1, 1, 1, 1, 1, 1, 1, 0, 0, 0, 2,
};

/* Its frame in version 1, without variables. */
static const uint8_t policy_wide[] = { 0x50, 0x4F, 0x4C, 0x00, 0x01, 0x08, 0x04, 0x00, 0x00, 0x04, 0x02, 0x04, 0x02 };

/* The last 128 entries, those of the requests, are 0. */
static const uint8_t book_largest[12 + 8 + 128] = { 0x42, 0x4F, 0x4B, 0x00, 0x01, 0x08, 0x04, 0x04, 0x02, 0x04, 0x02, 0x01, 1, 1, 1, 1, 1, 1, 1, 1 };

static void expect_book(const uint8_t *policy, size_t policy_length, const uint8_t *book, size_t length)
{
    struct bytes file = exact_copy(policy, policy_length);
    expect_build(file, POLICYBOOK_BOOK_SIZE, 256 * length, book, length);
    expect_build(file, POLICYBOOK_BOOK_SIZE + 7, 256 * length, book, length);
    expect_build(file, POLICYBOOK_BOOK_SIZE - 1, POLICYBOOK_SHORT_BUFFER, book, 0);
    free(file.data);
}

/* The frame alone makes the book: not the version, the variables, their starting values or what the events do to them. */
static void test_books(void)
{
    expect_book(policy_smallest, sizeof policy_smallest, book_smallest, sizeof book_smallest);
    expect_book(policy_plain, sizeof policy_plain, book_plain, sizeof book_plain);
    expect_book(policy_started, sizeof policy_started, book_plain, sizeof book_plain);
    expect_book(policy_wide, sizeof policy_wide, book_largest, sizeof book_largest);
    expect_book(policy_largest, sizeof policy_largest, book_largest, sizeof book_largest);
}

/* The book of a policy, with no byte to spare; no bytes if the policy is refused. */
static struct bytes built(const uint8_t *policy, size_t length)
{
    uint8_t *buffer = lent_buffer(POLICYBOOK_BOOK_SIZE, FILLED);
    uint64_t answer = policybook_build(policy, length, buffer, POLICYBOOK_BOOK_SIZE);
    struct bytes book = exact_copy(buffer, (size_t)policybook_value_of(answer));
    free(buffer);
    return book;
}

/* Beside each other, beside a policy whose one rule cannot apply (at least 5 and below 3), one that rejects everything, and another frame. */
static void test_beside_others(void)
{
    static const uint8_t contradictory[] = { 0x50, 0x4F, 0x4C, 0x00, 0x01, 0x01, 0x01, 0x01, 0x01, 0x03, 0x00, 0x07, 0x01, 0x00, 0x05, 0x03, 0x01, 0x02 };
    static const uint8_t rejecting[] = { 0x50, 0x4F, 0x4C, 0x00, 0x01, 0x01, 0x01, 0x00, 0x01, 0x03, 0x00, 0x07, 0x00, 0x00 };
    static const uint8_t request_0_rejected[] = { 2 };
    const size_t size = POLICYBOOK_HISTORY_SIZE;
    struct bytes plain = built(policy_plain, sizeof policy_plain), started = built(policy_started, sizeof policy_started);
    struct bytes idle = built(contradictory, sizeof contradictory), rejects = built(rejecting, sizeof rejecting);
    struct bytes smallest = built(policy_smallest, sizeof policy_smallest);
    expect_same(plain, started, 1);
    expect_compare(plain, started, size, 0, request_0_rejected, 0);
    expect_same(plain, idle, 1);
    expect_compare(idle, started, size, 0, request_0_rejected, 0);
    expect_same(plain, rejects, 0);
    expect_compare(plain, rejects, size, 256, request_0_rejected, 1);
    expect_compare(rejects, started, size, 256, request_0_rejected, 1);
    expect_same(plain, smallest, 0);
    expect_compare(plain, smallest, size, POLICYBOOK_FRAMES, request_0_rejected, 0);
    free(plain.data);
    free(started.data);
    free(idle.data);
    free(rejects.data);
    free(smallest.data);
}

/* One state, which every event leads to. No conflict; request 0 missing and the book blocked, both at the start, so that no buffer is written to. */
static void expect_silence(struct bytes book)
{
    static const size_t enough[3] = { 128, 129, 130 }, none[3] = { 0, 0, 0 };
    uint64_t answer = expect_verdict(book, enough, book_plain, none);
    struct policybook_finding missing = policybook_missing_of(answer), blocked = policybook_blocked_of(answer);
    CHECK(answer == 256 * (((uint64_t)1 << 16) + ((uint64_t)1 << 32)));
    CHECK(!policybook_conflict_of(answer).found);
    CHECK(missing.found && missing.length == 0 && missing.request == 0);
    CHECK(blocked.found && blocked.length == 0);
    CHECK(policybook_states_of(book.data) == 1);
    for (unsigned code = 0; code < policybook_events_of(book.data) + 2 * policybook_requests_of(book.data); code++)
        CHECK(policybook_next(book.data, 1, code) == (code < policybook_events_of(book.data)));
}

/* No outcome but none, which every request has at the start; and a page of one line, with a dot for each request. */
static void expect_no_answers(struct bytes book, size_t requests)
{
    char line[] = "  1   0                                                                 \n";
    CHECK(sizeof line == 73 + 1);
    memset(line + 8, '.', requests);
    expect_page(book, POLICYBOOK_PAGE_SIZE, 256 * 73, line, 73);
    for (size_t request = 0; request < requests; request++) {
        expect_way(book, request, POLICYBOOK_OUTCOME_NONE, POLICYBOOK_WAY_SIZE, 256, book_plain, 0);
        expect_way(book, request, POLICYBOOK_OUTCOME_ACCEPT, POLICYBOOK_WAY_SIZE, 0, book_plain, 0);
        expect_way(book, request, POLICYBOOK_OUTCOME_REJECT, POLICYBOOK_WAY_SIZE, 0, book_plain, 0);
        expect_way(book, request, POLICYBOOK_OUTCOME_BOTH, POLICYBOOK_WAY_SIZE, 0, book_plain, 0);
    }
    expect_way(book, requests, POLICYBOOK_OUTCOME_NONE, POLICYBOOK_WAY_SIZE, POLICYBOOK_NOT_IN_BOOK, book_plain, 0);
    expect_way(book, requests, POLICYBOOK_OUTCOME_BOTH + 1, POLICYBOOK_WAY_SIZE, POLICYBOOK_UNKNOWN_OUTCOME, book_plain, 0);
}

static void test_calls_on_books(void)
{
    struct bytes smallest = exact_copy(book_smallest, sizeof book_smallest), plain = exact_copy(book_plain, sizeof book_plain);
    struct bytes largest = exact_copy(book_largest, sizeof book_largest);
    expect_silence(smallest);
    expect_silence(plain);
    expect_silence(largest);
    expect_no_answers(smallest, 1);
    expect_no_answers(plain, 3);
    expect_no_answers(largest, 64);
    free(smallest.data);
    free(plain.data);
    free(largest.data);
}

/* One byte less, which in the smallest file is its only value count, and one more. */
static void expect_length(const uint8_t *policy, size_t length)
{
    struct bytes cut = exact_copy(policy, length - 1), longer = { lent_buffer(length + 1, 0), length + 1 };
    memcpy(longer.data, policy, length);
    expect_build(cut, POLICYBOOK_BOOK_SIZE, POLICYBOOK_POLICY_LENGTH, policy, 0);
    expect_build(longer, POLICYBOOK_BOOK_SIZE, POLICYBOOK_POLICY_LENGTH, policy, 0);
    free(cut.data);
    free(longer.data);
}

/* A byte of policy_started changed, from the fault judged last to the one judged first: each by itself, and together with all before it. */
static void test_faults(void)
{
    static const struct {
        size_t place;
        uint8_t byte;
        uint64_t refusal;
    } faults[] = {
        { 13, 3, POLICYBOOK_RULE_VALUE }, { 12, 3, POLICYBOOK_RULE_VALUE }, { 11, 64, POLICYBOOK_START }, { 10, 64, POLICYBOOK_START },
        { 9, 0, POLICYBOOK_VALUE_COUNT }, { 9, 17, POLICYBOOK_VALUE_COUNT }, { 8, 1, POLICYBOOK_POLICY_LENGTH }, { 8, 32, POLICYBOOK_POLICY_LENGTH },
        { 8, 33, POLICYBOOK_POLICY_RANGE }, { 8, 255, POLICYBOOK_POLICY_RANGE }, { 7, 5, POLICYBOOK_POLICY_RANGE }, { 6, 0, POLICYBOOK_POLICY_RANGE },
        { 5, 9, POLICYBOOK_POLICY_RANGE }, { 4, 3, POLICYBOOK_POLICY_VERSION }, { 2, 0x58, POLICYBOOK_POLICY_MARK },
    };
    struct bytes one = exact_copy(policy_started, sizeof policy_started), many = exact_copy(policy_started, sizeof policy_started);
    for (size_t i = 0; i < sizeof faults / sizeof *faults; i++) {
        one.data[faults[i].place] = many.data[faults[i].place] = faults[i].byte;
        expect_build(one, POLICYBOOK_BOOK_SIZE, faults[i].refusal, policy_started, 0);
        expect_build(many, POLICYBOOK_BOOK_SIZE, faults[i].refusal, policy_started, 0);
        expect_build(many, POLICYBOOK_BOOK_SIZE - 1, POLICYBOOK_SHORT_BUFFER, policy_started, 0);
        one.data[faults[i].place] = policy_started[faults[i].place];
    }
    expect_build(one, POLICYBOOK_BOOK_SIZE, 256 * sizeof book_plain, book_plain, sizeof book_plain);
    free(one.data);
    free(many.data);
}

/* Each starting value of policy_largest as 64, each change of its events as 3, and a value count with which there are 128 requests. */
static void test_faults_of_largest(void)
{
    struct bytes policy = exact_copy(policy_largest, sizeof policy_largest);
    for (size_t place = 13; place < sizeof policy_largest; place++) {
        policy.data[place] = place < 17 ? 64 : 3;
        expect_build(policy, POLICYBOOK_BOOK_SIZE, place < 17 ? POLICYBOOK_START : POLICYBOOK_RULE_VALUE, policy_largest, 0);
        policy.data[place] = policy_largest[place];
    }
    policy.data[10] = 4;
    expect_build(policy, POLICYBOOK_BOOK_SIZE, POLICYBOOK_VALUE_COUNT, policy_largest, 0);
    free(policy.data);
}

void test_no_rules(void)
{
    test_books();
    test_beside_others();
    test_calls_on_books();
    expect_length(policy_smallest, sizeof policy_smallest);
    expect_length(policy_plain, sizeof policy_plain);
    expect_length(policy_started, sizeof policy_started);
    expect_length(policy_largest, sizeof policy_largest);
    test_faults();
    test_faults_of_largest();
}
