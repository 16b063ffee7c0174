/* Tests of way: every outcome, the longest history, numbers past their limits, what is refused first. */
#include "test.h"

#include <stdlib.h>

#include "policybook.h"

void expect_way(struct bytes book, size_t request, size_t outcome, size_t size, uint64_t wanted, const uint8_t *history, size_t length)
{
    uint8_t *buffer = lent_buffer(size, FILLED);
    CHECK(policybook_way(book.data, book.length, request, outcome, buffer, size) == wanted);
    CHECK(begins_with(buffer, size, history, length));
    free(buffer);
}

/* Every outcome of every request: found after some codes, at the start (answer 256), or after no history (answer 0). */
static void test_way(void)
{
    static const uint8_t threes[2] = { 3, 3 }, zero[1] = { 0 };
    static const uint64_t answers_e[2][4] = { { 0, 256, 0, 768 }, { 0, 256, 768, 0 } }, answers_a[2][4] = { { 0, 256, 0, 0 }, { 0, 256, 768, 0 } };
    struct bytes e = exact_copy(book_e, sizeof book_e), a = exact_copy(book_e, sizeof book_e), g = exact_copy(book_g, sizeof book_g);
    a.data[24] = 0; /* request 0 rejected is not possible in state 3: case A */
    for (size_t request = 0; request < 2; request++) {
        for (size_t outcome = 0; outcome < 4; outcome++) {
            expect_way(e, request, outcome, POLICYBOOK_WAY_SIZE, answers_e[request][outcome], threes, answers_e[request][outcome] == 768 ? 2 : 0);
            expect_way(a, request, outcome, POLICYBOOK_WAY_SIZE + 9, answers_a[request][outcome], threes, answers_a[request][outcome] == 768 ? 2 : 0);
        }
        expect_way(g, request, POLICYBOOK_OUTCOME_NONE, POLICYBOOK_WAY_SIZE, 2 * 256, zero, 1);
    }
    CHECK(policybook_way_of(768).found && policybook_way_of(768).length == 2 && policybook_way_of(768).request == 0);
    CHECK(policybook_way_of(256).found && policybook_way_of(256).length == 0);
    CHECK(!policybook_way_of(0).found && !policybook_way_of(POLICYBOOK_UNKNOWN_OUTCOME).found);
    free(e.data);
    free(a.data);
    free(g.data);
}

/* The longest way has 126 codes, the last of 64 requests among them; a state that no history leads to is no way's end. */
static void test_longest_way(void)
{
    struct bytes book = full_book();
    uint8_t *codes = lent_buffer(STATES - 1, WIDTH - 1);
    book.data[12 + (STATES - 1) * WIDTH] = 0; /* in the last state request 0 is not accepted */
    expect_way(book, 0, POLICYBOOK_OUTCOME_REJECT, POLICYBOOK_WAY_SIZE, 256 * STATES, codes, STATES - 1);
    expect_way(book, 0, POLICYBOOK_OUTCOME_BOTH, POLICYBOOK_WAY_SIZE, 256, codes, 0);
    expect_way(book, 0, POLICYBOOK_OUTCOME_ACCEPT, POLICYBOOK_WAY_SIZE, 0, codes, 0); /* accepted alone, which is nowhere */
    expect_way(book, 63, POLICYBOOK_OUTCOME_REJECT, POLICYBOOK_WAY_SIZE, 0, codes, 0);
    expect_way(book, 64, POLICYBOOK_OUTCOME_REJECT, POLICYBOOK_WAY_SIZE, POLICYBOOK_NOT_IN_BOOK, codes, 0);
    book.data[12 + (STATES - 1) * WIDTH - 1] = 1; /* the step to the last state leads back */
    expect_way(book, 0, POLICYBOOK_OUTCOME_REJECT, POLICYBOOK_WAY_SIZE, 0, codes, 0);
    free(book.data);
    free(codes);
}

/* Numbers just past their limits, and such as would be good without their high bits; the outcome is judged before the request. */
static void test_way_out_of_range(void)
{
    static const size_t past[] = { 4, 128, 256, 257, (size_t)1 << 32, (size_t)1 << 63, ((size_t)1 << 63) + 1, SIZE_MAX };
    const size_t size = POLICYBOOK_WAY_SIZE;
    struct bytes e = exact_copy(book_e, sizeof book_e);
    expect_way(e, 2, POLICYBOOK_OUTCOME_BOTH, size, POLICYBOOK_NOT_IN_BOOK, book_e, 0);
    for (size_t i = 0; i < sizeof past / sizeof *past; i++) {
        expect_way(e, past[i], POLICYBOOK_OUTCOME_BOTH, size, POLICYBOOK_NOT_IN_BOOK, book_e, 0);
        expect_way(e, 0, past[i], size, POLICYBOOK_UNKNOWN_OUTCOME, book_e, 0);
        expect_way(e, 2, past[i], size, POLICYBOOK_UNKNOWN_OUTCOME, book_e, 0);
        expect_way(e, past[i], past[i], size, POLICYBOOK_UNKNOWN_OUTCOME, book_e, 0);
    }
    free(e.data);
}

/* A short buffer, then the book's checks, then the two numbers: each before the next, whether the next holds or not. */
static void test_way_refused(void)
{
    static const size_t asked[][2] = { { 0, 3 }, { 0, 4 }, { 2, 3 }, { 2, 4 }, { SIZE_MAX, SIZE_MAX } };
    const size_t size = POLICYBOOK_WAY_SIZE;
    struct bytes e = exact_copy(book_e, sizeof book_e), cut = exact_copy(book_e, sizeof book_e - 1), empty = exact_copy(book_e, 0);
    struct bytes marked = exact_copy(book_e, sizeof book_e), entry = exact_copy(book_e, sizeof book_e);
    marked.data[2] = 0x58;
    entry.data[entry.length - 1] = 4;
    for (size_t i = 0; i < sizeof asked / sizeof *asked; i++) {
        const size_t request = asked[i][0], outcome = asked[i][1];
        expect_way(e, request, outcome, size - 1, POLICYBOOK_SHORT_BUFFER, book_e, 0);
        expect_way(e, request, outcome, 0, POLICYBOOK_SHORT_BUFFER, book_e, 0);
        expect_way(empty, request, outcome, size - 1, POLICYBOOK_SHORT_BUFFER, book_e, 0);
        expect_way(entry, request, outcome, size - 1, POLICYBOOK_SHORT_BUFFER, book_e, 0);
        expect_way(empty, request, outcome, size, POLICYBOOK_BOOK_HEADER, book_e, 0);
        expect_way(marked, request, outcome, size, POLICYBOOK_BOOK_HEADER, book_e, 0);
        expect_way(cut, request, outcome, size, POLICYBOOK_BOOK_LAYOUT, book_e, 0);
        expect_way(entry, request, outcome, size, POLICYBOOK_BOOK_ENTRY, book_e, 0);
    }
    free(e.data);
    free(cut.data);
    free(empty.data);
    free(marked.data);
    free(entry.data);
}

void test_ways(void)
{
    test_way();
    test_longest_way();
    test_way_out_of_range();
    test_way_refused();
}
