/* Tests of verdict, compare and page: buffers that are too short, bytes that must stay, what is refused first. */
#include "test.h"

#include <stdio.h>
#include <stdlib.h>
#include <string.h>

#include "policybook.h"

/* Two states and two events; nothing is ever answered, so request 0 is missing and the book blocked at the start. */
static const uint8_t book_silent[] = { 0x42, 0x4F, 0x4B, 0x00, 0x01, 0x02, 0x01, 0x01, 0x00, 0x00, 0x00, 0x02, 2, 1, 0, 0, 1, 2, 0, 0 };

uint64_t expect_verdict(struct bytes book, const size_t size[3], const uint8_t *history, const size_t length[3])
{
    uint8_t *buffer[3] = { lent_buffer(size[0], FILLED), lent_buffer(size[1], FILLED), lent_buffer(size[2], FILLED) };
    uint64_t answer = policybook_verdict(book.data, book.length, buffer[0], size[0], buffer[1], size[1], buffer[2], size[2]);
    for (int i = 0; i < 3; i++) {
        CHECK(begins_with(buffer[i], size[i], history, length[i]));
        free(buffer[i]);
    }
    return answer;
}

static void test_verdict(void)
{
    static const size_t enough[3] = { 128, 128, 128 }, none[3] = { 0, 0, 0 };
    static const size_t conflict_after_two[3] = { 2, 0, 0 }, two_after_one[3] = { 0, 1, 1 };
    static const uint8_t threes[2] = { 3, 3 }, zero[1] = { 0 };
    struct bytes e = exact_copy(book_e, sizeof book_e), g = exact_copy(book_g, sizeof book_g), silent = exact_copy(book_silent, sizeof book_silent);

    uint64_t answer = expect_verdict(e, enough, threes, conflict_after_two);
    CHECK(answer == 768);
    CHECK(policybook_conflict_of(answer).found && policybook_conflict_of(answer).length == 2 && policybook_conflict_of(answer).request == 0);
    CHECK(!policybook_missing_of(answer).found && !policybook_blocked_of(answer).found);
    answer = expect_verdict(g, enough, zero, two_after_one);
    CHECK(!policybook_conflict_of(answer).found && policybook_conflict_of(answer).length == 0);
    CHECK(policybook_missing_of(answer).found && policybook_missing_of(answer).length == 1 && policybook_missing_of(answer).request == 0);
    CHECK(policybook_blocked_of(answer).found && policybook_blocked_of(answer).length == 1);
    answer = expect_verdict(silent, enough, zero, none);
    CHECK(policybook_refusal_of(answer) == POLICYBOOK_OK && !policybook_conflict_of(answer).found);
    CHECK(policybook_missing_of(answer).found && policybook_missing_of(answer).length == 0);
    CHECK(policybook_blocked_of(answer).found && policybook_blocked_of(answer).length == 0);
    free(e.data);
    free(g.data);
    free(silent.data);
}

static void test_verdict_refused(void)
{
    static const size_t enough[3] = { 128, 128, 128 }, none[3] = { 0, 0, 0 };
    static const size_t shorter[3][3] = { { 127, 128, 128 }, { 128, 127, 128 }, { 128, 128, 127 } };
    struct bytes e = exact_copy(book_e, sizeof book_e), cut = exact_copy(book_e, sizeof book_e - 1), empty = exact_copy(book_e, 0);
    for (int i = 0; i < 3; i++) {
        CHECK(expect_verdict(e, shorter[i], book_e, none) == POLICYBOOK_SHORT_BUFFER);
        CHECK(expect_verdict(empty, shorter[i], book_e, none) == POLICYBOOK_SHORT_BUFFER);
    }
    CHECK(expect_verdict(empty, enough, book_e, none) == POLICYBOOK_BOOK_HEADER);
    CHECK(expect_verdict(cut, enough, book_e, none) == POLICYBOOK_BOOK_LAYOUT);
    e.data[e.length - 1] = 4;
    CHECK(expect_verdict(e, enough, book_e, none) == POLICYBOOK_BOOK_ENTRY);
    free(e.data);
    free(cut.data);
    free(empty.data);
}

void expect_compare(struct bytes first, struct bytes second, size_t size, uint64_t wanted, const uint8_t *history, size_t length)
{
    uint8_t *buffer = lent_buffer(size, FILLED);
    CHECK(policybook_compare(first.data, first.length, second.data, second.length, buffer, size) == wanted);
    CHECK(begins_with(buffer, size, history, length));
    free(buffer);
}

static void test_compare(void)
{
    static const uint8_t view_rejected[3] = { 3, 3, 2 };
    struct bytes e = exact_copy(book_e, sizeof book_e), other = exact_copy(book_e, sizeof book_e);
    struct bytes g = exact_copy(book_g, sizeof book_g), empty = exact_copy(book_e, 0);
    other.data[24] = 0; /* request 0 rejected is not possible in state 3: case A */
    expect_compare(e, other, POLICYBOOK_HISTORY_SIZE, 3 * 256, view_rejected, 3);
    expect_compare(other, e, POLICYBOOK_HISTORY_SIZE + 9, 3 * 256, view_rejected, 3);
    expect_compare(e, e, POLICYBOOK_HISTORY_SIZE, 0, view_rejected, 0);
    expect_compare(e, other, POLICYBOOK_HISTORY_SIZE - 1, POLICYBOOK_SHORT_BUFFER, view_rejected, 0);
    expect_compare(empty, empty, 0, POLICYBOOK_SHORT_BUFFER, view_rejected, 0);
    expect_compare(e, empty, POLICYBOOK_HISTORY_SIZE, POLICYBOOK_BOOK_HEADER, view_rejected, 0);
    expect_compare(e, g, POLICYBOOK_HISTORY_SIZE, POLICYBOOK_FRAMES, view_rejected, 0);
    other.data[26] = 4;
    expect_compare(other, empty, POLICYBOOK_HISTORY_SIZE, POLICYBOOK_BOOK_ENTRY, view_rejected, 0);
    expect_compare(empty, other, POLICYBOOK_HISTORY_SIZE, POLICYBOOK_BOOK_HEADER, view_rejected, 0);
    free(e.data);
    free(other.data);
    free(g.data);
    free(empty.data);
}

/* The 62 columns of a page beyond two requests. */
#define BLANKS "                                                              "

void expect_page(struct bytes book, size_t size, uint64_t wanted, const char *lines, size_t length)
{
    uint8_t *buffer = lent_buffer(size, FILLED);
    CHECK(policybook_page(book.data, book.length, buffer, size) == wanted);
    CHECK(begins_with(buffer, size, (const uint8_t *)lines, length));
    free(buffer);
}

static void test_page(void)
{
    static const char page_e[] = "  1   0 AA" BLANKS "\n  2   1 AA" BLANKS "\n  3   2 BR" BLANKS "\n";
    static const char page_unreached[] = "  1   0 AR" BLANKS "\n  2 --- .B" BLANKS "\n";
    static const uint8_t book_unreached[] = { 0x42, 0x4F, 0x4B, 0x00, 0x01, 0x00, 0x01, 0x02, 0x00, 0x00, 0x00, 0x02, 1, 0, 0, 1, 0, 0, 1, 2 };
    const size_t length = sizeof page_e - 1, other_length = sizeof page_unreached - 1;
    struct bytes e = exact_copy(book_e, sizeof book_e), unreached = exact_copy(book_unreached, sizeof book_unreached);
    CHECK(length == 3 * 73);
    expect_page(e, POLICYBOOK_PAGE_SIZE, 256 * length, page_e, length);
    expect_page(e, POLICYBOOK_PAGE_SIZE + 7, 256 * length, page_e, length);
    expect_page(unreached, POLICYBOOK_PAGE_SIZE, 256 * other_length, page_unreached, other_length);
    free(e.data);
    free(unreached.data);
}

static void test_page_refused(void)
{
    struct bytes e = exact_copy(book_e, sizeof book_e), cut = exact_copy(book_e, sizeof book_e - 1), empty = exact_copy(book_e, 0);
    expect_page(e, POLICYBOOK_PAGE_SIZE - 1, POLICYBOOK_SHORT_BUFFER, "", 0);
    expect_page(e, 3 * 73, POLICYBOOK_SHORT_BUFFER, "", 0);
    expect_page(e, 0, POLICYBOOK_SHORT_BUFFER, "", 0);
    expect_page(empty, POLICYBOOK_PAGE_SIZE - 1, POLICYBOOK_SHORT_BUFFER, "", 0);
    expect_page(empty, POLICYBOOK_PAGE_SIZE, POLICYBOOK_BOOK_HEADER, "", 0);
    expect_page(cut, POLICYBOOK_PAGE_SIZE, POLICYBOOK_BOOK_LAYOUT, "", 0);
    e.data[e.length - 1] = 4;
    expect_page(e, POLICYBOOK_PAGE_SIZE, POLICYBOOK_BOOK_ENTRY, "", 0);
    free(e.data);
    free(cut.data);
    free(empty.data);
}

/* The longest page fills its buffer. */
static void test_longest_page(void)
{
    struct bytes book = full_book();
    uint8_t *page = lent_buffer(POLICYBOOK_PAGE_SIZE, FILLED);
    char line[74];
    CHECK(policybook_page(book.data, book.length, page, POLICYBOOK_PAGE_SIZE) == (uint64_t)256 * POLICYBOOK_PAGE_SIZE);
    for (int state = 1; state <= STATES; state++) {
        snprintf(line, sizeof line, "%3d %3d %s\n", state, state - 1, "BBBBBBBBBBBBBBBBBBBBBBBBBBBBBBBBBBBBBBBBBBBBBBBBBBBBBBBBBBBBBBBB");
        CHECK(memcmp(page + (state - 1) * 73, line, 73) == 0);
    }
    free(book.data);
    free(page);
}

void test_judging(void)
{
    test_verdict();
    test_verdict_refused();
    test_compare();
    test_page();
    test_page_refused();
    test_longest_page();
}
