/*
 * Tests of the inline functions by which a desk takes a file and a history: telling a book from a policy, checking a book from elsewhere, and the state that a
 * history leads to. Each string of bytes is a block of its own, so that memcheck sees a read outside.
 */
#include "test.h"

#include <stdlib.h>
#include <string.h>

#include "policybook.h"

static void expect_is_book(const uint8_t *bytes, size_t length, int wanted)
{
    struct bytes block = exact_copy(bytes, length);
    CHECK(policybook_is_book(block.data, block.length) == wanted);
    free(block.data);
}

/* The mark alone tells, of any length from 3 on. */
static void test_marks(void)
{
    static const uint8_t mark[] = { 'B', 'O', 'K' }, policy_mark[] = { 'P', 'O', 'L', 0, 1 };
    for (size_t length = 0; length < sizeof mark; length++) expect_is_book(mark, length, 0);
    for (size_t length = 0; length <= sizeof policy_mark; length++) expect_is_book(policy_mark, length, 0);
    for (size_t length = sizeof mark; length <= sizeof book_e; length++) expect_is_book(book_e, length, 1);
    for (size_t place = 0; place < sizeof mark; place++) {
        for (int value = 0; value < 256; value++) {
            uint8_t bytes[sizeof mark];
            memcpy(bytes, mark, sizeof mark);
            bytes[place] = (uint8_t)value;
            expect_is_book(bytes, sizeof bytes, value == mark[place]);
        }
    }
}

/* The bytes are judged, and stay. */
static void expect_check(const uint8_t *bytes, size_t length, unsigned wanted)
{
    struct bytes block = exact_copy(bytes, length);
    CHECK(policybook_check(block.data, block.length) == wanted);
    CHECK(memcmp(block.data, bytes, length) == 0);
    free(block.data);
}

/* Case E's book with another byte at one place: the row that the place belongs to. */
static unsigned refusal_with(size_t place, int value)
{
    if (value == book_e[place]) return POLICYBOOK_OK;
    if (place < 5) return POLICYBOOK_BOOK_HEADER;
    if (place < 12) return POLICYBOOK_BOOK_LAYOUT;
    return value > 3 || (value == 0 && (place - 12) % 5 == 0) ? POLICYBOOK_BOOK_ENTRY : POLICYBOOK_OK;
}

static void test_checking(void)
{
    static const uint8_t shortest[] = { 'B', 'O', 'K', 0, 1, 0, 1, 1, 0, 0, 0, 1, 0, 0 };
    uint8_t bytes[sizeof book_e + 1] = { 0 };
    struct bytes full = full_book();
    memcpy(bytes, book_e, sizeof book_e);
    for (size_t place = 0; place < sizeof book_e; place++) {
        for (int value = 0; value < 256; value++) {
            bytes[place] = (uint8_t)value;
            expect_check(bytes, sizeof book_e, refusal_with(place, value));
        }
        bytes[place] = book_e[place];
    }
    for (size_t length = 0; length < sizeof book_e; length++) expect_check(bytes, length, length < 12 ? POLICYBOOK_BOOK_HEADER : POLICYBOOK_BOOK_LAYOUT);
    expect_check(bytes, sizeof bytes, POLICYBOOK_BOOK_LAYOUT);
    expect_check(shortest, sizeof shortest, POLICYBOOK_OK); /* with one request only */
    expect_check(book_g, sizeof book_g, POLICYBOOK_OK);
    expect_check(full.data, full.length, POLICYBOOK_OK);
    full.data[full.length - 1] = STATES + 1;
    expect_check(full.data, full.length, POLICYBOOK_BOOK_ENTRY);
    free(full.data);
}

/* A file that begins with these bytes and goes on with zeros is refused by this number, whole and by its first POLICYBOOK_BOOK_SIZE + 1 bytes. */
static void expect_cut(const uint8_t *begin, size_t length, unsigned wanted)
{
    static const size_t lengths[] = { POLICYBOOK_BOOK_SIZE + 1, POLICYBOOK_BOOK_SIZE + 2, 20000, 100000 };
    uint8_t *book = lent_buffer(POLICYBOOK_BOOK_SIZE, FILLED);
    for (size_t i = 0; i < sizeof lengths / sizeof *lengths; i++) {
        uint8_t *file = lent_buffer(lengths[i], 0);
        memcpy(file, begin, length);
        if (policybook_is_book(file, lengths[i])) CHECK(policybook_check(file, lengths[i]) == wanted);
        else CHECK(policybook_build(file, lengths[i], book, POLICYBOOK_BOOK_SIZE) == wanted);
        free(file);
    }
    CHECK(begins_with(book, POLICYBOOK_BOOK_SIZE, book, 0));
    free(book);
}

static void test_long_files(void)
{
    static const uint8_t policy[] = { 'P', 'O', 'L', 0, 1, 1, 1, 0, 0, 3 }, other_version[] = { 'P', 'O', 'L', 0, 3 };
    static const uint8_t most[] = { 'P', 'O', 'L', 0, 2, 8, 4, 4, 32, 2, 2, 2, 2 }, fields[] = { 'P', 'O', 'L', 0, 1, 1, 5 };
    static const uint8_t longest[] = { 'B', 'O', 'K', 0, 1, 8, 2, 16, 4, 0, 0, STATES }, other_book[] = { 'B', 'O', 'K', 0, 2 };
    expect_cut(policy, sizeof policy, POLICYBOOK_POLICY_LENGTH);
    expect_cut(most, sizeof most, POLICYBOOK_POLICY_LENGTH);
    expect_cut(other_version, sizeof other_version, POLICYBOOK_POLICY_VERSION);
    expect_cut(fields, sizeof fields, POLICYBOOK_POLICY_RANGE);
    expect_cut(policy, 0, POLICYBOOK_POLICY_MARK);
    expect_cut(longest, sizeof longest, POLICYBOOK_BOOK_LAYOUT);
    expect_cut(other_book, sizeof other_book, POLICYBOOK_BOOK_HEADER);
    expect_cut(book_e, sizeof book_e, POLICYBOOK_BOOK_LAYOUT);
}

/* Where the rows of case E's book lead; 0 from the first step on that is not possible. */
static unsigned led_to_in_e(const uint8_t *codes, size_t length)
{
    unsigned state = 1;
    for (size_t i = 0; i < length; i++) {
        if (codes[i] >= 5 || book_e[12 + (state - 1) * 5 + codes[i]] == 0) return 0;
        state = book_e[12 + (state - 1) * 5 + codes[i]];
    }
    return state;
}

static void expect_after(const uint8_t *book, const uint8_t *codes, size_t length, unsigned wanted)
{
    struct bytes history = exact_copy(codes, length);
    CHECK(policybook_after(book, history.data, history.length) == wanted);
    free(history.data);
}

/* Every history of up to five codes, among them two that the book has not. */
static void test_short_histories(void)
{
    enum { MOST = 5, CODES = 7 };
    static const uint8_t codes[CODES] = { 0, 1, 2, 3, 4, 5, 255 };
    struct bytes e = exact_copy(book_e, sizeof book_e);
    size_t count = 1;
    for (size_t length = 0; length <= MOST; length++, count *= CODES) {
        for (size_t number = 0; number < count; number++) {
            uint8_t history[MOST];
            size_t rest = number;
            for (size_t i = 0; i < length; i++, rest /= CODES) history[i] = codes[rest % CODES];
            expect_after(e.data, history, length, led_to_in_e(history, length));
        }
    }
    free(e.data);
}

/* In the full book the last code leads on, to the last state, and every other stays. */
static void test_long_histories(void)
{
    enum { LENGTH = 70000 };
    struct bytes book = full_book();
    uint8_t *codes = lent_buffer(LENGTH, WIDTH - 1);
    for (unsigned length = 0; length <= 300; length++) expect_after(book.data, codes, length, length < STATES ? length + 1 : STATES);
    expect_after(book.data, codes, LENGTH, STATES);
    codes[LENGTH - 1] = WIDTH;
    expect_after(book.data, codes, LENGTH, 0);
    expect_after(book.data, codes, LENGTH - 1, STATES);
    memset(codes, 0, LENGTH);
    expect_after(book.data, codes, LENGTH, 1);
    codes[0] = 255;
    expect_after(book.data, codes, LENGTH, 0);
    free(codes);
    free(book.data);
}

void test_desk(void)
{
    test_marks();
    test_checking();
    test_long_files();
    test_short_histories();
    test_long_histories();
}
