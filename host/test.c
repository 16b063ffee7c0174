/*
 * Tests of the library by its header, and of the header: runs those of the other files named test_, and has the inline functions and what all share.
 * Exit status 1 on a failure.
 */
#include "test.h"

#include <stdio.h>
#include <string.h>

#include "policybook.h"

static int failures;

/* So many are printed. */
#define SHOWN 20

void check(int holds, const char *what, const char *file, int line)
{
    if (!holds && failures++ < SHOWN) printf("%s, line %d: %s\n", file, line, what);
}

const uint8_t book_e[] = {
    0x42, 0x4F, 0x4B, 0x00, 0x01, 0x01, 0x01, 0x02, 0x00, 0x00, 0x00, 0x03,
    0x01, 0x01, 0x00, 0x02, 0x00, 0x01, 0x02, 0x00, 0x03, 0x00, 0x01, 0x03, 0x03, 0x00, 0x03,
};

const uint8_t book_g[] = { 0x42, 0x4F, 0x4B, 0x00, 0x01, 0x00, 0x01, 0x02, 0x00, 0x00, 0x00, 0x02, 2, 0, 2, 0, 0, 0, 0, 0 };

int begins_with(const uint8_t *buffer, size_t size, const uint8_t *bytes, size_t length)
{
    for (size_t i = length; i < size; i++) {
        if (buffer[i] != FILLED) return 0;
    }
    return memcmp(buffer, bytes, length) == 0;
}

struct bytes full_book(void)
{
    static const uint8_t header[12] = { 0x42, 0x4F, 0x4B, 0x00, 0x01, 0x00, 0x02, 0x10, 0x04, 0x00, 0x00, STATES };
    struct bytes book = { lent_buffer(12 + STATES * WIDTH, 0), 12 + STATES * WIDTH };
    memcpy(book.data, header, sizeof header);
    for (int state = 1; state <= STATES; state++) {
        memset(book.data + 12 + (state - 1) * WIDTH, state, WIDTH);
        if (state < STATES) book.data[12 + state * WIDTH - 1]++;
    }
    return book;
}

static void test_reading(void)
{
    struct policybook_step event = policybook_step_of(book_e, 0);
    struct policybook_step accepted = policybook_step_of(book_e, 3), rejected = policybook_step_of(book_e, 4);
    CHECK(policybook_events_of(book_e) == 1 && policybook_requests_of(book_e) == 2 && policybook_states_of(book_e) == 3);
    CHECK(policybook_next(book_e, 1, 3) == 2 && policybook_next(book_e, 1, 4) == 0 && policybook_next(book_e, 3, 4) == 3);
    CHECK(event.is_event && event.number == 0 && event.found);
    CHECK(!accepted.is_event && accepted.number == 1 && accepted.accepted && accepted.found);
    CHECK(!rejected.is_event && rejected.number == 1 && !rejected.accepted && rejected.found);
    CHECK(policybook_value_of(POLICYBOOK_FRAMES) == 0 && policybook_refusal_of(768) == POLICYBOOK_OK);
    CHECK(strcmp(policybook_refusal_text(POLICYBOOK_UNKNOWN_OUTCOME + 1), "no such refusal") == 0);
    CHECK(strcmp(policybook_refusal_text(POLICYBOOK_START), "a starting value is above 63") == 0);
    CHECK(strcmp(policybook_refusal_text(POLICYBOOK_UNKNOWN_OUTCOME), "the outcome is above 3") == 0);
}

int main(void)
{
    test_building();
    test_judging();
    test_ways();
    test_same_bytes();
    test_no_rules();
    test_next();
    test_desk();
    test_reading();
    if (failures == 0) printf("host/test.c: every check holds\n");
    else printf("host/test.c: FAILED, checks that do not hold: %d\n", failures);
    return failures == 0 ? 0 : 1;
}
