/* Tests of build: buffers that are too short, bytes that must stay, starting values. */
#include "test.h"

#include <stdlib.h>

#include "policybook.h"

/* Case E of document 01. */
static const uint8_t policy_e[] = {
    0x50, 0x4F, 0x4C, 0x00, 0x01, 0x01, 0x01, 0x01, 0x04, 0x02,
    0x00, 0x01, 0x01, 0x00, 0x00, 0x00, 0x00, 0x00, 0x02, 0x01, 0x00, 0x00, 0x02, 0x01,
    0x00, 0x02, 0x00, 0x00, 0x02, 0x00, 0x00, 0x00, 0x01, 0x00, 0x00, 0x02, 0x00, 0x00, 0x02,
};

/* Case E as a file of version 2 whose variable begins at 2, its bound; byte 10 is the start. There the conflict is at the start. */
static const uint8_t policy_e_started[] = {
    0x50, 0x4F, 0x4C, 0x00, 0x02, 0x01, 0x01, 0x01, 0x04, 0x02, 0x02,
    0x00, 0x01, 0x01, 0x00, 0x00, 0x00, 0x00, 0x00, 0x02, 0x01, 0x00, 0x00, 0x02, 0x01,
    0x00, 0x02, 0x00, 0x00, 0x02, 0x00, 0x00, 0x00, 0x01, 0x00, 0x00, 0x02, 0x00, 0x00, 0x02,
};

static const uint8_t book_e_started[] = {
    0x42, 0x4F, 0x4B, 0x00, 0x01, 0x01, 0x01, 0x02, 0x00, 0x00, 0x00, 0x03,
    0x02, 0x01, 0x01, 0x00, 0x01, 0x02, 0x02, 0x00, 0x03, 0x00, 0x02, 0x03, 0x00, 0x01, 0x00,
};

void expect_build(struct bytes policy, size_t size, uint64_t wanted, const uint8_t *bytes, size_t length)
{
    uint8_t *buffer = lent_buffer(size, FILLED);
    CHECK(policybook_build(policy.data, policy.length, buffer, size) == wanted);
    CHECK(begins_with(buffer, size, bytes, length));
    free(buffer);
}

static void test_build(void)
{
    struct bytes policy = exact_copy(policy_e, sizeof policy_e);
    struct bytes none = exact_copy(policy_e, 0);
    expect_build(policy, POLICYBOOK_BOOK_SIZE, 256 * sizeof book_e, book_e, sizeof book_e);
    expect_build(policy, POLICYBOOK_BOOK_SIZE + 7, 256 * sizeof book_e, book_e, sizeof book_e);
    expect_build(policy, POLICYBOOK_BOOK_SIZE - 1, POLICYBOOK_SHORT_BUFFER, book_e, 0);
    expect_build(policy, 0, POLICYBOOK_SHORT_BUFFER, book_e, 0);
    expect_build(none, POLICYBOOK_BOOK_SIZE, POLICYBOOK_SHORT_POLICY, book_e, 0);
    expect_build(none, 0, POLICYBOOK_SHORT_BUFFER, book_e, 0);
    free(policy.data);
    free(none.data);
}

/* Files of version 2: the start at 0, at and above the bound; a start above 63, beside a bad count and a bad mask; the length of version 1. */
static void test_starting_values(void)
{
    const size_t size = POLICYBOOK_BOOK_SIZE, length = sizeof book_e_started;
    struct bytes policy = exact_copy(policy_e_started, sizeof policy_e_started), short_policy = exact_copy(policy_e_started, sizeof policy_e_started - 1);
    expect_build(policy, size, 256 * length, book_e_started, length);
    policy.data[10] = 63;
    expect_build(policy, size, 256 * length, book_e_started, length);
    policy.data[10] = 0;
    expect_build(policy, size, 256 * sizeof book_e, book_e, sizeof book_e);
    policy.data[10] = 64;
    expect_build(policy, size, POLICYBOOK_START, book_e, 0);
    expect_build(policy, size - 1, POLICYBOOK_SHORT_BUFFER, book_e, 0);
    policy.data[12] = 4; /* a mask: judged after the starts */
    expect_build(policy, size, POLICYBOOK_START, book_e, 0);
    policy.data[9] = 17; /* a value count: judged before them */
    expect_build(policy, size, POLICYBOOK_VALUE_COUNT, book_e, 0);
    expect_build(short_policy, size, POLICYBOOK_POLICY_LENGTH, book_e, 0);
    policy.data[4] = 3;
    expect_build(policy, size, POLICYBOOK_POLICY_VERSION, book_e, 0);
    free(policy.data);
    free(short_policy.data);
}

void test_building(void)
{
    test_build();
    test_starting_values();
}
