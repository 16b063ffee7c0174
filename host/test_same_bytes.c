/*
 * Tests of the test for equal bytes: every length up to 200 and that of the longest book, every place of a difference, every place in memory that
 * eight or sixteen bytes can have, differences that would cancel. Each string ends with its block on the heap; what is read stays.
 */
#include "test.h"

#include <stdlib.h>
#include <string.h>

#include "policybook.h"

/* MIXED has two times 64 bytes, which may be taken together, three words and a tail. */
enum { MOST = 200, OFFSETS = 16, MIXED = 2 * 64 + 3 * 8 + 5 };

/* The strings' bytes: those of any two places less than 256 apart differ. */
static uint8_t byte_at(size_t place) { return (uint8_t)(89 * place + 11 * (place / 256)); }

/* A string of this length, in a block that has `offset` further bytes before it, all of them `before`. */
static struct bytes string_at(size_t offset, size_t length, int before)
{
    struct bytes string = { lent_buffer(offset + length, before) + offset, length };
    for (size_t i = 0; i < length; i++) string.data[i] = byte_at(i);
    return string;
}

static struct bytes string_of(size_t length) { return string_at(0, length, 0); }

static int is_as_made(struct bytes string)
{
    size_t i = 0;
    while (i < string.length && string.data[i] == byte_at(i)) i++;
    return i == string.length;
}

void expect_same(struct bytes first, struct bytes second, uint64_t wanted)
{
    CHECK(policybook_same_bytes(first.data, first.length, second.data, second.length) == wanted);
    CHECK(policybook_same_bytes(second.data, second.length, first.data, first.length) == wanted);
}

/* Of two equal strings: that they are, that they are not where a byte of one is changed, whichever it is, and that they stay. */
static void expect_every_byte(struct bytes first, struct bytes second)
{
    expect_same(first, second, 1);
    for (size_t place = 0; place < first.length; place++) {
        uint8_t bit = (uint8_t)(1 << (place + first.length) % 8);
        second.data[place] ^= bit;
        expect_same(first, second, 0);
        second.data[place] ^= bit;
    }
    CHECK(is_as_made(first) && is_as_made(second));
}

static void test_every_length(void)
{
    for (size_t length = 0; length <= MOST; length++) {
        struct bytes first = string_of(length), second = string_of(length);
        expect_every_byte(first, second);
        free(first.data);
        free(second.data);
    }
}

/* At every two offsets; what stands before the strings differs. */
static void expect_every_offset(size_t length)
{
    for (size_t one = 0; one < OFFSETS; one++) {
        for (size_t other = 0; other < OFFSETS; other++) {
            struct bytes first = string_at(one, length, 0x00), second = string_at(other, length, 0xFF);
            expect_every_byte(first, second);
            free(first.data - one);
            free(second.data - other);
        }
    }
}

static void test_every_offset(void)
{
    for (size_t length = 0; length <= 33; length++) expect_every_offset(length);
    expect_every_offset(64);
    expect_every_offset(79);
    expect_every_offset(MIXED);
}

/* A string beside each that begins with it; and the same with nothing but zeros. */
static void test_prefixes(void)
{
    for (size_t length = 1; length <= MOST; length++) {
        struct bytes string = string_of(length), zeros = { lent_buffer(length, 0), length };
        for (size_t shorter = 0; shorter < length; shorter++) {
            struct bytes prefix = string_of(shorter), fewer = { lent_buffer(shorter, 0), shorter };
            expect_same(string, prefix, 0);
            expect_same(zeros, fewer, 0);
            free(prefix.data);
            free(fewer.data);
        }
        free(string.data);
        free(zeros.data);
    }
}

/* A string with itself, and strings of one block that overlap: in one of period 8 those that are a multiple of 8 apart are equal. */
static void test_overlapping(void)
{
    struct bytes block = { lent_buffer(MOST, 0), MOST }, string = string_of(MOST);
    for (size_t i = 0; i < MOST; i++) block.data[i] = (uint8_t)(i % 8);
    for (size_t length = 0; length <= MOST; length++) {
        struct bytes whole = { string.data, length };
        expect_same(whole, whole, 1);
    }
    for (size_t apart = 0; apart < MOST; apart++) {
        size_t length = MOST - apart;
        struct bytes first = { block.data, length }, second = { block.data + apart, length };
        expect_same(first, second, apart % 8 == 0);
        first.data = string.data;
        second.data = string.data + apart;
        expect_same(first, second, apart == 0);
    }
    CHECK(is_as_made(string));
    free(block.data);
    free(string.data);
}

/* No bytes: of blocks of none, before bytes that differ, and behind the last byte. */
static void test_empty(void)
{
    struct bytes none = string_of(0), other_none = string_of(0), string = string_of(1), zero = { lent_buffer(1, 0xFF), 1 };
    const struct bytes empty[] = { none, other_none, { string.data, 0 }, { zero.data, 0 }, { string.data + 1, 0 } };
    for (size_t i = 0; i < sizeof empty / sizeof *empty; i++) {
        for (size_t j = 0; j < sizeof empty / sizeof *empty; j++) expect_same(empty[i], empty[j], 1);
        expect_same(empty[i], string, 0);
    }
    free(none.data);
    free(other_none.data);
    free(string.data);
    free(zero.data);
}

/* The length of the longest book, and one that no book has; a difference in the first word, in the last, in the tail and between. */
static void test_long_strings(void)
{
    static const size_t lengths[] = { POLICYBOOK_BOOK_SIZE, 100003 };
    for (size_t i = 0; i < sizeof lengths / sizeof *lengths; i++) {
        const size_t length = lengths[i], tail = length - length % 8;
        const size_t places[] = { 0, 1, 7, 8, 255, 4096, length / 2, tail - 8, tail - 1, tail, length - 2, length - 1 };
        struct bytes first = string_of(length), second = string_of(length);
        expect_same(first, second, 1);
        for (size_t j = 0; j < sizeof places / sizeof *places; j++) {
            second.data[places[j]]++;
            expect_same(first, second, 0);
            second.data[places[j]]--;
        }
        CHECK(is_as_made(first) && is_as_made(second));
        free(first.data);
        free(second.data);
    }
}

/* Two bytes that are changed such that sum, exclusive or or both stay, of one word, of two or of the tail. */
static void test_cancelling_bytes(void)
{
    static const uint8_t masks[] = { 0x01, 0x80, 0xFF };
    struct bytes first = string_of(MIXED), second = string_of(MIXED);
    for (size_t i = 0; i < MIXED; i++) {
        for (size_t j = i + 1; j < MIXED; j++) {
            for (size_t k = 0; k < sizeof masks; k++) {
                second.data[i] = byte_at(i) ^ masks[k];
                second.data[j] = byte_at(j) ^ masks[k];
                expect_same(first, second, 0);
            }
            second.data[i] = (uint8_t)(byte_at(i) + 1);
            second.data[j] = (uint8_t)(byte_at(j) - 1);
            expect_same(first, second, 0);
            second.data[i] = byte_at(j);
            second.data[j] = byte_at(i);
            expect_same(first, second, 0);
            second.data[i] = byte_at(i);
            second.data[j] = byte_at(j);
        }
    }
    CHECK(is_as_made(first) && is_as_made(second));
    free(first.data);
    free(second.data);
}

/* Two words that have changed places, and every word changed by the same mask. */
static void test_cancelling_words(void)
{
    struct bytes first = string_of(MIXED), second = string_of(MIXED);
    for (size_t i = 0; i + 8 <= MIXED; i += 8) {
        for (size_t j = i + 8; j + 8 <= MIXED; j += 8) {
            memcpy(second.data + i, first.data + j, 8);
            memcpy(second.data + j, first.data + i, 8);
            expect_same(first, second, 0);
            memcpy(second.data + i, first.data + i, 8);
            memcpy(second.data + j, first.data + j, 8);
        }
    }
    expect_same(first, second, 1);
    for (size_t i = 0; i < MIXED; i++) second.data[i] ^= 0xFF;
    expect_same(first, second, 0);
    free(first.data);
    free(second.data);
}

void test_same_bytes(void)
{
    test_every_length();
    test_every_offset();
    test_prefixes();
    test_overlapping();
    test_empty();
    test_long_strings();
    test_cancelling_bytes();
    test_cancelling_words();
}
