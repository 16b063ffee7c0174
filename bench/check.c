/* check.c: holds plain C against the proved library on drawn inputs, answers and every byte of the lent buffers. Usage: check [COUNT [SEED]] */
#include "inputs.h"
#include "plain.h"
#include "policybook.h"

#include <stdio.h>
#include <stdlib.h>
#include <string.h>

static uint64_t state;

/* A number below `limit` (splitmix64). */
static unsigned below(unsigned limit)
{
    uint64_t z = state += 0x9E3779B97F4A7C15u;
    z = (z ^ z >> 30) * 0xBF58476D1CE4E5B9u;
    z = (z ^ z >> 27) * 0x94D049BB133111EBu;
    return (unsigned)((z ^ z >> 31) % limit);
}

static void push(struct bytes *out, unsigned byte) { out->at[out->length++] = (uint8_t)byte; }

static void draw_policy(struct bytes *p)
{
    unsigned events = below(9), fields = 1 + below(4), variables = below(5), count[4], bound[4];
    unsigned version = 1 + below(2), rules = below(8) == 0 ? 0 : 1 + below(below(2) ? 32 : 6);
    memcpy(p->at, "POL\0", p->length = 4);
    push(p, version), push(p, events), push(p, fields), push(p, variables), push(p, rules);
    for (unsigned f = 0, left = 64; f < fields; f++, left /= count[f - 1])
        push(p, count[f] = 1 + below(left < 16 ? left : below(2) ? 16 : 3));
    for (unsigned j = 0, left = 64; j < variables; j++, left /= bound[j - 1] + 1)
        bound[j] = below(left < 8 || below(3) == 0 ? left : 8);
    for (unsigned j = 0; version == 2 && j < variables; j++)
        push(p, below(4) ? below(bound[j] + 2) : below(65));
    for (unsigned k = 0; k < rules; k++) {
        for (unsigned f = 0; f < fields; f++) {
            unsigned mask = below(3) == 0 ? (1u << count[f]) - 1 : 1 + below((1u << count[f]) - 1);
            push(p, mask >> 8), push(p, mask & 255);
        }
        push(p, below(2)), push(p, below(2) ? 0 : below(4));
        for (unsigned j = 0; j < variables; j++)
            push(p, below(2) ? 0 : below(bound[j] + 1)), push(p, below(2) ? 0 : below(bound[j] + 1)), push(p, below(4) ? below(2) : 2);
    }
    for (unsigned i = 0; i < events * variables; i++)
        push(p, below(3));
    if (below(8) == 0)
        p->at[below((unsigned)p->length)] = (uint8_t)below(256);
    if (below(16) == 0)
        p->length -= below((unsigned)p->length + 1);
}

static void draw_book(struct bytes *b)
{
    unsigned events = below(3), count = 1 + below(4), states = 1 + below(below(2) ? 127 : 5), gaps = 1 + below(4);
    memcpy(b->at, "BOK\0\1", b->length = 5);
    push(b, events), push(b, 1), push(b, count), push(b, 0), push(b, 0), push(b, 0), push(b, states);
    for (unsigned s = 0; s < states; s++)
        for (unsigned c = 0; c < events + 2 * count; c++)
            push(b, c >= events && below(gaps) == 0 ? 0 : 1 + below(states));
}

/* Changes an entry or another byte, or the length. */
static void damage(struct bytes *b)
{
    if (b->length > 12 && below(2))
        b->at[12 + below((unsigned)b->length - 12)] = (uint8_t)below(b->at[11] + 1u);
    if (below(16) == 0)
        b->at[below((unsigned)b->length)] = (uint8_t)below(256);
    if (below(32) == 0)
        b->length -= below((unsigned)b->length);
}

static void same(int holds, const char *call, uint64_t input)
{
    if (holds)
        return;
    fprintf(stderr, "%s: the answers differ at input %llu\n", call, (unsigned long long)input);
    exit(1);
}

/* Draws a policy and builds its book, of length 0 if it has none. */
static void check_build(uint64_t input, struct bytes *policy, struct bytes *book)
{
    static struct bytes other;
    draw_policy(policy);
    memset(book->at, 0xA5, sizeof book->at);
    memset(other.at, 0xA5, sizeof other.at);
    uint64_t one = policybook_build(policy->at, policy->length, book->at, BOOK_ROOM), two = plain_build(policy->at, policy->length, other.at, BOOK_ROOM);
    same(one == two && memcmp(book->at, other.at, BOOK_ROOM) == 0, "build", input);
    book->length = one / 256;
}

static void check_verdict(uint64_t input, const struct bytes *book)
{
    uint8_t one[3][128], two[3][128];
    memset(one, 0xA5, sizeof one);
    memset(two, 0xA5, sizeof two);
    uint64_t x = policybook_verdict(book->at, book->length, one[0], 128, one[1], 128, one[2], 128);
    uint64_t y = plain_verdict(book->at, book->length, two[0], 128, two[1], 128, two[2], 128);
    same(x == y && memcmp(one, two, sizeof one) == 0, "verdict", input);
}

static void check_way(uint64_t input, const struct bytes *book)
{
    uint8_t one[128], two[128];
    size_t request = below(8) ? below(4) : (size_t)below(128) << below(57), outcome = below(8) ? below(4) : (size_t)below(128) << below(57);
    memset(one, 0xA5, sizeof one);
    memset(two, 0xA5, sizeof two);
    uint64_t x = policybook_way(book->at, book->length, request, outcome, one, 128);
    uint64_t y = plain_way(book->at, book->length, request, outcome, two, 128);
    same(x == y && memcmp(one, two, sizeof one) == 0, "way", input);
}

static void check_compare(uint64_t input, const struct bytes *first, const struct bytes *second)
{
    uint8_t one[256], two[256];
    memset(one, 0xA5, sizeof one);
    memset(two, 0xA5, sizeof two);
    uint64_t x = policybook_compare(first->at, first->length, second->at, second->length, one, 256);
    uint64_t y = plain_compare(first->at, first->length, second->at, second->length, two, 256);
    same(x == y && memcmp(one, two, sizeof one) == 0, "compare", input);
}

static void check_page(uint64_t input, const struct bytes *book)
{
    static uint8_t one[PAGE_ROOM], two[PAGE_ROOM];
    memset(one, 0xA5, sizeof one);
    memset(two, 0xA5, sizeof two);
    uint64_t x = policybook_page(book->at, book->length, one, sizeof one), y = plain_page(book->at, book->length, two, sizeof two);
    same(x == y && memcmp(one, two, sizeof one) == 0, "page", input);
}

/* The two books, and two short strings at any place in memory: equal, or with another byte or length. */
static void check_same_bytes(uint64_t input, const struct bytes *first, const struct bytes *second)
{
    uint8_t one[16 + 256], other[16 + 256];
    unsigned length = below(below(2) ? 256 : 25), other_length = below(4) ? length : below(256);
    uint8_t *a = one + below(16), *b = other + below(16);
    for (unsigned i = 0; i < 256; i++)
        a[i] = b[i] = (uint8_t)below(256);
    if (below(2))
        b[below(length + 1)] ^= (uint8_t)(1 << below(8));
    same(policybook_same_bytes(a, length, b, other_length) == plain_same_bytes(a, length, b, other_length), "equal bytes of strings", input);
    uint64_t x = policybook_same_bytes(first->at, first->length, second->at, second->length);
    same(x == plain_same_bytes(first->at, first->length, second->at, second->length), "equal bytes of books", input);
}

int main(int argc, char **argv)
{
    static struct bytes policy, first, second;
    unsigned long count = argc > 1 ? strtoul(argv[1], NULL, 10) : 20000, seed = argc > 2 ? strtoul(argv[2], NULL, 10) : 1;
    unsigned long built = 0, without_rules = 0, longest = 0;
    for (unsigned long i = seed; i < seed + count; i++) {
        state = i * 0xD1342543DE82EF95u;
        check_build(i, &policy, &first);
        built += first.length != 0;
        without_rules += first.length != 0 && policy.at[8] == 0;
        if (first.length != 0 && first.at[11] > longest)
            longest = first.at[11];
        if (below(2) || first.length == 0)
            draw_book(&first);
        second = first;
        damage(&second);
        check_verdict(i, &second);
        check_page(i, &second);
        check_way(i, &second);
        check_compare(i, &first, &second);
        check_same_bytes(i, &first, &second);
    }
    printf("plain C answers as the library on %lu inputs of each call; %lu of the policies, %lu of them without rules, have a book, of up to %lu states\n", count,
           built, without_rules, longest);
    return 0;
}
