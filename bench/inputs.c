/* inputs.c: the policies, books and byte strings that are measured. */
#include "inputs.h"

#include <stdio.h>
#include <stdlib.h>
#include <string.h>

static void put(struct bytes *out, const uint8_t *bytes, size_t length)
{
    memcpy(out->at + out->length, bytes, length);
    out->length += length;
}

#define PUT(out, ...) put((out), (const uint8_t[]){ __VA_ARGS__ }, sizeof((const uint8_t[]){ __VA_ARGS__ }))

void case_s(struct bytes *policy)
{
    policy->length = 0;
    PUT(policy, 'P', 'O', 'L', 0, 1, 0, 1, 1, 3, 2);
    PUT(policy, 0, 3, 1, 0, 0, 1, 0);
    PUT(policy, 0, 1, 1, 0, 0, 1, 1);
    PUT(policy, 0, 3, 1, 0, 1, 6, 1);
}

void forty_states(struct bytes *policy)
{
    policy->length = 0;
    /* Events: midnight, a complaint. Fields: readers, trainees, staff; open, copy, lend, return. Variables: openings, copies. */
    PUT(policy, 'P', 'O', 'L', 0, 1, 2, 2, 2, 9, 3, 4);
    PUT(policy, 0, 3, 0, 1, 1, 2, 0, 4, 1, 0, 0, 0); /* readers and trainees open, up to four times */
    PUT(policy, 0, 3, 0, 1, 0, 2, 4, 0, 0, 0, 0, 0); /* and not from then on */
    PUT(policy, 0, 1, 0, 2, 1, 2, 0, 0, 0, 0, 7, 1); /* readers copy, up to seven times */
    PUT(policy, 0, 1, 0, 2, 0, 2, 0, 0, 0, 7, 0, 0); /* and not from then on */
    PUT(policy, 0, 2, 0, 2, 0, 3, 0, 0, 0, 0, 0, 0); /* trainees copy nothing */
    PUT(policy, 0, 4, 0, 7, 1, 4, 0, 0, 0, 0, 0, 0); /* staff open, copy and lend */
    PUT(policy, 0, 3, 0, 4, 0, 1, 0, 0, 0, 3, 0, 0); /* nothing is lent after three copies */
    PUT(policy, 0, 3, 0, 4, 1, 0, 0, 0, 0, 0, 0, 0); /* else it is */
    PUT(policy, 0, 7, 0, 8, 1, 0, 0, 0, 0, 0, 0, 0); /* everybody returns */
    PUT(policy, 2, 2);                               /* midnight */
    PUT(policy, 1, 0);                               /* a complaint counts as an opening */
}

void forty_states_started(struct bytes *policy)
{
    struct bytes plain;
    forty_states(&plain);
    policy->length = 0;
    put(policy, plain.at, 11);
    policy->at[4] = 2;
    PUT(policy, 2, 3);
    put(policy, plain.at + 11, plain.length - 11);
}

void no_rules(struct bytes *policy)
{
    policy->length = 0;
    PUT(policy, 'P', 'O', 'L', 0, 2, 8, 4, 4, 0, 4, 4, 2, 2);
    PUT(policy, 0, 1, 62, 63); /* the starting values */
    for (unsigned i = 0; i < 8 * 4; i++)
        PUT(policy, (uint8_t)(i % 3));
}

void some_valuations(struct bytes *policy, unsigned valuations, unsigned events, unsigned high, unsigned low)
{
    unsigned all = (1u << high) - 1;
    uint8_t masks[4] = { (uint8_t)(all >> 8), (uint8_t)all, 0, (uint8_t)((1u << low) - 1) }, most = (uint8_t)(valuations - 1);
    unsigned rules = most == 0 ? 0 : 2;
    policy->length = 0;
    PUT(policy, 'P', 'O', 'L', 0, 1, (uint8_t)events, 2, rules != 0, (uint8_t)rules, (uint8_t)high, (uint8_t)low);
    for (unsigned k = 0; k < rules; k++) {
        put(policy, masks, 4);
        PUT(policy, k == 0, 0, k == 0 ? 0 : most, k == 0 ? most : 0, k == 0);
    }
    for (unsigned e = 0; rules != 0 && e < events; e++)
        PUT(policy, 2);
}

void many_states(struct bytes *policy, unsigned top, unsigned events, unsigned high, unsigned low, unsigned rules)
{
    unsigned half = (1u << high / 2) - 1;
    uint8_t lower[4] = { (uint8_t)(half >> 8), (uint8_t)half, 0, (uint8_t)((1u << low) - 1) };
    uint8_t upper[4] = { (uint8_t)((half << high / 2) >> 8), (uint8_t)(half << high / 2), lower[2], lower[3] };
    policy->length = 0;
    PUT(policy, 'P', 'O', 'L', 0, 1, (uint8_t)events, 2, 1, (uint8_t)rules, (uint8_t)high, (uint8_t)low);
    for (unsigned k = 0; k < rules; k++) {
        /* The five rules come again and again, which changes nothing but the work. */
        const uint8_t rest[5][5] = {
            { 1, 0, 0, 0, 1 },
            { 1, 0, 0, 1, 0 },
            { 1, 0, 0, 1, 1 },
            { 0, 0, (uint8_t)(top - 1), (uint8_t)top, 0 },
            { 0, 0, (uint8_t)top, 0, 0 },
        };
        put(policy, k % 5 == 0 || k % 5 == 3 ? lower : upper, 4);
        put(policy, rest[k % 5], 5);
    }
    for (unsigned e = 0; e < events; e++)
        PUT(policy, (uint8_t)(e % 3));
}

void late_difference(const struct bytes *book, struct bytes *other)
{
    *other = *book;
    uint8_t *last = &other->at[other->length - 1];
    *last = *last == 0;
}

void early_difference(const struct bytes *book, struct bytes *other)
{
    *other = *book;
    uint8_t *rejected = &other->at[12 + other->at[5] + 1];
    *rejected = *rejected == 0;
}

/* States 2 to n in the opposite order; 0 and 1 stay. */
static unsigned renumber(unsigned state, unsigned states) { return state < 2 ? state : states + 2 - state; }

void renumbered(const struct bytes *book, struct bytes *other)
{
    unsigned states = book->at[11];
    size_t width = (book->length - 12) / states;
    *other = *book;
    for (unsigned s = 1; s <= states; s++)
        for (size_t c = 0; c < width; c++)
            other->at[12 + (renumber(s, states) - 1) * width + c] = (uint8_t)renumber(book->at[12 + (s - 1) * width + c], states);
}

enum { STATES = 127, EVENTS = 8, WIDTH = 136, MOVER = EVENTS, TELLER = WIDTH - 1 };

static void widest_header(struct bytes *book, unsigned states)
{
    book->length = 0;
    PUT(book, 'B', 'O', 'K', 0, 1, EVENTS, 2, 16, 4, 0, 0, (uint8_t)states);
    memset(book->at + 12, 0, states * WIDTH);
    book->length += states * WIDTH;
    for (unsigned s = 1; s <= states; s++)
        memset(book->at + 12 + (s - 1) * WIDTH, (int)s, EVENTS);
}

static uint8_t *entry(struct bytes *book, unsigned state, unsigned code) { return &book->at[12 + (state - 1) * WIDTH + code]; }

/* Every request is accepted in every state, which stays. */
static void accept_all(struct bytes *book, unsigned states)
{
    for (unsigned s = 1; s <= states; s++)
        for (unsigned c = EVENTS; c < WIDTH; c += 2)
            *entry(book, s, c) = (uint8_t)s;
}

/* Code MOVER goes round a cycle in the first book, and along a chain in the second; code TELLER tells them apart. Both are possible or not alike up to
 * STATES − 2 moves, and then neither has the teller for a whole round of the cycle. */
void farthest_pair(struct bytes *first, struct bytes *second, int full)
{
    widest_header(first, STATES);
    widest_header(second, STATES);
    if (full) {
        accept_all(first, STATES);
        accept_all(second, STATES);
    }
    for (unsigned i = 0; i < STATES; i++) {
        *entry(first, i + 1, MOVER) = (uint8_t)((i + 1) % STATES + 1);
        *entry(first, i + 1, TELLER) = i == STATES - 2;
        *entry(second, i + 1, MOVER) = (uint8_t)(i + 2 < STATES ? i + 2 : STATES);
        *entry(second, i + 1, TELLER) = i == STATES - 2;
    }
}

/* All codes are possible everywhere. One event goes round a cycle of the first book and stays in the second, another the other way round. */
void all_pairs(struct bytes *first, struct bytes *second)
{
    widest_header(first, STATES);
    widest_header(second, STATES - 1);
    for (unsigned s = 1; s <= STATES; s++) {
        memset(entry(first, s, EVENTS), (int)s, WIDTH - EVENTS);
        *entry(first, s, 0) = (uint8_t)(s % STATES + 1);
    }
    for (unsigned s = 1; s <= STATES - 1; s++) {
        memset(entry(second, s, EVENTS), (int)s, WIDTH - EVENTS);
        *entry(second, s, 1) = (uint8_t)(s % (STATES - 1) + 1);
    }
}

void late_findings(struct bytes *book)
{
    widest_header(book, STATES);
    accept_all(book, STATES);
    for (unsigned s = 1; s <= STATES; s++)
        *entry(book, s, TELLER - 1) = (uint8_t)(s < STATES ? s + 1 : 0);
    *entry(book, STATES, EVENTS + 1) = STATES;
}

void all_codes(struct bytes *book)
{
    widest_header(book, STATES);
    for (unsigned s = 1; s <= STATES; s++) {
        memset(entry(book, s, EVENTS), (int)s, WIDTH - EVENTS);
        *entry(book, s, TELLER) = (uint8_t)(s < STATES ? s + 1 : s);
    }
    *entry(book, STATES, EVENTS + 1) = 0;
}

void one_code_away(struct bytes *book)
{
    widest_header(book, STATES);
    for (unsigned s = 1; s <= STATES; s++)
        for (unsigned c = 0; c < WIDTH; c++)
            *entry(book, s, c) = (uint8_t)((s + c) % STATES + 1);
}

void chain(struct bytes *book)
{
    book->length = 0;
    PUT(book, 'B', 'O', 'K', 0, 1, 0, 1, 1, 0, 0, 0, STATES);
    for (unsigned s = 1; s < STATES; s++)
        PUT(book, (uint8_t)(s + 1), 0);
    PUT(book, 0, STATES);
}

void half_reached(struct bytes *book)
{
    widest_header(book, STATES);
    accept_all(book, STATES);
    for (unsigned s = 1; s <= STATES; s++)
        *entry(book, s, TELLER) = (uint8_t)(s + 2 <= STATES ? s + 2 : 0);
}

/* Room of this size or a little more, at a multiple of 64, for so many equal pairs. */
static void take_room(size_t size, size_t count, struct pairs *pairs)
{
    free(pairs->room);
    pairs->room = aligned_alloc(64, size / 64 * 64 + 64);
    pairs->count = pairs->equal = count;
    if (pairs->room == NULL) {
        fprintf(stderr, "no memory\n");
        exit(1);
    }
}

static struct pair equal_pair(const struct bytes *book, size_t length, uint8_t *first, uint8_t *second)
{
    memcpy(first, book->at, length);
    memcpy(second, book->at, length);
    return (struct pair){ first, length, second, length };
}

void equal_pairs(const struct bytes *book, size_t length, size_t count, struct pairs *pairs)
{
    size_t stride = length / 16 * 16 + 16;
    take_room(2 * count * stride, count, pairs);
    for (size_t i = 0; i < count; i++)
        pairs->at[i] = equal_pair(book, length, pairs->room + 2 * i * stride, pairs->room + (2 * i + 1) * stride);
}

void pair_at(const struct bytes *book, size_t first, size_t second, struct pairs *pairs)
{
    size_t stride = (book->length + 64) / 64 * 64 + 64;
    take_room(2 * stride, 1, pairs);
    pairs->at[0] = equal_pair(book, book->length, pairs->room + first, pairs->room + stride + second);
}

void same_pair(const struct bytes *first, const struct bytes *second, size_t count, struct pairs *pairs)
{
    pairs->count = count;
    pairs->equal = 0;
    for (size_t i = 0; i < count; i++)
        pairs->at[i] = (struct pair){ first->at, first->length, second->at, second->length };
}
