/* inputs.h: the policies, books and byte strings that are measured. */
#ifndef INPUTS_H
#define INPUTS_H

#include <stddef.h>
#include <stdint.h>

enum { BOOK_ROOM = 17284, PAGE_ROOM = 9271 };

/* At a multiple of 16, as memory that is allocated. */
struct bytes {
    _Alignas(16) uint8_t at[BOOK_ROOM];
    size_t length;
};

/* Case S of the contract: 64 situations, one state, 4 codes. */
void case_s(struct bytes *policy);

/* A reading room's policy with two counters: 40 situations, 40 states, 26 codes. */
void forty_states(struct bytes *policy);

/* The same as a file of version 2, in which two openings and three copies have been counted before the first step. */
void forty_states_started(struct bytes *policy);

/* The longest policy without rules: version 2, 8 events, 4 fields with 64 requests, 4 variables; one situation, one state, 136 codes. */
void no_rules(struct bytes *policy);

/*
 * So many valuations, 1 to 64, and as many situations and states: every request is accepted, one less than so many times, and then rejected, until an event. With
 * one valuation there are no rules and no variable. Requests have two fields, of `high` values and of `low`; `events` is how many events there are.
 */
void some_valuations(struct bytes *policy, unsigned valuations, unsigned events, unsigned high, unsigned low);

/*
 * 2 × top + 1 situations and as many states, for top from 2 to 63: the sets {k} and {k, k + 1}. Requests have two fields, of `high` values (an even
 * number) and of `low`; `events` is how many events there are, `rules` how many rules, 5 or more.
 */
void many_states(struct bytes *policy, unsigned top, unsigned events, unsigned high, unsigned low, unsigned rules);

/* The same book but for one entry, which stands as late as possible in the search. */
void late_difference(const struct bytes *book, struct bytes *other);

/* The same book but for one entry of state 1: whether request 0 may be rejected. */
void early_difference(const struct bytes *book, struct bytes *other);

/* The same book with other numbers for the states but 1. */
void renumbered(const struct bytes *book, struct bytes *other);

/*
 * Two books of 127 states and 136 codes whose earliest difference has 253 codes, the most there can be. If they are full, every request is accepted in every
 * state; else only the codes that the difference needs are possible.
 */
void farthest_pair(struct bytes *first, struct bytes *second, int full);

/* Two books of 127 and 126 states and 136 codes with the same histories, in which every pair of states is reached. */
void all_pairs(struct bytes *first, struct bytes *second);

/* A book of 127 states and 136 codes whose findings come only after 126 codes. */
void late_findings(struct bytes *book);

/* A book of 127 states in which all 136 codes are possible in every state, but for request 0 rejected in the last one, to which 126 codes lead. */
void all_codes(struct bytes *book);

/* A book of 127 states and 136 codes in which all codes are possible in every state, and one code leads from any state to any other. */
void one_code_away(struct bytes *book);

/* A book of 127 states in a chain with one request: accepted, which leads to the next state, and in the last one rejected. */
void chain(struct bytes *book);

/* A book of 127 states and 136 codes in which a history leads to every second state only. */
void half_reached(struct bytes *book);

enum { SHORT_PAIRS = 100, SHELF_PAIRS = 1000 };

/* Pairs of byte strings to be tested one after another, and how many of them are equal. */
struct pairs {
    size_t count, equal;
    uint8_t *room;
    struct pair {
        const uint8_t *first;
        size_t first_length;
        const uint8_t *second;
        size_t second_length;
    } at[SHELF_PAIRS];
};

/* Pairs of equal strings, the first `length` bytes of a book each; every string is a copy at a place of its own, a multiple of 16 as for allocated memory. */
void equal_pairs(const struct bytes *book, size_t length, size_t count, struct pairs *pairs);

/* One pair: a book twice, so many bytes behind multiples of 64. */
void pair_at(const struct bytes *book, size_t first, size_t second, struct pairs *pairs);

/* One pair of different books, again and again. */
void same_pair(const struct bytes *first, const struct bytes *second, size_t count, struct pairs *pairs);

#endif
