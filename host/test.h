/* What the tests of this folder share; host/test.c runs them. Every buffer is on the heap with no byte to spare, so that memcheck sees each access outside. */
#ifndef TEST_H
#define TEST_H

#include "files.h"

/* Prints what does not hold and where; the program then ends with status 1. */
void check(int holds, const char *what, const char *file, int line);
#define CHECK(condition) check((condition), #condition, __FILE__, __LINE__)

/* The byte that lent buffers are filled with, and whether one has these bytes and then only that byte. */
#define FILLED 0xA5
int begins_with(const uint8_t *buffer, size_t size, const uint8_t *bytes, size_t length);

/* The book of case E of document 01, which has a conflict for request 0 after the history 3 3; and of case G: missing request 0 and blocked, both after 0. */
extern const uint8_t book_e[27], book_g[20];

/* 127 states and 64 requests, every step possible; request 63 rejected leads to the next state, all others stay. */
enum { STATES = 127, WIDTH = 128 };
struct bytes full_book(void);

/*
 * Each makes a call with buffers of these sizes, all bytes FILLED, and checks the answer, and that a buffer begins with the bytes given and else has
 * stayed. Verdict has three buffers and gives its answer; the lengths say with how many bytes of the history each begins. Equal bytes is asked in both orders.
 */
void expect_build(struct bytes policy, size_t size, uint64_t wanted, const uint8_t *bytes, size_t length);
uint64_t expect_verdict(struct bytes book, const size_t size[3], const uint8_t *history, const size_t length[3]);
void expect_compare(struct bytes first, struct bytes second, size_t size, uint64_t wanted, const uint8_t *history, size_t length);
void expect_page(struct bytes book, size_t size, uint64_t wanted, const char *lines, size_t length);
void expect_way(struct bytes book, size_t request, size_t outcome, size_t size, uint64_t wanted, const uint8_t *history, size_t length);
void expect_same(struct bytes first, struct bytes second, uint64_t wanted);

/* The tests, a file each. */
void test_building(void);
void test_judging(void);
void test_ways(void);
void test_same_bytes(void);
void test_no_rules(void);
void test_next(void);
void test_desk(void);

#endif
