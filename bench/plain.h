/*
 * plain.h: build, verdict, compare, page, way and equal bytes once more, in plain C, as a yardstick for the measurements. Arguments and answers are those of
 * host/policybook.h.
 */
#ifndef PLAIN_H
#define PLAIN_H

#include <stddef.h>
#include <stdint.h>

uint64_t plain_build(const uint8_t *policy, size_t policy_len, uint8_t *book, size_t book_len);

uint64_t plain_verdict(const uint8_t *book, size_t book_len, uint8_t *conflict, size_t conflict_len,
                       uint8_t *missing, size_t missing_len, uint8_t *blocked, size_t blocked_len);

uint64_t plain_compare(const uint8_t *first, size_t first_len, const uint8_t *second, size_t second_len,
                       uint8_t *history, size_t history_len);

uint64_t plain_page(const uint8_t *book, size_t book_len, uint8_t *page, size_t page_len);

uint64_t plain_way(const uint8_t *book, size_t book_len, size_t request, size_t outcome, uint8_t *history, size_t history_len);

uint64_t plain_same_bytes(const uint8_t *first, size_t first_len, const uint8_t *second, size_t second_len);

#endif
