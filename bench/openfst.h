/*
 * openfst.h: the part of the job that OpenFst does. Codes are labels and every state is final, so that the histories possible are the strings accepted.
 * The automata are made beforehand, and making them is not measured.
 */
#ifndef OPENFST_H
#define OPENFST_H

#include <stddef.h>
#include <stdint.h>

#ifdef __cplusplus
extern "C" {
#endif

struct automaton;

/* The nondeterministic automaton of a policy: states are valuations. */
struct automaton *openfst_of_policy(const uint8_t *policy, size_t length);

/* The deterministic automaton of a book. */
struct automaton *openfst_of_book(const uint8_t *book, size_t length);

void openfst_free(struct automaton *automaton);

/* Determinize, then Minimize. Gives the number of states. */
unsigned openfst_states(const struct automaton *policy);

/* Equivalent: 1 if both accept the same strings. It gives no string that tells them apart. */
int openfst_same(const struct automaton *first, const struct automaton *second);

/* Equal: 1 if both have the same states and arcs in the same order. */
int openfst_equal(const struct automaton *first, const struct automaton *second);

#ifdef __cplusplus
}
#endif

#endif
