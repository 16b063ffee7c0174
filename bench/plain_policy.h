/* plain_policy.h: a policy file read into structures, and the table of where every code leads from every valuation. */
#ifndef PLAIN_POLICY_H
#define PLAIN_POLICY_H

#include <stddef.h>
#include <stdint.h>

enum {
    MOST_EVENTS = 8,
    MOST_FIELDS = 4,
    MOST_VARIABLES = 4,
    MOST_RULES = 32,
    MOST_REQUESTS = 64,
    MOST_VALUATIONS = 64,
    MOST_STATES = 127,
    MOST_CODES = MOST_EVENTS + 2 * MOST_REQUESTS
};

struct rule {
    uint16_t mask[MOST_FIELDS];
    uint8_t decision, level;
    uint8_t ge[MOST_VARIABLES], lt[MOST_VARIABLES], change[MOST_VARIABLES];
};

struct policy {
    unsigned events, fields, variables, rules, requests, width, valuations, starts, start;
    unsigned count[MOST_FIELDS], bound[MOST_VARIABLES];
    struct rule rule[MOST_RULES];
    uint8_t event[MOST_EVENTS][MOST_VARIABLES];
};

/* image[v][c] is the set of valuations that code c leads to from valuation v. */
typedef uint64_t images[MOST_VALUATIONS][MOST_CODES];

/* The number of the refusal, 2 to 10 or 17, or 0 if the file is read. */
unsigned read_policy(const uint8_t *bytes, size_t length, struct policy *policy);

void fill_images(const struct policy *policy, images image);

#endif
