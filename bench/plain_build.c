/* plain_build.c: from a policy to its book. Subset construction with a hash table, Moore's refinement, numbering in breadth-first order. */
#include "plain.h"
#include "plain_policy.h"

#include <string.h>

typedef uint8_t rows[MOST_STATES + 1][MOST_CODES];

/* Situations found so far, numbered from 1, and a hash table of their numbers. */
struct found {
    unsigned count;
    uint64_t set[MOST_STATES + 1];
    uint8_t slot[256];
};

/* The number of a situation, new or not; 0 if it is new and there is no room for it. */
static unsigned number_of(struct found *found, uint64_t set)
{
    unsigned h = (unsigned)(set * 0x9E3779B97F4A7C15u >> 56);
    while (found->slot[h] != 0) {
        if (found->set[found->slot[h]] == set)
            return found->slot[h];
        h = (h + 1) % 256;
    }
    if (found->count == MOST_STATES)
        return 0;
    found->count++;
    found->set[found->count] = set;
    found->slot[h] = (uint8_t)found->count;
    return found->count;
}

/* The table of the situations' steps. Returns how many there are, 0 if there are too many. */
static unsigned explore(const struct policy *p, images image, rows raw)
{
    struct found found;
    memset(found.slot, 0, sizeof found.slot);
    found.count = 0;
    number_of(&found, (uint64_t)1 << p->start);
    for (unsigned s = 1; s <= found.count; s++) {
        uint64_t next[MOST_CODES] = { 0 };
        for (uint64_t left = found.set[s]; left != 0; left &= left - 1) {
            const uint64_t *row = image[__builtin_ctzll(left)];
            for (unsigned c = 0; c < p->width; c++)
                next[c] |= row[c];
        }
        for (unsigned c = 0; c < p->width; c++) {
            unsigned number = next[c] == 0 ? 0 : number_of(&found, next[c]);
            if (number == 0 && next[c] != 0)
                return 0;
            raw[s][c] = (uint8_t)number;
        }
    }
    return found.count;
}

/* One round of refinement: states stay together if their classes are equal and their codes lead to equal classes. Returns the number of classes. */
static unsigned refine(rows raw, unsigned n, unsigned w, const uint8_t *class, uint8_t *next)
{
    rows mapped;
    uint8_t first[MOST_STATES + 1];                                  /* the first state of each new class */
    uint8_t newest[MOST_STATES + 1] = { 0 }, before[MOST_STATES + 1]; /* the new classes of an old one, as a list */
    unsigned classes = 0;
    next[0] = 0;
    for (unsigned s = 1; s <= n; s++) {
        for (unsigned c = 0; c < w; c++)
            mapped[s][c] = class[raw[s][c]];
        unsigned k = newest[class[s]];
        while (k != 0 && memcmp(mapped[first[k]], mapped[s], w) != 0)
            k = before[k];
        if (k == 0) {
            k = ++classes;
            first[k] = (uint8_t)s;
            before[k] = newest[class[s]];
            newest[class[s]] = (uint8_t)k;
        }
        next[s] = (uint8_t)k;
    }
    return classes;
}

static unsigned join_alike(rows raw, unsigned n, unsigned w, uint8_t *class)
{
    uint8_t next[MOST_STATES + 1];
    unsigned before = 1, now;
    class[0] = 0;
    memset(class + 1, 1, n);
    while ((now = refine(raw, n, w, class, next)) != before) {
        memcpy(class, next, n + 1);
        before = now;
    }
    return now;
}

/* Numbers the classes in breadth-first order; order[i] is a state of class number i + 1. */
static void number_classes(rows raw, unsigned w, const uint8_t *class, uint8_t *number, uint8_t *order)
{
    unsigned count = 1;
    memset(number, 0, MOST_STATES + 1);
    number[class[1]] = 1;
    order[0] = 1;
    for (unsigned i = 0; i < count; i++) {
        for (unsigned c = 0; c < w; c++) {
            unsigned target = raw[order[i]][c];
            if (target != 0 && number[class[target]] == 0) {
                order[count] = (uint8_t)target;
                number[class[target]] = (uint8_t)++count;
            }
        }
    }
}

static size_t write_book(const struct policy *p, rows raw, unsigned classes, const uint8_t *class, uint8_t *book)
{
    uint8_t number[MOST_STATES + 1], order[MOST_STATES];
    number_classes(raw, p->width, class, number, order);
    memcpy(book, "BOK\0\1", 5);
    book[5] = (uint8_t)p->events;
    book[6] = (uint8_t)p->fields;
    for (unsigned f = 0; f < 4; f++)
        book[7 + f] = (uint8_t)(f < p->fields ? p->count[f] : 0);
    book[11] = (uint8_t)classes;
    uint8_t *at = book + 12;
    for (unsigned i = 0; i < classes; i++)
        for (unsigned c = 0; c < p->width; c++)
            *at++ = number[class[raw[order[i]][c]]];
    return (size_t)(at - book);
}

uint64_t plain_build(const uint8_t *policy, size_t policy_len, uint8_t *book, size_t book_len)
{
    struct policy p;
    images image;
    rows raw;
    uint8_t class[MOST_STATES + 1];
    if (book_len < 17284)
        return 1;
    unsigned refusal = read_policy(policy, policy_len, &p);
    if (refusal != 0)
        return refusal;
    fill_images(&p, image);
    unsigned n = explore(&p, image, raw);
    if (n == 0)
        return 11;
    unsigned classes = join_alike(raw, n, p.width, class);
    return 256 * (uint64_t)write_book(&p, raw, classes, class, book);
}
