/* plain_book.c: verdict, compare, page, way and equal bytes. Breadth-first search over the states of a book, and over the pairs of states of two. */
#include "plain.h"
#include "plain_policy.h"

#include <string.h>

/* A book that passes, and where its rows are. */
struct book {
    unsigned events, requests, width, states;
    const uint8_t *rows;
};

static const uint8_t *row_of(const struct book *b, unsigned state) { return b->rows + (state - 1) * b->width; }

static unsigned read_header(const uint8_t *bytes, size_t length, struct book *b)
{
    if (length < 12 || memcmp(bytes, "BOK\0\1", 5) != 0)
        return 12;
    unsigned fields = bytes[6];
    b->events = bytes[5];
    b->states = bytes[11];
    b->rows = bytes + 12;
    if (b->events > 8 || fields < 1 || fields > 4 || b->states < 1 || b->states > MOST_STATES)
        return 13;
    b->requests = 1;
    for (unsigned f = 0; f < 4; f++) {
        unsigned count = bytes[7 + f];
        if (f >= fields ? count != 0 : count < 1 || count > 16)
            return 13;
        if (f < fields)
            b->requests *= count;
    }
    b->width = b->events + 2 * b->requests;
    if (b->requests > MOST_REQUESTS || length != 12 + b->states * b->width)
        return 13;
    return 0;
}

static unsigned read_book(const uint8_t *bytes, size_t length, struct book *b)
{
    unsigned refusal = read_header(bytes, length, b);
    if (refusal != 0)
        return refusal;
    int entries_hold = 1;
    for (unsigned i = 0; i < b->states * b->width; i++)
        entries_hold &= b->rows[i] <= b->states;
    for (unsigned s = 1; s <= b->states; s++)
        for (unsigned e = 0; e < b->events; e++)
            entries_hold &= row_of(b, s)[e] != 0;
    return entries_hold ? 0 : 14;
}

/* Places of a search: the place before each, and the code between. */
struct trail {
    uint16_t from[MOST_STATES * MOST_STATES];
    uint8_t code[MOST_STATES * MOST_STATES];
};

static unsigned write_history(const struct trail *trail, unsigned place, uint8_t *buffer)
{
    unsigned length = 0;
    for (unsigned i = place; i != 0; i = trail->from[i])
        length++;
    unsigned at = length;
    for (unsigned i = place; i != 0; i = trail->from[i])
        buffer[--at] = trail->code[i];
    return length;
}

/* The states in the order of their earliest history. */
static unsigned search_states(const struct book *b, uint8_t *order, struct trail *trail)
{
    uint8_t seen[MOST_STATES + 1] = { 0 };
    unsigned count = 1;
    order[0] = 1;
    seen[1] = 1;
    for (unsigned i = 0; i < count; i++) {
        const uint8_t *row = row_of(b, order[i]);
        for (unsigned c = 0; c < b->width; c++) {
            if (row[c] != 0 && !seen[row[c]]) {
                seen[row[c]] = 1;
                trail->from[count] = (uint16_t)i;
                trail->code[count] = (uint8_t)c;
                order[count++] = row[c];
            }
        }
    }
    return count;
}

/* The lowest request at a state that is both accepted and rejected (want 2), or neither (want 0); the number of requests if there is none. */
static unsigned lowest_request(const struct book *b, unsigned state, unsigned want)
{
    const uint8_t *row = row_of(b, state) + b->events;
    unsigned r = 0;
    while (r < b->requests && (row[2 * r] != 0) + (row[2 * r + 1] != 0) != (int)want)
        r++;
    return r;
}

static uint64_t find(const struct book *b, const uint8_t *order, unsigned count, const struct trail *trail, unsigned want, uint8_t *buffer)
{
    for (unsigned i = 0; i < count; i++) {
        unsigned request = lowest_request(b, order[i], want);
        if (request < b->requests)
            return write_history(trail, i, buffer) + 1 + 256 * (uint64_t)request;
    }
    return 0;
}

/* Marks the states from which a request is answered, now or after events. */
static void mark_live(const struct book *b, uint8_t *live)
{
    for (unsigned s = 1; s <= b->states; s++) {
        const uint8_t *row = row_of(b, s);
        unsigned c = b->events;
        while (c < b->width && row[c] == 0)
            c++;
        live[s] = c < b->width;
    }
    for (int changed = 1; changed;) {
        changed = 0;
        for (unsigned s = 1; s <= b->states; s++)
            for (unsigned e = 0; e < b->events && !live[s]; e++)
                if (live[row_of(b, s)[e]])
                    live[s] = 1, changed = 1;
    }
}

static uint64_t find_blocked(const struct book *b, const uint8_t *order, unsigned count, const struct trail *trail, uint8_t *buffer)
{
    uint8_t live[MOST_STATES + 1];
    mark_live(b, live);
    for (unsigned i = 0; i < count; i++)
        if (!live[order[i]])
            return write_history(trail, i, buffer) + 1;
    return 0;
}

uint64_t plain_verdict(const uint8_t *book, size_t book_len, uint8_t *conflict, size_t conflict_len,
                       uint8_t *missing, size_t missing_len, uint8_t *blocked, size_t blocked_len)
{
    struct book b;
    struct trail trail;
    uint8_t order[MOST_STATES];
    if (conflict_len < 128 || missing_len < 128 || blocked_len < 128)
        return 1;
    unsigned refusal = read_book(book, book_len, &b);
    if (refusal != 0)
        return refusal;
    unsigned count = search_states(&b, order, &trail);
    uint64_t value = find(&b, order, count, &trail, 2, conflict);
    value |= find(&b, order, count, &trail, 0, missing) << 16;
    value |= find_blocked(&b, order, count, &trail, blocked) << 32;
    return 256 * value;
}

/* The length of the earliest history possible in just one, 0 if there is none. */
static unsigned search_pairs(const struct book *x, const struct book *y, uint8_t *history)
{
    uint8_t seen[MOST_STATES + 1][MOST_STATES + 1];
    uint8_t pair[MOST_STATES * MOST_STATES][2];
    struct trail trail;
    unsigned count = 1;
    memset(seen, 0, sizeof seen);
    pair[0][0] = pair[0][1] = 1;
    seen[1][1] = 1;
    for (unsigned i = 0; i < count; i++) {
        const uint8_t *one = row_of(x, pair[i][0]), *other = row_of(y, pair[i][1]);
        for (unsigned c = 0; c < x->width; c++) {
            if ((one[c] == 0) != (other[c] == 0)) {
                unsigned length = write_history(&trail, i, history);
                history[length] = (uint8_t)c;
                return length + 1;
            }
            if (one[c] != 0 && !seen[one[c]][other[c]]) {
                seen[one[c]][other[c]] = 1;
                pair[count][0] = one[c];
                pair[count][1] = other[c];
                trail.from[count] = (uint16_t)i;
                trail.code[count++] = (uint8_t)c;
            }
        }
    }
    return 0;
}

uint64_t plain_compare(const uint8_t *first, size_t first_len, const uint8_t *second, size_t second_len,
                       uint8_t *history, size_t history_len)
{
    struct book x, y;
    if (history_len < 256)
        return 1;
    unsigned refusal = read_book(first, first_len, &x);
    if (refusal == 0)
        refusal = read_book(second, second_len, &y);
    if (refusal != 0)
        return refusal;
    if (memcmp(first + 5, second + 5, 6) != 0)
        return 15;
    return 256 * (uint64_t)search_pairs(&x, &y, history);
}

enum { LINE = 73, UNREACHED = 255 };

/* The length of each state's earliest history. */
static void find_lengths(const struct book *b, uint8_t *length)
{
    struct trail trail;
    uint8_t order[MOST_STATES];
    unsigned count = search_states(b, order, &trail);
    memset(length, UNREACHED, MOST_STATES + 1);
    length[1] = 0;
    for (unsigned i = 1; i < count; i++)
        length[order[i]] = (uint8_t)(length[order[trail.from[i]]] + 1);
}

/* A number of up to three digits, to the right of three columns that are blank. */
static void put_number(uint8_t *columns, unsigned number)
{
    columns[2] = (uint8_t)('0' + number % 10);
    if (number >= 10)
        columns[1] = (uint8_t)('0' + number / 10 % 10);
    if (number >= 100)
        columns[0] = (uint8_t)('0' + number / 100);
}

static void write_line(const struct book *b, unsigned state, unsigned length, uint8_t *line)
{
    const uint8_t *row = row_of(b, state) + b->events;
    memset(line, ' ', LINE - 1);
    put_number(line, state);
    if (length == UNREACHED)
        memcpy(line + 4, "---", 3);
    else
        put_number(line + 4, length);
    for (unsigned r = 0; r < b->requests; r++)
        line[8 + r] = (uint8_t)".ARB"[(row[2 * r] != 0) + 2 * (row[2 * r + 1] != 0)];
    line[LINE - 1] = '\n';
}

uint64_t plain_page(const uint8_t *book, size_t book_len, uint8_t *page, size_t page_len)
{
    struct book b;
    uint8_t length[MOST_STATES + 1];
    if (page_len < MOST_STATES * LINE)
        return 1;
    unsigned refusal = read_book(book, book_len, &b);
    if (refusal != 0)
        return refusal;
    find_lengths(&b, length);
    for (unsigned s = 1; s <= b.states; s++)
        write_line(&b, s, length[s], page + (s - 1) * LINE);
    return 256 * (uint64_t)(b.states * LINE);
}

static int has_outcome(const struct book *b, unsigned state, unsigned request, unsigned outcome)
{
    const uint8_t *answers = row_of(b, state) + b->events + 2 * request;
    return (answers[0] != 0) + 2 * (answers[1] != 0) == (int)outcome;
}

/* The length of the earliest history after which the request has the outcome, plus one; 0 if there is none. A state is tested when it is found, so that
 * the search ends at the first one that has the outcome. */
static unsigned search_outcome(const struct book *b, unsigned request, unsigned outcome, uint8_t *history)
{
    uint8_t seen[MOST_STATES + 1] = { 0 }, order[MOST_STATES];
    struct trail trail;
    unsigned count = 1;
    if (has_outcome(b, 1, request, outcome))
        return 1;
    order[0] = 1;
    seen[1] = 1;
    for (unsigned i = 0; i < count; i++) {
        const uint8_t *row = row_of(b, order[i]);
        for (unsigned c = 0; c < b->width; c++) {
            if (row[c] == 0 || seen[row[c]])
                continue;
            seen[row[c]] = 1;
            trail.from[count] = (uint16_t)i;
            trail.code[count] = (uint8_t)c;
            if (has_outcome(b, row[c], request, outcome))
                return write_history(&trail, count, history) + 1;
            order[count++] = row[c];
        }
    }
    return 0;
}

uint64_t plain_way(const uint8_t *book, size_t book_len, size_t request, size_t outcome, uint8_t *history, size_t history_len)
{
    struct book b;
    if (history_len < 128)
        return 1;
    unsigned refusal = read_book(book, book_len, &b);
    if (refusal != 0)
        return refusal;
    if (outcome > 3)
        return 18;
    if (request >= b.requests)
        return 16;
    return 256 * (uint64_t)search_outcome(&b, (unsigned)request, (unsigned)outcome, history);
}

uint64_t plain_same_bytes(const uint8_t *first, size_t first_len, const uint8_t *second, size_t second_len)
{
    return first_len == second_len && memcmp(first, second, first_len) == 0;
}
