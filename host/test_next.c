/*
 * Tests of the inline functions that read a book, for states, codes, events, requests, fields and values inside and outside of it. Each book and each list of
 * values is a block of its own, so that memcheck sees a read outside; what must be answered is taken from the rows by sizes that are given, not read from the
 * header.
 */
#include "test.h"

#include <limits.h>
#include <stdlib.h>
#include <string.h>

#include "policybook.h"

/* A book with its sizes. */
struct sized {
    struct bytes bytes;
    unsigned events, requests, states;
    uint8_t counts[4];
};

static unsigned codes_in(struct sized book) { return book.events + 2 * book.requests; }

/* Rows in which about every third step of a request is not possible; the event's and other entries are states of all numbers. */
static struct sized mixed_book(unsigned events, const uint8_t counts[4], unsigned states)
{
    struct sized book = { { NULL, 0 }, events, 1, states, { counts[0], counts[1], counts[2], counts[3] } };
    uint8_t header[12] = { 0x42, 0x4F, 0x4B, 0x00, 0x01, (uint8_t)events, 0, counts[0], counts[1], counts[2], counts[3], (uint8_t)states };
    for (int field = 0; field < 4 && counts[field] != 0; field++) {
        header[6]++;
        book.requests *= counts[field];
    }
    book.bytes.length = 12 + (size_t)states * codes_in(book);
    book.bytes.data = lent_buffer(book.bytes.length, 0);
    memcpy(book.bytes.data, header, sizeof header);
    for (size_t i = 12; i < book.bytes.length; i++) {
        size_t code = (i - 12) % codes_in(book);
        if (code < events || i * i % 7 % 3 != 0) book.bytes.data[i] = (uint8_t)(i * 5 % states + 1);
    }
    return book;
}

/* The numbers that are tried for a thing of which there are `count`: all up to two past it, and others that a byte, a product or a sum could take for one of them. */
struct numbers {
    unsigned count, list[200];
};

static struct numbers numbers_beside(unsigned count)
{
    static const unsigned far[] = {
        127, 128, 129, 130, 136, 255, 256, 257, 512, 65535, 65536, 65537, UINT_MAX / 136 + 1, UINT_MAX / 5 + 2,
        INT_MAX - 1, INT_MAX, INT_MAX + 1U, INT_MAX + 2U, INT_MAX + 3U, UINT_MAX - 256, UINT_MAX - 1, UINT_MAX,
    };
    struct numbers numbers = { 0, { 0 } };
    while (numbers.count <= count + 2) {
        numbers.list[numbers.count] = numbers.count;
        numbers.count++;
    }
    memcpy(numbers.list + numbers.count, far, sizeof far);
    numbers.count += sizeof far / sizeof *far;
    return numbers;
}

/* What the row says; 0 outside. */
static unsigned entry(struct sized book, unsigned state, unsigned code)
{
    if (state == 0 || state > book.states || code >= codes_in(book)) return 0;
    return book.bytes.data[12 + (size_t)(state - 1) * codes_in(book) + code];
}

static void expect_next(struct sized book)
{
    struct numbers states = numbers_beside(book.states), codes = numbers_beside(codes_in(book));
    for (unsigned s = 0; s < states.count; s++) {
        for (unsigned c = 0; c < codes.count; c++)
            CHECK(policybook_next(book.bytes.data, states.list[s], codes.list[c]) == entry(book, states.list[s], codes.list[c]));
    }
}

/* The outcome by the two entries of the request, the codes of which are made here. */
static void expect_outcome(struct sized book, unsigned state, unsigned request)
{
    static const enum policybook_outcome outcomes[2][2] = {
        { POLICYBOOK_OUTCOME_NONE, POLICYBOOK_OUTCOME_REJECT },
        { POLICYBOOK_OUTCOME_ACCEPT, POLICYBOOK_OUTCOME_BOTH },
    };
    int inside = request < book.requests;
    int accept = inside && entry(book, state, book.events + 2 * request) != 0;
    int reject = inside && entry(book, state, book.events + 2 * request + 1) != 0;
    CHECK(policybook_outcome_of(book.bytes.data, state, request) == outcomes[accept][reject]);
}

static void expect_requests(struct sized book)
{
    struct numbers states = numbers_beside(book.states), requests = numbers_beside(book.requests);
    for (unsigned r = 0; r < requests.count; r++) {
        unsigned request = requests.list[r];
        int inside = request < book.requests;
        CHECK(policybook_accept_code(book.bytes.data, request) == (inside ? book.events + 2 * request : codes_in(book)));
        CHECK(policybook_reject_code(book.bytes.data, request) == (inside ? book.events + 2 * request + 1 : codes_in(book)));
        for (unsigned s = 0; s < states.count; s++) expect_outcome(book, states.list[s], request);
    }
}

static void expect_events(struct sized book)
{
    struct numbers events = numbers_beside(book.events);
    for (unsigned e = 0; e < events.count; e++) {
        unsigned event = events.list[e];
        CHECK(policybook_event_code(book.bytes.data, event) == (event < book.events ? event : codes_in(book)));
    }
}

static unsigned fields_in(struct sized book)
{
    unsigned fields = 0;
    while (fields < 4 && book.counts[fields] != 0) fields++;
    return fields;
}

/* No request has these values if any of them is past its field's count, whatever the others are. */
static void expect_no_request(struct sized book, unsigned *values)
{
    for (unsigned field = 0; field < fields_in(book); field++) {
        struct numbers numbers = numbers_beside(book.counts[field]);
        unsigned kept = values[field];
        for (unsigned i = book.counts[field]; i < numbers.count; i++) {
            values[field] = numbers.list[i];
            CHECK(policybook_request_of(book.bytes.data, values) == book.requests);
        }
        values[field] = kept;
    }
}

/* The values of all requests in the order of their numbers: the last field goes on with each, a field before it once that one is through. */
static void expect_fields(struct sized book)
{
    unsigned fields = fields_in(book), *values = room_for(fields, sizeof *values);
    struct numbers numbers = numbers_beside(4);
    CHECK(policybook_fields_of(book.bytes.data) == fields);
    for (unsigned i = 0; i < numbers.count; i++) {
        unsigned field = numbers.list[i];
        CHECK(policybook_values_of(book.bytes.data, field) == (field < fields ? book.counts[field] : 0));
    }
    for (unsigned request = 0; request < book.requests; request++) {
        CHECK(policybook_request_of(book.bytes.data, values) == request);
        expect_no_request(book, values);
        for (unsigned field = fields; field-- > 0 && ++values[field] == book.counts[field];) values[field] = 0;
    }
    free(values);
}

/* What a code stands for, and that it is the code of that. */
static void expect_steps(struct sized book)
{
    struct numbers codes = numbers_beside(codes_in(book));
    for (unsigned c = 0; c < codes.count; c++) {
        unsigned code = codes.list[c];
        struct policybook_step step = policybook_step_of(book.bytes.data, code);
        CHECK(step.is_event == (code < book.events) && step.found == (code < codes_in(book)));
        if (step.is_event) {
            CHECK(step.number == code && step.accepted == 0);
        } else if (code >= codes_in(book)) {
            CHECK(step.number == book.requests && step.accepted == 0);
        } else {
            CHECK(step.number < book.requests && (step.accepted == 0 || step.accepted == 1));
            CHECK(code == book.events + 2 * step.number + (step.accepted ? 0 : 1));
        }
    }
}

/* All that is read of a book, which is then freed. */
static void expect_reading(struct sized book)
{
    CHECK(policybook_events_of(book.bytes.data) == book.events && policybook_requests_of(book.bytes.data) == book.requests);
    CHECK(policybook_states_of(book.bytes.data) == book.states && policybook_codes_of(book.bytes.data) == codes_in(book));
    uint8_t *history = lent_buffer(POLICYBOOK_WAY_SIZE, FILLED);
    CHECK(policybook_refusal_of(policybook_way(book.bytes.data, book.bytes.length, 0, 0, history, POLICYBOOK_WAY_SIZE)) == POLICYBOOK_OK);
    free(history);
    expect_next(book);
    expect_requests(book);
    expect_events(book);
    expect_fields(book);
    expect_steps(book);
    free(book.bytes.data);
}

static void test_books(void)
{
    static const uint8_t one[4] = { 1, 0, 0, 0 }, two[4] = { 2, 0, 0, 0 }, twelve[4] = { 3, 4, 0, 0 }, ten[4] = { 1, 5, 2, 0 };
    static const uint8_t twenty_four[4] = { 4, 3, 2, 1 }, most[4] = { 16, 4, 0, 0 }, most_in_four[4] = { 2, 4, 2, 4 };
    expect_reading((struct sized){ exact_copy(book_e, sizeof book_e), 1, 2, 3, { 2 } });
    expect_reading((struct sized){ exact_copy(book_g, sizeof book_g), 0, 2, 2, { 2 } });
    expect_reading((struct sized){ full_book(), 0, WIDTH / 2, STATES, { 16, 4 } });
    expect_reading(mixed_book(0, one, 1)); /* 14 bytes, the shortest book */
    expect_reading(mixed_book(8, one, STATES));
    expect_reading(mixed_book(1, two, 5));
    expect_reading(mixed_book(3, twelve, 40));
    expect_reading(mixed_book(2, ten, 126));
    expect_reading(mixed_book(5, twenty_four, 2));
    expect_reading(mixed_book(0, most_in_four, 1));
    expect_reading(mixed_book(8, most, STATES)); /* the longest */
}

/* A host that goes on after a step that is not possible stays in state 0. */
static void test_walks(void)
{
    static const uint8_t to_the_end[] = { 3, 0, 3, 3, 4, 1, 2 }, past_it[] = { 3, 3, 3, 0, 3, 1 };
    static const unsigned led_to[] = { 2, 1, 2, 3, 3, 3, 3 }, led_past[] = { 2, 3, 0, 0, 0, 0 };
    struct bytes e = exact_copy(book_e, sizeof book_e);
    unsigned state = 1, other = 1;
    for (size_t i = 0; i < sizeof to_the_end; i++) CHECK((state = policybook_next(e.data, state, to_the_end[i])) == led_to[i]);
    for (size_t i = 0; i < sizeof past_it; i++) CHECK((other = policybook_next(e.data, other, past_it[i])) == led_past[i]);
    CHECK(policybook_outcome_of(e.data, state, 0) == POLICYBOOK_OUTCOME_BOTH && policybook_outcome_of(e.data, state, 1) == POLICYBOOK_OUTCOME_REJECT);
    CHECK(policybook_outcome_of(e.data, other, 0) == POLICYBOOK_OUTCOME_NONE);
    free(e.data);
}

/* An event's number that the book has not may be the code of a request; as an event it leads nowhere. */
static void test_event_past_the_last(void)
{
    static const uint8_t bytes[] = { 0x42, 0x4F, 0x4B, 0x00, 0x01, 0x02, 0x01, 0x02, 0x00, 0x00, 0x00, 0x01, 1, 1, 1, 0, 1, 0 };
    struct bytes book = exact_copy(bytes, sizeof bytes);
    CHECK(policybook_next(book.data, 1, 4) == 1 && policybook_accept_code(book.data, 1) == 4);
    CHECK(policybook_next(book.data, 1, policybook_event_code(book.data, 4)) == 0);
    CHECK(policybook_next(book.data, 1, policybook_event_code(book.data, 2)) == 0);
    CHECK(policybook_next(book.data, 1, policybook_event_code(book.data, 1)) == 1);
    free(book.data);
}

/* What needs no rows reads 12 bytes, and at most four values, whatever the bytes are. */
static void test_any_header(void)
{
    static const unsigned greatest[4] = { 254, 254, 254, 254 };
    struct bytes header = { lent_buffer(12, 0xFF), 12 }, zeros = { lent_buffer(12, 0), 12 };
    unsigned *values = room_for(4, sizeof *values);
    memcpy(values, greatest, sizeof greatest);
    CHECK(policybook_events_of(header.data) == 255 && policybook_states_of(header.data) == 255);
    CHECK(policybook_requests_of(header.data) == 255U * 255 * 255 * 255);
    CHECK(policybook_step_of(header.data, 255).number == 0 && policybook_accept_code(header.data, 1) == 257);
    CHECK(policybook_event_code(header.data, 254) == 254 && policybook_event_code(header.data, 255) == policybook_codes_of(header.data));
    CHECK(policybook_fields_of(header.data) == 4 && policybook_values_of(header.data, 3) == 255 && policybook_values_of(header.data, 4) == 0);
    CHECK(policybook_request_of(header.data, values) == 255U * 255 * 255 * 255 - 1);
    values[3] = 255;
    CHECK(policybook_request_of(header.data, values) == 255U * 255 * 255 * 255);
    CHECK(policybook_fields_of(zeros.data) == 0 && policybook_values_of(zeros.data, 0) == 0 && policybook_event_code(zeros.data, 0) == 2);
    CHECK(policybook_next(zeros.data, 1, 0) == 0 && policybook_request_of(zeros.data, values) == 0);
    free(values);
    free(zeros.data);
    free(header.data);
}

void test_next(void)
{
    test_books();
    test_walks();
    test_event_past_the_last();
    test_any_header();
}
