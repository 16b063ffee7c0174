/*
 * policybook.h: building, judging and comparing policy books, writing their pages, finding ways in them and telling equal bytes, for C99 and
 * later and for C++.
 *
 * A policy file holds access rules, 0 to 32 of them. Its book is a table that says, after every history of events and decided requests, which
 * steps are possible next. A step is one byte, its code; a history is a list of codes. A policy file begins with the mark POL, the bytes 50 4F 4C,
 * a book with the mark BOK, 42 4F 4B. docs/FORMATS.md describes policies, books and codes byte by byte. Paths named here are paths in the repository.
 *
 * A desk that decides requests needs policybook_build and the inline functions under "Reading and walking a book".
 *
 *     uint8_t book[POLICYBOOK_BOOK_SIZE];
 *     uint64_t answer = policybook_build(policy, policy_length, book, sizeof book);
 *     if (policybook_refusal_of(answer) != POLICYBOOK_OK)
 *         fprintf(stderr, "refused: %s\n", policybook_refusal_text(policybook_refusal_of(answer)));
 *     else
 *         book_length = (size_t)policybook_value_of(answer);   // the book is the first book_length bytes of the buffer
 *
 * The six functions are proved: for every input they end, read and write only what is lent to them, and answer as docs/C-INTERFACE.md says.
 * They keep no state, allocate nothing, set no errno, and may be called from several threads at once. The inline functions below are plain C.
 *
 * An answer is one number. Modulo 256 it is the number of a refusal, 0 where nothing is refused; divided by 256 it is the value.
 * (policybook_same_bytes alone refuses nothing: it answers 1 or 0, which is not to be taken apart.)
 * A call that is refused leaves every buffer as it was. What a call does not say it writes, stays.
 *
 * The caller sees to it that
 *   - each pointer is valid for its length, and none is null, also where the length is 0;
 *   - a buffer that is written overlaps with no other argument (what is only read may overlap or be the same);
 *   - about 128 kB of stack are free (for policybook_same_bytes next to nothing).
 * Nothing else is asked: any bytes may be given as a policy or as a book, and any length, request and outcome.
 *
 * Link with libpolicybook.a: `tools/library` writes it to target/staticlib, host/install puts it and this header where pkg-config finds
 * them (docs/C-INTERFACE.md). Examples: host/walk.c, host/sample.c, host/page.c, host/way.c, host/inventory.c, host/answers.c.
 */
#ifndef POLICYBOOK_H
#define POLICYBOOK_H

#include <stddef.h>
#include <stdint.h>

#ifdef __cplusplus
extern "C" {
#endif

/* The version of the header and the library, which pkg-config names too. docs/C-INTERFACE.md says what stays from one to the next. */
#define POLICYBOOK_VERSION "0.1.0"

/* The least sizes of the lent buffers, in bytes. A shorter one is refused with POLICYBOOK_SHORT_BUFFER. */
#define POLICYBOOK_BOOK_SIZE    17284 /* build: the book; no book is longer */
#define POLICYBOOK_FINDING_SIZE   128 /* verdict: each of the three histories, of at most 126 codes */
#define POLICYBOOK_HISTORY_SIZE   256 /* compare: the history, of at most 253 codes */
#define POLICYBOOK_PAGE_SIZE     9271 /* page: the page; none is longer */
#define POLICYBOOK_WAY_SIZE       128 /* way: the history, of at most 126 codes */

/* No policy is longer. A host that reads one byte more of a longer file gets the refusal that the whole file would get; so does one that takes
 * policies and books and reads POLICYBOOK_BOOK_SIZE + 1 bytes. */
#define POLICYBOOK_POLICY_MOST    753

/*
 * The numbers of the refusals. Where several fit, the one that comes first below is given; the list is in the order in which they are judged.
 */
enum policybook_refusal {
    POLICYBOOK_OK = 0,                /* nothing was refused */
    POLICYBOOK_SHORT_BUFFER = 1,      /* a lent buffer is too short (every function that is lent one) */
    POLICYBOOK_SHORT_POLICY = 2,      /* the policy has under 9 bytes (2 to 11 and 17: build) */
    POLICYBOOK_POLICY_MARK = 3,       /* its mark is not POL */
    POLICYBOOK_POLICY_VERSION = 4,    /* its version is neither 1 nor 2 */
    POLICYBOOK_POLICY_RANGE = 5,      /* events are over 8, fields not 1 to 4, variables over 4, or rules over 32 */
    POLICYBOOK_POLICY_LENGTH = 6,     /* its length does not follow from its version and those four numbers */
    POLICYBOOK_VALUE_COUNT = 7,       /* a value count is outside 1 to 16, or there are over 64 requests */
    POLICYBOOK_START = 17,            /* a starting value is above 63 (version 2) */
    POLICYBOOK_MASK = 8,              /* a mask has no bit set, or one at or above its field's count */
    POLICYBOOK_RULE_VALUE = 9,        /* a decision, test or change of a rule, or a change of an event, is outside its values */
    POLICYBOOK_VALUATIONS = 10,       /* there are over 64 valuations of the variables */
    POLICYBOOK_SITUATIONS = 11,       /* over 127 situations are reached */
    POLICYBOOK_BOOK_HEADER = 12,      /* the book has under 12 bytes, or another mark or version (12 to 14: verdict, compare, page, way) */
    POLICYBOOK_BOOK_LAYOUT = 13,      /* a number of its header is outside its range, or its length does not follow from them */
    POLICYBOOK_BOOK_ENTRY = 14,       /* an entry is above the number of states, or 0 for an event */
    POLICYBOOK_FRAMES = 15,           /* the two books differ in their events or value counts (compare) */
    POLICYBOOK_UNKNOWN_OUTCOME = 18,  /* the outcome is above 3 (way) */
    POLICYBOOK_NOT_IN_BOOK = 16       /* the request is not below the book's number of requests (way) */
};

/* What may happen to a request after a history: exactly one of these. */
enum policybook_outcome {
    POLICYBOOK_OUTCOME_NONE = 0,    /* it is unanswered: neither accepted nor rejected */
    POLICYBOOK_OUTCOME_ACCEPT = 1,  /* it may be accepted, not rejected */
    POLICYBOOK_OUTCOME_REJECT = 2,  /* it may be rejected, not accepted */
    POLICYBOOK_OUTCOME_BOTH = 3     /* it may be accepted and may be rejected */
};

/*
 * Builds the book of a policy into book, which has room for POLICYBOOK_BOOK_SIZE bytes.
 * Refused with 1 to 11 or 17. Else the value is the book's length; bytes after the book stay.
 *
 * A policy may have no rules; then it answers nothing. Its book has one state, to which every event leads and in which no request is accepted or
 * rejected, so that verdict finds request 0 missing and the book blocked, both with a history of length 0. Two such policies with the same events
 * and value counts have equal books, whatever their variables are.
 */
uint64_t policybook_build(const uint8_t *policy, size_t policy_len, uint8_t *book, size_t book_len);

/*
 * The findings on a book, over all histories possible in it; each buffer has room for POLICYBOOK_FINDING_SIZE bytes.
 *   conflict: after some history a request may be both accepted and rejected
 *   missing:  after some history a request is unanswered
 *   blocked:  after some history no request is answered, now or after any events
 * Refused with 1 or 12 to 14. Else policybook_conflict_of, _missing_of and _blocked_of take the answer apart. Where there is a finding, its
 * buffer begins with the earliest such history, one code a byte, and the request is the lowest; bytes after it, and the whole buffer of a
 * finding that is none, stay.
 */
uint64_t policybook_verdict(const uint8_t *book, size_t book_len, uint8_t *conflict, size_t conflict_len,
                            uint8_t *missing, size_t missing_len, uint8_t *blocked, size_t blocked_len);

/*
 * Compares two books with the same events and value counts; history has room for POLICYBOOK_HISTORY_SIZE bytes.
 * Refused with 1, 12 to 14 (the first book's before the second's) or 15. Else the value is 0 if the same histories are possible in both;
 * otherwise it is the length of the earliest history possible in just one, which the buffer then begins with. Bytes after it stay.
 */
uint64_t policybook_compare(const uint8_t *first, size_t first_len, const uint8_t *second, size_t second_len,
                            uint8_t *history, size_t history_len);

/*
 * Writes the page of a book, to be printed as it is; page has room for POLICYBOOK_PAGE_SIZE bytes. A line a state, in the order of their
 * numbers, each of 72 columns and the byte 10:
 *   columns 1 to 3:   the state's number, to the right
 *   columns 5 to 7:   the length of its earliest history, to the right; --- if no history leads to it
 *   columns 9 to 72:  a letter for each request from 0 on: A may be accepted only, R rejected only, B both, . neither; then blanks
 * Refused with 1 or 12 to 14. Else the value is the page's length, 73 times the number of states; bytes after the page stay.
 */
uint64_t policybook_page(const uint8_t *book, size_t book_len, uint8_t *page, size_t page_len);

/*
 * The way to an outcome of a request: the earliest history possible in the book after which the request, counted from 0, has that outcome,
 * a number of enum policybook_outcome; history has room for POLICYBOOK_WAY_SIZE bytes.
 * Refused with 1, 12 to 14, 18 or 16. Else policybook_way_of takes the answer apart: whether there is such a history, and its length, which is
 * below the number of states. The buffer then begins with it, one code a byte; bytes after it, and the whole buffer where there is none, stay.
 *
 *     uint8_t history[POLICYBOOK_WAY_SIZE];
 *     uint64_t answer = policybook_way(book, book_length, 0, POLICYBOOK_OUTCOME_BOTH, history, sizeof history);
 *     struct policybook_finding way = policybook_way_of(answer);
 *     if (policybook_refusal_of(answer) == POLICYBOOK_OK && way.found)
 *         for (unsigned i = 0; i < way.length; i++) printf(" %u", (unsigned)history[i]);   // " 3 3" for case E, whose answer is 3 * 256
 */
uint64_t policybook_way(const uint8_t *book, size_t book_len, size_t request, size_t outcome, uint8_t *history, size_t history_len);

/*
 * Whether two byte strings are equal: 1 if they have the same length and the same bytes, else 0. Any bytes will do, books or not, of any length.
 * The answer is NOT packed: nothing is ever refused, and policybook_refusal_of, which would take "equal" for a refusal, is not for it, nor is
 * policybook_value_of. Two books that were built have equal bytes exactly when their frames (events and value counts) are equal and the same
 * histories are possible in both; of books from elsewhere policybook_compare tells the latter.
 *
 *     if (policybook_same_bytes(first, first_length, second, second_length) == 1) printf("one book, found twice\n");
 */
uint64_t policybook_same_bytes(const uint8_t *first, size_t first_len, const uint8_t *second, size_t second_len);

/* ---- Taking an answer apart (of every function but policybook_same_bytes) ---- */

/* The refusal's number, or POLICYBOOK_OK. */
static inline unsigned policybook_refusal_of(uint64_t answer) { return (unsigned)(answer % 256); }

/* The value: a book's length (build), the packed findings (verdict), a history's length or 0 for same (compare), a page's length (page), a
 * history's length plus one or 0 for no history (way). 0 on a refusal. */
static inline uint64_t policybook_value_of(uint64_t answer) { return answer / 256; }

/* One finding of a verdict, or what way has found. Where found is 0, so are the other two. */
struct policybook_finding {
    int found;         /* 1 if there is such a history */
    unsigned length;   /* how many codes it has; 0 is the start, before anything has happened */
    unsigned request;  /* the lowest request; 0 for blocked, which has none, and for way, to which it is given */
};

/* Used by the four functions below: the finding whose 16 bits begin at this bit of the value. */
static inline struct policybook_finding policybook_finding_at(uint64_t answer, unsigned bit)
{
    struct policybook_finding finding = { 0, 0, 0 };
    unsigned part = (unsigned)(policybook_value_of(answer) >> bit & 0xFFFF);
    if (part % 256 != 0) {
        finding.found = 1;
        finding.length = part % 256 - 1;
        finding.request = part / 256;
    }
    return finding;
}

static inline struct policybook_finding policybook_conflict_of(uint64_t answer) { return policybook_finding_at(answer, 0); }
static inline struct policybook_finding policybook_missing_of(uint64_t answer) { return policybook_finding_at(answer, 16); }
static inline struct policybook_finding policybook_blocked_of(uint64_t answer) { return policybook_finding_at(answer, 32); }
static inline struct policybook_finding policybook_way_of(uint64_t answer) { return policybook_finding_at(answer, 0); }

/* What a refusal's number means, in words. */
static inline const char *policybook_refusal_text(unsigned number)
{
    switch (number) {
    case POLICYBOOK_OK: return "nothing was refused";
    case POLICYBOOK_SHORT_BUFFER: return "a lent buffer is too small";
    case POLICYBOOK_SHORT_POLICY: return "the policy has fewer than 9 bytes";
    case POLICYBOOK_POLICY_MARK: return "the policy does not begin with the mark POL";
    case POLICYBOOK_POLICY_VERSION: return "the policy's version is neither 1 nor 2";
    case POLICYBOOK_POLICY_RANGE: return "the number of events, fields, variables or rules is outside its range";
    case POLICYBOOK_POLICY_LENGTH: return "the policy's length does not follow from its sizes";
    case POLICYBOOK_VALUE_COUNT: return "a value count is outside 1 to 16, or there are over 64 requests";
    case POLICYBOOK_START: return "a starting value is above 63";
    case POLICYBOOK_MASK: return "a mask is empty or has a bit at or above its field's count";
    case POLICYBOOK_RULE_VALUE: return "a decision, test or change is outside its values";
    case POLICYBOOK_VALUATIONS: return "there are over 64 valuations";
    case POLICYBOOK_SITUATIONS: return "over 127 situations are reached";
    case POLICYBOOK_BOOK_HEADER: return "the book has fewer than 12 bytes, or its mark or version is wrong";
    case POLICYBOOK_BOOK_LAYOUT: return "a size of the book is outside its range, or its length does not follow from its sizes";
    case POLICYBOOK_BOOK_ENTRY: return "an entry of the book is above its number of states, or 0 for an event";
    case POLICYBOOK_FRAMES: return "the frames of the two books differ";
    case POLICYBOOK_UNKNOWN_OUTCOME: return "the outcome is above 3";
    case POLICYBOOK_NOT_IN_BOOK: return "the state, request or code is outside its range, or the step is not possible";
    default: return "no such refusal";
    }
}

/*
 * ---- Reading and walking a book ----
 *
 * Most of these take a book that was built, or that policybook_check did not refuse; they do not check it again and are not told its length. (What
 * verdict, compare, page or way did not refuse will do as well; 15, 16 and 18 are not about a book alone.) A state, code, event, request, field or
 * value may be any unsigned: outside the book nothing is possible, and nothing outside is read. A wider number must not be cut on its way to
 * unsigned: 2^32 + 1 would become 1. Of bytes that are no book policybook_next, policybook_outcome_of and policybook_after may read more than there
 * are; the other functions that are not told a length read the first 12.
 *
 *     unsigned state = 1;                                                     // the start
 *     unsigned next = policybook_next(book, state, policybook_accept_code(book, 1));
 *     if (next == 0) printf("request 1 may not be accepted now\n");            // keep the state: from state 0 nothing is possible
 *     else state = next;
 *     if (policybook_outcome_of(book, state, 0) == POLICYBOOK_OUTCOME_BOTH) printf("request 0 may be accepted and may be rejected\n");
 *     state = policybook_next(book, state, policybook_event_code(book, 0));   // an event that the book has is always possible
 *
 * In the book of case E the first step leads from state 1 to 2 and from 2 to 3; in state 3 it is not possible, and there the second message is
 * printed. The event leads back to state 1.
 *
 * policybook_next takes a code, not the number of an event or a request. With 2 events the codes are 0 and 1 for these, then 2 and 3 for request 0
 * accepted and rejected, 4 and 5 for request 1: policybook_next(book, 1, 4) has request 1 accepted, also where 4 was meant as an event, which the
 * book has not. policybook_event_code(book, 4) is no code, and no step.
 */

/* Whether bytes begin with a book's mark, BOK; else they may be a policy. No more is checked. */
static inline int policybook_is_book(const uint8_t *bytes, size_t length)
{
    return length >= 3 && bytes[0] == 0x42 && bytes[1] == 0x4F && bytes[2] == 0x4B;
}

/* Checks a book from elsewhere, which may be any bytes: the refusal's number, 12 to 14, or POLICYBOOK_OK if it can be walked, for as long as its
 * bytes stay as they are. This is a call of policybook_way, and needs as much stack. */
static inline unsigned policybook_check(const uint8_t *book, size_t length)
{
    uint8_t history[POLICYBOOK_WAY_SIZE];
    return policybook_refusal_of(policybook_way(book, length, 0, POLICYBOOK_OUTCOME_NONE, history, sizeof history));
}

/* How many fields a request has, 1 to 4, and how many values a field has; 0 for a field that the book has not. */
static inline unsigned policybook_fields_of(const uint8_t *book)
{
    unsigned fields = book[6];
    return fields < 4 ? fields : 4;
}
static inline unsigned policybook_values_of(const uint8_t *book, unsigned field)
{
    if (field >= policybook_fields_of(book)) return 0;
    return book[7 + field];
}

/* How many events, requests, states and codes the book has. */
static inline unsigned policybook_events_of(const uint8_t *book) { return book[5]; }
static inline unsigned policybook_requests_of(const uint8_t *book)
{
    unsigned requests = 1;
    for (unsigned field = 0; field < policybook_fields_of(book); field++) requests *= policybook_values_of(book, field);
    return requests;
}
static inline unsigned policybook_states_of(const uint8_t *book) { return book[11]; }
static inline unsigned policybook_codes_of(const uint8_t *book) { return policybook_events_of(book) + 2 * policybook_requests_of(book); }

/*
 * The number of the request with these values, one for each field, in the order of the fields. If one of them is not below its field's count: the
 * number of requests, which is no request. With 2 persons and 3 actions the number is person * 3 + action:
 *
 *     unsigned values[4] = { 1, 2 };                                          // person 1, action 2; room for 4 is enough for every book
 *     unsigned request = policybook_request_of(book, values);                 // 5
 */
static inline unsigned policybook_request_of(const uint8_t *book, const unsigned *values)
{
    unsigned request = 0;
    for (unsigned field = 0; field < policybook_fields_of(book); field++) {
        if (values[field] >= policybook_values_of(book, field)) return policybook_requests_of(book);
        request = request * policybook_values_of(book, field) + values[field];
    }
    return request;
}

/* The code of an event. For an event that the book has not: the number of codes, which is no code. */
static inline unsigned policybook_event_code(const uint8_t *book, unsigned event)
{
    return event < policybook_events_of(book) ? event : policybook_codes_of(book);
}

/* The code of a request accepted, and rejected. For a request that the book has not: the number of codes, which is no code. */
static inline unsigned policybook_accept_code(const uint8_t *book, unsigned request)
{
    if (request >= policybook_requests_of(book)) return policybook_codes_of(book);
    return policybook_events_of(book) + 2 * request;
}
static inline unsigned policybook_reject_code(const uint8_t *book, unsigned request)
{
    if (request >= policybook_requests_of(book)) return policybook_codes_of(book);
    return policybook_events_of(book) + 2 * request + 1;
}

/* The state that a code leads to from a state (1 is the start). 0 if the step is not possible, or the book has no such state (as 0) or code. The step
 * of an event is always possible, from every state that the book has. */
static inline unsigned policybook_next(const uint8_t *book, unsigned state, unsigned code)
{
    size_t codes = policybook_codes_of(book);
    if (state < 1 || state > policybook_states_of(book) || code >= codes) return 0;
    return book[12 + (state - 1) * codes + code];
}

/* The state that a history, a list of codes, leads to from the start; 1 for the empty one. 0 if it is not possible. */
static inline unsigned policybook_after(const uint8_t *book, const uint8_t *codes, size_t length)
{
    unsigned state = 1;
    for (size_t i = 0; i < length && state != 0; i++) state = policybook_next(book, state, codes[i]);
    return state;
}

/* What may happen to a request in a state. POLICYBOOK_OUTCOME_NONE if the book has no such state or request. */
static inline enum policybook_outcome policybook_outcome_of(const uint8_t *book, unsigned state, unsigned request)
{
    int may_accept = policybook_next(book, state, policybook_accept_code(book, request)) != 0;
    int may_reject = policybook_next(book, state, policybook_reject_code(book, request)) != 0;
    if (may_accept && may_reject) return POLICYBOOK_OUTCOME_BOTH;
    if (may_accept) return POLICYBOOK_OUTCOME_ACCEPT;
    return may_reject ? POLICYBOOK_OUTCOME_REJECT : POLICYBOOK_OUTCOME_NONE;
}

/* What a code stands for. Where found is 0 it stands for nothing, whatever the other members are. */
struct policybook_step {
    int is_event;     /* 1 for an event, 0 for a request that is decided */
    unsigned number;  /* which event, or which request */
    int accepted;     /* for a request: 1 accepted, 0 rejected */
    int found;        /* 1 for a code that the book has, else 0 */
};

/* For a code that the book has not: not found, no event, not accepted, and as its number the number of requests, which no request has. */
static inline struct policybook_step policybook_step_of(const uint8_t *book, unsigned code)
{
    struct policybook_step step = { 0, policybook_requests_of(book), 0, 0 };
    unsigned events = policybook_events_of(book);
    if (code < events) {
        step.is_event = 1;
        step.number = code;
        step.found = 1;
    } else if (code < policybook_codes_of(book)) {
        step.number = (code - events) / 2;
        step.accepted = (code - events) % 2 == 0;
        step.found = 1;
    }
    return step;
}

#ifdef __cplusplus
}
#endif

#endif
