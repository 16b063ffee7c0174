/* The book of a file, and refusals said in words, for the hosts that take a policy or a book. */
#include "books.h"

#include <stdio.h>
#include <stdlib.h>

#include "policybook.h"

/* One byte more than the longest book, so that a longer file is refused for its length. */
#define FILE_READ (POLICYBOOK_BOOK_SIZE + 1)

int is_refused(const char *name, uint64_t answer)
{
    unsigned number = policybook_refusal_of(answer);
    if (number == POLICYBOOK_OK) return 0;
    fprintf(stderr, "%s: refused by number %u: %s\n", name, number, policybook_refusal_text(number));
    return 1;
}

/* Puts the policy's book in the place of the policy. 1 if it is refused. */
static int build(const char *name, struct bytes *file)
{
    uint8_t *buffer = lent_buffer(POLICYBOOK_BOOK_SIZE, 0);
    uint64_t answer = policybook_build(file->data, file->length, buffer, POLICYBOOK_BOOK_SIZE);
    int refused = is_refused(name, answer);
    free(file->data);
    if (!refused) *file = exact_copy(buffer, (size_t)policybook_value_of(answer));
    free(buffer);
    return refused;
}

int read_book(const char *name, struct bytes *book)
{
    if (!read_file(name, FILE_READ, book)) return 2;
    return policybook_is_book(book->data, book->length) ? 0 : build(name, book);
}
