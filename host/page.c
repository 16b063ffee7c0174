/*
 * The file room's host: prints the page of a policy's book, as it is pinned beside the shelf. A book may be given in place of a policy.
 *   page FILE
 * Exit status: 0 the page was printed, 1 the file was refused, 2 bad usage, or a file that cannot be read or a page that cannot be written.
 */
#include <stdio.h>
#include <stdlib.h>

#include "books.h"
#include "policybook.h"

/* The exit status. */
static int print_page(const char *name, struct bytes book)
{
    uint8_t *page = lent_buffer(POLICYBOOK_PAGE_SIZE, 0);
    uint64_t answer = policybook_page(book.data, book.length, page, POLICYBOOK_PAGE_SIZE);
    int status = is_refused(name, answer);
    size_t length = (size_t)policybook_value_of(answer);
    if (fwrite(page, 1, length, stdout) != length || fflush(stdout) != 0) {
        fprintf(stderr, "%s: the page cannot be written in full\n", name);
        status = 2;
    }
    free(page);
    return status;
}

int main(int argc, char **argv)
{
    struct bytes book;
    if (argc != 2) {
        fprintf(stderr, "usage: page FILE\n");
        return 2;
    }
    int status = read_book(argv[1], &book);
    if (status != 0) return status;
    status = print_page(argv[1], book);
    free(book.data);
    return status;
}
