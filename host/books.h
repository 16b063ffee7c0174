/* The book of a file, and refusals said in words, for the hosts that take a policy or a book. */
#ifndef BOOKS_H
#define BOOKS_H

#include "files.h"

/* Reads a book or builds that of a policy; the two are told apart by their marks, and a book is not checked. 0 and the book, to be freed;
 * else 1 if the policy is refused, 2 if the file cannot be read, with a line on standard error. */
int read_book(const char *name, struct bytes *book);

/* Whether a call was refused; a line on standard error then says by which number and what it means. */
int is_refused(const char *name, uint64_t answer);

#endif
