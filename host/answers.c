/*
 * The answers of the library in the lines that `reference` prints for the same words, so that the two are compared as text.
 *   answers build POLICY OUT           writes the book of a policy into the file OUT
 *   answers shelf POLICY               the number of states and the three findings of a policy
 *   answers verdict BOOK               the three findings of a book
 *   answers compare BOOK BOOK          same, or the earliest history possible in just one
 *   answers page FILE                  the page of the book of a policy, or of a book, told apart by their marks
 *   answers way FILE REQUEST OUTCOME   the earliest history to an outcome of a request, of a policy or a book likewise
 *   answers                            each line of standard input in place of the words above; `$` and the line come first, on both outputs
 * A refusal is the line `refused N`, with its meaning on standard error. Exit status: 0 for every answer, 2 for bad usage or files.
 */
#include <stdio.h>
#include <stdlib.h>
#include <string.h>

#include "files.h"
#include "policybook.h"

/* One byte more than the longest book, so that a longer file is refused for its length. */
#define BOOK_READ (POLICYBOOK_BOOK_SIZE + 1)

static int is_refused(uint64_t answer)
{
    unsigned number = policybook_refusal_of(answer);
    if (number == POLICYBOOK_OK) return 0;
    fprintf(stderr, "refused by number %u: %s\n", number, policybook_refusal_text(number));
    printf("refused %u\n", number);
    return 1;
}

/* The length and the codes, one blank before each. */
static void print_history(const uint8_t *history, uint64_t length)
{
    printf(" %u", (unsigned)length);
    for (uint64_t i = 0; i < length; i++) printf(" %u", (unsigned)history[i]);
    printf("\n");
}

static void print_finding(const char *name, struct policybook_finding finding, int has_request, const uint8_t *history)
{
    printf("%s", name);
    if (!finding.found) {
        printf(" -\n");
        return;
    }
    if (has_request) printf(" %u", finding.request);
    print_history(history, finding.length);
}

static void verdict(struct bytes book)
{
    uint8_t *conflict = lent_buffer(POLICYBOOK_FINDING_SIZE, 0);
    uint8_t *missing = lent_buffer(POLICYBOOK_FINDING_SIZE, 0);
    uint8_t *blocked = lent_buffer(POLICYBOOK_FINDING_SIZE, 0);
    uint64_t answer = policybook_verdict(book.data, book.length, conflict, POLICYBOOK_FINDING_SIZE,
                                         missing, POLICYBOOK_FINDING_SIZE, blocked, POLICYBOOK_FINDING_SIZE);
    if (!is_refused(answer)) {
        print_finding("conflict", policybook_conflict_of(answer), 1, conflict);
        print_finding("missing", policybook_missing_of(answer), 1, missing);
        print_finding("blocked", policybook_blocked_of(answer), 0, blocked);
    }
    free(conflict);
    free(missing);
    free(blocked);
}

static void compare(struct bytes first, struct bytes second)
{
    uint8_t *history = lent_buffer(POLICYBOOK_HISTORY_SIZE, 0);
    uint64_t answer = policybook_compare(first.data, first.length, second.data, second.length, history, POLICYBOOK_HISTORY_SIZE);
    if (!is_refused(answer)) {
        printf("%s", policybook_value_of(answer) == 0 ? "same\n" : "differ");
        if (policybook_value_of(answer) != 0) print_history(history, policybook_value_of(answer));
    }
    free(history);
}

static void page(struct bytes book)
{
    uint8_t *lines = lent_buffer(POLICYBOOK_PAGE_SIZE, 0);
    uint64_t answer = policybook_page(book.data, book.length, lines, POLICYBOOK_PAGE_SIZE);
    if (!is_refused(answer)) fwrite(lines, 1, (size_t)policybook_value_of(answer), stdout);
    free(lines);
}

static void way(struct bytes book, size_t request, size_t outcome)
{
    uint8_t *history = lent_buffer(POLICYBOOK_WAY_SIZE, 0);
    uint64_t answer = policybook_way(book.data, book.length, request, outcome, history, POLICYBOOK_WAY_SIZE);
    if (!is_refused(answer)) print_finding("way", policybook_way_of(answer), 0, history);
    free(history);
}

/* The book of a policy, with no byte to spare. 0 if it is refused. */
static int build(struct bytes policy, struct bytes *book)
{
    uint8_t *buffer = lent_buffer(POLICYBOOK_BOOK_SIZE, 0);
    uint64_t answer = policybook_build(policy.data, policy.length, buffer, POLICYBOOK_BOOK_SIZE);
    int built = !is_refused(answer);
    if (built) *book = exact_copy(buffer, (size_t)policybook_value_of(answer));
    free(buffer);
    return built;
}

static int write_file(const char *name, struct bytes bytes)
{
    FILE *file = fopen(name, "wb");
    int written = file != NULL && fwrite(bytes.data, 1, bytes.length, file) == bytes.length;
    if (file != NULL && fclose(file) != 0) written = 0;
    if (!written) perror(name);
    return written;
}

/* Builds a policy's book, and writes it to a file or, with no file, prints the states and findings. The exit status. */
static int with_policy(const char *name, const char *out)
{
    struct bytes policy, book;
    int status = 0;
    if (!read_file(name, POLICYBOOK_POLICY_MOST + 1, &policy)) return 2;
    if (build(policy, &book)) {
        if (out == NULL) {
            printf("states %u\n", policybook_states_of(book.data));
            verdict(book);
        } else if (!write_file(out, book)) {
            status = 2;
        }
        free(book.data);
    }
    free(policy.data);
    return status;
}

/* Judges a book or, with a second one, compares the two. The exit status. */
static int with_books(const char *first_name, const char *second_name)
{
    struct bytes first, second = { NULL, 0 };
    if (!read_file(first_name, BOOK_READ, &first)) return 2;
    int readable = second_name == NULL || read_file(second_name, BOOK_READ, &second);
    if (second_name == NULL) verdict(first);
    else if (readable) compare(first, second);
    free(first.data);
    free(second.data);
    return readable ? 0 : 2;
}

/* Reads a book, or a policy in whose place its book is put. Without one `data` is null, and the exit status is given. */
static int read_either(const char *name, struct bytes *book)
{
    struct bytes file;
    *book = (struct bytes){ NULL, 0 };
    if (!read_file(name, BOOK_READ, &file)) return 2;
    if (policybook_is_book(file.data, file.length)) {
        *book = file;
        return 0;
    }
    build(file, book);
    free(file.data);
    return 0;
}

/* Prints the page of a book, or of a policy's. The exit status. */
static int with_page(const char *name)
{
    struct bytes book;
    int status = read_either(name, &book);
    if (book.data != NULL) page(book);
    free(book.data);
    return status;
}

/* Prints the way in a book, or in a policy's, to the outcome of a request. The exit status. */
static int with_way(const char *name, const char *request_digits, const char *outcome_digits)
{
    struct bytes book;
    size_t request, outcome;
    if (!read_number(request_digits, &request) || !read_number(outcome_digits, &outcome)) return 2;
    int status = read_either(name, &book);
    if (book.data != NULL) way(book, request, outcome);
    free(book.data);
    return status;
}

/* The answer to a command and its arguments. The exit status. */
static int answer(int count, char **words)
{
    const char *command = count > 0 ? words[0] : "";
    if (count == 3 && strcmp(command, "build") == 0) return with_policy(words[1], words[2]);
    if (count == 2 && strcmp(command, "shelf") == 0) return with_policy(words[1], NULL);
    if (count == 2 && strcmp(command, "verdict") == 0) return with_books(words[1], NULL);
    if (count == 3 && strcmp(command, "compare") == 0) return with_books(words[1], words[2]);
    if (count == 2 && strcmp(command, "page") == 0) return with_page(words[1]);
    if (count == 4 && strcmp(command, "way") == 0) return with_way(words[1], words[2], words[3]);
    fprintf(stderr, "usage: answers build POLICY OUT | shelf POLICY | verdict BOOK | compare BOOK BOOK | page FILE | way FILE REQUEST OUTCOME\n");
    return 2;
}

/* Answers the lines of standard input, words that are one blank apart. The greatest exit status. */
static int answer_lines(void)
{
    enum { MOST_WORDS = 5 }; /* one more than any command has */
    char line[1000];
    int greatest = 0;
    while (fgets(line, sizeof line, stdin) != NULL) {
        char *words[MOST_WORDS];
        int count = 0;
        printf("$ %s", line);
        fprintf(stderr, "$ %s", line);
        for (char *word = strtok(line, " \n"); word != NULL && count < MOST_WORDS; word = strtok(NULL, " \n")) words[count++] = word;
        int status = answer(count, words);
        if (status > greatest) greatest = status;
    }
    return greatest;
}

int main(int argc, char **argv) { return argc > 1 ? answer(argc - 1, argv + 1) : answer_lines(); }
