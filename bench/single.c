/* single.c: build on single policies, by the library and by plain C. Usage: single FILE.. For each file one line: its name, the library's nanoseconds, plain C's, and
 * the median of their quotients; `refused` in their place where the library refuses the file, as one of before may. Exit status 1 where the two books differ. */
#include "bench.h"
#include "inputs.h"
#include "plain.h"
#include "policybook.h"

#include <stdio.h>
#include <string.h>

static struct bytes policy;
static uint8_t books[2][BOOK_ROOM];

static void library(void *answer) { *(uint64_t *)answer = policybook_build(policy.at, policy.length, books[0], BOOK_ROOM); }

static void plainly(void *answer) { *(uint64_t *)answer = plain_build(policy.at, policy.length, books[1], BOOK_ROOM); }

/* 0 if the file cannot be read. */
static int read_policy(const char *name)
{
    FILE *file = fopen(name, "rb");
    if (file == NULL)
        return 0;
    policy.length = fread(policy.at, 1, sizeof policy.at, file);
    return fclose(file) == 0;
}

int main(int argc, char **argv)
{
    for (int i = 1; i < argc; i++) {
        uint64_t answers[2];
        double nanoseconds[2], ratios[2];
        const struct runner runners[2] = { { library, &answers[0] }, { plainly, &answers[1] } };
        if (!read_policy(argv[i])) {
            perror(argv[i]);
            return 2;
        }
        library(&answers[0]);
        plainly(&answers[1]);
        if (policybook_refusal_of(answers[0]) != POLICYBOOK_OK) {
            printf("%s refused refused refused\n", argv[i]);
            continue;
        }
        if (answers[0] != answers[1] || memcmp(books[0], books[1], policybook_value_of(answers[0])) != 0) {
            fprintf(stderr, "%s: the books differ\n", argv[i]);
            return 1;
        }
        time_runners(runners, 2, nanoseconds, ratios);
        printf("%s %.0f %.0f %.3f\n", argv[i], nanoseconds[0], nanoseconds[1], 1 / ratios[1]);
    }
    return 0;
}
