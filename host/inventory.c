/*
 * The file room's inventory: tells which of many files, books or others, are byte for byte equal.
 *   inventory FILE..
 * The groups of equal files come first, each with its names, then the files that are equal to no other; the last line says how many files there
 * are, and how many different ones. A file that is named twice counts twice.
 * Exit status: 0 the inventory was told, whatever it says; 2 no file is named, a file cannot be read, or the inventory cannot be written.
 *
 * Not every pair of files is tested. A file's checksum says in which chain of a table it is sought, and there it is tested against one file of each
 * group with the same length and checksum. Files with other checksums differ for certain; that two are equal, the proved function alone says.
 */
#include <stdio.h>
#include <stdlib.h>
#include <string.h>

#include "files.h"
#include "policybook.h"

/* In place of a file's or a group's number: there is none. */
#define NONE SIZE_MAX

/* host/check makes this 0 as well: then every checksum is the same, and the tests alone keep different files apart. */
#ifndef CHECKSUM_BITS
#define CHECKSUM_BITS UINT64_MAX
#endif

/* Files that are equal. Files have numbers from 0 on, in the order named. */
struct group {
    struct bytes bytes;        /* those of its first file; of the others they are not kept */
    uint64_t checksum;
    size_t first, last, files; /* its first and its last file, and how many it has */
    size_t next;               /* the next group of the chain */
};

struct inventory {
    char **names;
    size_t files;
    size_t *next;         /* of each file the next one of its group */
    struct group *groups; /* in the order of their first files */
    size_t different;     /* how many groups there are */
    size_t *chains;       /* of each chain the first group; there are as many chains as files */
};

static struct inventory empty_inventory(size_t files, char **names)
{
    struct inventory made = { .names = names, .files = files };
    made.next = room_for(files, sizeof *made.next);
    made.groups = room_for(files, sizeof *made.groups);
    made.chains = room_for(files, sizeof *made.chains);
    for (size_t i = 0; i < files; i++) made.next[i] = made.chains[i] = NONE;
    return made;
}

static void free_inventory(struct inventory *inventory)
{
    for (size_t i = 0; i < inventory->different; i++) free(inventory->groups[i].bytes.data);
    free(inventory->next);
    free(inventory->groups);
    free(inventory->chains);
}

/* Every bit of the word has a part in the low bits of the sum too, by which a chain is chosen. */
static uint64_t mixed(uint64_t sum, uint64_t word)
{
    sum = (sum ^ word) * 0x9E3779B97F4A7C15;
    return sum ^ sum >> 32;
}

/* Of length and bytes, eight of these as one word where eight remain. */
static uint64_t checksum_of(struct bytes bytes)
{
    uint64_t sum = mixed(0, bytes.length), word;
    size_t i = 0;
    for (; bytes.length - i >= sizeof word; i += sizeof word) {
        memcpy(&word, bytes.data + i, sizeof word);
        sum = mixed(sum, word);
    }
    for (; i < bytes.length; i++) sum = mixed(sum, bytes.data[i]);
    return sum & CHECKSUM_BITS;
}

/* The group whose files have these bytes, or NONE. */
static size_t find_group(const struct inventory *inventory, struct bytes bytes, uint64_t checksum)
{
    size_t found = inventory->chains[checksum % inventory->files];
    while (found != NONE) {
        const struct group *group = &inventory->groups[found];
        if (group->checksum == checksum && group->bytes.length == bytes.length
            && policybook_same_bytes(group->bytes.data, group->bytes.length, bytes.data, bytes.length) == 1) break;
        found = group->next;
    }
    return found;
}

/* Puts a file into the group of its bytes, which may be a new one. The bytes are the inventory's from now on. */
static void add_file(struct inventory *inventory, size_t file, struct bytes bytes)
{
    uint64_t checksum = checksum_of(bytes);
    size_t found = find_group(inventory, bytes, checksum);
    if (found == NONE) {
        size_t *chain = &inventory->chains[checksum % inventory->files];
        inventory->groups[inventory->different] = (struct group){ bytes, checksum, file, file, 1, *chain };
        *chain = inventory->different++;
    } else {
        struct group *group = &inventory->groups[found];
        inventory->next[group->last] = file;
        group->last = file;
        group->files++;
        free(bytes.data);
    }
}

/* Whether every file could be read; a line on standard error names each that could not. */
static int add_files(struct inventory *inventory)
{
    int all_read = 1;
    for (size_t file = 0; file < inventory->files; file++) {
        struct bytes bytes;
        if (read_file(inventory->names[file], WHOLE, &bytes)) add_file(inventory, file, bytes);
        else all_read = 0;
    }
    return all_read;
}

static void print_names(const struct inventory *inventory, const struct group *group)
{
    for (size_t file = group->first; file != NONE; file = inventory->next[file]) printf("  %s\n", inventory->names[file]);
}

static void print_inventory(const struct inventory *inventory)
{
    const struct group *groups = inventory->groups;
    size_t alone = 0;
    for (size_t i = 0; i < inventory->different; i++) {
        alone += groups[i].files == 1;
        if (groups[i].files == 1) continue;
        printf("%zu equal files of %zu byte%s:\n", groups[i].files, groups[i].bytes.length, groups[i].bytes.length == 1 ? "" : "s");
        print_names(inventory, &groups[i]);
    }
    if (alone > 0) printf("unlike every other file:\n");
    for (size_t i = 0; i < inventory->different; i++)
        if (groups[i].files == 1) print_names(inventory, &groups[i]);
    printf("%zu file%s, %zu different\n", inventory->files, inventory->files == 1 ? "" : "s", inventory->different);
}

int main(int argc, char **argv)
{
    if (argc < 2) {
        fprintf(stderr, "usage: inventory FILE..\n");
        return 2;
    }
    struct inventory inventory = empty_inventory((size_t)argc - 1, argv + 1);
    int told = add_files(&inventory);
    if (told) {
        print_inventory(&inventory);
        told = fflush(stdout) == 0 && !ferror(stdout);
        if (!told) fprintf(stderr, "the inventory cannot be written in full\n");
    }
    free_inventory(&inventory);
    return told ? 0 : 2;
}
