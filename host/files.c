/* Files, copies and buffers on the heap, and numbers of the command line, for the programs of this folder. */
#include "files.h"

#include <errno.h>
#include <stdio.h>
#include <stdlib.h>
#include <string.h>

/* What an allocation gave, if it gave anything. */
static void *given(void *data)
{
    if (data != NULL) return data;
    fprintf(stderr, "out of memory\n");
    exit(2);
}

/* Not null for size 0 either. */
static uint8_t *allocate(size_t size) { return given(malloc(size > 0 ? size : 1)); }

struct bytes exact_copy(const uint8_t *data, size_t length)
{
    struct bytes copy = { allocate(length), length };
    memcpy(copy.data, data, length);
    return copy;
}

uint8_t *lent_buffer(size_t size, int byte)
{
    uint8_t *data = allocate(size);
    memset(data, byte, size);
    return data;
}

void *room_for(size_t count, size_t size) { return given(calloc(count > 0 ? count : 1, size > 0 ? size : 1)); }

static int cannot_be_read(const char *name, int error)
{
    fflush(stdout);
    fprintf(stderr, "%s: cannot be read: %s\n", name, strerror(error));
    return 0;
}

/* More than a book, so that one read is enough for it. */
#define FIRST_ROOM 20000

/* Reads to the end or up to `most` bytes, into room that is doubled where a file fills it. The error's number, 0 for none; free(data) in either case. */
static int read_all(FILE *file, size_t most, struct bytes *read)
{
    size_t room = FIRST_ROOM < most ? FIRST_ROOM : most;
    *read = (struct bytes){ allocate(room), 0 };
    for (;;) {
        errno = EIO; /* should fread fail without saying why */
        read->length += fread(read->data + read->length, 1, room - read->length, file);
        if (ferror(file)) return errno;
        if (read->length < room || room == most) return 0;
        room = room < most / 2 ? 2 * room : most;
        read->data = given(realloc(read->data, room));
    }
}

int read_file(const char *name, size_t most, struct bytes *bytes)
{
    struct bytes read;
    FILE *file = fopen(name, "rb");
    if (file == NULL) return cannot_be_read(name, errno);
    int error = read_all(file, most, &read);
    fclose(file);
    if (error == 0) *bytes = exact_copy(read.data, read.length);
    free(read.data);
    return error == 0 ? 1 : cannot_be_read(name, error);
}

int read_number(const char *text, size_t *number)
{
    size_t digits = strspn(text, "0123456789");
    *number = 0;
    for (size_t i = 0; i < digits; i++) {
        size_t digit = (size_t)(text[i] - '0');
        *number = *number > (SIZE_MAX - digit) / 10 ? SIZE_MAX : 10 * *number + digit;
    }
    return digits > 0 && text[digits] == '\0';
}
