/* Files, copies and buffers on the heap, and numbers of the command line, for the programs of this folder. */
#ifndef FILES_H
#define FILES_H

#include <stddef.h>
#include <stdint.h>

/* The bytes of a file, on the heap with no byte to spare, so that memcheck sees every access beyond them. */
struct bytes {
    uint8_t *data;
    size_t length;
};

/* Reads a file, of a longer one the first `most` bytes; with WHOLE all of it. 0 and a line on standard error if it cannot be read. free(data) after
 * use. Ends the program if there is no memory. */
#define WHOLE SIZE_MAX
int read_file(const char *name, size_t most, struct bytes *bytes);

/* A copy of some bytes, with no byte to spare. Ends the program if there is no memory. */
struct bytes exact_copy(const uint8_t *data, size_t length);

/* A buffer of this size, every byte the same. Ends the program if there is no memory. */
uint8_t *lent_buffer(size_t size, int byte);

/* Room for `count` things of `size` bytes, every byte 0. Ends the program if there is no memory. */
void *room_for(size_t count, size_t size);

/* Reads a number in decimal digits; one above SIZE_MAX is read as SIZE_MAX, which every call refuses like it. 0 if there is anything else. */
int read_number(const char *text, size_t *number);

#endif
