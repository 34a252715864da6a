/* Set-up lists that the test and the benchmark make up. */
#ifndef LISTS_H
#define LISTS_H

#include <stddef.h>
#include <stdint.h>

enum { LONGEST_LIST = 24576, TRAILER_LENGTH = 6 };

/* What a full list is filled with. */
enum filling { WRITES, REMARKS };

/* Writes the trailer of a list with `count` bytes before it, without a newline. */
void put_trailer(uint8_t *out, size_t count);

/* Fills `out` with a good list of just `length` bytes, at most 65,536, whose last line has its newline or lacks it. */
void put_full_list(uint8_t *out, size_t length, enum filling filling, int newline);

#endif
