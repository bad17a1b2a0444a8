/* What the hosts share: hex, the pattern that dirties memory, and lent memory. */
#ifndef COMMON_H
#define COMMON_H

#include "crabuledda.h"
#include <stdio.h>

/* Bytes that were read: from a file, from hex, or so many zeros. */
struct bytes {
    uint8_t *at;
    size_t count;
};

/* Writes bytes as lower-case hex. */
void print_hex(FILE *file, const uint8_t *bytes, size_t count);

/* The bytes of hex text ("" or "-" for none); 0 where it is not hex or there is no memory. */
int from_hex(const char *text, struct bytes *bytes);

/* All of a file; 0 where it cannot be read or there is no memory. */
int read_all(FILE *file, struct bytes *bytes);

/* A number of 32 bits in decimal; 0 where the text is none. */
int from_decimal(const char *text, uint32_t *number);

/* Word i of the pattern that a seed names; seed 0 is zeros. */
uint64_t pattern(uint64_t seed, size_t i);

/* So many words of the pattern, or NULL. */
uint64_t *lend(size_t count, uint64_t seed);

#endif
