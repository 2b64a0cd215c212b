/* Bytes in a block of exactly their length. */
#ifndef BYTES_H
#define BYTES_H

#include <stddef.h>
#include <stdint.h>

struct bytes {
    uint8_t *bytes;
    size_t length;
};

/* A name list: its entries and the count of names. */
struct names {
    struct bytes entries;
    size_t count;
};

struct bytes untouched_bytes(size_t length);

struct bytes copy_of_bytes(const uint8_t *bytes, size_t length);

/* Changes one byte, if there is one. */
void damage_byte(struct bytes *bytes);

/* A copy, cut at a random place or not at all, with none to two bytes changed. */
struct bytes damaged_bytes(const uint8_t *bytes, size_t length);

void release_bytes(struct bytes *bytes);

#endif
