#include "bytes.h"

#include "trial.h"

#include <stdlib.h>

#define DAMAGES 3

struct bytes untouched_bytes(size_t length) {
    struct bytes made = {untouched_block(length), length};
    return made;
}

struct bytes copy_of_bytes(const uint8_t *bytes, size_t length) {
    struct bytes copy = {block(bytes, length), length};
    return copy;
}

void damage_byte(struct bytes *bytes) {
    if (bytes->length != 0) {
        size_t place = below(bytes->length);
        bytes->bytes[place] ^= (uint8_t)(1 + below(UINT8_MAX));
    }
}

struct bytes damaged_bytes(const uint8_t *bytes, size_t length) {
    struct bytes copy = copy_of_bytes(bytes, cut_length(length));
    for (uint64_t times = below(DAMAGES); times > 0; times--) {
        damage_byte(&copy);
    }
    return copy;
}

void release_bytes(struct bytes *bytes) {
    free(bytes->bytes);
}
