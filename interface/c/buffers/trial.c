#include "trial.h"

#include <inttypes.h>
#include <stdio.h>
#include <stdlib.h>
#include <string.h>

#define OUTCOMES 25

static const char *const GROUP_NAMES[GROUPS] = {
    "store calls", "name calls", "text calls", "write calls", "sheet calls", "listing calls"};
static uint64_t outcomes[GROUPS][OUTCOMES];
static uint64_t seed = 0x9E3779B97F4A7C15u;

/* The generator xorshift64*. */
uint64_t below(uint64_t end) {
    seed ^= seed >> 12;
    seed ^= seed << 25;
    seed ^= seed >> 27;
    return (seed * 0x2545F4914F6CDD1Du >> 32) % end;
}

uint64_t any_word(void) {
    switch (below(4)) {
    case 0: return below(4);
    case 1: return below(1u << 20);
    case 2: return UINT64_MAX - below(4);
    default: break;
    }
    uint64_t high = below(UINT32_MAX);
    return high << 32 | below(UINT32_MAX);
}

size_t cut_length(size_t length) {
    return below(3) == 0 ? below(length + 1) : length;
}

void check(int holds, const char *what) {
    if (!holds) {
        fprintf(stderr, "buffers: failed: %s\n", what);
        exit(1);
    }
}

void count_outcome(enum group group, uint64_t returned) {
    check(returned < OUTCOMES, "a listed number");
    outcomes[group][returned]++;
}

void print_outcomes(void) {
    for (int group = 0; group < GROUPS; group++) {
        for (int returned = 0; returned < OUTCOMES; returned++) {
            if (outcomes[group][returned] != 0) {
                printf("%s, %d: %" PRIu64 "\n", GROUP_NAMES[group], returned, outcomes[group][returned]);
            }
        }
    }
}

void *untouched_block(size_t bytes) {
    if (bytes == 0) {
        return NULL;
    }
    void *made = malloc(bytes);
    check(made != NULL, "memory");
    return memset(made, UNTOUCHED_BYTE, bytes);
}

void *block(const void *from, size_t bytes) {
    void *made = untouched_block(bytes);
    return bytes == 0 ? NULL : memcpy(made, from, bytes);
}

int same_bytes(const void *a, const void *b, size_t from, size_t end) {
    return from == end || memcmp((const uint8_t *)a + from, (const uint8_t *)b + from, end - from) == 0;
}
