/*
 * How fast texts are checked and read: curvalique_read_text on a fresh store and
 * an empty name list, whose audit costs less than a microsecond. Times are the
 * thread's processor time; a number is the least of the rounds. A check is timed
 * by a text that is refused at its end, so that all of it is looked at.
 */
#include "curvalique.h"

#include <inttypes.h>
#include <stdio.h>
#include <string.h>
#include <time.h>

#define TEXT_BYTES 8192
#define FIRST_BYTES 1024
#define NODES 8192
#define SLOTS 16384
#define ENTRIES 4096
#define ROUNDS 200

static uint64_t nodes[NODES * CURVALIQUE_NODE_WORDS];
static uint32_t slots[SLOTS];
static uint8_t entries[ENTRIES * CURVALIQUE_ENTRY_BYTES];
static char text[TEXT_BYTES + 1];
static size_t length;

static double now(void) {
    struct timespec time;
    clock_gettime(CLOCK_THREAD_CPUTIME_ID, &time);
    return (double)time.tv_sec + (double)time.tv_nsec * 1e-9;
}

static void measure(const char *what) {
    uint64_t count = 0, id = 0, returned = 0;
    size_t size = 0, names = 0;
    double least = 1e9;
    for (int round = 0; round < ROUNDS; round++) {
        curvalique_fresh(nodes, NODES * CURVALIQUE_NODE_WORDS, slots, SLOTS, &count, &size);
        names = 0;
        double start = now();
        returned = curvalique_read_text((const uint8_t *)text, length, nodes, NODES * CURVALIQUE_NODE_WORDS, slots, SLOTS,
            &count, &size, entries, sizeof entries, &names, &id);
        double taken = now() - start;
        least = taken < least ? taken : least;
    }
    printf("| %s | %zu | %" PRIu64 " | %" PRIu64 " | %zu | %.1f | %.0f |\n", what, length, returned, count, names, least * 1e6,
        (double)length / least / 1e6);
}

/* A part as often as it has place, and an end. */
static void repeat(const char *part, size_t bytes, const char *end) {
    length = 0;
    while (length + strlen(part) + strlen(end) <= bytes) {
        length += (size_t)sprintf(text + length, "%s", part);
    }
    length += (size_t)sprintf(text + length, "%s", end);
}

/* A sum of names of which no two are one, or a product of such numbers. */
static void distinct(size_t bytes, const char *form, int first) {
    length = 0;
    for (int each = first; length + 8 <= bytes; each++) {
        length += (size_t)sprintf(text + length, form, each);
    }
    length += (size_t)sprintf(text + length, "1");
}

int main(void) {
    printf("| text | bytes | returned | nodes | names | microseconds | MB/s |\n|---|---|---|---|---|---|---|\n");
    for (size_t bytes = FIRST_BYTES; bytes <= TEXT_BYTES; bytes *= 2) {
        repeat("x+", bytes, "x+");
        measure("checked: a sum that ends in a sign");
    }
    for (size_t bytes = FIRST_BYTES; bytes <= TEXT_BYTES; bytes *= 2) {
        repeat("flow*3-t1/2+", bytes, "#7FF8000000000000");
        measure("checked: a sum that ends in a NaN");
    }
    repeat("(", TEXT_BYTES, "");
    measure("checked: open brackets");
    for (size_t bytes = FIRST_BYTES; bytes <= TEXT_BYTES; bytes *= 2) {
        repeat("x+", bytes, "x");
        measure("read: a sum of one name");
    }
    for (size_t bytes = FIRST_BYTES; bytes <= TEXT_BYTES; bytes *= 2) {
        distinct(bytes, "%d*", 1000);
        measure("read: a product of numbers");
    }
    for (size_t bytes = FIRST_BYTES; bytes <= TEXT_BYTES; bytes *= 2) {
        distinct(bytes, "a%d+", 100);
        measure("read: a sum of names");
    }
    return 0;
}
