/*
 * Calls the library on damaged, small and empty lists, each in a block of its
 * own of exactly the lent length, so that valgrind sees any access outside.
 * Checks what the header says of answers and refusals, and that what lies past
 * the used memory stays.
 *
 * Output: how many calls of each group there were of each outcome. A failed
 * check stops it.
 */
#include "bytes.h"
#include "curvalique.h"
#include "trial.h"
#include "trials.h"

#include <stdio.h>
#include <stdlib.h>

#define USAGE "usage: buffers ROUNDS < SHEET\n"
#define SHEET_BYTES 16384
/* A round of names has as many calls as this many of the others. */
#define NAME_SHARE 20

static void try_stores(int rounds, const uint8_t *sheet, size_t length) {
    static const struct {
        size_t nodes, slots;
        int calls;
    } SIZES[] = {{40, 64, 300}, {300, 256, 1500}, {300, 1024, 1500}};
    for (size_t place = 0; place < sizeof SIZES / sizeof *SIZES; place++) {
        size_t node_words = SIZES[place].nodes * CURVALIQUE_NODE_WORDS;
        struct store store = grown_store(node_words, SIZES[place].slots, SIZES[place].calls);
        try_damaged_stores(&store, rounds);
        try_sheets(&store, sheet, length, rounds);
        try_texts(&store, rounds);
        release(&store);
    }
}

int main(int argc, char **argv) {
    static uint8_t sheet[SHEET_BYTES];
    int rounds = argc == 2 ? atoi(argv[1]) : 0;
    if (rounds <= 0) {
        fprintf(stderr, USAGE);
        return 2;
    }
    size_t length = fread(sheet, 1, sizeof sheet, stdin);
    try_null_lists();
    try_stores_without_nodes();
    try_lengths();
    try_operand_counts();
    try_long_chains();
    try_stores(rounds, sheet, length);
    try_names(rounds / NAME_SHARE);
    print_outcomes();
    return 0;
}
