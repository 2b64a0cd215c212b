/* Damaged copies of a listing, read into lists of any length. */
#include "trials.h"

#include "answers.h"
#include "curvalique.h"
#include "trial.h"

#include <stdlib.h>

/* For some listings of the sample sheet enough, for others not. */
#define MOST_WORDS (20 * CURVALIQUE_NODE_WORDS)
#define LINE_FEED 0x0A
/* The lines of a listing are counted from 1; that of node 0 is the second. */
#define FIRST_NODE_LINE 2

static uint64_t lines_of(const struct bytes *listing) {
    uint64_t lines = 0;
    for (size_t place = 0; place < listing->length; place++) {
        lines += listing->bytes[place] == LINE_FEED;
    }
    return lines;
}

/* How many nodes are written, by what a call returned. */
static uint64_t nodes_written(uint64_t returned, const struct reading *reading, uint64_t places) {
    switch (returned) {
    case 0: return reading->count;
    case CURVALIQUE_WRONG_LINE: return reading->line < FIRST_NODE_LINE ? 0 : reading->line - FIRST_NODE_LINE;
    default: return places;
    }
}

static void check_reading(uint64_t returned, const struct reading *reading, const struct bytes *listing) {
    count_outcome(LISTING_CALLS, returned);
    check((reading->line == UNTOUCHED) == (returned != CURVALIQUE_WRONG_LINE), "a line exactly if it is wrong");
    check((reading->form == UNTOUCHED) == (returned != 0), "a form exactly if the listing is read");
    if (returned == 0) {
        check(reading->form <= CURVALIQUE_FORM_REFUSED, "a listed form");
        check(reading->count + 1 == lines_of(listing), "a line for each node");
        int answered = reading->form == CURVALIQUE_FORM_OK || reading->form == CURVALIQUE_FORM_SPENT;
        check(!answered || reading->id < reading->count, "the answer is a node");
    } else if (returned == CURVALIQUE_WRONG_LINE) {
        check(reading->line >= 1 && reading->line <= lines_of(listing) + 1, "the wrong line is there, or the next one");
    }
}

void try_listing(const struct bytes *listing) {
    struct bytes damaged = damaged_bytes(listing->bytes, listing->length);
    struct reading reading = NO_READING;
    size_t node_words = below(MOST_WORDS);
    uint64_t *nodes = untouched_block(node_words * sizeof *nodes);
    uint64_t *before = untouched_block(node_words * sizeof *nodes);
    uint64_t returned = curvalique_read_listing(damaged.bytes, damaged.length, nodes, node_words, READING(&reading));
    check_reading(returned, &reading, &damaged);
    uint64_t written = nodes_written(returned, &reading, node_words / CURVALIQUE_NODE_WORDS) * CURVALIQUE_NODE_WORDS;
    check(written <= node_words, "the nodes have place");
    size_t word = sizeof *nodes;
    check(same_bytes(before, nodes, written * word, node_words * word), "what lies past the nodes stays");
    free(before);
    free(nodes);
    release_bytes(&damaged);
}
