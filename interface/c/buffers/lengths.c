/* Lengths that are no multiple of a node's words. */
#include "trials.h"

#include "curvalique.h"
#include "trial.h"

#define SLOTS 64
#define NODES 3

static void fill(struct store *store) {
    uint64_t id;
    for (uint32_t symbol = 0; symbol < NODES; symbol++) {
        check(curvalique_variable(STORE(store), symbol, &id) == 0 && id == symbol, "a place for a node");
    }
    check(curvalique_variable(STORE(store), NODES, &id) == CURVALIQUE_NO_NODE_PLACE, "no place for one more");
}

/* Words past the last whole node are unused: as many nodes have place as without them, and they stay. */
void try_lengths(void) {
    for (size_t extra = 0; extra < CURVALIQUE_NODE_WORDS; extra++) {
        uint64_t id;
        struct store store = fresh_store(NODES * CURVALIQUE_NODE_WORDS + extra, SLOTS);
        struct store before = copy_of(&store, store.node_words, store.slot_count);
        fill(&store);
        check(stays_past(&before, &store), "words past the last node stay");
        store.count++;
        check(curvalique_variable(STORE(&store), 0, &id) == CURVALIQUE_NOT_SOUND, "a count over the lent nodes");
        release(&before);
        release(&store);
    }
}
