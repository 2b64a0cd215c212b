/* Sums of 4,096 terms, and of more. */
#include "trials.h"

#include "curvalique.h"
#include "trial.h"

#define NODES 64
#define SLOTS 128
#define MOST_TERMS 4096

/* The sum of a node with itself. */
static uint32_t doubled(struct store *store, uint32_t a) {
    uint64_t id;
    check(curvalique_add(STORE(store), a, a, &id) == 0, "a sum");
    return (uint32_t)id;
}

void try_long_chains(void) {
    struct store store = fresh_store(NODES * CURVALIQUE_NODE_WORDS, SLOTS);
    uint64_t variable, id, kept, dropped;
    check(curvalique_variable(STORE(&store), 1, &variable) == 0, "a variable");
    uint32_t most = (uint32_t)variable;
    for (uint64_t terms = 1; terms < MOST_TERMS; terms *= 2) {
        most = doubled(&store, most);
    }
    uint32_t more = doubled(&store, most);
    struct store before = copy_of(&store, store.node_words, store.slot_count);
    check(curvalique_prune(STORE(&store), more, 0, &id, &kept, &dropped) == CURVALIQUE_TOO_MANY_TERMS, "8,192 terms");
    check(same(&before, &store), "23 changes nothing");
    check(curvalique_prune(STORE(&store), most, 0, &id, &kept, &dropped) == 0, "4,096 terms");
    check(id == most && kept == MOST_TERMS && dropped == 0, "the balanced sum is there already");
    release(&before);
    release(&store);
}
