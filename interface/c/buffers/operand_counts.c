/* Functions and sums of every number of operands, to one more than a function takes. */
#include "trials.h"

#include "curvalique_store.h"
#include "trial.h"

#include <stdlib.h>

#define NODES 64
#define SLOTS 128
#define OPERANDS (CURVALIQUE_MOST_CHILDREN + 1)
#define ADD 0
#define MOST_SUMMED 4

/* The node of an id has these children, and 0 in every other place. */
static void check_children(const struct store *store, uint64_t id, const uint32_t *operands, size_t count) {
    uint64_t words[CURVALIQUE_NODE_WORDS];
    check(curvalique_node(LENT(store), store->count, store->size, (uint32_t)id, words) == 0, "a node");
    check(words[CURVALIQUE_FIRST_CHILD - 1] == count, "as many children as operands");
    for (size_t place = 0; place < CURVALIQUE_MOST_CHILDREN; place++) {
        uint64_t child = place < count ? operands[place] : 0;
        check(words[CURVALIQUE_FIRST_CHILD + place] == child, "the operands are the children");
    }
}

void try_operand_counts(void) {
    struct store store = fresh_store(NODES * CURVALIQUE_NODE_WORDS, SLOTS);
    uint32_t ids[OPERANDS];
    for (uint32_t symbol = 0; symbol < OPERANDS; symbol++) {
        uint64_t id;
        check(curvalique_variable(STORE(&store), symbol, &id) == 0, "a variable");
        ids[symbol] = (uint32_t)id;
    }
    for (size_t count = 0; count <= OPERANDS; count++) {
        uint32_t *operands = block(ids, count * sizeof *operands);
        uint64_t called = UNTOUCHED, summed = UNTOUCHED;
        uint64_t function = curvalique_function(STORE(&store), 1, operands, count, &called);
        uint64_t sum = curvalique_operator(STORE(&store), ADD, 0, operands, count, &summed);
        int sums = count >= 1 && count <= MOST_SUMMED;
        check(function == (count < OPERANDS ? 0 : CURVALIQUE_BAD_CHILD_COUNT), "a function takes none to 16 operands");
        check(sum == (sums ? 0 : CURVALIQUE_BAD_CHILD_COUNT), "a sum takes one to four operands");
        if (function == 0) {
            check_children(&store, called, operands, count);
        }
        if (sum == 0) {
            check_children(&store, summed, operands, count);
        }
        free(operands);
    }
    release(&store);
}
