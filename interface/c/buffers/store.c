#include "store.h"

#include "curvalique.h"
#include "trial.h"

#include <stdlib.h>

#define FIRST_SIZE 64
#define DAMAGES 3

struct store fresh_store(size_t node_words, size_t slot_count) {
    struct store store = {
        untouched_block(node_words * sizeof *store.nodes), node_words,
        untouched_block(slot_count * sizeof *store.slots), slot_count, UNTOUCHED, UNTOUCHED};
    check(curvalique_fresh(STORE(&store)) == 0, "a fresh store");
    check(store.count == 0 && store.size == FIRST_SIZE, "the counts of a fresh store");
    return store;
}

struct store copy_of(const struct store *store, size_t node_words, size_t slot_count) {
    struct store copy = *store;
    copy.node_words = node_words;
    copy.slot_count = slot_count;
    copy.nodes = block(store->nodes, node_words * sizeof *copy.nodes);
    copy.slots = block(store->slots, slot_count * sizeof *copy.slots);
    return copy;
}

static void damage_word(struct store *store) {
    if (store->node_words != 0) {
        size_t place = below(store->node_words);
        store->nodes[place] = any_word();
    }
}

static void damage_slot(struct store *store) {
    if (store->slot_count != 0) {
        size_t place = below(store->slot_count);
        store->slots[place] = (uint32_t)any_word();
    }
}

static void damage(struct store *store) {
    switch (below(6)) {
    case 0: damage_word(store); break;
    case 1: damage_slot(store); break;
    case 2: store->count = any_word(); break;
    case 3: store->size = any_word(); break;
    case 4: store->count += below(3) - 1; break;
    default: store->size = (size_t)1 << below(64); break;
    }
}

struct store damaged_copy(const struct store *store) {
    size_t node_words = cut_length(store->node_words);
    size_t slot_count = cut_length(store->slot_count);
    struct store copy = copy_of(store, node_words, slot_count);
    for (uint64_t times = below(DAMAGES); times > 0; times--) {
        damage(&copy);
    }
    return copy;
}

void release(struct store *store) {
    free(store->nodes);
    free(store->slots);
}

int same(const struct store *a, const struct store *b) {
    return a->count == b->count && a->size == b->size
        && same_bytes(a->nodes, b->nodes, 0, a->node_words * sizeof *a->nodes)
        && same_bytes(a->slots, b->slots, 0, a->slot_count * sizeof *a->slots);
}

int stays_past(const struct store *before, const struct store *after) {
    size_t word = sizeof *after->nodes, slot = sizeof *after->slots;
    size_t used_words = after->count * CURVALIQUE_NODE_WORDS;
    return same_bytes(before->nodes, after->nodes, used_words * word, after->node_words * word)
        && same_bytes(before->slots, after->slots, after->size * slot, after->slot_count * slot);
}

int sound(const struct store *store) {
    uint64_t words[CURVALIQUE_NODE_WORDS];
    return curvalique_node(LENT(store), store->count, store->size, 0, words) != CURVALIQUE_NOT_SOUND;
}
