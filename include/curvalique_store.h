/*
 * Curvalique over one struct: a store with its lists, in place of the six
 * arguments that each call of curvalique.h has for them. Every function here is
 * static inline, calls the function of curvalique.h that its name has after
 * `curvalique_store_`, returns what that returns, and does no more than hand on
 * the struct's fields and the answer. What a call does, refuses and leaves is
 * said there and in docs/REFERENCE.md.
 *
 * THE STRUCT GROWS. Later versions add lists and numbers to it and to the
 * structs of answers. A program compiles unchanged if it sets a store up by
 * curvalique_store_in and the `lend` functions (or zeroes it and sets fields by
 * name), and names the fields that it reads: a field that it does not know is
 * then 0, which is an empty list.
 *
 * Ids are taken and answered in 32 bits. On a refusal no answer is written.
 */
#ifndef CURVALIQUE_STORE_H
#define CURVALIQUE_STORE_H

#include "curvalique.h"

/* The place of a node's first child among its words, and how many it can have. */
#define CURVALIQUE_FIRST_CHILD 6
#define CURVALIQUE_MOST_CHILDREN (CURVALIQUE_NODE_WORDS - CURVALIQUE_FIRST_CHILD)

/* A store and the lists beside it, in memory that the caller lends. */
struct curvalique_store {
    uint64_t *nodes;
    size_t node_words;
    uint32_t *slots;
    size_t slot_count;
    uint64_t count;
    size_t size;
    uint8_t *entries;
    size_t entry_bytes;
    size_t name_count;
};

/* A node as it is read back; only the first `child_count` children are used. */
struct curvalique_node_parts {
    uint64_t kind;
    uint64_t payload;
    uint64_t hash;
    uint64_t coefficient;
    uint64_t flags;
    uint64_t child_count;
    uint64_t children[CURVALIQUE_MOST_CHILDREN];
};

/* What a simplify answers: `spent` is 1 if its budget was used up, else 0. */
struct curvalique_simplified {
    uint32_t id;
    uint64_t spent;
    uint64_t steps;
};

/* What a prune answers. */
struct curvalique_pruned {
    uint32_t id;
    uint64_t kept;
    uint64_t dropped;
};

/* What a sheet answers: its form, and the last answer's id, or 0 where the form
 * has none; of a refused sheet only the record. */
struct curvalique_sheet_answer {
    uint64_t form;
    uint32_t id;
    uint64_t record;
};

/* A listing that is read back: its nodes in lent words, and its first line. */
struct curvalique_listing {
    uint64_t *nodes;
    size_t node_words;
    uint64_t count;
    uint64_t form;
    uint64_t id;
    uint64_t number;
    uint64_t record;
    uint64_t line;
};

/* ---- Setting a store up ---- */

/* A store in lent lists, without names; its content is not looked at. */
static inline struct curvalique_store curvalique_store_in(
    uint64_t *nodes, size_t node_words, uint32_t *slots, size_t slot_count) {
    struct curvalique_store store = {nodes, node_words, slots, slot_count, 0, 0, NULL, 0, 0};
    return store;
}

/* Lends a store a list for names, which is empty then. */
static inline void curvalique_store_lend_names(struct curvalique_store *store, uint8_t *entries, size_t entry_bytes) {
    store->entries = entries;
    store->entry_bytes = entry_bytes;
    store->name_count = 0;
}

/* The arguments that calls on a store have for it, and those on its names. */
#define CURVALIQUE_LENT_(store) (store)->nodes, (store)->node_words, (store)->slots, (store)->slot_count
#define CURVALIQUE_STORE_(store) CURVALIQUE_LENT_(store), &(store)->count, &(store)->size
#define CURVALIQUE_NAMES_(store) (store)->entries, (store)->entry_bytes

/* Puts an answered id or number into 32 bits, where all of them are. */
static inline uint64_t curvalique_answered_(uint64_t refusal, uint64_t answer, uint32_t *id) {
    if (refusal == 0) {
        *id = (uint32_t)answer;
    }
    return refusal;
}

/* Makes the store a fresh one and its lists empty; a refused call changes nothing. */
static inline uint64_t curvalique_store_fresh(struct curvalique_store *store) {
    uint64_t refusal = curvalique_fresh(CURVALIQUE_STORE_(store));
    if (refusal == 0) {
        store->name_count = 0;
    }
    return refusal;
}

/* ---- Store calls ---- */

/* A variable, by its symbol. */
static inline uint64_t curvalique_store_variable(struct curvalique_store *store, uint32_t symbol, uint32_t *id) {
    uint64_t answer = 0;
    uint64_t refusal = curvalique_variable(CURVALIQUE_STORE_(store), symbol, &answer);
    return curvalique_answered_(refusal, answer, id);
}

/* A constant, by the bits of its binary64 value. */
static inline uint64_t curvalique_store_constant(struct curvalique_store *store, uint64_t bits, uint32_t *id) {
    uint64_t answer = 0;
    uint64_t refusal = curvalique_constant(CURVALIQUE_STORE_(store), bits, &answer);
    return curvalique_answered_(refusal, answer, id);
}

/* The sum of two nodes. */
static inline uint64_t curvalique_store_add(struct curvalique_store *store, uint32_t a, uint32_t b, uint32_t *id) {
    uint64_t answer = 0;
    uint64_t refusal = curvalique_add(CURVALIQUE_STORE_(store), a, b, &answer);
    return curvalique_answered_(refusal, answer, id);
}

/* The first node minus the second. */
static inline uint64_t curvalique_store_sub(struct curvalique_store *store, uint32_t a, uint32_t b, uint32_t *id) {
    uint64_t answer = 0;
    uint64_t refusal = curvalique_sub(CURVALIQUE_STORE_(store), a, b, &answer);
    return curvalique_answered_(refusal, answer, id);
}

/* The product of two nodes. */
static inline uint64_t curvalique_store_mul(struct curvalique_store *store, uint32_t a, uint32_t b, uint32_t *id) {
    uint64_t answer = 0;
    uint64_t refusal = curvalique_mul(CURVALIQUE_STORE_(store), a, b, &answer);
    return curvalique_answered_(refusal, answer, id);
}

/* The first node over the second. */
static inline uint64_t curvalique_store_div(struct curvalique_store *store, uint32_t a, uint32_t b, uint32_t *id) {
    uint64_t answer = 0;
    uint64_t refusal = curvalique_div(CURVALIQUE_STORE_(store), a, b, &answer);
    return curvalique_answered_(refusal, answer, id);
}

/* The first node to the power of the second. */
static inline uint64_t curvalique_store_pow(struct curvalique_store *store, uint32_t a, uint32_t b, uint32_t *id) {
    uint64_t answer = 0;
    uint64_t refusal = curvalique_pow(CURVALIQUE_STORE_(store), a, b, &answer);
    return curvalique_answered_(refusal, answer, id);
}

/* The first node modulo the second. */
static inline uint64_t curvalique_store_modulo(struct curvalique_store *store, uint32_t a, uint32_t b, uint32_t *id) {
    uint64_t answer = 0;
    uint64_t refusal = curvalique_modulo(CURVALIQUE_STORE_(store), a, b, &answer);
    return curvalique_answered_(refusal, answer, id);
}

/* The opposite of a node. */
static inline uint64_t curvalique_store_neg(struct curvalique_store *store, uint32_t a, uint32_t *id) {
    uint64_t answer = 0;
    uint64_t refusal = curvalique_neg(CURVALIQUE_STORE_(store), a, &answer);
    return curvalique_answered_(refusal, answer, id);
}

/* Any operator, by its code, over any operands. */
static inline uint64_t curvalique_store_operator(
    struct curvalique_store *store, uint32_t code, uint32_t flags, const uint32_t *operands, size_t operand_count,
    uint32_t *id) {
    uint64_t answer = 0;
    uint64_t refusal = curvalique_operator(CURVALIQUE_STORE_(store), code, flags, operands, operand_count, &answer);
    return curvalique_answered_(refusal, answer, id);
}

/* A function, by its number, over any operands. */
static inline uint64_t curvalique_store_function(
    struct curvalique_store *store, uint32_t number, const uint32_t *operands, size_t operand_count, uint32_t *id) {
    uint64_t answer = 0;
    uint64_t refusal = curvalique_function(CURVALIQUE_STORE_(store), number, operands, operand_count, &answer);
    return curvalique_answered_(refusal, answer, id);
}

/* Select, over a condition and two values. */
static inline uint64_t curvalique_store_select(
    struct curvalique_store *store, uint32_t a, uint32_t b, uint32_t c, uint32_t *id) {
    uint64_t answer = 0;
    uint64_t refusal = curvalique_select(CURVALIQUE_STORE_(store), a, b, c, &answer);
    return curvalique_answered_(refusal, answer, id);
}

/* IfElse, over a condition and two branches. */
static inline uint64_t curvalique_store_if_else(
    struct curvalique_store *store, uint32_t a, uint32_t b, uint32_t c, uint32_t *id) {
    uint64_t answer = 0;
    uint64_t refusal = curvalique_if_else(CURVALIQUE_STORE_(store), a, b, c, &answer);
    return curvalique_answered_(refusal, answer, id);
}

/* ForLoop, over start, limit, step and body. */
static inline uint64_t curvalique_store_for_loop(
    struct curvalique_store *store, uint32_t a, uint32_t b, uint32_t c, uint32_t d, uint32_t *id) {
    uint64_t answer = 0;
    uint64_t refusal = curvalique_for_loop(CURVALIQUE_STORE_(store), a, b, c, d, &answer);
    return curvalique_answered_(refusal, answer, id);
}

/* Any control, by its code, over any operands. */
static inline uint64_t curvalique_store_control(
    struct curvalique_store *store, uint32_t code, const uint32_t *operands, size_t operand_count, uint32_t *id) {
    uint64_t answer = 0;
    uint64_t refusal = curvalique_control(CURVALIQUE_STORE_(store), code, operands, operand_count, &answer);
    return curvalique_answered_(refusal, answer, id);
}

/* ---- Reading a node back ---- */

/* The parts of a node's words. */
static inline struct curvalique_node_parts curvalique_parts_of(const uint64_t words[CURVALIQUE_NODE_WORDS]) {
    struct curvalique_node_parts parts;
    parts.kind = words[0];
    parts.payload = words[1];
    parts.hash = words[2];
    parts.coefficient = words[3];
    parts.flags = words[4];
    parts.child_count = words[5];
    for (size_t place = 0; place < CURVALIQUE_MOST_CHILDREN; place++) {
        parts.children[place] = words[CURVALIQUE_FIRST_CHILD + place];
    }
    return parts;
}

/* Reads a node. */
static inline uint64_t curvalique_store_node(
    const struct curvalique_store *store, uint32_t id, struct curvalique_node_parts *parts) {
    uint64_t words[CURVALIQUE_NODE_WORDS];
    uint64_t refusal = curvalique_node(CURVALIQUE_LENT_(store), store->count, store->size, id, words);
    if (refusal == 0) {
        *parts = curvalique_parts_of(words);
    }
    return refusal;
}

/* ---- Simplify and prune ---- */

/* Simplifies the formula of a node. */
static inline uint64_t curvalique_store_simplify(
    struct curvalique_store *store, uint32_t root, uint32_t depth, uint64_t budget,
    struct curvalique_simplified *answer) {
    uint64_t id = 0;
    uint64_t refusal = curvalique_simplify(
        CURVALIQUE_STORE_(store), root, depth, budget, &id, &answer->spent, &answer->steps);
    return curvalique_answered_(refusal, id, &answer->id);
}

/* The same strictly. */
static inline uint64_t curvalique_store_simplify_strictly(
    struct curvalique_store *store, uint32_t root, uint32_t depth, uint64_t budget,
    struct curvalique_simplified *answer) {
    uint64_t id = 0;
    uint64_t refusal = curvalique_simplify_strictly(
        CURVALIQUE_STORE_(store), root, depth, budget, &id, &answer->spent, &answer->steps);
    return curvalique_answered_(refusal, id, &answer->id);
}

/* Prunes the sum under a node at a threshold, by the bits of its binary64 value. */
static inline uint64_t curvalique_store_prune(
    struct curvalique_store *store, uint32_t root, uint64_t threshold, struct curvalique_pruned *answer) {
    uint64_t id = 0;
    uint64_t refusal = curvalique_prune(
        CURVALIQUE_STORE_(store), root, threshold, &id, &answer->kept, &answer->dropped);
    return curvalique_answered_(refusal, id, &answer->id);
}

/* The same by a setting: at its threshold, or, from 0 to 19, nothing is pruned. */
static inline uint64_t curvalique_store_prune_by_setting(
    struct curvalique_store *store, uint32_t root, uint32_t setting, struct curvalique_pruned *answer) {
    uint64_t id = 0;
    uint64_t refusal = curvalique_prune_by_setting(
        CURVALIQUE_STORE_(store), root, setting, &id, &answer->kept, &answer->dropped);
    return curvalique_answered_(refusal, id, &answer->id);
}

/* ---- Names ---- */

/* The number of a name, which is added if it is new. */
static inline uint64_t curvalique_store_intern_name(
    struct curvalique_store *store, const uint8_t *name, size_t name_length, uint32_t *number) {
    uint64_t answer = 0;
    uint64_t refusal = curvalique_intern_name(
        CURVALIQUE_NAMES_(store), &store->name_count, name, name_length, &answer);
    return curvalique_answered_(refusal, answer, number);
}

/* `known` 1 and the number of a name, or `known` 0. */
static inline uint64_t curvalique_store_lookup_name(
    const struct curvalique_store *store, const uint8_t *name, size_t name_length, uint64_t *known, uint32_t *number) {
    uint64_t answer = 0;
    uint64_t refusal = curvalique_lookup_name(
        CURVALIQUE_NAMES_(store), store->name_count, name, name_length, known, &answer);
    return refusal == 0 && *known == 0 ? 0 : curvalique_answered_(refusal, answer, number);
}

/* `known` 1 and the name of a number, or `known` 0. */
static inline uint64_t curvalique_store_name(
    const struct curvalique_store *store, uint32_t number, uint64_t *known, size_t *length,
    uint8_t bytes[CURVALIQUE_LONGEST_NAME]) {
    return curvalique_name(CURVALIQUE_NAMES_(store), store->name_count, number, known, length, bytes);
}

/* ---- Texts ---- */

/* Reads a formula typed as text into the store and its names. */
static inline uint64_t curvalique_store_read_text(
    struct curvalique_store *store, const uint8_t *text, size_t text_length, uint32_t *id) {
    uint64_t answer = 0;
    uint64_t refusal = curvalique_read_text(
        text, text_length, CURVALIQUE_STORE_(store), CURVALIQUE_NAMES_(store), &store->name_count, &answer);
    return curvalique_answered_(refusal, answer, id);
}

/* Writes the text of a node, with the store's names, to the lent bytes. */
static inline uint64_t curvalique_store_write_text(
    const struct curvalique_store *store, uint32_t id, uint8_t *text, size_t text_length, uint64_t *length) {
    return curvalique_write_text(
        CURVALIQUE_LENT_(store), store->count, store->size, CURVALIQUE_NAMES_(store), store->name_count, id, text,
        text_length, length);
}

/* ---- Sheets and listings ---- */

/* Runs a sheet on the store. */
static inline uint64_t curvalique_store_run_sheet(
    struct curvalique_store *store, const uint8_t *sheet, size_t sheet_length, struct curvalique_sheet_answer *answer) {
    uint64_t id = 0;
    uint64_t refusal = curvalique_run_sheet(
        sheet, sheet_length, CURVALIQUE_STORE_(store), &answer->form, &id, &answer->record);
    return curvalique_answered_(refusal, id, &answer->id);
}

/* Runs a sheet on a fresh store in its lists. */
static inline uint64_t curvalique_store_run_sheet_fresh(
    struct curvalique_store *store, const uint8_t *sheet, size_t sheet_length, struct curvalique_sheet_answer *answer) {
    uint64_t id = 0;
    uint64_t refusal = curvalique_run_sheet_fresh(
        sheet, sheet_length, CURVALIQUE_STORE_(store), &answer->form, &id, &answer->record);
    return curvalique_answered_(refusal, id, &answer->id);
}

/* Reads a listing into the words that are lent with it. */
static inline uint64_t curvalique_store_read_listing(
    struct curvalique_listing *listing, const uint8_t *bytes, size_t bytes_length) {
    return curvalique_read_listing(
        bytes, bytes_length, listing->nodes, listing->node_words, &listing->count, &listing->form, &listing->id,
        &listing->number, &listing->record, &listing->line);
}

/* A node of a listing that is read; its id is below the listing's count. */
static inline struct curvalique_node_parts curvalique_listed_node(
    const struct curvalique_listing *listing, uint64_t id) {
    return curvalique_parts_of(listing->nodes + id * CURVALIQUE_NODE_WORDS);
}

#undef CURVALIQUE_LENT_
#undef CURVALIQUE_STORE_
#undef CURVALIQUE_NAMES_

#endif
