/* A store in blocks of exactly the lent lengths. */
#ifndef STORE_H
#define STORE_H

#include <stddef.h>
#include <stdint.h>

struct store {
    uint64_t *nodes;
    size_t node_words;
    uint32_t *slots;
    size_t slot_count;
    uint64_t count;
    size_t size;
};

/* The arguments that every call on a store has. */
#define LENT(store) (store)->nodes, (store)->node_words, (store)->slots, (store)->slot_count
#define STORE(store) LENT(store), &(store)->count, &(store)->size

/* The slots of a fresh store's table. */
#define FEWEST_SLOTS 64

/* A fresh store, in untouched memory. */
struct store fresh_store(size_t node_words, size_t slot_count);

/* A copy with the same numbers, its lists cut to these lengths. */
struct store copy_of(const struct store *store, size_t node_words, size_t slot_count);

/* A copy, cut at random places or not at all, with none to two damages. */
struct store damaged_copy(const struct store *store);

void release(struct store *store);

/* Whether every word, slot and number is the same. */
int same(const struct store *a, const struct store *b);

/* Whether the words and slots past the used ones are as they were. */
int stays_past(const struct store *before, const struct store *after);

/* Whether the library takes the store for sound. */
int sound(const struct store *store);

#endif
