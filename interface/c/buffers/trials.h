/* The trials, by what they call. */
#ifndef TRIALS_H
#define TRIALS_H

#include "bytes.h"
#include "store.h"

/* Calls on null pointers of length 0, for both lists and for the nodes alone. */
void try_stores_without_nodes(void);

/* A store with random calls behind it. */
struct store grown_store(size_t node_words, size_t slot_count, int calls);

/* Calls on damaged copies of a store. */
void try_damaged_stores(const struct store *store, int rounds);

/* Null pointers of length 0, for each list that a call takes. */
void try_null_lists(void);

/* Lengths that are no multiple of a node's words. */
void try_lengths(void);

/* Functions and sums of every number of operands. */
void try_operand_counts(void);

/* Sums of 4,096 terms, and of more. */
void try_long_chains(void);

/* Name lists, sound and damaged. */
void try_names(int rounds);

/* Texts, whole and damaged, read and written on sound and damaged stores and name lists. */
void try_texts(const struct store *store, int rounds);

/* A damaged copy of a listing. */
void try_listing(const struct bytes *listing);

/* Damaged copies of a sheet, on fresh, sound and damaged stores, and their listings. */
void try_sheets(const struct store *store, const uint8_t *sheet, size_t length, int rounds);

#endif
