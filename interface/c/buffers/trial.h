/* Random numbers, checks and counts, for all trials. */
#ifndef TRIAL_H
#define TRIAL_H

#include <stddef.h>
#include <stdint.h>

/* What stands in answers and in unused memory before a call. */
#define UNTOUCHED_BYTE 0xA5
#define UNTOUCHED 0xA5A5A5A5A5A5A5A5u

/* The groups of calls whose outcomes are counted. */
enum group { STORE_CALLS, NAME_CALLS, TEXT_CALLS, WRITE_CALLS, SHEET_CALLS, LISTING_CALLS, GROUPS };

/* The next random number below an end of at most 2^32. */
uint64_t below(uint64_t end);

/* A small, a middle, a great or any number. */
uint64_t any_word(void);

/* The length itself, or at random one up to it. */
size_t cut_length(size_t length);

/* Stops the program if a check fails. */
void check(int holds, const char *what);

/* Counts a call's outcome: 0, or the number of its refusal. */
void count_outcome(enum group group, uint64_t returned);

void print_outcomes(void);

/* A copy in a block of exactly so many bytes, so that valgrind sees any access outside; a null pointer for none. */
void *block(const void *from, size_t bytes);

/* A block of untouched bytes. */
void *untouched_block(size_t bytes);

/* Whether two lists are the same from one place up to another, both in bytes. */
int same_bytes(const void *a, const void *b, size_t from, size_t end);

#endif
