/*
 * Reads a formula typed as text from standard input into a fresh store and an
 * empty name list, and prints its listing as docs/REFERENCE.md describes it, and
 * after it a line for each name: its number and the name.
 */
#include "curvalique_store.h"

#include <inttypes.h>
#include <stdio.h>
#include <stdlib.h>

#define NODES 512
#define SLOTS 1024
#define ENTRIES 64

/* One byte more than the longest text, so that a longer one is refused too. */
#define TEXT_BYTES 8193

static uint64_t nodes[NODES * CURVALIQUE_NODE_WORDS];
static uint32_t slots[SLOTS];
static uint8_t entries[ENTRIES * CURVALIQUE_ENTRY_BYTES];
static struct curvalique_store store;

static void answered(uint64_t refusal) {
    if (refusal != 0) {
        fprintf(stderr, "reader: refused with %" PRIu64 "\n", refusal);
        exit(1);
    }
}

static void print_node(uint32_t id) {
    struct curvalique_node_parts node = {0};
    answered(curvalique_store_node(&store, id, &node));
    printf("%" PRIu32 " %" PRIu64 " %016" PRIX64 " %" PRIu64, id, node.kind, node.payload, node.flags);
    for (uint64_t child = 0; child < node.child_count; child++) {
        printf(" %" PRIu64, node.children[child]);
    }
    printf("\n");
}

static void print_name(uint32_t number) {
    uint64_t known = 0;
    size_t length = 0;
    uint8_t bytes[CURVALIQUE_LONGEST_NAME];
    answered(curvalique_store_name(&store, number, &known, &length, bytes));
    printf("name %" PRIu32 " %.*s\n", number, (int)length, (const char *)bytes);
}

int main(void) {
    static uint8_t text[TEXT_BYTES];
    uint32_t id = 0;
    size_t length = fread(text, 1, sizeof text, stdin);
    store = curvalique_store_in(nodes, NODES * CURVALIQUE_NODE_WORDS, slots, SLOTS);
    curvalique_store_lend_names(&store, entries, sizeof entries);
    answered(curvalique_store_fresh(&store));
    answered(curvalique_store_read_text(&store, text, length, &id));
    printf("ok %" PRIu32 "\n", id);
    for (uint32_t node = 0; node < store.count; node++) {
        print_node(node);
    }
    for (uint32_t number = 0; number < store.name_count; number++) {
        print_name(number);
    }
    return 0;
}
