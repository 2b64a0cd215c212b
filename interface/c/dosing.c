/*
 * Builds the dosing formula of samples/dosing.txt by calls of the library,
 * simplifies it, prunes it with the knob fully down and then at a threshold, walks
 * the answer strictly, and reads its nodes back. Standard output gets the listing,
 * which the loader reads; standard error gets what the walks and prunes report.
 */
#include "curvalique_store.h"

#include <inttypes.h>
#include <stdio.h>
#include <stdlib.h>
#include <string.h>

#define NODES 64
#define SLOTS 128

/* The symbols of the variables, and what is asked of simplify and of both prunes. */
#define FLOW 1
#define CHLORINE 2
#define DEPTH 255
#define BUDGET 1000000
#define KNOB_DOWN 0
#define THRESHOLD 0.01

static uint64_t nodes[NODES * CURVALIQUE_NODE_WORDS];
static uint32_t slots[SLOTS];
static struct curvalique_store store;

static void answered(const char *call, uint64_t refusal) {
    if (refusal != 0) {
        fprintf(stderr, "dosing: %s is refused with %" PRIu64 "\n", call, refusal);
        exit(1);
    }
}

static uint64_t bits_of(double value) {
    uint64_t bits;
    memcpy(&bits, &value, sizeof bits);
    return bits;
}

static uint32_t variable(uint32_t symbol) {
    uint32_t id = 0;
    answered("variable", curvalique_store_variable(&store, symbol, &id));
    return id;
}

static uint32_t constant(double value) {
    uint32_t id = 0;
    answered("constant", curvalique_store_constant(&store, bits_of(value), &id));
    return id;
}

static uint32_t add(uint32_t a, uint32_t b) {
    uint32_t id = 0;
    answered("add", curvalique_store_add(&store, a, b, &id));
    return id;
}

static uint32_t mul(uint32_t a, uint32_t b) {
    uint32_t id = 0;
    answered("mul", curvalique_store_mul(&store, a, b, &id));
    return id;
}

/* 2 * (flow * 1.0) + 0.5 * chlorine + 0.004 */
static uint32_t formula(void) {
    uint32_t flow = variable(FLOW), chlorine = variable(CHLORINE);
    uint32_t one = constant(1.0), two = constant(2.0), half = constant(0.5), trace = constant(0.004);
    uint32_t fed = mul(two, mul(flow, one));
    uint32_t acid = mul(half, chlorine);
    return add(add(fed, acid), trace);
}

static uint32_t simplify(uint32_t root) {
    struct curvalique_simplified answer;
    answered("simplify", curvalique_store_simplify(&store, root, DEPTH, BUDGET, &answer));
    fprintf(stderr, "simplified %" PRIu32 " to %" PRIu32, root, answer.id);
    fprintf(stderr, ": spent %" PRIu64 ", steps %" PRIu64 "\n", answer.spent, answer.steps);
    return answer.id;
}

static uint32_t pruned(uint32_t root, const struct curvalique_pruned *answer) {
    fprintf(stderr, "pruned %" PRIu32 " to %" PRIu32, root, answer->id);
    fprintf(stderr, ": kept %" PRIu64 ", dropped %" PRIu64 "\n", answer->kept, answer->dropped);
    return answer->id;
}

/* The knob fully down prunes nothing: the formula is answered itself. */
static uint32_t prune_knob_down(uint32_t root) {
    struct curvalique_pruned answer;
    answered("prune by setting", curvalique_store_prune_by_setting(&store, root, KNOB_DOWN, &answer));
    return pruned(root, &answer);
}

static uint32_t prune(uint32_t root) {
    struct curvalique_pruned answer;
    answered("prune", curvalique_store_prune(&store, root, bits_of(THRESHOLD), &answer));
    return pruned(root, &answer);
}

static void print_node(uint32_t id) {
    struct curvalique_node_parts node = {0};
    answered("node", curvalique_store_node(&store, id, &node));
    printf("%" PRIu32 " %" PRIu64 " %016" PRIX64 " %" PRIu64, id, node.kind, node.payload, node.flags);
    for (uint64_t child = 0; child < node.child_count; child++) {
        printf(" %" PRIu64, node.children[child]);
    }
    printf("\n");
}

/* The answer is as the laboratory evaluates it: a strict walk finds nothing to do. */
static uint32_t simplify_strictly(uint32_t root) {
    struct curvalique_simplified answer;
    answered("simplify strictly", curvalique_store_simplify_strictly(&store, root, DEPTH, BUDGET, &answer));
    fprintf(stderr, "simplified %" PRIu32 " strictly to %" PRIu32, root, answer.id);
    fprintf(stderr, ": spent %" PRIu64 ", steps %" PRIu64 "\n", answer.spent, answer.steps);
    return answer.id;
}

int main(void) {
    store = curvalique_store_in(nodes, NODES * CURVALIQUE_NODE_WORDS, slots, SLOTS);
    answered("fresh", curvalique_store_fresh(&store));
    uint32_t answer = simplify_strictly(prune(prune_knob_down(simplify(formula()))));
    printf("ok %" PRIu32 "\n", answer);
    for (uint32_t id = 0; id < store.count; id++) {
        print_node(id);
    }
    return 0;
}
