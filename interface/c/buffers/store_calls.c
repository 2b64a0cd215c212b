/* Store calls, simplify and prune, and reading of nodes, with any arguments on any store. */
#include "trials.h"

#include "curvalique.h"
#include "store.h"
#include "trial.h"

#include <stdlib.h>

/* Calls 0 to 14 are store calls, 15 to 17 rewrite. */
#define FIRST_REWRITING 15
#define CALLS 18
/* Operand lists go to one operand more than a function takes; their ids past the first few repeat these, so that many
 * of the long lists are answered. */
#define MOST_OPERANDS 18
#define DRAWN_IDS 6
#define MOST_ID_DRAWN 70000
#define EMPTY_SIZE 64
#define EMPTY_CALLS 100

struct arguments {
    uint32_t ids[MOST_OPERANDS];
    size_t operand_count;
    uint32_t code, flags, depth, setting;
    uint64_t word, budget;
};

static uint32_t any_id(const struct store *store) {
    return (uint32_t)(below(8) == 0 ? below(1u << 31) : below(store->count % MOST_ID_DRAWN + 2));
}

static struct arguments any_arguments(const struct store *store) {
    struct arguments drawn;
    for (int place = 0; place < MOST_OPERANDS; place++) {
        drawn.ids[place] = place < DRAWN_IDS ? any_id(store) : drawn.ids[place - DRAWN_IDS];
    }
    drawn.operand_count = below(below(2) == 0 ? DRAWN_IDS : MOST_OPERANDS);
    drawn.code = (uint32_t)below(8);
    drawn.flags = (uint32_t)below(5);
    drawn.depth = (uint32_t)below(258);
    drawn.setting = (uint32_t)below(240);
    drawn.word = any_word();
    drawn.budget = below(200);
    return drawn;
}

static uint64_t store_call(struct store *store, uint64_t which, const struct arguments *drawn, uint64_t *id) {
    const uint32_t a = drawn->ids[0], b = drawn->ids[1], c = drawn->ids[2], d = drawn->ids[3];
    const size_t many = drawn->operand_count;
    uint32_t *operands = block(drawn->ids, many * sizeof *operands);
    uint64_t returned;
    switch (which) {
    case 0: returned = curvalique_variable(STORE(store), a, id); break;
    case 1: returned = curvalique_constant(STORE(store), drawn->word, id); break;
    case 2: returned = curvalique_add(STORE(store), a, b, id); break;
    case 3: returned = curvalique_sub(STORE(store), a, b, id); break;
    case 4: returned = curvalique_mul(STORE(store), a, b, id); break;
    case 5: returned = curvalique_div(STORE(store), a, b, id); break;
    case 6: returned = curvalique_pow(STORE(store), a, b, id); break;
    case 7: returned = curvalique_modulo(STORE(store), a, b, id); break;
    case 8: returned = curvalique_neg(STORE(store), a, id); break;
    case 9: returned = curvalique_operator(STORE(store), drawn->code, drawn->flags, operands, many, id); break;
    case 10: returned = curvalique_function(STORE(store), a, operands, many, id); break;
    case 11: returned = curvalique_select(STORE(store), a, b, c, id); break;
    case 12: returned = curvalique_if_else(STORE(store), a, b, c, id); break;
    case 13: returned = curvalique_for_loop(STORE(store), a, b, c, d, id); break;
    default: returned = curvalique_control(STORE(store), drawn->code, operands, many, id); break;
    }
    free(operands);
    return returned;
}

static uint64_t rewriting_call(struct store *store, uint64_t which, const struct arguments *drawn, uint64_t *answers) {
    const uint32_t root = drawn->ids[0];
    uint64_t *id = &answers[0], *second = &answers[1], *third = &answers[2];
    switch (which - FIRST_REWRITING) {
    case 0: return curvalique_simplify(STORE(store), root, drawn->depth, drawn->budget, id, second, third);
    case 1: return curvalique_prune(STORE(store), root, drawn->word, id, second, third);
    default: return curvalique_prune_by_setting(STORE(store), root, drawn->setting, id, second, third);
    }
}

/* 01: "A walk or prune stopped by 21 or 22 keeps what it interned and marked before." */
static int keeps_a_part(uint64_t which, uint64_t returned) {
    return which >= FIRST_REWRITING && (returned == CURVALIQUE_NO_NODE_PLACE || returned == CURVALIQUE_NO_SLOT_PLACE);
}

/* One call, and the checks of what it left. */
static uint64_t one_call(struct store *store) {
    struct store before = copy_of(store, store->node_words, store->slot_count);
    struct arguments drawn = any_arguments(store);
    static const uint64_t NO_ANSWERS[] = {UNTOUCHED, UNTOUCHED, UNTOUCHED};
    uint64_t answers[] = {UNTOUCHED, UNTOUCHED, UNTOUCHED};
    uint64_t which = below(CALLS);
    uint64_t (*call)(struct store *, uint64_t, const struct arguments *, uint64_t *) =
        which < FIRST_REWRITING ? store_call : rewriting_call;
    uint64_t returned = call(store, which, &drawn, answers);
    count_outcome(STORE_CALLS, returned);
    if (returned == 0) {
        check(answers[0] < store->count, "an answered id is below the count");
    } else {
        check(same_bytes(answers, NO_ANSWERS, 0, sizeof answers), "a refusal answers nothing");
        check(keeps_a_part(which, returned) || same(&before, store), "a refusal changes nothing");
    }
    check(sound(store) == (returned != CURVALIQUE_NOT_SOUND), "20 exactly if the store is not sound");
    check(!sound(store) || stays_past(&before, store), "what lies past the used words and slots stays");
    release(&before);
    return returned;
}

static void read_any_node(const struct store *store) {
    uint64_t words[CURVALIQUE_NODE_WORDS] = {UNTOUCHED};
    uint64_t returned = curvalique_node(LENT(store), store->count, store->size, any_id(store), words);
    count_outcome(STORE_CALLS, returned);
    check(returned == 0 || words[0] == UNTOUCHED, "a refusal leaves the words");
}

void try_stores_without_nodes(void) {
    struct store no_lists = {NULL, 0, NULL, 0, 0, EMPTY_SIZE};
    struct store no_nodes = fresh_store(0, EMPTY_SIZE);
    for (int call = 0; call < EMPTY_CALLS; call++) {
        check(one_call(&no_lists) == CURVALIQUE_NOT_SOUND, "no lists are no sound store");
        uint64_t returned = one_call(&no_nodes);
        check(returned != 0 && returned != CURVALIQUE_NOT_SOUND, "a sound store without nodes answers nothing");
    }
    release(&no_nodes);
}

struct store grown_store(size_t node_words, size_t slot_count, int calls) {
    struct store store = fresh_store(node_words, slot_count);
    for (int call = 0; call < calls; call++) {
        check(one_call(&store) != CURVALIQUE_NOT_SOUND, "a sound store stays sound");
    }
    return store;
}

void try_damaged_stores(const struct store *store, int rounds) {
    for (int round = 0; round < rounds; round++) {
        struct store damaged = damaged_copy(store);
        read_any_node(&damaged);
        one_call(&damaged);
        one_call(&damaged);
        release(&damaged);
    }
}
