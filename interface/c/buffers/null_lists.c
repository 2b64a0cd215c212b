/* Null pointers of length 0, for each list that a call takes. */
#include "trials.h"

#include "answers.h"
#include "curvalique.h"
#include "trial.h"

#include <stdlib.h>
#include <string.h>

static void try_null_stores(void) {
    uint64_t count = UNTOUCHED, id = UNTOUCHED, words[CURVALIQUE_NODE_WORDS];
    size_t size = UNTOUCHED;
    check(curvalique_fresh(NULL, 0, NULL, 0, &count, &size) == CURVALIQUE_NO_SLOT_PLACE, "no slots");
    check(count == UNTOUCHED && size == UNTOUCHED, "a refused fresh store leaves the numbers");
    count = 0;
    size = FEWEST_SLOTS;
    check(curvalique_variable(NULL, 0, NULL, 0, &count, &size, 1, &id) == CURVALIQUE_NOT_SOUND, "no lists");
    check(curvalique_node(NULL, 0, NULL, 0, count, size, 0, words) == CURVALIQUE_NOT_SOUND, "no lists to read");
    check(id == UNTOUCHED && count == 0 && size == FEWEST_SLOTS, "a refusal leaves the numbers");
}

static void try_null_nodes(void) {
    struct store store = fresh_store(0, FEWEST_SLOTS);
    uint64_t id = UNTOUCHED, words[CURVALIQUE_NODE_WORDS];
    check(store.nodes == NULL, "a store without nodes");
    check(curvalique_node(LENT(&store), store.count, store.size, 0, words) == CURVALIQUE_BAD_OPERAND, "no node");
    check(curvalique_variable(STORE(&store), 1, &id) == CURVALIQUE_NO_NODE_PLACE, "no place for a node");
    check(curvalique_function(STORE(&store), 1, NULL, 0, &id) == CURVALIQUE_NO_NODE_PLACE, "no operands, no place");
    check(id == UNTOUCHED, "nothing is answered");
    release(&store);
}

static void try_null_operands(void) {
    struct store store = fresh_store(CURVALIQUE_NODE_WORDS, FEWEST_SLOTS);
    uint64_t id = UNTOUCHED;
    check(curvalique_operator(STORE(&store), 0, 0, NULL, 0, &id) == CURVALIQUE_BAD_CHILD_COUNT, "an empty operator");
    check(curvalique_control(STORE(&store), 0, NULL, 0, &id) == CURVALIQUE_BAD_CHILD_COUNT, "an empty control");
    check(curvalique_function(STORE(&store), 1, NULL, 0, &id) == 0 && id == 0, "a function without operands");
    release(&store);
}

static void try_null_names(void) {
    static const uint8_t NAME[] = {'x'};
    size_t count = 0, size = sizeof NAME;
    uint64_t number = UNTOUCHED, known = UNTOUCHED;
    uint8_t spelled[CURVALIQUE_LONGEST_NAME];
    check(curvalique_intern_name(NULL, 0, &count, NAME, size, &number) == CURVALIQUE_NO_NAME_PLACE, "no name place");
    check(curvalique_intern_name(NULL, 0, &count, NULL, 0, &number) == CURVALIQUE_BAD_NAME_LENGTH, "an empty name");
    check(curvalique_lookup_name(NULL, 0, count, NAME, size, &known, &number) == 0 && known == 0, "no names");
    check(curvalique_name(NULL, 0, count, 0, &known, &size, spelled) == 0 && known == 0, "no name");
    check(count == 0 && number == UNTOUCHED && size == sizeof NAME, "nothing else is answered");
}

static void try_null_texts(void) {
    static const uint8_t TEXT[] = {'x'};
    struct store store = fresh_store(CURVALIQUE_NODE_WORDS, FEWEST_SLOTS);
    size_t names = 0;
    uint64_t id = UNTOUCHED;
    uint64_t returned = curvalique_read_text(NULL, 0, STORE(&store), NULL, 0, &names, &id);
    check(returned == CURVALIQUE_BAD_TEXT, "an empty text");
    returned = curvalique_read_text(TEXT, sizeof TEXT, STORE(&store), NULL, 0, &names, &id);
    check(returned == CURVALIQUE_NO_NAME_PLACE, "no place for a text's name");
    returned = curvalique_read_text(TEXT, sizeof TEXT, NULL, 0, NULL, 0, &store.count, &store.size, NULL, 0, &names, &id);
    check(returned == CURVALIQUE_NOT_SOUND, "no store for a text");
    check(id == UNTOUCHED && names == 0 && store.count == 0, "a refused text answers nothing");
    release(&store);
}

static void try_null_writes(void) {
    struct store store = fresh_store(2 * CURVALIQUE_NODE_WORDS, FEWEST_SLOTS);
    uint64_t id = UNTOUCHED, length = UNTOUCHED;
    check(curvalique_constant(STORE(&store), 0, &id) == 0 && id == 0, "a constant");
    check(curvalique_variable(STORE(&store), 0, &id) == 0 && id == 1, "a variable without a name");
    uint64_t returned = curvalique_write_text(NULL, 0, NULL, 0, 0, FEWEST_SLOTS, NULL, 0, 0, 0, NULL, 0, &length);
    check(returned == CURVALIQUE_NOT_SOUND, "no store for a write");
    returned = curvalique_write_text(LENT(&store), store.count, store.size, NULL, 0, 0, 2, NULL, 0, &length);
    check(returned == CURVALIQUE_BAD_OPERAND, "no node to write");
    returned = curvalique_write_text(LENT(&store), store.count, store.size, NULL, 0, 0, 1, NULL, 0, &length);
    check(returned == CURVALIQUE_NO_TEXT, "a symbol without a name");
    returned = curvalique_write_text(LENT(&store), store.count, store.size, NULL, 0, 0, 0, NULL, 0, &length);
    check(returned == CURVALIQUE_TEXT_TOO_LONG, "no place for a text");
    check(length == UNTOUCHED, "a refused write answers nothing");
    release(&store);
}

static void try_null_sheets(void) {
    static const uint8_t SHEET[] = {1};
    struct store store = fresh_store(CURVALIQUE_NODE_WORDS, FEWEST_SLOTS);
    struct sheet_answer answer = NO_SHEET_ANSWER;
    uint64_t returned = curvalique_run_sheet(NULL, 0, STORE(&store), SHEET_ANSWER(&answer));
    check(returned == CURVALIQUE_BAD_SHEET && answer.record == 0, "an empty sheet");
    returned = curvalique_run_sheet_fresh(NULL, 0, STORE(&store), SHEET_ANSWER(&answer));
    check(returned == CURVALIQUE_BAD_SHEET, "an empty sheet on a fresh store");
    returned = curvalique_run_sheet_fresh(NULL, 0, NULL, 0, NULL, 0, &store.count, &store.size, SHEET_ANSWER(&answer));
    check(returned == CURVALIQUE_BAD_SHEET, "an empty sheet and no slots");
    store.count = UNTOUCHED;
    returned = curvalique_run_sheet_fresh(
        SHEET, sizeof SHEET, NULL, 0, NULL, 0, &store.count, &store.size, SHEET_ANSWER(&answer));
    check(returned == CURVALIQUE_NO_SLOT_PLACE, "no slots for a sheet");
    check(store.count == UNTOUCHED && store.size == FEWEST_SLOTS, "no store is opened without slots");
    check(answer.form == UNTOUCHED && answer.id == UNTOUCHED, "a refused sheet answers its record only");
    release(&store);
}

static void try_null_listings(void) {
    static const char LISTING[] = "refused 1 at 0\n";
    uint8_t *listing = untouched_block(CURVALIQUE_LISTING_BYTES);
    size_t length = UNTOUCHED;
    curvalique_list_sheet(NULL, 0, listing, &length);
    check(length == strlen(LISTING) && memcmp(listing, LISTING, length) == 0, "the listing of an empty sheet");
    struct reading reading = NO_READING;
    check(curvalique_read_listing(listing, length, NULL, 0, READING(&reading)) == 0, "a listing without nodes");
    check(reading.count == 0 && reading.form == CURVALIQUE_FORM_REFUSED, "its count and form");
    check(reading.number == CURVALIQUE_BAD_SHEET && reading.record == 0, "its refusal and record");
    check(reading.id == UNTOUCHED && reading.line == UNTOUCHED, "it has no id");
    check(curvalique_read_listing(NULL, 0, NULL, 0, READING(&reading)) == CURVALIQUE_WRONG_LINE, "an empty listing");
    check(reading.line == 1, "the line of an empty listing");
    free(listing);
}

void try_null_lists(void) {
    try_null_stores();
    try_null_nodes();
    try_null_operands();
    try_null_names();
    try_null_texts();
    try_null_writes();
    try_null_sheets();
    try_null_listings();
}
