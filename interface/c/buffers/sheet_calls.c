/* A sheet and damaged copies of it, on fresh, sound and damaged stores, and their listings. */
#include "trials.h"

#include "answers.h"
#include "bytes.h"
#include "curvalique.h"
#include "trial.h"

#include <stdlib.h>

/* The listing program's store. */
#define NODES 512
#define SLOTS 1024

static void check_answer(const struct store *store, uint64_t returned, const struct sheet_answer *answer) {
    count_outcome(SHEET_CALLS, returned);
    if (returned != 0) {
        check(answer->form == UNTOUCHED && answer->id == UNTOUCHED, "a refused sheet has no form and no id");
        check(answer->record != UNTOUCHED, "a refused sheet answers its record");
        return;
    }
    check(answer->record == UNTOUCHED, "an answered sheet leaves the record");
    if (answer->form == CURVALIQUE_FORM_EMPTY) {
        check(answer->id == UNTOUCHED, "no records, no id");
    } else {
        check(answer->form == CURVALIQUE_FORM_OK || answer->form == CURVALIQUE_FORM_SPENT, "a form of an answer");
        check(answer->id < store->count, "an answered id is below the count");
    }
}

/* A sheet on a store that may be damaged. */
static void run_on_copy(const struct store *store, const struct bytes *sheet) {
    struct store damaged = damaged_copy(store);
    struct store before = copy_of(&damaged, damaged.node_words, damaged.slot_count);
    struct sheet_answer answer = NO_SHEET_ANSWER;
    uint64_t returned = curvalique_run_sheet(sheet->bytes, sheet->length, STORE(&damaged), SHEET_ANSWER(&answer));
    check_answer(&damaged, returned, &answer);
    check(sound(&damaged) == (returned != CURVALIQUE_NOT_SOUND), "20 exactly if the store is not sound");
    if (returned == CURVALIQUE_NOT_SOUND) {
        check(same(&before, &damaged) && answer.record == 0, "20 changes nothing");
    } else {
        check(stays_past(&before, &damaged), "what lies past the used words and slots stays");
    }
    release(&before);
    release(&damaged);
}

/* That a listing, read back, has the sheet's answer and the nodes that it left. */
static void check_listing(const struct bytes *listing, const struct store *store, const struct reading *expected) {
    struct reading reading = NO_READING;
    size_t node_words = store->node_words;
    uint64_t *nodes = untouched_block(node_words * sizeof *nodes);
    uint64_t returned = curvalique_read_listing(listing->bytes, listing->length, nodes, node_words, READING(&reading));
    count_outcome(LISTING_CALLS, returned);
    check(returned == 0, "a listing is read");
    check(same_bytes(&reading, expected, 0, sizeof reading), "a listing has the sheet's answer");
    check(same_bytes(nodes, store->nodes, 0, node_words * sizeof *nodes), "the nodes read are the store's");
    free(nodes);
}

/* What is read of the listing of a sheet, by what running it returned and answered. */
static struct reading reading_of(const struct store *store, uint64_t returned, const struct sheet_answer *answer) {
    struct reading expected = {store->count, answer->form, answer->id, UNTOUCHED, answer->record, UNTOUCHED};
    if (returned != 0) {
        expected.form = CURVALIQUE_FORM_REFUSED;
        expected.number = returned;
    }
    return expected;
}

/* A sheet on a fresh store, as the listing program runs it. */
static struct bytes listing_of(const struct bytes *sheet) {
    struct store store = fresh_store(NODES * CURVALIQUE_NODE_WORDS, SLOTS);
    struct sheet_answer answer = NO_SHEET_ANSWER;
    uint64_t count = store.count = any_word();
    size_t size = store.size = any_word();
    uint64_t returned = curvalique_run_sheet_fresh(sheet->bytes, sheet->length, STORE(&store), SHEET_ANSWER(&answer));
    check_answer(&store, returned, &answer);
    if (returned == CURVALIQUE_BAD_SHEET) {
        check(store.count == count && store.size == size, "bytes that are no sheet open no store");
        store.count = 0;
        store.size = FEWEST_SLOTS;
    }
    check(sound(&store), "a fresh store is sound after any sheet");
    struct bytes room = untouched_bytes(CURVALIQUE_LISTING_BYTES);
    size_t length = UNTOUCHED;
    curvalique_list_sheet(sheet->bytes, sheet->length, room.bytes, &length);
    check(length <= CURVALIQUE_LISTING_BYTES, "the length of a listing");
    for (size_t past = length; past < CURVALIQUE_LISTING_BYTES; past++) {
        check(room.bytes[past] == UNTOUCHED_BYTE, "the bytes past a listing stay");
    }
    struct bytes listing = copy_of_bytes(room.bytes, length);
    struct reading expected = reading_of(&store, returned, &answer);
    check_listing(&listing, &store, &expected);
    release_bytes(&room);
    release(&store);
    return listing;
}

void try_sheets(const struct store *store, const uint8_t *sheet, size_t length, int rounds) {
    for (int round = 0; round < rounds; round++) {
        struct bytes damaged = damaged_bytes(sheet, length);
        run_on_copy(store, &damaged);
        struct bytes listing = listing_of(&damaged);
        try_listing(&listing);
        release_bytes(&listing);
        release_bytes(&damaged);
    }
}
