/* Texts, whole and damaged, read and written on sound and damaged stores and name lists. */
#include "trials.h"

#include "curvalique.h"
#include "trial.h"

#include <string.h>

#define MOST_ENTRIES 6

/* A fresh store with place for most of the texts. */
#define NODES 12
#define SLOTS 64

/* Ids and lent lengths of a write: some below a store's count and long enough, some not. */
#define IDS 16
#define TEXT_BYTES 40

/* Document 02's example, all signs, a NaN, and 65 minus factors. */
static const char *const TEXTS[] = {
    "2*(flow + 3) - t1^2", "a+b-(c*d/e)^-#3FE0000000000000", "pump + #7FF8000000000000",
    "-----------------------------------------------------------------x"};

#define TEXT_COUNT (sizeof TEXTS / sizeof *TEXTS)

static int sound_names(const struct names *names) {
    uint64_t known;
    size_t length;
    uint8_t bytes[CURVALIQUE_LONGEST_NAME];
    uint64_t returned =
        curvalique_name(names->entries.bytes, names->entries.length, names->count, 0, &known, &length, bytes);
    return returned != CURVALIQUE_NOT_SOUND;
}

static int same_names(const struct names *a, const struct names *b) {
    return a->count == b->count && same_bytes(a->entries.bytes, b->entries.bytes, 0, a->entries.length);
}

/* Whether the entries past the used ones are as they were. */
static int names_stay_past(const struct names *before, const struct names *after) {
    size_t used = after->count * CURVALIQUE_ENTRY_BYTES;
    return same_bytes(before->entries.bytes, after->entries.bytes, used, after->entries.length);
}

/* Refused before anything is made. */
static int refused_first(uint64_t returned) {
    return returned == CURVALIQUE_NOT_SOUND || returned == CURVALIQUE_BAD_TEXT || returned == CURVALIQUE_OUTSIDE_LANGUAGE
        || returned == CURVALIQUE_NESTED_TOO_DEEP || returned == CURVALIQUE_NOT_A_NUMBER;
}

static void check_left(uint64_t returned, const struct store *before, const struct store *store,
    const struct names *names_before, const struct names *names) {
    int all_sound = sound(store) && sound_names(names);
    check(all_sound == (returned != CURVALIQUE_NOT_SOUND), "20 exactly if the store or the name list is not sound");
    if (refused_first(returned)) {
        check(same(before, store) && same_names(names_before, names), "a text that is refused first changes nothing");
    } else {
        check(stays_past(before, store) && names_stay_past(names_before, names), "what lies past the used memory stays");
    }
}

static int untouched_from(const struct bytes *bytes, size_t from) {
    for (size_t place = from; place < bytes->length; place++) {
        if (bytes->bytes[place] != UNTOUCHED_BYTE) {
            return 0;
        }
    }
    return 1;
}

/* A text that was written, read back. */
static void read_back(struct store *store, struct names *names, const struct bytes *text, size_t length, uint32_t id) {
    uint64_t again = UNTOUCHED;
    uint64_t returned = curvalique_read_text(
        text->bytes, length, STORE(store), names->entries.bytes, names->entries.length, &names->count, &again);
    check(returned == 0 && again == id, "a text that was written reads back to its node");
}

/* A node's text, in a block of any length. */
static void write_text(struct store *store, struct names *names) {
    struct store before = copy_of(store, store->node_words, store->slot_count);
    struct names names_before = {copy_of_bytes(names->entries.bytes, names->entries.length), names->count};
    uint32_t id = (uint32_t)below(IDS);
    struct bytes text = untouched_bytes(below(TEXT_BYTES));
    uint64_t length = UNTOUCHED;
    uint64_t returned = curvalique_write_text(LENT(store), store->count, store->size, names->entries.bytes,
        names->entries.length, names->count, id, text.bytes, text.length, &length);
    count_outcome(WRITE_CALLS, returned);
    int all_sound = sound(store) && sound_names(names);
    check(all_sound == (returned != CURVALIQUE_NOT_SOUND), "20 exactly if the store or the name list is not sound");
    check(returned == 0 ? length <= text.length : length == UNTOUCHED, "a length within the lent one, or nothing");
    check(untouched_from(&text, returned == 0 ? length : 0), "bytes past the text, and on a refusal all, stay");
    if (returned == 0) {
        read_back(store, names, &text, length, id);
    }
    check(same(&before, store) && same_names(&names_before, names), "a write and its reading back change nothing");
    release_bytes(&text);
    release_bytes(&names_before.entries);
    release(&before);
}

/* A text, whole or damaged, on a fresh store or on a copy of the store that may be damaged. */
static void read_text(const struct store *store, struct names *names) {
    const char *text = TEXTS[below(TEXT_COUNT)];
    struct bytes damaged = damaged_bytes((const uint8_t *)text, strlen(text));
    struct store copy = below(2) == 0 ? fresh_store(NODES * CURVALIQUE_NODE_WORDS, SLOTS) : damaged_copy(store);
    struct store before = copy_of(&copy, copy.node_words, copy.slot_count);
    struct names names_before = {copy_of_bytes(names->entries.bytes, names->entries.length), names->count};
    uint64_t id = UNTOUCHED;
    uint64_t returned = curvalique_read_text(damaged.bytes, damaged.length, STORE(&copy), names->entries.bytes,
        names->entries.length, &names->count, &id);
    count_outcome(TEXT_CALLS, returned);
    check(returned == 0 ? id < copy.count : id == UNTOUCHED, "an id below the count, or nothing");
    check_left(returned, &before, &copy, &names_before, names);
    write_text(&copy, names);
    release_bytes(&names_before.entries);
    release(&before);
    release(&copy);
    release_bytes(&damaged);
}

void try_texts(const struct store *store, int rounds) {
    for (int round = 0; round < rounds; round++) {
        struct names names = {untouched_bytes(below(MOST_ENTRIES * CURVALIQUE_ENTRY_BYTES)), 0};
        read_text(store, &names);
        read_text(store, &names);
        damage_byte(&names.entries);
        read_text(store, &names);
        names.count = any_word();
        read_text(store, &names);
        release_bytes(&names.entries);
    }
}
