/* Name calls on sound and damaged name lists. */
#include "trials.h"

#include "curvalique.h"
#include "trial.h"

#include <stdlib.h>

#define MOST_ENTRIES 60
#define MOST_NAME_DRAWN 36
#define MOST_NUMBER_DRAWN 5000
#define CALLS 80

static uint64_t one_call(struct names *names) {
    uint8_t *entries = names->entries.bytes, drawn[MOST_NAME_DRAWN], spelled[CURVALIQUE_LONGEST_NAME];
    uint64_t known = UNTOUCHED, number = UNTOUCHED, returned;
    size_t bytes = names->entries.length, length = UNTOUCHED, before = names->count, size = below(MOST_NAME_DRAWN);
    for (size_t place = 0; place < size; place++) {
        drawn[place] = (uint8_t)below(3);
    }
    uint32_t wanted = (uint32_t)below(names->count % MOST_NUMBER_DRAWN + 2);
    uint8_t *name = block(drawn, size);
    switch (below(3)) {
    case 0: returned = curvalique_intern_name(entries, bytes, &names->count, name, size, &number); break;
    case 1: returned = curvalique_lookup_name(entries, bytes, names->count, name, size, &known, &number); break;
    default: returned = curvalique_name(entries, bytes, names->count, wanted, &known, &length, spelled); break;
    }
    free(name);
    count_outcome(NAME_CALLS, returned);
    check(returned == 0 || names->count == before, "a refusal leaves the count");
    int untouched = known == UNTOUCHED && number == UNTOUCHED && length == UNTOUCHED;
    check(returned == 0 || untouched, "a refusal answers nothing");
    return returned;
}

/* Most lengths are no multiple of an entry's bytes. */
void try_names(int rounds) {
    for (int round = 0; round < rounds; round++) {
        struct names names = {untouched_bytes(below(MOST_ENTRIES * CURVALIQUE_ENTRY_BYTES)), 0};
        for (int call = 0; call < CALLS; call++) {
            check(one_call(&names) != CURVALIQUE_NOT_SOUND, "a sound name list stays sound");
        }
        damage_byte(&names.entries);
        one_call(&names);
        names.count = any_word();
        one_call(&names);
        release_bytes(&names.entries);
    }
}
