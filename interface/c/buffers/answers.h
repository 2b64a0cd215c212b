/* What stands behind the pointers of calls that run a sheet or read a listing. */
#ifndef ANSWERS_H
#define ANSWERS_H

#include "trial.h"

struct sheet_answer {
    uint64_t form, id, record;
};

struct reading {
    uint64_t count, form, id, number, record, line;
};

#define NO_SHEET_ANSWER {UNTOUCHED, UNTOUCHED, UNTOUCHED}
#define NO_READING {UNTOUCHED, UNTOUCHED, UNTOUCHED, UNTOUCHED, UNTOUCHED, UNTOUCHED}

/* The arguments at the end of such a call. */
#define SHEET_ANSWER(answer) &(answer)->form, &(answer)->id, &(answer)->record
#define READING(reading) \
    &(reading)->count, &(reading)->form, &(reading)->id, &(reading)->number, &(reading)->record, &(reading)->line

#endif
