/*
 * Reads a sheet from standard input and writes its listing, as the program
 * `listing` does.
 */
#include "curvalique.h"

#include <stdio.h>

/* One byte more than the longest sheet, so that a longer one is refused as a whole. */
#define SHEET_BYTES 16385

static uint8_t sheet[SHEET_BYTES];
static uint8_t listing[CURVALIQUE_LISTING_BYTES];

int main(void) {
    size_t length;
    size_t sheet_length = fread(sheet, 1, sizeof sheet, stdin);
    if (ferror(stdin)) {
        fprintf(stderr, "lister: the sheet could not be read to its end\n");
        return 1;
    }
    curvalique_list_sheet(sheet, sheet_length, listing, &length);
    if (fwrite(listing, 1, length, stdout) != length || fflush(stdout) != 0) {
        fprintf(stderr, "lister: the listing could not be written\n");
        return 1;
    }
    return 0;
}
