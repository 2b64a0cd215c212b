/*
 * Reads a listing from standard input, works each node's value out once by its
 * number, and prints the value of the answer, in decimal and as its bits.
 * Functions and controls are refused, and so is an answer that is not finite.
 */
#include "curvalique_store.h"

#include <inttypes.h>
#include <math.h>
#include <stdarg.h>
#include <stdio.h>
#include <stdlib.h>
#include <string.h>

#define USAGE "usage: loader [SYMBOL=VALUE ..] < LISTING\n"

/* As many as the listing program's store has. */
#define NODES 512

/* Kinds of nodes. */
enum { VARIABLE = 0, CONSTANT = 1, ADD = 2, SUB = 3, MUL = 4, DIV = 5, POW = 6, MOD = 7, NEG = 8, FUNCTION = 16 };

struct variables {
    struct {
        uint64_t symbol;
        double value;
    } *given;
    size_t count;
};

static void stop(const char *format, ...) {
    va_list arguments;
    va_start(arguments, format);
    fprintf(stderr, "loader: ");
    vfprintf(stderr, format, arguments);
    fprintf(stderr, "\n");
    va_end(arguments);
    exit(1);
}

static void stop_with_usage(void) {
    fprintf(stderr, USAGE);
    exit(2);
}

/* ---- the values of the variables ---- */

static struct variables read_arguments(int count, char **arguments) {
    struct variables variables = {calloc((size_t)count + 1, sizeof *variables.given), (size_t)count};
    if (variables.given == NULL) {
        stop("no memory");
    }
    for (int place = 0; place < count; place++) {
        char *separator, *end;
        variables.given[place].symbol = strtoull(arguments[place], &separator, 10);
        if (separator == arguments[place] || *separator != '=') {
            stop_with_usage();
        }
        variables.given[place].value = strtod(separator + 1, &end);
        if (end == separator + 1 || *end != '\0') {
            stop_with_usage();
        }
    }
    return variables;
}

static double variable_value(const struct variables *variables, uint64_t id, uint64_t symbol) {
    for (size_t place = 0; place < variables->count; place++) {
        if (variables->given[place].symbol == symbol) {
            return variables->given[place].value;
        }
    }
    stop("node %" PRIu64 ": no value is given for symbol %" PRIu64, id, symbol);
    return NAN;
}

/* ---- the listing ---- */

static size_t read_input(uint8_t *bytes, size_t most) {
    size_t length = fread(bytes, 1, most, stdin);
    if (length == most && getchar() != EOF) {
        stop("the listing is longer than %zu bytes", most);
    }
    return length;
}

/* Reads a listing that has an answer, which the reader sees to be one of its nodes. */
static void read_listing(struct curvalique_listing *listing) {
    static uint8_t bytes[CURVALIQUE_LISTING_BYTES];
    size_t length = read_input(bytes, sizeof bytes);
    uint64_t refusal = curvalique_store_read_listing(listing, bytes, length);
    if (refusal == CURVALIQUE_WRONG_LINE) {
        stop("line %" PRIu64 " of the listing is wrong", listing->line);
    }
    if (refusal == CURVALIQUE_TOO_FEW_WORDS) {
        stop("the listing has more than %d nodes", NODES);
    }
    if (listing->form == CURVALIQUE_FORM_EMPTY) {
        stop("the sheet has no records and no answer");
    }
    if (listing->form == CURVALIQUE_FORM_REFUSED) {
        stop("the sheet is refused with %" PRIu64 " at record %" PRIu64, listing->number, listing->record);
    }
}

/* ---- the values of the nodes ---- */

static double double_of(uint64_t bits) {
    double value;
    memcpy(&value, &bits, sizeof value);
    return value;
}

static uint64_t bits_of(double value) {
    uint64_t bits;
    memcpy(&bits, &value, sizeof bits);
    return bits;
}

/* Sums and products have one to four children, taken from left to right. */
static double folded(uint64_t kind, const double *children, uint64_t count) {
    double value = children[0];
    for (uint64_t place = 1; place < count; place++) {
        value = kind == ADD ? value + children[place] : value * children[place];
    }
    return value;
}

static double operator_value(uint64_t id, uint64_t kind, const double *children, uint64_t count) {
    switch (kind) {
    case ADD:
    case MUL: return folded(kind, children, count);
    case SUB: return children[0] - children[1];
    case DIV: return children[0] / children[1];
    case POW: return pow(children[0], children[1]);
    case MOD: return fmod(children[0], children[1]);
    case NEG: return -children[0];
    default: stop("node %" PRIu64 ": a %s has no value here", id, kind == FUNCTION ? "function" : "control");
    }
    return NAN;
}

/* The value of a node, from itself and the values of nodes before it. */
static double node_value(
    const struct curvalique_node_parts *node, uint64_t id, const double *values, const struct variables *variables) {
    double children[CURVALIQUE_MOST_CHILDREN];
    for (uint64_t place = 0; place < node->child_count; place++) {
        children[place] = values[node->children[place]];
    }
    switch (node->kind) {
    case VARIABLE: return variable_value(variables, id, node->payload);
    case CONSTANT: return double_of(node->payload);
    default: return operator_value(id, node->kind, children, node->child_count);
    }
}

int main(int argc, char **argv) {
    static uint64_t words[NODES * CURVALIQUE_NODE_WORDS];
    static double values[NODES];
    struct curvalique_listing listing = {0};
    struct variables variables = read_arguments(argc - 1, argv + 1);
    listing.nodes = words;
    listing.node_words = sizeof words / sizeof *words;
    read_listing(&listing);
    for (uint64_t id = 0; id < listing.count; id++) {
        struct curvalique_node_parts node = curvalique_listed_node(&listing, id);
        values[id] = node_value(&node, id, values, &variables);
    }
    free(variables.given);
    double value = values[listing.id];
    if (!isfinite(value)) {
        stop("the value of node %" PRIu64 " is not finite", listing.id);
    }
    const char *spent = listing.form == CURVALIQUE_FORM_SPENT ? " (spent)" : "";
    printf("node %" PRIu64 "%s: %.6f %016" PRIX64 "\n", listing.id, spent, value, bits_of(value));
    return 0;
}
