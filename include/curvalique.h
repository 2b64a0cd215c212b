/*
 * Curvalique: a formula store, rewriter and pruner in memory that the caller
 * lends. Every function here is proved to do what is said at it and in
 * docs/REFERENCE.md, for every content of the lent lists. REFERENCE has what a
 * sound store is, the rules of simplify, sheets and listings byte by byte, and
 * what is promised of a formula's value.
 *
 * curvalique_store.h beside this file has the same calls over one struct for a
 * store and its lists.
 *
 * Linking: `interface/install PREFIX` puts libcurvalique.a, for x86-64 Linux, where
 * pkg-config finds it. It needs memcpy and memset of C's library and nothing else.
 *
 * A STORE is two lent lists and two numbers. `nodes` holds the nodes, 22 words
 * each (CURVALIQUE_NODE_WORDS), and `node_words` is how many words are lent;
 * `slots` is the duplicate table, and `slot_count` how many slots are lent.
 * `count` is how many nodes there are, and `size` how many slots are in use as
 * the table; calls read and write both. An id is a node's number, from 0. Up to
 * 65,536 nodes are used, and 131,072 slots are enough for them. A store may be
 * copied or kept on disk as it is: every call looks it over first, in time that
 * grows with its nodes and its table. The table is what putting the ids in by
 * rising id gives, each at the first empty slot from its node's hash; in another
 * order it is not sound. Words past the last whole node are unused and stay. Ids
 * are answered in 64 bits and taken in 32; those that calls and sheets answer are
 * below 65,536.
 *
 * A CALL RETURNS 0 if it is answered, and its answer then stands behind the
 * pointers at the end of its list of arguments. Else it returns the number of a
 * refusal, and leaves what is behind those pointers as it was. The numbers are
 * below. Of several that apply the first in this order is returned: 20, 5, 10,
 * 6, 4, 7 or 8, 23, 21, 22; for names 20, 9, 24; for texts 20, 1, 11, 12, 10, and
 * then the first of 24, 21, 22 that is met; for a text that is written 20, 4, 13,
 * 14. What a refusal leaves in the store is said at each function. Of sheets and
 * listings, what is returned and what stays is said there.
 *
 * OF A CALLER nothing is asked but C's own rules: a list is a pointer to as many
 * elements as its length says, aligned for their type (8 bytes for uint64_t and
 * size_t, 4 for uint32_t), all of which may be read and, where the pointer is
 * not to const, written; no two lists or pointers of one call overlap, unless
 * both are to const; and nothing else writes them during the call. A list of
 * length 0 may have any pointer, also a null one;
 * `count`, `size` and the pointers to answers are never null and are aligned,
 * and an array is as long as its declaration says. The floating-point
 * environment is C's default: rounding to nearest, subnormal numbers kept; in
 * another one a simplify folds constants otherwise. No content is asked for:
 * stores and name lists that are not sound are refused, with 20; damage that
 * leaves a sound one, as another name in a list, is not noticed. No function
 * keeps a pointer, allocates, or touches other memory, but for its stack: as
 * compiled now, the listing of a sheet takes up to 128 KB of it, a text that is
 * written 91 KB, a text that is read 61 KB, a prune 39 KB, a sheet 30 KB, a
 * simplify or a call that makes a node 22 KB, a name call 17 KB and any other
 * call under 1 KB (interface/measure_stack, whose figure for a node read back
 * has 3 KB in it that the dynamic linker takes once, as memcpy is first called).
 *
 * NOT PROVED, but read or measured: time, stack, how often a store is looked
 * over, and what the compiled code needs of C's library and its calls.
 */
#ifndef CURVALIQUE_H
#define CURVALIQUE_H

#include <stddef.h>
#include <stdint.h>

#ifdef __cplusplus
extern "C" {
#endif

/* A node's words, in order: kind, payload, hash, coefficient's bits, flags,
 * number of children, 16 child places (unused ones 0). */
#define CURVALIQUE_NODE_WORDS 22

/* A name list's entry: a length byte, then 32 bytes, of which unused ones are 0. */
#define CURVALIQUE_ENTRY_BYTES 33
#define CURVALIQUE_LONGEST_NAME 32

/* A listing of curvalique_list_sheet has at most so many bytes. */
#define CURVALIQUE_LISTING_BYTES 229824

/* The form of a listing's first line. */
#define CURVALIQUE_FORM_OK 0       /* "ok" and the last answer's id */
#define CURVALIQUE_FORM_EMPTY 1    /* "ok -": there were no records */
#define CURVALIQUE_FORM_SPENT 2    /* "spent" and the id: the last record's budget was used up */
#define CURVALIQUE_FORM_REFUSED 3  /* "refused", a refusal's number, "at" and its record */

/* What curvalique_read_listing returns of bytes that it does not read: numbers
 * of its own, not refusals. */
#define CURVALIQUE_WRONG_LINE 1
#define CURVALIQUE_TOO_FEW_WORDS 2

/* Refusals; docs/REFERENCE.md says which call meets which, and what each leaves. */
#define CURVALIQUE_BAD_SHEET 1        /* a sheet that is empty, over 16,384 bytes or does not begin with the byte 1 */
#define CURVALIQUE_BAD_TEXT 1         /* a text that is empty or over 8,192 bytes */
#define CURVALIQUE_BAD_RECORD 2       /* a record that goes past the sheet's end, is unknown or has a wrong length */
#define CURVALIQUE_TOO_MANY_RECORDS 3 /* bytes after 1,024 records */
#define CURVALIQUE_BAD_OPERAND 4      /* an id that is not below the count; in a sheet, no earlier record */
#define CURVALIQUE_BAD_CODE 5         /* an operator, flags, control or depth value that is not listed */
#define CURVALIQUE_BAD_CHILD_COUNT 6  /* the number of children */
#define CURVALIQUE_BAD_THRESHOLD 7    /* a threshold that is NaN or has the sign bit */
#define CURVALIQUE_BAD_SETTING 8      /* a setting above 200 */
#define CURVALIQUE_BAD_NAME_LENGTH 9  /* a name that is empty or over 32 bytes */
#define CURVALIQUE_NOT_A_NUMBER 10    /* a constant whose bits are a NaN's */
#define CURVALIQUE_OUTSIDE_LANGUAGE 11 /* a text that is not of the language */
#define CURVALIQUE_NESTED_TOO_DEEP 12 /* a text that nests over 64 deep */
#define CURVALIQUE_NO_TEXT 13         /* a node that has no text, or a symbol without a name of the text's form */
#define CURVALIQUE_TEXT_TOO_LONG 14   /* a text over 8,192 bytes, over the lent ones, or too deep for reading */
#define CURVALIQUE_NOT_SOUND 20       /* the store or the name list is not sound */
#define CURVALIQUE_NO_NODE_PLACE 21   /* no place for a new node */
#define CURVALIQUE_NO_SLOT_PLACE 22   /* a new node needs a larger table than the lent slots */
#define CURVALIQUE_TOO_MANY_TERMS 23  /* a chain of over 4,096 terms */
#define CURVALIQUE_NO_NAME_PLACE 24   /* no place for a new name */

/* ---- A fresh store ---- */

/*
 * Makes a fresh store: sets count to 0 and size to 64, and the first 64 slots
 * to 0. The nodes, and slots past the first 64, stay as they are.
 * Refusals: 22 if fewer than 64 slots are lent; nothing is changed.
 */
uint64_t curvalique_fresh(
    const uint64_t *nodes, size_t node_words, uint32_t *slots, size_t slot_count,
    uint64_t *count, size_t *size);

/*
 * ---- Store calls ----
 *
 * Each answers the id of the one node that it asks for: that of the old node if
 * there is one, and else that of a new one at the end. Two nodes are one if
 * kind, payload, children and flags without 4 agree. A new node may double the
 * table. Refusals that all of them have: 20; 21 and 22 for a new node (an old
 * one is found also in a full store). A refused store call changes nothing.
 */

/*
 * A variable, by its symbol: kind 0, flags 0. Refusals: 20, 21, 22.
 */
uint64_t curvalique_variable(
    uint64_t *nodes, size_t node_words, uint32_t *slots, size_t slot_count,
    uint64_t *count, size_t *size,
    uint32_t symbol, uint64_t *id);

/*
 * A constant, by the bits of its binary64 value: kind 1, flags 0. 0.0 and -0.0
 * are two nodes; infinities are numbers, NaNs are not. Refusals: 20, 10, 21, 22.
 */
uint64_t curvalique_constant(
    uint64_t *nodes, size_t node_words, uint32_t *slots, size_t slot_count,
    uint64_t *count, size_t *size,
    uint64_t bits, uint64_t *id);

/*
 * The sum of two nodes: kind 2, flags 3. Refusals: 20, 4, 21, 22.
 */
uint64_t curvalique_add(
    uint64_t *nodes, size_t node_words, uint32_t *slots, size_t slot_count,
    uint64_t *count, size_t *size,
    uint32_t a, uint32_t b, uint64_t *id);

/*
 * The first node minus the second: kind 3, flags 0. Refusals: 20, 4, 21, 22.
 */
uint64_t curvalique_sub(
    uint64_t *nodes, size_t node_words, uint32_t *slots, size_t slot_count,
    uint64_t *count, size_t *size,
    uint32_t a, uint32_t b, uint64_t *id);

/*
 * The product of two nodes: kind 4, flags 3. Refusals: 20, 4, 21, 22.
 */
uint64_t curvalique_mul(
    uint64_t *nodes, size_t node_words, uint32_t *slots, size_t slot_count,
    uint64_t *count, size_t *size,
    uint32_t a, uint32_t b, uint64_t *id);

/*
 * The first node over the second: kind 5, flags 0. Refusals: 20, 4, 21, 22.
 */
uint64_t curvalique_div(
    uint64_t *nodes, size_t node_words, uint32_t *slots, size_t slot_count,
    uint64_t *count, size_t *size,
    uint32_t a, uint32_t b, uint64_t *id);

/*
 * The first node to the power of the second: kind 6, flags 0. Refusals: 20, 4,
 * 21, 22.
 */
uint64_t curvalique_pow(
    uint64_t *nodes, size_t node_words, uint32_t *slots, size_t slot_count,
    uint64_t *count, size_t *size,
    uint32_t a, uint32_t b, uint64_t *id);

/*
 * The first node modulo the second: kind 7, flags 0. Refusals: 20, 4, 21, 22.
 */
uint64_t curvalique_modulo(
    uint64_t *nodes, size_t node_words, uint32_t *slots, size_t slot_count,
    uint64_t *count, size_t *size,
    uint32_t a, uint32_t b, uint64_t *id);

/*
 * The opposite of a node: kind 8, flags 0. Refusals: 20, 4, 21, 22.
 */
uint64_t curvalique_neg(
    uint64_t *nodes, size_t node_words, uint32_t *slots, size_t slot_count,
    uint64_t *count, size_t *size,
    uint32_t a, uint64_t *id);

/*
 * Any operator over any operands: codes 0 Add, 1 Sub, 2 Mul, 3 Div, 4 Pow, 5 Mod
 * and 6 Neg give kinds 2 to 8, with flags 0 to 3 (1 commutative, 2
 * associative). Add and Mul take one to four operands, Neg one, the others two.
 * Refusals: 20, 5, 6, 4, 21, 22.
 */
uint64_t curvalique_operator(
    uint64_t *nodes, size_t node_words, uint32_t *slots, size_t slot_count,
    uint64_t *count, size_t *size,
    uint32_t code, uint32_t flags, const uint32_t *operands, size_t operand_count,
    uint64_t *id);

/*
 * A function, by its number, over none to 16 operands: kind 16, flags 0.
 * Refusals: 20, 6, 4, 21, 22.
 */
uint64_t curvalique_function(
    uint64_t *nodes, size_t node_words, uint32_t *slots, size_t slot_count,
    uint64_t *count, size_t *size,
    uint32_t number, const uint32_t *operands, size_t operand_count, uint64_t *id);

/*
 * Select, over a condition and two values: kind 32, payload 0, flags 0. Refusals:
 * 20, 4, 21, 22.
 */
uint64_t curvalique_select(
    uint64_t *nodes, size_t node_words, uint32_t *slots, size_t slot_count,
    uint64_t *count, size_t *size,
    uint32_t a, uint32_t b, uint32_t c, uint64_t *id);

/*
 * IfElse, over a condition and two branches: kind 32, payload 1, flags 0.
 * Refusals: 20, 4, 21, 22.
 */
uint64_t curvalique_if_else(
    uint64_t *nodes, size_t node_words, uint32_t *slots, size_t slot_count,
    uint64_t *count, size_t *size,
    uint32_t a, uint32_t b, uint32_t c, uint64_t *id);

/*
 * ForLoop, over start, limit, step and body: kind 32, payload 2, flags 0.
 * Refusals: 20, 4, 21, 22.
 */
uint64_t curvalique_for_loop(
    uint64_t *nodes, size_t node_words, uint32_t *slots, size_t slot_count,
    uint64_t *count, size_t *size,
    uint32_t a, uint32_t b, uint32_t c, uint32_t d, uint64_t *id);

/*
 * Any control over any operands: codes 0 Select and 1 IfElse take three operands,
 * 2 ForLoop four; kind 32, flags 0. Refusals: 20, 5, 6, 4, 21, 22.
 */
uint64_t curvalique_control(
    uint64_t *nodes, size_t node_words, uint32_t *slots, size_t slot_count,
    uint64_t *count, size_t *size,
    uint32_t code, const uint32_t *operands, size_t operand_count, uint64_t *id);

/* ---- Reading a node back ---- */

/*
 * Writes the 22 words of a node. Flag 4 (canonical) is set in a node that a
 * walk finished a part of its formula with, also one that was spent or stopped
 * later. Changes nothing else. Refusals: 20, 4; the words stay as they were.
 */
uint64_t curvalique_node(
    const uint64_t *nodes, size_t node_words, const uint32_t *slots, size_t slot_count,
    uint64_t count, size_t size,
    uint32_t id, uint64_t words[CURVALIQUE_NODE_WORDS]);

/* ---- Simplify and prune ---- */

/*
 * Simplifies the formula of a node by the built-in patterns, down to a depth
 * limit of 0 to 255 and in at most as many steps as the budget says. Answers
 * the result's id, `spent` 0 and the steps taken. If the budget is used up
 * before the walk is done, it is still answered: the root's own id, `spent` 1
 * and the steps; the nodes and marks made so far stay. A further simplify starts
 * again at the root and takes marked children unwalked, so that the same budget
 * may be spent again. Only the budget bounds the time: a changed child that is
 * shared is walked each time it is met. Refusals: 20, 5 (depth), 4; nothing is
 * changed. 21, 22: the walk stops, and keeps what it built and marked before.
 */
uint64_t curvalique_simplify(
    uint64_t *nodes, size_t node_words, uint32_t *slots, size_t slot_count,
    uint64_t *count, size_t *size,
    uint32_t root, uint32_t depth, uint64_t budget,
    uint64_t *id, uint64_t *spent, uint64_t *steps);

/*
 * The same strictly: the result has the bits of the root's formula for all values
 * of its variables in binary64, all NaNs counted as one, with several operands
 * taken left to right. Only x + (-0.0), (-0.0) + x, x - (+0.0), 1 * x, x * 1,
 * x / 1, double Neg, and the sum, difference, product or quotient of two
 * constants (if it is no NaN and not by a zero) are rewritten. It sets no mark and
 * takes no child unwalked for its mark, so that a shared child is walked each time
 * it is met, changed or not. Refusals: 20, 5 (depth), 4; nothing is changed. 21,
 * 22: the walk stops, and keeps what it built before.
 */
uint64_t curvalique_simplify_strictly(
    uint64_t *nodes, size_t node_words, uint32_t *slots, size_t slot_count,
    uint64_t *count, size_t *size,
    uint32_t root, uint32_t depth, uint64_t budget,
    uint64_t *id, uint64_t *spent, uint64_t *steps);

/*
 * Prunes the sum under a node at a threshold, by the bits of its binary64
 * value: a term is kept if its magnitude is at least the threshold (a
 * constant's is its absolute value, any other term's 1.0), and the kept terms
 * are summed again in order. Answers the sum's id (0.0 if no term is kept, the
 * term itself if one is) and how many terms are kept and dropped, a shared one
 * as often as it stands there. A root that is no Add is answered itself, with 1
 * kept and 0 dropped. The answer pruned again at the same threshold is answered
 * itself, and nothing is changed. At a higher one it becomes what the root becomes
 * there, if two or more terms were kept; a single kept term is no sum and stays.
 * Refusals: 20, 4, 7, 23; nothing is changed. 21, 22: the sum is not finished, and
 * what was built of it stays.
 */
uint64_t curvalique_prune(
    uint64_t *nodes, size_t node_words, uint32_t *slots, size_t slot_count,
    uint64_t *count, size_t *size,
    uint32_t root, uint64_t threshold, uint64_t *id, uint64_t *kept, uint64_t *dropped);

/*
 * The same by a setting n. From 20 to 200 it is the prune at a threshold, the
 * binary64 number nearest to 10^((3n-800)/200). From 0 to 19 nothing is pruned:
 * the root is answered itself, whatever it is, with 1 kept and 0 dropped, and
 * nothing is changed. Refusals: 20, 4, 8; from 20 on also 23, 21 and 22 as there.
 */
uint64_t curvalique_prune_by_setting(
    uint64_t *nodes, size_t node_words, uint32_t *slots, size_t slot_count,
    uint64_t *count, size_t *size,
    uint32_t root, uint32_t setting, uint64_t *id, uint64_t *kept, uint64_t *dropped);

/*
 * ---- Names ----
 *
 * A NAME LIST is a lent list of bytes, 33 for each entry
 * (CURVALIQUE_ENTRY_BYTES), of which up to 4,096 are used, and a count of names.
 * A list with count 0 is a sound one, whatever its bytes are. Names are any
 * bytes, 1 to 32 of them; a name's number is its place in the list, from 0.
 */

/*
 * Answers a name's number: the one that it has, or the next if it is new, which
 * adds it to the list and 1 to the count. Bytes past the used entries stay.
 * Refusals: 20, 9, 24 (a known name keeps its number also in a full list);
 * nothing is changed.
 */
uint64_t curvalique_intern_name(
    uint8_t *entries, size_t entry_bytes, size_t *count,
    const uint8_t *name, size_t name_length, uint64_t *number);

/*
 * Answers `known` 1 and a name's number, or `known` 0 if the list does not have
 * it; the number then stays as it was. Refusals: 20, 9; nothing is changed.
 */
uint64_t curvalique_lookup_name(
    const uint8_t *entries, size_t entry_bytes, size_t count,
    const uint8_t *name, size_t name_length, uint64_t *known, uint64_t *number);

/*
 * Answers `known` 1 and the name of a number, its length and its bytes, with 0s
 * after it; or `known` 0 if no name has the number, and length and bytes then
 * stay as they were. Refusals: 20; nothing is changed.
 */
uint64_t curvalique_name(
    const uint8_t *entries, size_t entry_bytes, size_t count,
    uint32_t number, uint64_t *known, size_t *length, uint8_t bytes[CURVALIQUE_LONGEST_NAME]);

/*
 * ---- Formulas typed as text ----
 *
 * A TEXT is bytes such as 2*(flow + 3) - t1^2, 1 to 8,192 of them. A sum is
 * products joined by + or -, a product is powers joined by * or /, a power is a
 * factor with an optional ^ and power, and a factor is a number, a name, a minus
 * factor or a sum in brackets. A name is a letter, then letters or digits, 32 at
 * most. A number is 1 to 9 decimal digits, or # and the 16 hexadecimal digits of
 * binary64 bits. Letters and hexadecimal digits are of either case. Blanks (the
 * byte 32, and no other) may stand anywhere but inside a name or number. Sums and
 * products group left, ^ groups right, and -x^2 is (-x)^2.
 */

/*
 * Reads a text into a store and a name list, and answers the id of its formula.
 * The text is checked whole before anything is made: 1 if it is empty or over
 * 8,192 bytes, 11 if it is not of the language, 12 if brackets, minus factors and
 * powers, counted together, nest over 64 deep, where a ^ nests what stands after
 * it, 10 if a number's bits are a NaN's. Then its nodes are made by the store
 * calls, operands first, left before right, and each name is interned just before
 * its variable, whose symbol is the name's number. Refusals: 20 (the store or the
 * name list), 1, 11, 12, 10; nothing is changed. 24, 21, 22: the reading stops,
 * and the names and nodes made before stay.
 */
uint64_t curvalique_read_text(
    const uint8_t *text, size_t text_length,
    uint64_t *nodes, size_t node_words, uint32_t *slots, size_t slot_count,
    uint64_t *count, size_t *size,
    uint8_t *entries, size_t entry_bytes, size_t *name_count, uint64_t *id);

/*
 * Writes the text of a node as the first bytes of the lent `text`, and its length.
 * It has no blanks, and no text that reads to that node with the same names has
 * fewer bracket pairs. Whole constants from 0 to 999,999,999 are in fewest digits
 * (not -0.0), others are # and 16 hex digits of their bits, A to F in capitals. Reading it
 * with the same store and names gives the same id and adds nothing. It covers
 * variables, constants, Neg and operators of two operands but
 * Mod, with the flags that the constructors give; marks do not matter. Each node
 * under the id is looked at once for 13, and no more nodes are visited than the
 * text has bytes.
 * Bytes past the text stay. Refusals: 20 for the store or the name list, 4, 13,
 * 14, in this order; nothing is changed, and no byte of `text`.
 */
uint64_t curvalique_write_text(
    const uint64_t *nodes, size_t node_words, const uint32_t *slots, size_t slot_count,
    uint64_t count, size_t size, const uint8_t *entries, size_t entry_bytes, size_t name_count,
    uint32_t id, uint8_t *text, size_t text_length, uint64_t *length);

/*
 * ---- Sheets and listings ----
 *
 * A SHEET is bytes: the byte 1, then records, each of which builds a node,
 * simplifies or prunes; REFERENCE has their layout. They are done in order on one
 * store, which is looked over once, and an operand is the number of an earlier
 * record, from 0. A LISTING is text: a line that says how a sheet ended, in one
 * of the forms above, and a line for each node of its store, by rising id: id,
 * kind, payload in 16 capital hexadecimal digits, flags, children.
 */

/*
 * Runs a sheet on a store. Returns 0 if every record is answered: `form` is then
 * CURVALIQUE_FORM_OK and `id` the last answer's id, or CURVALIQUE_FORM_SPENT and
 * `id` the root of the last record, or CURVALIQUE_FORM_EMPTY if there are no
 * records, and `id` stays as it was; `record` stays. Else `record` is the number
 * of the refused record, and `form` and `id` stay. Refusals: 20, then 1, both at
 * record 0; nothing else is changed. For each record 3, 2, 5, 10, 6, 4, 7, 23,
 * 21, 22: the sheet ends, what earlier records built and marked stays, and the
 * refused record leaves what its call would.
 */
uint64_t curvalique_run_sheet(
    const uint8_t *sheet, size_t sheet_length,
    uint64_t *nodes, size_t node_words, uint32_t *slots, size_t slot_count,
    uint64_t *count, size_t *size,
    uint64_t *form, uint64_t *id, uint64_t *record);

/*
 * The same on a fresh store in the lent lists: what `count` and `size` hold is
 * not looked at. Refusals: 1, then 22 if fewer than 64 slots are lent, both at
 * record 0; no store is opened then, and nothing else is changed. Else as there
 * but for 20.
 */
uint64_t curvalique_run_sheet_fresh(
    const uint8_t *sheet, size_t sheet_length,
    uint64_t *nodes, size_t node_words, uint32_t *slots, size_t slot_count,
    uint64_t *count, size_t *size,
    uint64_t *form, uint64_t *id, uint64_t *record);

/*
 * Writes the listing of a sheet on a fresh store of 512 nodes and 1,024 slots of
 * its own, as the program `listing` prints it: the first `length` bytes of
 * `listing`. The bytes past them stay as they were. Refusals: none; the
 * listing's first line has a refusal of the sheet.
 */
void curvalique_list_sheet(
    const uint8_t *sheet, size_t sheet_length,
    uint8_t listing[CURVALIQUE_LISTING_BYTES], size_t *length);

/*
 * Reads a listing back: writes the words of its nodes, 22 each, with their
 * hashes and coefficients, and no table. Returns 0 if the bytes are a listing
 * whose nodes have place: `count` is then the number of nodes and `form` that of
 * the first line; with CURVALIQUE_FORM_OK or CURVALIQUE_FORM_SPENT `id` is the
 * line's id, which is below the count; with CURVALIQUE_FORM_REFUSED `number` and
 * `record` are the line's; what it does not have, and `line`, stay as they were.
 * It is not asked that no two nodes are one, nor that a refusal's number and
 * record are such as a sheet gives: only that they are words of 64 bits. Nodes may
 * also follow `ok -`. Else reading ends at the first line that is wrong, is missing or
 * whose node has no place, and all these but `line` stay. Refusals:
 * CURVALIQUE_WRONG_LINE if the line is not a listing's (but for what is not
 * asked), comes after 65,536 nodes, or is missing, where the bytes end before
 * the first line or before the node of its id; `line` is its number, from 1, and
 * the nodes before it are written. CURVALIQUE_TOO_FEW_WORDS if the node has no
 * place in the lent words; as many nodes as have place are written, and `line`
 * stays. Words past the written nodes stay. A listing cut at the end of a line
 * is refused only if the cut is before the node of its id: a later cut leaves
 * the listing of fewer nodes, with the same formula under the id.
 */
uint64_t curvalique_read_listing(
    const uint8_t *bytes, size_t bytes_length, uint64_t *nodes, size_t node_words,
    uint64_t *count, uint64_t *form, uint64_t *id, uint64_t *number, uint64_t *record,
    uint64_t *line);

#ifdef __cplusplus
}
#endif

#endif
