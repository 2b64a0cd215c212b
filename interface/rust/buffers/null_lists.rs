//! Null pointers of length 0, for each list that a call takes. A Rust slice is never null, so the functions are called as
//! they are declared.

use std::ptr::{null, null_mut};

use curvalique::raw::*;
use curvalique::{FORM_REFUSED, LISTING_BYTES, LONGEST_NAME, NODE_WORDS, Refusal, WRONG_LINE};

use crate::trial::{UNTOUCHED, UNTOUCHED_BYTE, UNTOUCHED_SLOT, check};

const FEWEST_SLOTS: usize = 64;
const LISTING_OF_EMPTY_SHEET: &[u8] = b"refused 1 at 0\n";
const ANSWERED: Refusal = Refusal(0);

fn try_null_stores() {
    let (mut count, mut size, mut id, mut words) = (0, FEWEST_SLOTS, UNTOUCHED, [0; NODE_WORDS]);
    // SAFETY: a list of length 0 may have a null pointer; the answers are apart.
    let returned = unsafe {
        [
            curvalique_fresh(null(), 0, null_mut(), 0, &mut count, &mut size),
            curvalique_variable(null_mut(), 0, null_mut(), 0, &mut count, &mut size, 1, &mut id),
            curvalique_node(null(), 0, null(), 0, count, size, 0, &mut words),
        ]
    };
    let expected = [Refusal::NO_SLOT_PLACE, Refusal::NOT_SOUND, Refusal::NOT_SOUND];
    check(returned.map(Refusal) == expected, "no lists");
    check(count == 0 && size == FEWEST_SLOTS && id == UNTOUCHED, "a refusal leaves the numbers");
}

fn try_null_nodes() {
    let (mut count, mut size, mut id, mut words) = (UNTOUCHED, 0, UNTOUCHED, [0; NODE_WORDS]);
    let mut slots = [UNTOUCHED_SLOT; FEWEST_SLOTS];
    let (list, lent) = (slots.as_mut_ptr(), slots.len());
    // SAFETY: as above; the slots are borrowed for the calls.
    let returned = unsafe {
        [
            curvalique_fresh(null(), 0, list, lent, &mut count, &mut size),
            curvalique_node(null(), 0, list, lent, count, size, 0, &mut words),
            curvalique_variable(null_mut(), 0, list, lent, &mut count, &mut size, 1, &mut id),
        ]
    };
    let expected = [ANSWERED, Refusal::BAD_OPERAND, Refusal::NO_NODE_PLACE];
    check(returned.map(Refusal) == expected, "a store without nodes");
    check(count == 0 && size == FEWEST_SLOTS && id == UNTOUCHED, "its numbers");
}

fn try_null_operands() {
    let (mut count, mut size, mut id) = (0, FEWEST_SLOTS, UNTOUCHED);
    let (mut nodes, mut slots) = ([UNTOUCHED; NODE_WORDS], [0; FEWEST_SLOTS]);
    let (list, words, table, lent) = (nodes.as_mut_ptr(), nodes.len(), slots.as_mut_ptr(), slots.len());
    // SAFETY: as above; the nodes are borrowed too.
    let returned = unsafe {
        [
            curvalique_operator(list, words, table, lent, &mut count, &mut size, 0, 0, null(), 0, &mut id),
            curvalique_control(list, words, table, lent, &mut count, &mut size, 0, null(), 0, &mut id),
            curvalique_function(list, words, table, lent, &mut count, &mut size, 1, null(), 0, &mut id),
        ]
    };
    let expected = [Refusal::BAD_CHILD_COUNT, Refusal::BAD_CHILD_COUNT, ANSWERED];
    check(returned.map(Refusal) == expected && id == 0, "no operands");
}

fn try_null_names() {
    let (mut count, mut known, mut number, name) = (0, [UNTOUCHED; 2], UNTOUCHED, b"x");
    let (mut length, mut spelled) = (0, [0; LONGEST_NAME]);
    // SAFETY: as above; the name is borrowed for the calls.
    let returned = unsafe {
        [
            curvalique_intern_name(null_mut(), 0, &mut count, name.as_ptr(), name.len(), &mut number),
            curvalique_intern_name(null_mut(), 0, &mut count, null(), 0, &mut number),
            curvalique_lookup_name(null(), 0, count, name.as_ptr(), name.len(), &mut known[0], &mut number),
            curvalique_name(null(), 0, count, 0, &mut known[1], &mut length, &mut spelled),
        ]
    };
    let expected = [Refusal::NO_NAME_PLACE, Refusal::BAD_NAME_LENGTH, ANSWERED, ANSWERED];
    check(returned.map(Refusal) == expected && known == [0, 0], "no names");
    check(count == 0 && number == UNTOUCHED && length == 0, "nothing else is answered");
}

fn try_null_texts() {
    let (mut count, mut size, mut names, mut id, text) = (0, FEWEST_SLOTS, 0, UNTOUCHED, b"x");
    let (mut nodes, mut slots) = ([UNTOUCHED; NODE_WORDS], [0; FEWEST_SLOTS]);
    let (list, words, table, lent) = (nodes.as_mut_ptr(), nodes.len(), slots.as_mut_ptr(), slots.len());
    let (from, length, counted, sized) = (text.as_ptr(), text.len(), &raw mut count, &raw mut size);
    let (known, answer) = (&raw mut names, &raw mut id);
    // SAFETY: as above; the text is borrowed for the calls.
    let returned = unsafe {
        [
            curvalique_read_text(null(), 0, list, words, table, lent, counted, sized, null_mut(), 0, known, answer),
            curvalique_read_text(from, length, list, words, table, lent, counted, sized, null_mut(), 0, known, answer),
            curvalique_read_text(
                from,
                length,
                null_mut(),
                0,
                null_mut(),
                0,
                counted,
                sized,
                null_mut(),
                0,
                known,
                answer,
            ),
        ]
    };
    let expected = [Refusal::BAD_TEXT, Refusal::NO_NAME_PLACE, Refusal::NOT_SOUND];
    check(returned.map(Refusal) == expected, "texts on empty lists");
    check(id == UNTOUCHED && names == 0 && count == 0, "a refused text answers nothing");
}

fn try_null_writes() {
    let (mut count, mut size, mut id, mut length) = (0, FEWEST_SLOTS, [UNTOUCHED; 2], UNTOUCHED);
    let (mut nodes, mut slots) = ([UNTOUCHED; 2 * NODE_WORDS], [0; FEWEST_SLOTS]);
    let (list, words, table, lent) = (nodes.as_mut_ptr(), nodes.len(), slots.as_mut_ptr(), slots.len());
    // SAFETY: as above; the lists are borrowed for the calls.
    let (built, returned) = unsafe {
        let built = [
            curvalique_constant(list, words, table, lent, &mut count, &mut size, 0, &mut id[0]),
            curvalique_variable(list, words, table, lent, &mut count, &mut size, 0, &mut id[1]),
        ];
        let mut write = |id| {
            curvalique_write_text(list, words, table, lent, count, size, null(), 0, 0, id, null_mut(), 0, &mut length)
        };
        let lent = [write(2), write(1), write(0)];
        let none = curvalique_write_text(null(), 0, null(), 0, 0, size, null(), 0, 0, 0, null_mut(), 0, &mut length);
        (built, [lent[0], lent[1], lent[2], none])
    };
    check(built == [0, 0] && id == [0, 1], "a constant, and a variable without a name");
    let expected = [Refusal::BAD_OPERAND, Refusal::NO_TEXT, Refusal::TEXT_TOO_LONG, Refusal::NOT_SOUND];
    check(returned.map(Refusal) == expected, "writes to no bytes, and of no store");
    check(length == UNTOUCHED, "a refused write answers nothing");
}

fn try_null_sheets() {
    let (mut numbers, mut answers) = ((UNTOUCHED, 0), [UNTOUCHED; 3]);
    let (mut nodes, mut slots, sheet) = ([UNTOUCHED; NODE_WORDS], [UNTOUCHED_SLOT; FEWEST_SLOTS], [1]);
    let (list, words, table, lent) = (nodes.as_mut_ptr(), nodes.len(), slots.as_mut_ptr(), slots.len());
    let (count, size) = (&raw mut numbers.0, &raw mut numbers.1);
    let [form, id, record] = answers.each_mut().map(|answer| &raw mut *answer);
    // SAFETY: as above.
    let returned = unsafe {
        [
            curvalique_run_sheet_fresh(null(), 0, list, words, table, lent, count, size, form, id, record),
            curvalique_run_sheet(null(), 0, list, words, table, lent, count, size, form, id, record),
            curvalique_run_sheet_fresh(null(), 0, null_mut(), 0, null_mut(), 0, count, size, form, id, record),
            curvalique_run_sheet_fresh(sheet.as_ptr(), 1, null_mut(), 0, null_mut(), 0, count, size, form, id, record),
        ]
    };
    let expected = [Refusal::BAD_SHEET, Refusal::NOT_SOUND, Refusal::BAD_SHEET, Refusal::NO_SLOT_PLACE];
    check(returned.map(Refusal) == expected, "an empty sheet, and one without slots");
    check(numbers == (UNTOUCHED, 0), "no store is opened for bytes that are no sheet or without slots");
    check(answers == [UNTOUCHED, UNTOUCHED, 0], "a refused sheet answers its record only");
}

fn try_null_listings() {
    let (mut listing, mut length) = (Box::new([UNTOUCHED_BYTE; LISTING_BYTES]), 0);
    let mut answers = [UNTOUCHED; 6];
    let [count, form, id, number, record, line] = answers.each_mut().map(|answer| &raw mut *answer);
    // SAFETY: as above; the listing has as many bytes as are asked for.
    let returned = unsafe {
        curvalique_list_sheet(null(), 0, &mut *listing, &mut length);
        [
            curvalique_read_listing(listing.as_ptr(), length, null_mut(), 0, count, form, id, number, record, line),
            curvalique_read_listing(null(), 0, null_mut(), 0, count, form, id, number, record, line),
        ]
    };
    check(&listing[..length] == LISTING_OF_EMPTY_SHEET, "the listing of an empty sheet");
    check(returned == [0, WRONG_LINE], "a listing without nodes, and an empty one");
    check(answers == [0, FORM_REFUSED, UNTOUCHED, Refusal::BAD_SHEET.0, 0, 1], "their answers");
}

pub fn try_null_lists() {
    try_null_stores();
    try_null_nodes();
    try_null_operands();
    try_null_names();
    try_null_texts();
    try_null_writes();
    try_null_sheets();
    try_null_listings();
}
