//! Texts, whole and damaged, read and written on sound and damaged stores and name lists.

use curvalique::{ENTRY_BYTES, NODE_WORDS, Names, Refusal};

use crate::blocks::Blocks;
use crate::trial::{Group, Trial, UNTOUCHED_BYTE, block, check, filled_block};

const MOST_ENTRIES: usize = 6;

// A fresh store with place for most of the texts.
const NODES: usize = 12;
const SLOTS: usize = 64;

// Ids and lent lengths of a write: some below a store's count and long enough, some not.
const IDS: u64 = 16;
const TEXT_BYTES: usize = 40;

/// Document 02's example, all signs, a NaN, and 65 minus factors.
const TEXTS: [&[u8]; 4] = [
    b"2*(flow + 3) - t1^2",
    b"a+b-(c*d/e)^-#3FE0000000000000",
    b"pump + #7FF8000000000000",
    b"-----------------------------------------------------------------x",
];

/// Refused before anything is made.
const REFUSED_FIRST: [Refusal; 5] =
    [Refusal::NOT_SOUND, Refusal::BAD_TEXT, Refusal::OUTSIDE_LANGUAGE, Refusal::NESTED_TOO_DEEP, Refusal::NOT_A_NUMBER];

/// A node's text, in a block of any length, and read back.
fn write_text(trial: &mut Trial, blocks: &mut Blocks, names: &mut Names) {
    let before = blocks.copy();
    let (entries, count) = (block(names.entries), names.count);
    let id = trial.below(IDS) as u32;
    let mut text = filled_block(UNTOUCHED_BYTE, trial.place(TEXT_BYTES));
    let answer = blocks.call_with_names(names, |store| store.write_text(id, &mut text).map(<[u8]>::len));
    trial.count_outcome(Group::WriteCalls, answer.err().map_or(0, |refusal| refusal.0));
    let all_sound = blocks.is_sound() && names.name(0) != Err(Refusal::NOT_SOUND);
    let refused = answer == Err(Refusal::NOT_SOUND);
    check(all_sound != refused, "20 exactly if the store or the name list is not sound");
    let stays = text[answer.unwrap_or(0)..].iter().all(|byte| *byte == UNTOUCHED_BYTE);
    check(stays, "bytes past the text, and on a refusal all, stay");
    if let Ok(length) = answer {
        let again = blocks.call_with_names(names, |store| store.read_text(&text[..length]));
        check(again == Ok(id), "a text that was written reads back to its node");
    }
    let same = before == *blocks && *names.entries == *entries && names.count == count;
    check(same, "a write and its reading back change nothing");
}

/// A text, whole or damaged, on a fresh store or on a copy of the store that may be damaged.
fn read_text(trial: &mut Trial, blocks: &Blocks, names: &mut Names) {
    let text = TEXTS[trial.place(TEXTS.len())];
    let damaged = trial.damaged_bytes(text);
    let fresh = trial.below(2) == 0;
    let mut copy = if fresh { Blocks::fresh(NODES * NODE_WORDS, SLOTS) } else { blocks.damaged_copy(trial) };
    let before = copy.copy();
    let (entries, count) = (block(names.entries), names.count);
    let answer = copy.call_with_names(names, |store| store.read_text(&damaged));
    trial.count_outcome(Group::TextCalls, answer.err().map_or(0, |refusal| refusal.0));
    check(answer.is_err() || answer.is_ok_and(|id| u64::from(id) < copy.count), "an id below the count");
    let all_sound = copy.is_sound() && names.name(0) != Err(Refusal::NOT_SOUND);
    let refused = answer == Err(Refusal::NOT_SOUND);
    check(all_sound != refused, "20 exactly if the store or the name list is not sound");
    if answer.is_err_and(|refusal| REFUSED_FIRST.contains(&refusal)) {
        let same = before == copy && *names.entries == *entries && names.count == count;
        check(same, "a text that is refused first changes nothing");
    } else {
        let used = names.count * ENTRY_BYTES;
        let stays = copy.stays_past(&before) && names.entries[used..] == entries[used..];
        check(stays, "what lies past the used memory stays");
    }
    write_text(trial, &mut copy, names);
}

pub fn try_texts(trial: &mut Trial, blocks: &Blocks, rounds: u64) {
    for _ in 0..rounds {
        let mut entries = filled_block(UNTOUCHED_BYTE, trial.place(MOST_ENTRIES * ENTRY_BYTES));
        let mut names = Names { entries: &mut entries, count: 0 };
        read_text(trial, blocks, &mut names);
        read_text(trial, blocks, &mut names);
        trial.damage_byte(names.entries);
        read_text(trial, blocks, &mut names);
        names.count = trial.any_word() as usize;
        read_text(trial, blocks, &mut names);
    }
}
