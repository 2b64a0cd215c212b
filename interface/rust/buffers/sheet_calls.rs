//! Damaged copies of a sheet, on fresh, sound and damaged stores, and their listings.

use curvalique::{LISTING_BYTES, NODE_WORDS, Outcome, Refusal, RefusedSheet, SheetAnswer, list_sheet, read_listing};

use crate::blocks::{Blocks, FIRST_SIZE};
use crate::listing_calls::try_listing;
use crate::trial::{Group, Trial, UNTOUCHED, UNTOUCHED_BYTE, block, check, filled_block};

// The listing program's store.
const NODES: usize = 512;
const SLOTS: usize = 1_024;

type Answer = Result<SheetAnswer, RefusedSheet>;

fn check_answer(trial: &mut Trial, blocks: &Blocks, answer: &Answer) {
    trial.count_outcome(Group::SheetCalls, answer.err().map_or(0, |refused| refused.refusal.0));
    if let Ok(SheetAnswer::Ok(id) | SheetAnswer::Spent(id)) = *answer {
        check(u64::from(id) < blocks.count, "an answered id is below the count");
    }
}

/// A sheet on a store that may be damaged.
fn run_on_copy(trial: &mut Trial, blocks: &Blocks, sheet: &[u8]) {
    let mut damaged = blocks.damaged_copy(trial);
    let before = damaged.copy();
    let answer = damaged.call(|store| store.run_sheet(sheet));
    check_answer(trial, &damaged, &answer);
    let refused = answer == Err(RefusedSheet { refusal: Refusal::NOT_SOUND, record: 0 });
    check(damaged.is_sound() != refused, "20 exactly if the store is not sound");
    if refused {
        check(before == damaged, "20 changes nothing");
    } else {
        check(damaged.stays_past(&before), "what lies past the used words and slots stays");
    }
}

/// What the first line of a sheet's listing says.
fn outcome_of(answer: &Answer) -> Outcome {
    match *answer {
        Ok(SheetAnswer::Ok(id)) => Outcome::Ok(id.into()),
        Ok(SheetAnswer::Empty) => Outcome::Empty,
        Ok(SheetAnswer::Spent(id)) => Outcome::Spent(id.into()),
        Err(RefusedSheet { refusal, record }) => Outcome::Refused { refusal, record },
    }
}

/// That a listing, read back, is what the sheet left and answered.
fn check_listing(trial: &mut Trial, blocks: &Blocks, answer: &Answer, listing: &[u8]) {
    let mut nodes = filled_block(UNTOUCHED, NODES * NODE_WORDS);
    let read = read_listing(listing, &mut nodes);
    trial.count_outcome(Group::ListingCalls, u64::from(read.is_err()));
    let expected =
        read.is_ok_and(|read| read.outcome == outcome_of(answer) && read.nodes().len() as u64 == blocks.count);
    check(expected, "a listing is read, with the sheet's answer");
    check(nodes == blocks.nodes, "the nodes read are the store's");
}

/// A sheet on a fresh store, as the listing program runs it, and its listing.
fn listing_of(trial: &mut Trial, sheet: &[u8]) -> Box<[u8]> {
    let mut blocks = Blocks::fresh(NODES * NODE_WORDS, SLOTS);
    let counts = (trial.any_word(), trial.any_word() as usize);
    (blocks.count, blocks.size) = counts;
    let answer = blocks.call(|store| store.run_sheet_fresh(sheet));
    check_answer(trial, &blocks, &answer);
    if answer == Err(RefusedSheet { refusal: Refusal::BAD_SHEET, record: 0 }) {
        check((blocks.count, blocks.size) == counts, "bytes that are no sheet open no store");
        (blocks.count, blocks.size) = (0, FIRST_SIZE);
    }
    check(blocks.is_sound(), "a fresh store is sound after any sheet");
    let mut room = Box::new([UNTOUCHED_BYTE; LISTING_BYTES]);
    let listing = block(list_sheet(sheet, &mut room));
    check(room[listing.len()..].iter().all(|&byte| byte == UNTOUCHED_BYTE), "the bytes past a listing stay");
    check_listing(trial, &blocks, &answer, &listing);
    listing
}

pub fn try_sheets(trial: &mut Trial, blocks: &Blocks, sheet: &[u8], rounds: u64) {
    for _ in 0..rounds {
        let damaged = trial.damaged_bytes(sheet);
        run_on_copy(trial, blocks, &damaged);
        let listing = listing_of(trial, &damaged);
        try_listing(trial, &listing);
    }
}
