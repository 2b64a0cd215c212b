//! Damaged copies of a listing, read into lists of any length.

use curvalique::{NODE_WORDS, Outcome, TOO_FEW_WORDS, Unread, WRONG_LINE, read_listing};

use crate::trial::{Group, Trial, UNTOUCHED, check, filled_block};

/// For some listings of the sample sheet enough, for others not.
const MOST_WORDS: usize = 20 * NODE_WORDS;
const LINE_FEED: u8 = 0x0A;
/// The lines of a listing are counted from 1; that of node 0 is the second.
const FIRST_NODE_LINE: u64 = 2;

/// What the call returned, and how many nodes it wrote.
fn checked_reading(bytes: &[u8], nodes: &mut [u64]) -> (u64, usize) {
    let lines = bytes.iter().filter(|byte| **byte == LINE_FEED).count();
    let places = nodes.len() / NODE_WORDS;
    match read_listing(bytes, nodes) {
        Ok(listing) => {
            let count = listing.nodes().len();
            check(count + 1 == lines, "a line for each node");
            if let Outcome::Ok(id) | Outcome::Spent(id) = listing.outcome {
                check(id < count as u64, "the answer is a node");
            }
            (0, count)
        }
        Err(Unread::WrongLine(line)) => {
            check(line >= 1 && line <= lines as u64 + 1, "the wrong line is there, or the next one");
            (WRONG_LINE, line.saturating_sub(FIRST_NODE_LINE) as usize)
        }
        Err(Unread::TooFewWords) => (TOO_FEW_WORDS, places),
    }
}

/// A damaged copy of a listing.
pub fn try_listing(trial: &mut Trial, listing: &[u8]) {
    let damaged = trial.damaged_bytes(listing);
    let mut nodes = filled_block(UNTOUCHED, trial.place(MOST_WORDS));
    let (returned, written) = checked_reading(&damaged, &mut nodes);
    trial.count_outcome(Group::ListingCalls, returned);
    check(written * NODE_WORDS <= nodes.len(), "the nodes have place");
    check(nodes[written * NODE_WORDS..].iter().all(|word| *word == UNTOUCHED), "what lies past stays");
}
