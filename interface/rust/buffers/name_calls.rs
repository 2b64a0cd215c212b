//! Name calls on sound and damaged name lists.

use curvalique::{ENTRY_BYTES, Names, Refusal};

use crate::trial::{Group, Trial, UNTOUCHED_BYTE, check, filled_block};

const MOST_ENTRIES: usize = 60;
const MOST_NAME_DRAWN: usize = 36;
const MOST_NUMBER_DRAWN: usize = 5_000;
const CALLS: u64 = 80;

fn one_call(trial: &mut Trial, names: &mut Names) -> Result<(), Refusal> {
    let before = names.count;
    let name: Box<[u8]> = (0..trial.place(MOST_NAME_DRAWN)).map(|_| trial.below(3) as u8).collect();
    let wanted = trial.place(names.count % MOST_NUMBER_DRAWN + 2) as u32;
    let answer = match trial.below(3) {
        0 => names.intern(&name).map(drop),
        1 => names.lookup(&name).map(drop),
        _ => names.name(wanted).map(drop),
    };
    trial.count_outcome(Group::NameCalls, answer.err().map_or(0, |refusal| refusal.0));
    check(answer.is_ok() || names.count == before, "a refusal leaves the count");
    answer
}

/// Name lists, sound and damaged. Most lengths are no multiple of an entry's bytes.
pub fn try_names(trial: &mut Trial, rounds: u64) {
    for _ in 0..rounds {
        let mut entries = filled_block(UNTOUCHED_BYTE, trial.place(MOST_ENTRIES * ENTRY_BYTES));
        let mut names = Names::lent(&mut entries, 0);
        for _ in 0..CALLS {
            check(one_call(trial, &mut names) != Err(Refusal::NOT_SOUND), "a sound name list stays sound");
        }
        trial.damage_byte(names.entries);
        let _ = one_call(trial, &mut names);
        names.count = trial.any_word() as usize;
        let _ = one_call(trial, &mut names);
    }
}
