//! Calls on lent stores and name lists, name calls and readings among them, by
//! the port and by the checker, on the same lists: lent lists of any size and
//! content, sound and damaged ones.
//!
//! usage: lent [SEED] [COUNT]

mod asked;

use std::process::ExitCode;

use asked::Asked;
use checker::{LentNames, LentStore, NAME_BYTES, TextLists, sound};
use generator::Random;
use port::damage::damage;
use port::difference;

/// Calls on one store, before and after damage.
const MOST_CALLS: usize = 40;

fn main() -> ExitCode {
    let mut arguments = std::env::args().skip(1).map(|word| word.parse::<u64>().expect("a number"));
    let seed = arguments.next().unwrap_or(1);
    let count = arguments.next().unwrap_or(100_000);
    let mut tally = Tally::default();
    for number in 0..count {
        if let Err(difference) = history(&mut Random::new(seed, number), &mut tally) {
            println!("seed {seed} case {number}: {difference}");
            return ExitCode::FAILURE;
        }
    }
    let Tally { calls, names, readings, writings, damaged, .. } = tally;
    println!("{count} cases, {calls} calls: {names} of names, {readings} readings, {writings} writings");
    println!("{damaged} of them on lists just damaged, no difference");
    for (number, times) in tally.refusals.iter().enumerate().filter(|(_, times)| **times > 0) {
        println!("refusal {number}: {times}, of readings {}", tally.refused_readings[number]);
    }
    ExitCode::SUCCESS
}

/// How many calls were compared, how many of each kind, how many on lists just
/// damaged, and how many calls and readings met each refusal.
#[derive(Default)]
struct Tally {
    calls: u64,
    names: u64,
    readings: u64,
    writings: u64,
    damaged: u64,
    refusals: [u64; 25],
    refused_readings: [u64; 25],
}

impl Tally {
    fn note<T>(&mut self, asked: Option<&Asked>, answer: &Result<T, u64>) {
        self.calls += 1;
        match asked {
            Some(Asked::Name(_)) => self.names += 1,
            Some(Asked::Text(_)) => self.readings += 1,
            #[cfg(feature = "writer")]
            Some(Asked::Writing { .. }) => self.writings += 1,
            Some(Asked::Store(_)) | None => {}
        }
        if let Err(number) = answer {
            self.refusals[*number as usize] += 1;
            self.refused_readings[*number as usize] += u64::from(matches!(asked, Some(Asked::Text(_))));
        }
    }
}

/// A history on one store and one name list, with damage now and then.
fn history(random: &mut Random, tally: &mut Tally) -> Result<(), String> {
    let words: Vec<u64> = (0..random.pick(&[0, 5, 35, 100, 250, 605, 1_500])).map(|_| random.next()).collect();
    let slots: Vec<u32> = (0..random.pick(&[0, 63, 64, 100, 127, 128, 300])).map(|_| random.next() as u32).collect();
    let opened = port::lists::fresh(words.clone(), slots.clone());
    let expected = LentStore::fresh(words, slots).map_err(|refusal| u64::from(refusal.number()));
    tally.note(None, &opened);
    if opened != expected {
        return Err(format!("fresh: {opened:?}, expected {expected:?}"));
    }
    let Ok(store) = expected else { return Ok(()) };
    let mut held = TextLists { store, names: lent_names(random) };
    for _ in 0..random.between(1, MOST_CALLS) {
        let asked = Asked::any(random, held.store.node_count as usize);
        if random.once_in(8) {
            let mut damaged = held.clone();
            damage(random, &mut damaged);
            tally.damaged += 1;
            damaged = compare(&damaged, &asked, tally)?;
            if sound(&damaged.store) && damaged.names.sound() || random.once_in(16) {
                held = damaged;
            }
        } else {
            held = compare(&held, &asked, tally)?;
        }
    }
    Ok(())
}

/// An empty name list in bytes of any content.
fn lent_names(random: &mut Random) -> LentNames {
    let mut entries = vec![[0; NAME_BYTES + 1]; random.pick(&[0, 1, 2, 3, 6, 20])];
    for entry in &mut entries {
        entry.fill_with(|| random.next() as u8);
    }
    LentNames { entries, count: 0 }
}

/// One call on copies of the lists; what it leaves.
fn compare(before: &TextLists, asked: &Asked, tally: &mut Tally) -> Result<TextLists, String> {
    let (mut ours, mut expected) = (before.clone(), before.clone());
    let answer = asked.by_port(&mut ours);
    let right = asked.by_checker(&mut expected);
    tally.note(Some(asked), &answer);
    let what = if answer != right { Some("answer") } else { difference::of_lists(&ours, &expected) };
    match what {
        Some(what) => {
            Err(format!("{what}: {asked:?} gave {answer:?}, expected {right:?}\nbefore {before:?}\nafter {ours:?}"))
        }
        None => Ok(ours),
    }
}
