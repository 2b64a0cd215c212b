//! Nodes written back as text by the port and by the checker: those of texts
//! just read, and those of random stores, with names and flags that have no
//! text among them. What is written must be read back to the node itself, and
//! no text of it that was met, or that is found by trying, has fewer brackets.
//!
//! usage: writings [SEED] [COUNT]

mod formulas;
mod writing;

use std::process::ExitCode;

use checker::read_text;
use generator::{Random, texts};
use port::damage::damage;
use port::text_lists::{self, Sizes};
use writing::Writings;

/// Lists that every text of a family fits in.
const FAMILY_SIZES: Sizes = Sizes { nodes: 16, slots: 64, names: 8 };
/// A buffer that every text fits in, and one byte more.
const AMPLE: usize = 8_193;
/// One in this many stores is damaged.
const DAMAGED: usize = 32;

fn main() -> ExitCode {
    let mut arguments = std::env::args().skip(1).map(|word| word.parse::<u64>().expect("a number"));
    let seed = arguments.next().unwrap_or(1);
    let count = arguments.next().unwrap_or(100_000);
    match generated(seed, count).and_then(|()| families()) {
        Ok(()) => ExitCode::SUCCESS,
        Err(difference) => {
            println!("{difference}");
            ExitCode::FAILURE
        }
    }
}

/// Roots of generated texts, then nodes of random stores.
fn generated(seed: u64, count: u64) -> Result<(), String> {
    let mut writings = Writings::default();
    for number in 0..count {
        let mut random = Random::new(!seed, number);
        let compared = if number % 2 == 0 {
            let text = texts::text(seed, number);
            let mut lists = text_lists::fresh(&mut random, text_lists::ample([&text[..]].into_iter()));
            match read_text(&mut lists, &text) {
                Ok(id) => writings.around(&mut random, &lists, id, Some(&text)),
                Err(_) => Ok(()),
            }
        } else {
            let mut lists = formulas::lists(&mut random);
            if random.once_in(DAMAGED) {
                damage(&mut random, &mut lists);
            }
            let last = (lists.store.node_count as u32).wrapping_sub(1);
            let below = random.below(lists.store.node_count.clamp(1, 65_536) as usize) as u32;
            let none = random.pick(&[last.wrapping_add(1), u32::MAX]);
            [last, if random.once_in(8) { none } else { below }]
                .into_iter()
                .try_for_each(|id| writings.around(&mut random, &lists, id, None))
        };
        compared.map_err(|what| format!("seed {seed} case {number}: {what}"))?;
    }
    writings.show("nodes of generated texts and stores");
    Ok(())
}

/// The roots of all texts of each family.
fn families() -> Result<(), String> {
    for family in texts::FAMILIES {
        let mut writings = Writings::default();
        let fresh = text_lists::fresh(&mut Random::new(0, 0), FAMILY_SIZES);
        for number in 0..family.count() {
            let text = family.text(number);
            let mut lists = fresh.clone();
            if let Ok(id) = read_text(&mut lists, &text) {
                writings.compare(&lists, id, AMPLE, Some(&text))?;
            }
        }
        let alphabet = String::from_utf8_lossy(family.alphabet);
        writings.show(&format!("roots of all texts up to {} bytes of '{alphabet}'", family.longest));
    }
    Ok(())
}
