//! Texts read by the port and by the checker's reader, and, where they are
//! short, by every derivation of 02's sentences: generated ones, all texts of
//! small families, and readings at the ends of the largest lists.
//!
//! usage: texts [SEED] [COUNT]

mod largest;
mod readings;

use std::process::ExitCode;

use generator::{Random, texts};
use port::text_lists::{self, Sizes};
use readings::Readings;

/// One in this many generated texts that are not short is read by definition too.
const BY_DEFINITION: usize = 64;
/// Lists that every text of a family fits in.
const FAMILY_SIZES: Sizes = Sizes { nodes: 16, slots: 64, names: 8 };

fn main() -> ExitCode {
    let mut arguments = std::env::args().skip(1).map(|word| word.parse::<u64>().expect("a number"));
    let seed = arguments.next().unwrap_or(1);
    let count = arguments.next().unwrap_or(100_000);
    match generated(seed, count).and_then(|()| families()).and_then(|()| largest()) {
        Ok(()) => ExitCode::SUCCESS,
        Err(difference) => {
            println!("{difference}");
            ExitCode::FAILURE
        }
    }
}

/// Generated texts on lists of all sizes.
fn generated(seed: u64, count: u64) -> Result<(), String> {
    let mut readings = Readings::default();
    for number in 0..count {
        let text = texts::text(seed, number);
        let mut random = Random::new(!seed, number);
        let lists = text_lists::any(&mut random, &text);
        let by_definition = random.once_in(BY_DEFINITION);
        readings.compare(&lists, &text, by_definition).map_err(|what| format!("seed {seed} text {number}: {what}"))?;
    }
    readings.show("generated texts");
    Ok(())
}

/// Every text of each family, on fresh lists.
fn families() -> Result<(), String> {
    for family in texts::FAMILIES {
        let mut readings = Readings::default();
        let lists = text_lists::fresh(&mut Random::new(0, 0), FAMILY_SIZES);
        for number in 0..family.count() {
            let text = family.text(number);
            readings.compare(&lists, &text, true)?;
        }
        let alphabet = String::from_utf8_lossy(family.alphabet);
        readings.show(&format!("texts, all up to {} bytes of '{alphabet}'", family.longest));
    }
    Ok(())
}

fn largest() -> Result<(), String> {
    let mut readings = Readings::default();
    for (lists, texts) in [largest::names(), largest::nodes()] {
        let mut held = lists;
        for text in texts {
            held = readings.compare(&held, text.as_bytes(), true)?;
        }
    }
    readings.show("texts at the ends of the largest lists");
    Ok(())
}
