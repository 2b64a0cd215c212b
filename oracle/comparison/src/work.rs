//! Generates sheets in chunks, has every program answer them, and compares.

use std::sync::Mutex;
use std::sync::atomic::{AtomicU64, AtomicUsize, Ordering};
use std::thread;

use crate::options::Options;
use crate::party::Party;
use crate::shrink::shrink;
use crate::tally::{Difference, Tally};

/// Sheets that one run of a program answers.
const CHUNK: u64 = 5_000;
/// Differences that are shrunk and printed.
const REPORTED_MAXIMUM: usize = 3;

pub fn compare(options: &Options) -> Tally {
    let parties = Party::all(options);
    let next = AtomicU64::new(0);
    let reported = AtomicUsize::new(0);
    let total = Mutex::new(Tally::default());
    thread::scope(|scope| {
        for _ in 0..options.threads {
            scope.spawn(|| {
                loop {
                    let start = next.fetch_add(CHUNK, Ordering::Relaxed);
                    if start >= options.count {
                        return;
                    }
                    let length = CHUNK.min(options.count - start);
                    let tally = chunk(options, &parties, options.from + start, length, &reported);
                    total.lock().unwrap().add(tally);
                }
            });
        }
    });
    total.into_inner().unwrap()
}

/// Compares the sheets with `length` numbers from `start` up.
fn chunk(options: &Options, parties: &[Party], start: u64, length: u64, reported: &AtomicUsize) -> Tally {
    let sheets: Vec<Vec<u8>> =
        (start..start + length).map(|number| generator::sheet(options.mode, options.seed, number)).collect();
    let mut tally = Tally::default();
    for (number, sheet) in (start..).zip(&sheets) {
        tally.count(sheet, number);
    }
    for difference in &tally.differences {
        if reported.fetch_add(1, Ordering::Relaxed) < REPORTED_MAXIMUM {
            println!("{}", difference.report());
        }
    }
    for party in parties {
        let differences = differences(party, &sheets, start);
        for difference in &differences {
            if reported.fetch_add(1, Ordering::Relaxed) >= REPORTED_MAXIMUM {
                break;
            }
            println!("{}\n{}", difference.report(), shrunk(party, difference).report());
        }
        tally.differences.extend(differences);
    }
    tally
}

/// The sheets that a program answers differently, up to the one at which it
/// stopped, if it did.
fn differences(party: &Party, sheets: &[Vec<u8>], start: u64) -> Vec<Difference> {
    let answers = party.answers(sheets).unwrap_or_else(|error| {
        eprintln!("{}: {error}", party.name);
        Vec::new()
    });
    let mut differences = Vec::new();
    for (number, sheet) in (start..).zip(sheets) {
        let answer = answers.get((number - start) as usize).cloned();
        let expected = party.expected(sheet);
        let stopped = answer.is_none();
        if answer.as_ref() != Some(&expected) {
            differences.push(Difference { party: party.name, number, sheet: sheet.clone(), expected, answer });
        }
        if stopped {
            break;
        }
    }
    differences
}

/// The same difference on a sheet with fewer records.
fn shrunk(party: &Party, difference: &Difference) -> Difference {
    let sheet = shrink(&difference.sheet, |sheet| party.differs(sheet));
    Difference {
        party: party.name,
        number: difference.number,
        expected: party.expected(&sheet),
        answer: party.answers(std::slice::from_ref(&sheet)).unwrap_or_default().pop(),
        sheet,
    }
}
