//! vectors FOLDER [DRIVER]: writes the fixed sample of sheets to FOLDER/stdin
//! and their listings to FOLDER/stdout, each in a frame.
//!
//! The checker gives the listings; the driver, if there is one, must give the
//! same for every sheet that is inside the domain.

use std::fs::File;
use std::io::{self, BufWriter, Write};
use std::path::Path;
use std::process::ExitCode;

use checker::{answer, outside, run};
use generator::{Mode, examples, sheet};

const SEED: u64 = 20_261;
/// Sheets behind the first example: no byte, and no record.
const SHORTEST: [&[u8]; 2] = [b"", b"\x01"];
/// Groups after the examples: mode, sheets, and the most bytes of a sheet
/// with its listing.
const GROUPS: [(Mode, usize, usize); 5] = [
    (Mode::Domain, 1_300, 1_000),
    (Mode::Any, 400, 1_000),
    (Mode::Damaged, 1_000, 800),
    (Mode::Limits, 30, 25_000),
    (Mode::Strict, 200, 800),
];

fn main() -> ExitCode {
    let arguments: Vec<String> = std::env::args().skip(1).collect();
    let (folder, driver) = match &arguments[..] {
        [folder] => (folder, None),
        [folder, driver] => (folder, Some(driver)),
        _ => {
            eprintln!("usage: vectors FOLDER [DRIVER]");
            return ExitCode::FAILURE;
        }
    };
    let sheets = sample();
    if let Some(driver) = driver
        && !driver_agrees(driver, &sheets)
    {
        return ExitCode::FAILURE;
    }
    if let Err(error) = write_files(Path::new(folder), &sheets) {
        eprintln!("{folder}: {error}");
        return ExitCode::FAILURE;
    }
    println!("sheets: {}", sheets.len());
    ExitCode::SUCCESS
}

/// The first example and the shortest sheets, all examples, then the groups.
fn sample() -> Vec<Vec<u8>> {
    let examples = examples();
    let mut sheets = vec![examples[0].clone()];
    sheets.extend(SHORTEST.map(<[u8]>::to_vec));
    sheets.extend(examples);
    for (mode, count, bytes_maximum) in GROUPS {
        let fits = |sheet: &Vec<u8>| sheet.len() + answer(sheet, false).len() <= bytes_maximum;
        sheets.extend((0..).map(|number| sheet(mode, SEED, number)).filter(fits).take(count));
    }
    sheets
}

/// The sheets and their listings.
fn write_files(folder: &Path, sheets: &[Vec<u8>]) -> io::Result<()> {
    let listings: Vec<Vec<u8>> = sheets.iter().map(|sheet| answer(sheet, false)).collect();
    write_frames(&folder.join("stdin"), sheets)?;
    write_frames(&folder.join("stdout"), &listings)
}

/// A frame for each, one after the other.
fn write_frames(file: &Path, parts: &[Vec<u8>]) -> io::Result<()> {
    let mut output = BufWriter::new(File::create(file)?);
    for part in parts {
        batch::write_frame(&mut output, part)?;
    }
    output.flush()
}

/// Whether the driver gives the checker's listing for every sheet inside the
/// domain.
fn driver_agrees(driver: &str, sheets: &[Vec<u8>]) -> bool {
    let inside: Vec<Vec<u8>> = sheets.iter().filter(|sheet| outside(&run(sheet)).is_none()).cloned().collect();
    let answers = batch::answers(&format!("'{driver}' --batch"), &inside).unwrap_or_default();
    let expected: Vec<Vec<u8>> = inside.iter().map(|sheet| answer(sheet, false)).collect();
    if answers == expected {
        println!("inside the domain, as the Rust original lists them: {}", inside.len());
    } else {
        eprintln!("the Rust original differs from the checker; run compare");
    }
    answers == expected
}
