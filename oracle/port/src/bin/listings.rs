//! Sheets through the port's C interface: the listing beside the checker's, the store beside the listing, and the listing
//! read back; and damaged listings, which are refused at their first wrong or missing line or are listings of other nodes.
//!
//! usage: listings [SEED] [COUNT]

use std::process::ExitCode;

use checker::WORDS_PER_NODE;
use generator::{Mode, Random, sheet};
use port::sheets::{FirstLine, Reading, list, read, run_fresh};

/// The listing program's store (01).
const WORDS: usize = 512 * WORDS_PER_NODE;
const SLOTS: usize = 1_024;
/// The lines of a listing are counted from 1; that of node 0 is the second.
const FIRST_NODE_LINE: usize = 2;
const MODES: [Mode; 4] = [Mode::Domain, Mode::Any, Mode::Damaged, Mode::Limits];

#[derive(Default)]
struct Tally {
    nodes: u64,
    damaged: u64,
    refused: u64,
}

fn main() -> ExitCode {
    let mut arguments = std::env::args().skip(1).map(|word| word.parse::<u64>().expect("a number"));
    let seed = arguments.next().unwrap_or(1);
    let count = arguments.next().unwrap_or(100_000);
    let mut tally = Tally::default();
    for number in 0..count {
        if let Err(difference) = case(seed, number, &mut tally) {
            println!("seed {seed} sheet {number}: {difference}");
            return ExitCode::FAILURE;
        }
    }
    let Tally { nodes, damaged, refused } = tally;
    println!("{count} sheets, {nodes} nodes, {damaged} damaged listings of which {refused} were refused, no difference");
    ExitCode::SUCCESS
}

fn case(seed: u64, number: u64, tally: &mut Tally) -> Result<(), String> {
    let mut random = Random::new(seed, number);
    let bytes = sheet(MODES[number as usize % MODES.len()], seed, number);
    let listing = list(&bytes);
    let expected = checker::answer(&bytes, false);
    same("listing", &listing, &expected)?;
    let words = (0..WORDS).map(|_| random.next()).collect();
    let slots = (0..SLOTS).map(|_| random.next() as u32).collect();
    let (store, first) = run_fresh(&bytes, words, slots);
    let used = store.node_count as usize * WORDS_PER_NODE;
    let stands = Reading::Read(first, store.words[..used].to_vec());
    same("listing read back", &read(&listing, WORDS), &stands)?;
    if used > 0 {
        same("listing read into too few words", &read(&listing, used - 1), &Reading::Full)?;
    }
    tally.nodes += store.node_count;
    for _ in 0..4 {
        damaged(&mut random, listing.clone(), tally)?;
    }
    Ok(())
}

fn same<T: PartialEq + std::fmt::Debug>(what: &str, ours: &T, expected: &T) -> Result<(), String> {
    if ours == expected { Ok(()) } else { Err(format!("{what}: {ours:?}, expected {expected:?}")) }
}

/// A listing with a byte changed, taken out or put in, or cut at a line's end: what is read must be what stands there, with an
/// answer among its nodes, and a refused line must be the first wrong one.
fn damaged(random: &mut Random, mut bytes: Vec<u8>, tally: &mut Tally) -> Result<(), String> {
    let at = random.below(bytes.len());
    let byte = random.pick(b"0123456789AFaf -\nokspentrefusedat\0\xff");
    match random.below(4) {
        0 => bytes[at] = byte,
        1 => drop(bytes.remove(at)),
        2 => bytes.insert(at, byte),
        _ => bytes.truncate(line_end(&bytes, at)),
    }
    tally.damaged += 1;
    let text = String::from_utf8_lossy(&bytes).into_owned();
    let shown = |error: String| format!("{error}\n{text}");
    match read(&bytes, WORDS + WORDS_PER_NODE) {
        Reading::Read(first, words) => {
            let count = words.len() / WORDS_PER_NODE;
            same("answer is a node", &first.is_listed(count), &true).map_err(shown)?;
            same("listing of what was read", &written(first, &words), &bytes).map_err(shown)
        }
        Reading::Wrong(line) => {
            tally.refused += 1;
            wrong_line(&bytes, line as usize).map_err(shown)
        }
        Reading::Full => Err(shown("too few words".to_string())),
    }
}

/// The place after the line that a byte is in.
fn line_end(bytes: &[u8], at: usize) -> usize {
    bytes[at..].iter().position(|byte| *byte == b'\n').map_or(bytes.len(), |further| at + further + 1)
}

/// The first line is wrong only if it says nothing. The lines before a later one are read, without regard to an answer that is
/// none of their nodes; and with it they are not, or it is missing and the answer is none of their nodes.
fn wrong_line(bytes: &[u8], line: usize) -> Result<(), String> {
    let lines: Vec<&[u8]> = bytes.split_inclusive(|byte| *byte == b'\n').collect();
    if line == 0 || line > lines.len() + 1 {
        return Err(format!("line {line} is refused of {}", lines.len()));
    }
    let first = lines.first().and_then(|text| std::str::from_utf8(text).ok()).and_then(FirstLine::of_text);
    let (Some(first), 2..) = (first, line) else {
        return same("the first line is refused", &(first, line), &(None, 1));
    };
    let before = [b"ok -\n", &lines[1..line - 1].concat()[..]].concat();
    let read_before = read(&before, WORDS + WORDS_PER_NODE);
    let Reading::Read(..) = read_before else {
        return Err(format!("line {line} is refused, but the lines before it give {read_before:?}"));
    };
    let Some(it) = lines.get(line - 1) else {
        let is_listed = first.is_listed(line - FIRST_NODE_LINE);
        return same("the answer of a listing cut short is a node", &is_listed, &false);
    };
    let with_it = [&before[..], it].concat();
    same("the refused line by itself", &read(&with_it, WORDS + WORDS_PER_NODE), &Reading::Wrong(line as u64))
}

/// The listing of a first line and nodes, by this program.
fn written(first: FirstLine, words: &[u64]) -> Vec<u8> {
    let mut text = first.text();
    for (id, node) in words.chunks(WORDS_PER_NODE).enumerate() {
        text += &format!("{id} {} {:016X} {}", node[0], node[1], node[4]);
        for child in &node[6..6 + node[5] as usize] {
            text += &format!(" {child}");
        }
        text.push('\n');
    }
    text.into_bytes()
}
