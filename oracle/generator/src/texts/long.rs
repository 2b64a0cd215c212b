//! Texts near 8,192 bytes, most of them of exactly 8,191, 8,192 or 8,193.

use super::formula;
use crate::random::Random;

/// The most bytes of 02.
const BYTES: usize = 8_192;

pub fn text(random: &mut Random) -> Vec<u8> {
    let length = random.pick(&[BYTES - 1, BYTES, BYTES + 1, BYTES, BYTES / 2]);
    match random.below(10) {
        0 => repeated(b"x+", b"x", length),
        1 => repeated(b"(", b"x", length),
        2 => repeated(b"-", b"x", length),
        3 => repeated(b"x^", b"x", length),
        4 => [b"(".repeat(length / 2), b"x".to_vec(), b")".repeat(length - length / 2 - 1)].concat(),
        5 => vec![b' '; length],
        6 => numbered_names(random, length),
        _ => joined_formulas(random, length),
    }
}

/// A part as often as it goes, blanks, and the last part.
fn repeated(part: &[u8], last: &[u8], length: usize) -> Vec<u8> {
    let mut text = part.repeat((length - last.len()) / part.len());
    text.resize(length - last.len(), b' ');
    [&text, last].concat()
}

/// Hundreds of names, each a new one.
fn numbered_names(random: &mut Random, length: usize) -> Vec<u8> {
    let mut text = b"n".to_vec();
    for number in 0.. {
        let part = format!("{}n{number}", random.pick(&["+", "-", "*", "/"]));
        if text.len() + part.len() > length {
            break;
        }
        text.extend(part.bytes());
    }
    text.resize(length, b' ');
    text
}

/// Formulas joined by signs, with blanks at the end.
fn joined_formulas(random: &mut Random, length: usize) -> Vec<u8> {
    let mut text = b"x".to_vec();
    loop {
        let part = formula::text(random, 20);
        if text.len() + 1 + part.len() > length {
            break;
        }
        text.push(random.pick(b"+-*/"));
        text.extend(part);
    }
    text.resize(length, b' ');
    text
}
