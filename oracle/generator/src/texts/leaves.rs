//! Names and numbers, and those at the limits of their lengths.

use crate::constants;
use crate::random::Random;

/// The lengths of 02: of names, of whole numbers and of bits.
const NAME_BYTES: usize = 32;
const WHOLE_DIGITS: usize = 9;
const BITS_DIGITS: usize = 16;

const LETTERS: &[u8] = b"abcdefghijklmnopqrstuvwxyzABCDEFGHIJKLMNOPQRSTUVWXYZ";
const DIGITS: &[u8] = b"0123456789";
const INFINITY: u64 = 0x7FF0_0000_0000_0000;
const SIGN: u64 = 1 << 63;

/// The few leaves that one text draws from, so that names and nodes come up again.
pub struct Leaves {
    leaves: Vec<Vec<u8>>,
}

impl Leaves {
    pub fn new(random: &mut Random) -> Leaves {
        Leaves { leaves: (0..random.between(1, 6)).map(|_| leaf(random)).collect() }
    }

    pub fn pick(&self, random: &mut Random) -> Vec<u8> {
        if random.once_in(16) { leaf(random) } else { self.leaves[random.below(self.leaves.len())].clone() }
    }
}

fn leaf(random: &mut Random) -> Vec<u8> {
    match random.below(16) {
        0..=5 => random.pick(&[&b"x"[..], b"y", b"flow", b"t1", b"T1", b"e9", b"A"]).to_vec(),
        6 | 7 => name(random, 3),
        8 => name(random, NAME_BYTES),
        9..=12 => random.pick(&[&b"0"[..], b"1", b"2", b"3", b"007", b"10", b"00"]).to_vec(),
        13 => digits(random, WHOLE_DIGITS),
        14 => bits(random, constants::special),
        _ => bits(random, number),
    }
}

/// A name of at most so many bytes.
fn name(random: &mut Random, most: usize) -> Vec<u8> {
    let length = random.between(1, most);
    name_of_length(random, length)
}

fn name_of_length(random: &mut Random, length: usize) -> Vec<u8> {
    let mut name = vec![random.pick(LETTERS)];
    name.resize_with(length, || {
        let bytes = if random.once_in(3) { DIGITS } else { LETTERS };
        random.pick(bytes)
    });
    name
}

/// At most so many digits.
fn digits(random: &mut Random, most: usize) -> Vec<u8> {
    let length = random.between(1, most);
    (0..length).map(|_| random.pick(DIGITS)).collect()
}

/// Constants that are no NaN.
fn number(random: &mut Random) -> u64 {
    let bits = constants::any(random);
    if f64::from_bits(bits).is_nan() { bits & (SIGN | INFINITY) } else { bits }
}

fn bits(random: &mut Random, constant: fn(&mut Random) -> u64) -> Vec<u8> {
    let bits = constant(random);
    in_hex(random, bits)
}

/// The sign # and 16 hex digits, each of either case.
fn in_hex(random: &mut Random, bits: u64) -> Vec<u8> {
    let case = random.below(3);
    let mut text = format!("#{bits:016x}").into_bytes();
    for digit in &mut text {
        if case == 0 || case == 1 && random.once_in(2) {
            digit.make_ascii_uppercase();
        }
    }
    text
}

/// A leaf just within or just past a limit, alone or in a small sum.
pub fn near_a_limit(random: &mut Random) -> Vec<u8> {
    let leaf = match random.below(5) {
        0 => {
            let length = random.between(NAME_BYTES - 1, NAME_BYTES + 1);
            name_of_length(random, length)
        }
        1 => {
            let length = random.between(WHOLE_DIGITS - 1, WHOLE_DIGITS + 1);
            (0..length).map(|_| random.pick(DIGITS)).collect()
        }
        2 => {
            let mut text = bits(random, number);
            text.truncate(1 + random.between(BITS_DIGITS - 2, BITS_DIGITS));
            text.resize(1 + random.between(text.len() - 1, BITS_DIGITS + 1), random.pick(b"0fA9g "));
            text
        }
        3 => {
            // At the ends of the NaNs, of either sign.
            let sign = random.pick(&[0, SIGN]);
            let bits = random.pick(&[INFINITY - 1, INFINITY, INFINITY + 1, SIGN - 1, INFINITY | 1 << 51]);
            in_hex(random, sign | bits)
        }
        _ => vec![random.pick(b"\t\n\r\0\x1f\x21\xa0\xff`{@[/:._,%&")],
    };
    match random.below(4) {
        0 => leaf,
        1 => [&leaf[..], b"+x"].concat(),
        2 => [b"y*", &leaf[..]].concat(),
        _ => [b"(2-", &leaf[..], b" ) ^ z"].concat(),
    }
}
