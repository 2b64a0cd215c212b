//! Texts with bytes changed, most of them outside the language.

use crate::random::Random;

/// Bytes that the language uses, and neighbours of those.
const BYTES: &[u8] = b"xyzAFag0129()()()+-*/^^--++  ##%.,_=!\t\n\0`{@[:\x7f\x80\xa0\xff";

pub fn change(random: &mut Random, text: &mut Vec<u8>) {
    let byte = random.pick(BYTES);
    let place = random.between(0, text.len());
    if place == text.len() {
        return text.push(byte);
    }
    match random.below(8) {
        0 => text[place] = byte,
        1 => text.insert(place, byte),
        2 => drop(text.remove(place)),
        3 => text.truncate(place),
        4 => text[place] ^= 1 << random.below(8),
        5 => {
            let other = random.below(text.len());
            text.swap(place, other);
        }
        6 => {
            let part = part(random, text, place);
            text.splice(place..place, part);
        }
        _ => {
            let length = part(random, text, place).len();
            text.drain(place..place + length);
        }
    }
}

/// A few bytes from a place on.
fn part(random: &mut Random, text: &[u8], place: usize) -> Vec<u8> {
    let most = (text.len() - place).min(12);
    text[place..][..random.between(1, most)].to_vec()
}

pub fn random_bytes(random: &mut Random) -> Vec<u8> {
    let length = random.below(24);
    let any_byte = random.once_in(4);
    (0..length).map(|_| if any_byte { random.next() as u8 } else { random.pick(BYTES) }).collect()
}
