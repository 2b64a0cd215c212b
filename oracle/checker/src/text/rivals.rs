//! Texts with fewer brackets, found by trying every place for them.

use super::reader::steps_of;

/// A text with fewer bracket pairs that asks for the same as this one, if
/// there is any. Its other bytes are those of this one, in their order: every
/// text of a formula has the formula's leaves and signs in this order. For
/// short texts with few brackets.
pub fn rival_with_fewer_brackets(text: &[u8]) -> Option<Vec<u8>> {
    let bare: Vec<u8> = text.iter().copied().filter(|byte| !is_bracket(*byte)).collect();
    let pairs = (text.len() - bare.len()) / 2;
    let steps = steps_of(text).ok();
    let parts = parts(&bare);
    (0..pairs).find_map(|fewer| {
        let places = choices(fewer, parts.len() + 1);
        let rivals = places.iter().flat_map(|opens| places.iter().map(|closes| with_brackets(&parts, opens, closes)));
        rivals.into_iter().find(|rival| steps_of(rival).ok() == steps)
    })
}

fn is_bracket(byte: u8) -> bool {
    byte == b'(' || byte == b')'
}

/// Cuts a text without blanks and brackets into numbers, names and signs.
fn parts(bare: &[u8]) -> Vec<&[u8]> {
    let is_inside = |byte: &u8| byte.is_ascii_alphanumeric() || *byte == b'#';
    bare.chunk_by(|left, right| is_inside(left) && is_inside(right)).collect()
}

/// All choices of so many places, with places taken again, in rising order.
fn choices(count: usize, places: usize) -> Vec<Vec<usize>> {
    let mut all: Vec<Vec<usize>> = vec![Vec::new()];
    for _ in 0..count {
        all = all
            .iter()
            .flat_map(|chosen| {
                let first = chosen.last().copied().unwrap_or(0);
                (first..places).map(move |place| [&chosen[..], &[place]].concat())
            })
            .collect();
    }
    all
}

/// The parts with closing brackets, then opening ones, before those with the chosen places.
fn with_brackets(parts: &[&[u8]], opens: &[usize], closes: &[usize]) -> Vec<u8> {
    let mut text = Vec::new();
    for place in 0..=parts.len() {
        let times = |chosen: &[usize]| chosen.iter().filter(|one| **one == place).count();
        text.extend(b")".repeat(times(closes)));
        text.extend(b"(".repeat(times(opens)));
        text.extend(parts.get(place).copied().unwrap_or_default());
    }
    text
}
