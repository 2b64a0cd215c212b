//! Texts nested near 64 deep, by brackets, minus factors, powers, or a mixture.

use crate::random::Random;

/// The most nesting of 02.
const NESTING: usize = 64;

#[derive(Clone, Copy, PartialEq, Eq)]
enum Way {
    Brackets,
    Minus,
    Power,
}

pub fn text(random: &mut Random) -> Vec<u8> {
    let depth = match random.below(8) {
        0..=2 => NESTING,
        3..=5 => NESTING + 1,
        6 => random.between(NESTING - 3, NESTING + 4),
        _ => random.between(1, 4 * NESTING),
    };
    let ways = random.pick(&[
        &[Way::Brackets][..],
        &[Way::Minus],
        &[Way::Power],
        &[Way::Brackets, Way::Minus],
        &[Way::Brackets, Way::Power],
        &[Way::Brackets, Way::Minus, Way::Power],
        &[Way::Brackets, Way::Minus, Way::Power],
    ]);
    let siblings = random.once_in(2);
    nested(random, depth, ways, siblings)
}

/// A text nested so deep, with small parts beside the nested ones if `siblings`.
fn nested(random: &mut Random, depth: usize, ways: &[Way], siblings: bool) -> Vec<u8> {
    let mut text = Vec::new();
    let mut closing = Vec::new();
    let mut last = Way::Brackets;
    for _ in 0..depth {
        if siblings && last == Way::Brackets && random.once_in(4) {
            text.extend(random.pick(&[&b"a+"[..], b"2*", b"-b-", b"(c)/", b"x^y*"]));
        }
        let mut way = random.pick(ways);
        if last == Way::Minus && way == Way::Power {
            // A ^ would end the minus factor.
            way = random.pick(&[Way::Minus, Way::Brackets]);
        }
        match way {
            Way::Brackets => {
                text.push(b'(');
                closing.push(if siblings && random.once_in(4) { &b")*x"[..] } else { b")" });
            }
            Way::Minus => text.push(b'-'),
            Way::Power => text.extend(random.pick(&[&b"x^"[..], b"2 ^ ", b"-y^", b"(z)^"])),
        }
        last = way;
    }
    text.extend(random.pick(&[&b"x"[..], b"1", b"#7FF8000000000000"]));
    text.extend(closing.concat());
    text
}
