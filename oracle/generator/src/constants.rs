//! Constants of all sizes, as bits.

use crate::random::Random;

const SIGN: u64 = 1 << 63;
const FRACTION: u64 = (1 << 52) - 1;
const FRACTION_BITS: u32 = 52;
/// The largest exponent field of a finite number.
const EXPONENT_MAXIMUM: usize = 2_046;

/// A constant of a kind that is itself picked.
pub fn any(random: &mut Random) -> u64 {
    match random.below(16) {
        0..=4 => in_steps(random),
        5 => (random.between(0, 8) as f64 - 4.0).to_bits(),
        6 | 7 => special(random),
        8 => random.pick(&[1.0_f64, -1.0, 2.0, 0.5]).to_bits(),
        9 => random.pick(&[0.01_f64, 0.02, 0.05, 0.1, 0.2, 0.3]).to_bits(),
        10 => of_exponent(random, 1, 100),
        11 => of_exponent(random, EXPONENT_MAXIMUM - 100, EXPONENT_MAXIMUM),
        12 => of_exponent(random, 0, 0),
        13 => of_exponent(random, 960, 1_090),
        14 => {
            if random.once_in(8) {
                not_a_number(random)
            } else {
                special(random)
            }
        }
        _ => random.next(),
    }
}

/// A multiple of 1/1024 of at most 4.
pub fn in_steps(random: &mut Random) -> u64 {
    ((random.between(0, 8_192) as f64 - 4_096.0) / 1_024.0).to_bits()
}

/// Zeros, ones and infinities.
pub fn special(random: &mut Random) -> u64 {
    random.pick(&[0.0, -0.0, 1.0, -1.0, f64::INFINITY, f64::NEG_INFINITY]).to_bits()
}

/// A NaN of any sign, mostly with a fraction of its own.
fn not_a_number(random: &mut Random) -> u64 {
    if random.once_in(3) { f64::NAN.to_bits() } else { random.next() | f64::INFINITY.to_bits() | 1 }
}

/// Any sign and fraction with an exponent field in these bounds.
fn of_exponent(random: &mut Random, low: usize, high: usize) -> u64 {
    let exponent = random.between(low, high) as u64;
    random.next() & (SIGN | FRACTION) | exponent << FRACTION_BITS
}
