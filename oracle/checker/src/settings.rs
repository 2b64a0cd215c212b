//! What a setting asks of a prune (02 a, m): nothing from 0 to 19, then a
//! threshold, the binary64 number nearest 10^((3n-800)/200). A first guess by the
//! host's power function is moved by comparing 200th powers of whole numbers.

use std::cmp::Ordering;

use crate::natural::Natural;

/// The first setting that has a threshold.
pub const PRUNING_MINIMUM: u64 = 20;
pub const SETTING_MAXIMUM: u64 = 200;
/// The power to which both sides are raised to be whole.
const ROOT: u32 = 200;
/// Setting n stands for the number 10^((SLOPE·n - OFFSET) / ROOT).
const SLOPE: u64 = 3;
const OFFSET: u64 = 800;
/// The bits of a binary64 number's fraction.
const FRACTION_BITS: u32 = 52;
/// Bits of the number 2^k are (k + EXPONENT_BIAS) shifted by the fraction.
const EXPONENT_BIAS: u64 = 1_023;

#[derive(Clone, Copy, Debug, PartialEq)]
pub enum Setting {
    /// The root is answered itself, 1 kept and 0 dropped.
    Untouched,
    Threshold(f64),
}

/// A setting from 0 to 200; any other is refused with 8.
pub fn meaning_of_setting(setting: u64) -> Option<Setting> {
    match setting {
        0..PRUNING_MINIMUM => Some(Setting::Untouched),
        PRUNING_MINIMUM..=SETTING_MAXIMUM => Some(Setting::Threshold(threshold(setting))),
        _ => None,
    }
}

/// The threshold of a setting from 20 to 200.
fn threshold(setting: u64) -> f64 {
    let tenths = (OFFSET - SLOPE * setting) as u32;
    let mut bits = 10_f64.powf(-f64::from(tenths) / f64::from(ROOT)).to_bits();
    while midpoint_above(bits - 1, tenths) == Ordering::Greater {
        bits -= 1;
    }
    while midpoint_above(bits, tenths) == Ordering::Less {
        bits += 1;
    }
    f64::from_bits(bits)
}

/// How the midpoint of the number with these bits and the next one compares
/// with 10^(-tenths/200), by the 200th powers of both.
///
/// The number is m·2^-k with m of 53 bits, so that the midpoint is
/// (2m+1)·2^-(k+1); its power times 10^tenths is compared with 2^(200·(k+1)).
fn midpoint_above(bits: u64, tenths: u32) -> Ordering {
    let mantissa = bits & ((1 << FRACTION_BITS) - 1) | 1 << FRACTION_BITS;
    let scale = EXPONENT_BIAS + u64::from(FRACTION_BITS) - (bits >> FRACTION_BITS);
    let power = Natural::new(2 * mantissa + 1).to_the_power(ROOT);
    let scaled = power.times(&Natural::new(10).to_the_power(tenths));
    scaled.compare(&Natural::power_of_two(ROOT as usize * (scale as usize + 1)))
}
