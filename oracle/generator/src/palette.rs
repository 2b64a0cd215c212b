//! The few leaves and numbers that one sheet draws from, so that equal nodes,
//! identities and merges come up often.

use crate::constants;
use crate::random::Random;
use crate::sheet::Sheet;

pub struct Palette {
    pub constants: Vec<u64>,
    pub symbols: Vec<u32>,
    pub functions: Vec<u32>,
}

impl Palette {
    pub fn new(random: &mut Random) -> Palette {
        let kind: fn(&mut Random) -> u64 =
            random.pick(&[constants::any, constants::in_steps, constants::special, constants::any]);
        let constants = (0..random.between(1, 6)).map(|_| kind(random)).collect();
        Palette { constants, symbols: numbers(random), functions: numbers(random) }
    }

    pub fn constant(&self, random: &mut Random) -> u64 {
        if random.once_in(8) { constants::special(random) } else { random.pick(&self.constants) }
    }

    /// Adds a variable or a constant.
    pub fn leaf(&self, random: &mut Random, sheet: &mut Sheet) -> u16 {
        if random.once_in(2) {
            sheet.variable(random.pick(&self.symbols))
        } else {
            sheet.constant_bits(self.constant(random))
        }
    }

    /// A threshold: an end, a magnitude that occurs or its neighbour, or any.
    pub fn threshold(&self, random: &mut Random) -> f64 {
        let magnitude = f64::from_bits(random.pick(&self.constants)).abs();
        let threshold = match random.below(12) {
            0 => 0.0,
            1 => 1.0,
            2 => random.pick(&[1.0_f64.next_up(), 1.0_f64.next_down(), f64::INFINITY, f64::from_bits(1)]),
            3..=5 => magnitude,
            6 => magnitude.next_up(),
            7 => magnitude.next_down().abs(),
            8 => random.pick(&[0.1, 0.01, 0.5, 0.001]),
            9 => f64::from_bits(constants::any(random)).abs(),
            _ => random.below(2_048) as f64 / 1_024.0,
        };
        if threshold.is_nan() { 0.0 } else { threshold }
    }
}

/// One to four symbol or function numbers, mostly small.
fn numbers(random: &mut Random) -> Vec<u32> {
    let count = random.between(1, 4) as u32;
    if random.once_in(8) { (0..count).map(|_| random.next() as u32).collect() } else { (0..count).collect() }
}
