//! Random numbers, checks and counts, for all trials.

use std::process::exit;

/// What stands in unused memory before a call.
pub const UNTOUCHED_BYTE: u8 = 0xA5;
pub const UNTOUCHED_SLOT: u32 = 0xA5A5_A5A5;
pub const UNTOUCHED: u64 = 0xA5A5_A5A5_A5A5_A5A5;

const OUTCOMES: usize = 25;
const GROUP_NAMES: [&str; 6] =
    ["store calls", "name calls", "text calls", "write calls", "sheet calls", "listing calls"];
const MOST_DAMAGES: u64 = 3;

/// The groups of calls whose outcomes are counted.
#[derive(Clone, Copy)]
pub enum Group {
    StoreCalls,
    NameCalls,
    TextCalls,
    WriteCalls,
    SheetCalls,
    ListingCalls,
}

/// Random numbers, and how many calls there were of each outcome.
pub struct Trial {
    seed: u64,
    outcomes: [[u64; OUTCOMES]; GROUP_NAMES.len()],
}

impl Trial {
    pub fn new() -> Self {
        Self { seed: 0x9E37_79B9_7F4A_7C15, outcomes: [[0; OUTCOMES]; GROUP_NAMES.len()] }
    }

    /// The next random number below an end of at most 2^32, by the generator xorshift64*.
    pub fn below(&mut self, end: u64) -> u64 {
        self.seed ^= self.seed >> 12;
        self.seed ^= self.seed << 25;
        self.seed ^= self.seed >> 27;
        (self.seed.wrapping_mul(0x2545_F491_4F6C_DD1D) >> 32) % end
    }

    pub fn place(&mut self, length: usize) -> usize {
        self.below(length as u64) as usize
    }

    /// A small, a middle, a great or any number.
    pub fn any_word(&mut self) -> u64 {
        match self.below(4) {
            0 => self.below(4),
            1 => self.below(1 << 20),
            2 => u64::MAX - self.below(4),
            _ => self.below(u32::MAX.into()) << 32 | self.below(u32::MAX.into()),
        }
    }

    /// The length itself, or at random one up to it.
    pub fn cut_length(&mut self, length: usize) -> usize {
        if self.below(3) == 0 { self.place(length + 1) } else { length }
    }

    /// How often something is damaged.
    pub fn damages(&mut self) -> u64 {
        self.below(MOST_DAMAGES)
    }

    /// A copy of bytes, cut at a random place or not at all, with none to two bytes changed.
    pub fn damaged_bytes(&mut self, bytes: &[u8]) -> Box<[u8]> {
        let mut copy = block(&bytes[..self.cut_length(bytes.len())]);
        for _ in 0..self.damages() {
            self.damage_byte(&mut copy);
        }
        copy
    }

    pub fn damage_byte(&mut self, bytes: &mut [u8]) {
        if !bytes.is_empty() {
            let place = self.place(bytes.len());
            bytes[place] ^= 1 + self.below(u8::MAX.into()) as u8;
        }
    }

    /// Counts a call's outcome: 0, or the number of its refusal.
    pub fn count_outcome(&mut self, group: Group, returned: u64) {
        check(returned < OUTCOMES as u64, "a listed number");
        self.outcomes[group as usize][returned as usize] += 1;
    }

    pub fn print_outcomes(&self) {
        for (name, outcomes) in GROUP_NAMES.iter().zip(&self.outcomes) {
            for (returned, count) in outcomes.iter().enumerate().filter(|(_, count)| **count != 0) {
                println!("{name}, {returned}: {count}");
            }
        }
    }
}

/// Stops the program if a check fails.
pub fn check(holds: bool, what: &str) {
    if !holds {
        eprintln!("buffers: failed: {what}");
        exit(1);
    }
}

/// A copy in a block of exactly its length, so that valgrind sees any access outside.
pub fn block<T: Clone>(from: &[T]) -> Box<[T]> {
    from.to_vec().into_boxed_slice()
}

/// A block of one value.
pub fn filled_block<T: Clone>(value: T, length: usize) -> Box<[T]> {
    vec![value; length].into_boxed_slice()
}
