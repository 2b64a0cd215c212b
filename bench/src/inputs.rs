//! The inputs, made the same for both sides: requests to intern, and formulas.

use crate::store::Store;

/// A small generator of numbers (xorshift64*), so that every run has the same inputs.
pub struct Numbers(u64);

impl Numbers {
    pub fn new(seed: u64) -> Self {
        Self(seed.wrapping_mul(0x9E37_79B9_7F4A_7C15) | 1)
    }

    pub fn below(&mut self, end: u64) -> u64 {
        self.0 ^= self.0 >> 12;
        self.0 ^= self.0 << 25;
        self.0 ^= self.0 >> 27;
        (self.0.wrapping_mul(0x2545_F491_4F6C_DD1D) >> 32) % end
    }

    /// A coefficient in steps of 1/1024, as attendants set them, and not 0 or 1.
    pub fn coefficient(&mut self) -> f64 {
        (self.below(60_000) as f64 + 1_025.0) / 1_024.0
    }
}

/// A node to be interned.
#[derive(Clone, PartialEq, Eq, Hash)]
pub struct Request {
    pub kind: u64,
    pub payload: u64,
    pub flags: u64,
    pub places: [u32; 2],
    pub many: usize,
}

impl Request {
    pub fn operands(&self) -> &[u32] {
        &self.places[..self.many]
    }
}

/// Variables that stand in a store before the requests.
pub const VARIABLES: u32 = 64;

fn random_request(numbers: &mut Numbers, count: u32) -> Request {
    let mut id = || numbers.below(u64::from(count)) as u32;
    let (a, b) = (id(), id());
    match numbers.below(10) {
        0 | 1 => Request { kind: 1, payload: (numbers.below(1 << 40) as f64 / 1_024.0).to_bits(), flags: 0, places: [0; 2], many: 0 },
        2..=4 => Request { kind: 2, payload: 0, flags: 3, places: [a, b], many: 2 },
        5..=7 => Request { kind: 4, payload: 0, flags: 3, places: [a, b], many: 2 },
        8 => Request { kind: 3, payload: 0, flags: 0, places: [a, b], many: 2 },
        _ => Request { kind: 8, payload: 0, flags: 0, places: [a, 0], many: 1 },
    }
}

/// As many requests for new nodes as `distinct` says, and as many that repeat an earlier one, over variables 0 to 63.
pub fn requests(distinct: u32, seed: u64) -> Vec<Request> {
    let mut numbers = Numbers::new(seed);
    let mut known = std::collections::HashSet::new();
    let mut made: Vec<Request> = Vec::new();
    let mut count = VARIABLES;
    while made.len() < 2 * distinct as usize {
        let repeat = made.len() % 2 == 1;
        if repeat {
            let earlier = numbers.below(made.len() as u64) as usize;
            made.push(made[earlier].clone());
            continue;
        }
        let request = random_request(&mut numbers, count);
        if known.insert(request.clone()) {
            made.push(request);
            count += 1;
        }
    }
    made
}

pub fn variables(store: &mut impl Store) -> Vec<u32> {
    (0..VARIABLES).map(|number| store.variable(number)).collect()
}

/// A formula, built the same in every store.
pub trait Formula {
    fn build(&self, store: &mut impl Store) -> u32;
}

/// A sum of items, half of which merge constants and half of which fold to one: every node of it changes.
pub struct Changing {
    pub items: u32,
}

impl Formula for Changing {
    fn build(&self, store: &mut impl Store) -> u32 {
        let mut numbers = Numbers::new(u64::from(self.items));
        let variables = variables(store);
        let mut terms = Vec::new();
        for item in 0..self.items {
            let x = variables[numbers.below(u64::from(VARIABLES)) as usize];
            let [a, b, c, d] = [(); 4].map(|()| store.constant(numbers.coefficient()));
            terms.push(if item % 2 == 0 { merging(store, x, [a, b, c, d]) } else { folding(store, [a, b, c, d]) });
        }
        store.balanced(&terms)
    }
}

/// `(a * x) * b + ((x + c) + d)`
fn merging(store: &mut impl Store, x: u32, [a, b, c, d]: [u32; 4]) -> u32 {
    let (product, sum) = (store.mul(a, x), store.add(x, c));
    let (product, sum) = (store.mul(product, b), store.add(sum, d));
    store.add(product, sum)
}

/// `(a + b) * (c - d)`
fn folding(store: &mut impl Store, [a, b, c, d]: [u32; 4]) -> u32 {
    let (sum, difference) = (store.add(a, b), store.sub(c, d));
    store.mul(sum, difference)
}

/// A sum of items `x * y - (-(x * y))`, of which nothing changes and nothing is interned.
pub struct Settled {
    pub items: u32,
}

impl Formula for Settled {
    fn build(&self, store: &mut impl Store) -> u32 {
        let variables = variables(store);
        let mut terms = Vec::new();
        for item in 0..self.items {
            let product = product(store, &variables, item);
            let opposite = store.neg(product);
            terms.push(store.sub(product, opposite));
        }
        store.balanced(&terms)
    }
}

/// One product of two variables for each number below 4,096.
pub fn product(store: &mut impl Store, variables: &[u32], number: u32) -> u32 {
    let (x, y) = (number % VARIABLES, number / VARIABLES % VARIABLES);
    store.mul(variables[x as usize], variables[y as usize])
}

/// Constants that no chain has.
fn other_constants(store: &mut impl Store, many: u32) {
    for number in 0..many {
        store.constant(1e6 + f64::from(number));
    }
}

/// The threshold of the prunes, which half of a chain's terms fall below.
pub const THRESHOLD: f64 = 0.5;

/// The side on which a chain's sums stand.
#[derive(Clone, Copy)]
pub enum Side {
    Left,
    Right,
}

/// A chain of terms, by turns a constant below the threshold and a product, in a store with other nodes.
pub struct Chain {
    pub terms: u32,
    pub others: u32,
    pub side: Side,
}

impl Chain {
    /// A term that is a constant below the threshold, or one that is kept.
    fn term(store: &mut impl Store, variables: &[u32], number: u32) -> u32 {
        if number % 2 == 0 {
            store.constant(f64::from(number + 1) / 65_536.0 * THRESHOLD)
        } else {
            product(store, variables, number)
        }
    }
}

impl Formula for Chain {
    fn build(&self, store: &mut impl Store) -> u32 {
        other_constants(store, self.others);
        let variables = variables(store);
        let mut sum = None;
        for number in 0..self.terms {
            let term = Self::term(store, &variables, number);
            sum = Some(match (sum, self.side) {
                (None, _) => term,
                (Some(sum), Side::Left) => store.add(sum, term),
                (Some(sum), Side::Right) => store.add(term, sum),
            });
        }
        sum.expect("a chain has a term")
    }
}

/// A chain of terms at random, in a store with other nodes: constants on both sides of the threshold and products, some of them more than once.
pub struct Mixed {
    pub terms: u32,
    pub others: u32,
}

impl Formula for Mixed {
    fn build(&self, store: &mut impl Store) -> u32 {
        other_constants(store, self.others);
        let variables = variables(store);
        let mut numbers = Numbers::new(u64::from(self.terms + self.others));
        let mut sum = None;
        for _ in 0..self.terms {
            let number = numbers.below(4_096) as u32;
            let term = match numbers.below(2) {
                0 => store.constant(f64::from(number) / 4_096.0),
                _ => product(store, &variables, number),
            };
            sum = Some(sum.map_or(term, |sum| store.add(sum, term)));
        }
        sum.expect("a chain has a term")
    }
}
