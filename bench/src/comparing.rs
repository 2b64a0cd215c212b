//! Prunes of random sums, compared with the Rust's: the answers and all nodes, and beside them the counts of terms kept and dropped, and that
//! the store is sound after each.

use crate::inputs::{Numbers, VARIABLES, product, variables};
use crate::ours::{Ours, TOO_MANY_TERMS};
use crate::store::Store;
use crate::theirs::unchanged;

const MOST_OTHERS: u64 = 27_000;
const MOST_TERMS: u64 = 3_000;
/// Some chains have more terms than a prune takes.
const MOST_SUMS: u64 = 4_200;
const PRUNED_AT_MOST: usize = 4_096;
/// Every so many sums one may be pruned, and the last.
const BETWEEN: u64 = 997;
const PRUNES: u32 = 3;
const THRESHOLDS: [f64; 6] = [0.0, 0.25, 0.5, 0.9, 1.0, 1.5];
const ADD: u8 = 0;
const REORDERABLE: u8 = 3;

/// Where the sum so far stands in the next: first, last, either, or anywhere in Adds of one to four children.
#[derive(Clone, Copy)]
enum Style {
    Left,
    Right,
    Either,
    Mixed,
}

const STYLES: [Style; 4] = [Style::Left, Style::Right, Style::Either, Style::Mixed];

fn any<T: Copy>(numbers: &mut Numbers, of: &[T]) -> T {
    of[numbers.below(of.len() as u64) as usize]
}

/// A term and its magnitude: a constant, a product or a variable.
fn term(store: &mut impl Store, numbers: &mut Numbers, variables: &[u32]) -> (u32, f64) {
    let number = numbers.below(4_096) as u32;
    let value = f64::from(number) / 4_096.0;
    match numbers.below(3) {
        0 => (store.constant(value), value),
        1 => (product(store, variables, number), 1.0),
        _ => (variables[(number % VARIABLES) as usize], 1.0),
    }
}

/// Sums of random terms, each over the last, in a store with other nodes.
#[derive(Debug, Default, PartialEq)]
struct Sums {
    /// The ids of those that may be pruned, and how many terms each has.
    roots: Vec<(u32, usize)>,
    /// The magnitudes of the terms: a sum has the first ones.
    magnitudes: Vec<f64>,
}

impl Sums {
    fn build(store: &mut impl Store, numbers: &mut Numbers) -> Self {
        for number in 0..numbers.below(MOST_OTHERS) {
            store.constant(1e6 + number as f64);
        }
        let variables = variables(store);
        let terms: Vec<_> = (0..=numbers.below(MOST_TERMS)).map(|_| term(store, numbers, &variables)).collect();
        let style = any(numbers, &STYLES);
        let (mut sum, magnitude) = terms[0];
        let mut sums = Self { magnitudes: vec![magnitude], ..Self::default() };
        let last = numbers.below(MOST_SUMS);
        for step in 0..=last {
            sum = sums.next(store, numbers, style, &terms, sum);
            if step % BETWEEN == BETWEEN - 1 || step == last {
                sums.roots.push((sum, sums.magnitudes.len()));
            }
        }
        sums
    }

    /// The next sum over the sum so far.
    fn next(&mut self, store: &mut impl Store, numbers: &mut Numbers, style: Style, terms: &[(u32, f64)], sum: u32) -> u32 {
        let ((a, size_of_a), (b, size_of_b)) = (any(numbers, terms), any(numbers, terms));
        let style = if let Style::Either = style { any(numbers, &[Style::Left, Style::Right]) } else { style };
        let (children, magnitudes): (&[u32], &[f64]) = match (style, numbers.below(6)) {
            (Style::Mixed, 0) => (&[sum], &[]),
            (Style::Mixed, 1) => (&[sum, a, b], &[size_of_a, size_of_b]),
            (Style::Mixed, 2) => (&[a, b, sum, a], &[size_of_a, size_of_b, size_of_a]),
            (Style::Mixed, 3) | (Style::Right, _) => (&[a, sum], &[size_of_a]),
            _ => (&[sum, a], &[size_of_a]),
        };
        self.magnitudes.extend(magnitudes);
        store.operator(ADD, REORDERABLE, children)
    }
}

/// As many stores as `many` says, each with some prunes. What the port refuses has too many terms.
pub fn compare(first: u64, many: u64) {
    let mut ours = Ours::new();
    let (mut equal, mut refused) = (0, 0);
    for seed in first..first + many {
        let mut theirs = unchanged::Theirs::new();
        ours.clear();
        let sums = Sums::build(&mut ours, &mut Numbers::new(seed));
        assert_eq!(sums, Sums::build(&mut theirs, &mut Numbers::new(seed)), "seed {seed}");
        let numbers = &mut Numbers::new(!seed);
        for _ in 0..PRUNES {
            let ((root, terms), threshold) = (any(numbers, &sums.roots), any(numbers, &THRESHOLDS));
            let keeps = sums.magnitudes[..terms].iter().filter(|&&magnitude| magnitude >= threshold).count();
            match ours.try_prune(root, threshold) {
                Ok((id, kept, dropped)) => {
                    assert_eq!(id, theirs.prune(root, threshold), "seed {seed}");
                    assert_eq!([kept, dropped], [keeps as u64, (terms - keeps) as u64], "seed {seed}");
                    equal += 1;
                }
                Err(refusal) => {
                    assert!(refusal == TOO_MANY_TERMS && terms > PRUNED_AT_MOST, "seed {seed}: refused by {refusal}");
                    refused += 1;
                }
            }
            assert!(ours.audit(), "seed {seed}");
        }
        assert_eq!(ours.nodes(), theirs.nodes(), "seed {seed}");
    }
    println!("{many} stores: {equal} prunes equal, {refused} refused by {TOO_MANY_TERMS}");
}
