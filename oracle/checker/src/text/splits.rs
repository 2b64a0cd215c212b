//! Every derivation of a text, found by trying all splits of its bytes. For
//! short texts: the time grows with the cube of the length.

use std::collections::HashMap;
use std::rc::Rc;

use super::derivation::Derivation;
use super::{BITS_DIGITS, BITS_SIGN, BLANK, WHOLE_DIGITS_MAXIMUM};
use crate::names::NAME_BYTES;
use crate::node::Operator;

const SUM_SIGNS: [(u8, Operator); 2] = [(b'+', Operator::Add), (b'-', Operator::Sub)];
const PRODUCT_SIGNS: [(u8, Operator); 2] = [(b'*', Operator::Mul), (b'/', Operator::Div)];
const POWER_SIGNS: [(u8, Operator); 1] = [(b'^', Operator::Pow)];

#[derive(Clone, Copy, Debug, PartialEq, Eq, Hash)]
enum Category {
    Sum,
    Product,
    Power,
    Factor,
}

type Found = Rc<Vec<Rc<Derivation>>>;

struct Splits<'a> {
    text: &'a [u8],
    known: HashMap<(Category, usize, usize), Found>,
}

/// All derivations of a text as a sum. A text of the language has one.
pub fn derivations(text: &[u8]) -> Vec<Rc<Derivation>> {
    Splits { text, known: HashMap::new() }.of(Category::Sum, 0, text.len()).to_vec()
}

impl Splits<'_> {
    /// The derivations of the bytes from `start` to `end`; blanks at the ends do not matter.
    fn of(&mut self, category: Category, mut start: usize, mut end: usize) -> Found {
        while start < end && self.text[start] == BLANK {
            start += 1;
        }
        while start < end && self.text[end - 1] == BLANK {
            end -= 1;
        }
        if start == end {
            return Found::default();
        }
        let key = (category, start, end);
        if let Some(found) = self.known.get(&key) {
            return found.clone();
        }
        let found = Rc::new(self.find(category, start, end));
        self.known.insert(key, found.clone());
        found
    }

    fn find(&mut self, category: Category, start: usize, end: usize) -> Vec<Rc<Derivation>> {
        use Category::{Factor, Power, Product, Sum};
        match category {
            // Products joined by + or -, grouped left.
            Sum => self.joined((start, end), &SUM_SIGNS, Sum, Product, Product),
            // Powers joined by * or /, grouped left.
            Product => self.joined((start, end), &PRODUCT_SIGNS, Product, Power, Power),
            // A factor with an optional ^ and power.
            Power => self.joined((start, end), &POWER_SIGNS, Factor, Power, Factor),
            Factor => self.factor(start, end),
        }
    }

    /// Derivations as the part `alone`, or as `left` and `right` with a sign between them.
    fn joined(
        &mut self,
        (start, end): (usize, usize),
        signs: &[(u8, Operator)],
        left: Category,
        right: Category,
        alone: Category,
    ) -> Vec<Rc<Derivation>> {
        let mut found = self.of(alone, start, end).to_vec();
        for place in start..end {
            for &(_, operator) in signs.iter().filter(|(sign, _)| self.text[place] == *sign) {
                let (lefts, rights) = (self.of(left, start, place), self.of(right, place + 1, end));
                for left in lefts.iter() {
                    for right in rights.iter() {
                        found.push(Rc::new(Derivation::Joined(operator, left.clone(), right.clone())));
                    }
                }
            }
        }
        found
    }

    /// A number, a name, a minus factor or a sum in brackets.
    fn factor(&mut self, start: usize, end: usize) -> Vec<Rc<Derivation>> {
        let bytes = &self.text[start..end];
        let leaves = [number_in_digits(bytes), number_in_bits(bytes), name(bytes)];
        let (is_minus, is_bracketed) = (bytes[0] == b'-', bytes[0] == b'(' && bytes[bytes.len() - 1] == b')');
        let mut found: Vec<Rc<Derivation>> = leaves.into_iter().flatten().map(Rc::new).collect();
        if is_minus {
            let factors = self.of(Category::Factor, start + 1, end);
            found.extend(factors.iter().map(|factor| Rc::new(Derivation::Minus(factor.clone()))));
        }
        if is_bracketed {
            let sums = self.of(Category::Sum, start + 1, end - 1);
            found.extend(sums.iter().map(|sum| Rc::new(Derivation::Brackets(sum.clone()))));
        }
        found
    }
}

/// "1 to 9 digits."
fn number_in_digits(bytes: &[u8]) -> Option<Derivation> {
    let is_number = (1..=WHOLE_DIGITS_MAXIMUM).contains(&bytes.len()) && bytes.iter().all(u8::is_ascii_digit);
    let value: f64 = is_number.then(|| str::from_utf8(bytes).ok()?.parse().ok())??;
    Some(Derivation::Number(value.to_bits()))
}

/// "# and 16 hex digits of binary64 bits."
fn number_in_bits(bytes: &[u8]) -> Option<Derivation> {
    let digits = bytes.strip_prefix(&[BITS_SIGN])?;
    let is_number = digits.len() == BITS_DIGITS && digits.iter().all(u8::is_ascii_hexdigit);
    let bits = is_number.then(|| u64::from_str_radix(str::from_utf8(digits).ok()?, 16).ok())??;
    Some(Derivation::Number(bits))
}

/// "A letter, then letters or digits, 32 at most."
fn name(bytes: &[u8]) -> Option<Derivation> {
    let is_name =
        bytes[0].is_ascii_alphabetic() && bytes.iter().all(u8::is_ascii_alphanumeric) && bytes.len() <= NAME_BYTES;
    is_name.then(|| Derivation::Name(bytes.to_vec()))
}
