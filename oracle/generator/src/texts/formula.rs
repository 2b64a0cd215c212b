//! Texts made along the sentences of 02, with blanks put in.

use super::leaves::Leaves;
use crate::random::Random;

struct Formula<'a> {
    random: &'a mut Random,
    leaves: Leaves,
    /// Before one in this many parts stand blanks; 0 for none.
    blanks: usize,
    text: Vec<u8>,
}

/// The text of a formula with so many leaves.
pub fn text(random: &mut Random, size: usize) -> Vec<u8> {
    let leaves = Leaves::new(random);
    let blanks = random.pick(&[0, 0, 1, 3, 10]);
    let mut formula = Formula { random, leaves, blanks, text: Vec::new() };
    formula.sum(size);
    formula.blanks();
    formula.text
}

impl Formula<'_> {
    fn put(&mut self, part: &[u8]) {
        self.blanks();
        self.text.extend(part);
    }

    fn blanks(&mut self) {
        if self.blanks > 0 && self.random.once_in(self.blanks) {
            let count = self.random.pick(&[1, 1, 2, 5]);
            self.text.resize(self.text.len() + count, b' ');
        }
    }

    /// Splits a size in two, or takes it whole.
    fn split(&mut self, size: usize) -> Option<(usize, usize)> {
        if size < 2 || self.random.once_in(3) {
            return None;
        }
        let left = self.random.between(1, size - 1);
        Some((left, size - left))
    }

    fn sum(&mut self, size: usize) {
        let mut size = size;
        while let Some((left, right)) = self.split(size) {
            self.product(left);
            let sign = self.random.pick(b"+-");
            self.put(&[sign]);
            size = right;
        }
        self.product(size);
    }

    fn product(&mut self, size: usize) {
        let mut size = size;
        while let Some((left, right)) = self.split(size) {
            self.power(left);
            let sign = self.random.pick(b"*/");
            self.put(&[sign]);
            size = right;
        }
        self.power(size);
    }

    fn power(&mut self, size: usize) {
        match self.split(size) {
            Some((left, right)) => {
                self.factor(left);
                self.put(b"^");
                self.power(right);
            }
            None => self.factor(size),
        }
    }

    fn factor(&mut self, size: usize) {
        if self.random.once_in(5) {
            self.put(b"-");
            self.factor(size);
        } else if size == 1 && !self.random.once_in(8) {
            let leaf = self.leaves.pick(self.random);
            self.put(&leaf);
        } else {
            self.put(b"(");
            self.sum(size);
            self.put(b")");
        }
    }
}
