//! What the comparison counts and reports.

use std::fmt::Write;

use checker::{Outside, outside, run, unequal_walk};

/// A sheet that a program answers otherwise than the checker.
pub struct Difference {
    pub party: &'static str,
    pub number: u64,
    pub sheet: Vec<u8>,
    pub expected: Vec<u8>,
    pub answer: Option<Vec<u8>>,
}

#[derive(Default)]
pub struct Tally {
    pub sheets: u64,
    pub inside: u64,
    /// Strict walks that were evaluated, and those of them with another answer than the root.
    strict_walks: u64,
    rewritten: u64,
    outside: [u64; Outside::ALL.len()],
    pub differences: Vec<Difference>,
}

impl Tally {
    /// Counts a sheet by what the domain test says of it, and evaluates the
    /// roots and answers of its strict walks.
    pub fn count(&mut self, sheet: &[u8], number: u64) {
        self.sheets += 1;
        let run = run(sheet);
        match outside(&run) {
            None => self.inside += 1,
            Some(reason) => self.outside[reason as usize] += 1,
        }
        self.strict_walks += run.strict_walks.len() as u64;
        self.rewritten += run.strict_walks.iter().filter(|(root, answer)| root != answer).count() as u64;
        if let Some((root, answer)) = unequal_walk(&run, number) {
            self.differences.push(Difference {
                party: "the evaluation",
                number,
                sheet: sheet.to_vec(),
                expected: format!("the bits of node {root}\n").into_bytes(),
                answer: Some(format!("other bits at node {answer}\n").into_bytes()),
            });
        }
    }

    pub fn add(&mut self, other: Tally) {
        self.sheets += other.sheets;
        self.inside += other.inside;
        self.strict_walks += other.strict_walks;
        self.rewritten += other.rewritten;
        for (sum, count) in self.outside.iter_mut().zip(other.outside) {
            *sum += count;
        }
        self.differences.extend(other.differences);
    }

    pub fn summary(&self) -> String {
        let mut text = format!("sheets: {}\ninside the domain: {}\n", self.sheets, self.inside);
        for reason in Outside::ALL {
            writeln!(text, "outside, {}: {}", reason.words(), self.outside[reason as usize]).unwrap();
        }
        writeln!(text, "strict walks evaluated: {}, rewritten: {}", self.strict_walks, self.rewritten).unwrap();
        writeln!(text, "differences: {}", self.differences.len()).unwrap();
        text
    }
}

impl Difference {
    pub fn report(&self) -> String {
        let answer = self.answer.as_deref().unwrap_or(b"no answer\n");
        format!(
            "{} differs on sheet {}:\n{}\nchecker:\n{}{}:\n{}",
            self.party,
            self.number,
            hexadecimal(&self.sheet),
            String::from_utf8_lossy(&self.expected),
            self.party,
            String::from_utf8_lossy(answer),
        )
    }
}

fn hexadecimal(bytes: &[u8]) -> String {
    bytes.iter().map(|byte| format!("{byte:02X}")).collect()
}
