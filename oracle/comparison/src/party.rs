//! The programs that are held against the checker.

use std::io;

use checker::{outside, run};

use crate::options::Options;

pub struct Party {
    pub name: &'static str,
    command: String,
    expected: fn(&[u8]) -> Vec<u8>,
}

impl Party {
    /// The driver, if one was given, and the third program, if one was given.
    pub fn all(options: &Options) -> Vec<Party> {
        let driver = options.driver.as_ref().map(|path| Party {
            name: "the Rust original",
            command: format!("'{path}' --batch --details"),
            expected: expected_of_driver,
        });
        let third = options.with.as_ref().map(|command| Party {
            name: "the third program",
            command: command.clone(),
            expected: |sheet| checker::answer(sheet, false),
        });
        driver.into_iter().chain(third).collect()
    }

    pub fn answers(&self, sheets: &[Vec<u8>]) -> io::Result<Vec<Vec<u8>>> {
        batch::answers(&self.command, sheets)
    }

    /// What the checker says that this program answers.
    pub fn expected(&self, sheet: &[u8]) -> Vec<u8> {
        (self.expected)(sheet)
    }

    /// Whether the program answers this one sheet differently, or not at all.
    pub fn differs(&self, sheet: &[u8]) -> bool {
        let answers = self.answers(&[sheet.to_vec()]).unwrap_or_default();
        answers.first() != Some(&self.expected(sheet))
    }
}

/// Listing and details inside the domain, else one line that says why not.
fn expected_of_driver(sheet: &[u8]) -> Vec<u8> {
    match outside(&run(sheet)) {
        Some(outside) => format!("outside {}\n", outside.words()).into_bytes(),
        None => checker::answer(sheet, true),
    }
}
