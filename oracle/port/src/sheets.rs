//! Sheets, their listings, and listings read back, done by the port.

use checker::{LentStore, WORDS_PER_NODE};

use crate::interface::{curvalique_list_sheet, curvalique_read_listing, curvalique_run_sheet_fresh};
use crate::lists::Counts;
use crate::unless_refused;

/// Room for every listing, as the header has it.
const LISTING_BYTES: usize = 229_824;
const READ: u64 = 0;
const WRONG_LINE: u64 = 1;

/// A first line: an answer, none without records, an answer that ran out, or a refusal and its record.
#[derive(Clone, Copy, Debug, PartialEq, Eq)]
pub enum FirstLine {
    Ok(u64),
    Empty,
    Spent(u64),
    Refused { number: u64, record: u64 },
}

impl FirstLine {
    fn of_form(form: u64, id: u64, number: u64, record: u64) -> FirstLine {
        match form {
            0 => FirstLine::Ok(id),
            1 => FirstLine::Empty,
            2 => FirstLine::Spent(id),
            3 => FirstLine::Refused { number, record },
            _ => panic!("form {form}"),
        }
    }

    /// What a line says, if it is a first line.
    pub fn of_text(line: &str) -> Option<FirstLine> {
        let words: Vec<&str> = line.trim_end_matches('\n').split(' ').collect();
        let first = match words[..] {
            ["ok", "-"] => FirstLine::Empty,
            ["ok", id] => FirstLine::Ok(id.parse().ok()?),
            ["spent", id] => FirstLine::Spent(id.parse().ok()?),
            ["refused", number, "at", record] => {
                FirstLine::Refused { number: number.parse().ok()?, record: record.parse().ok()? }
            }
            _ => return None,
        };
        (first.text() == line).then_some(first)
    }

    /// Whether its id, if it has one, is that of one of so many nodes.
    pub fn is_listed(self, count: usize) -> bool {
        match self {
            FirstLine::Ok(id) | FirstLine::Spent(id) => id < count as u64,
            FirstLine::Empty | FirstLine::Refused { .. } => true,
        }
    }

    pub fn text(self) -> String {
        match self {
            FirstLine::Ok(id) => format!("ok {id}\n"),
            FirstLine::Empty => "ok -\n".to_string(),
            FirstLine::Spent(id) => format!("spent {id}\n"),
            FirstLine::Refused { number, record } => format!("refused {number} at {record}\n"),
        }
    }
}

/// Runs a sheet on a fresh store in these lists; the store, with counts 0 where none was opened, and what its first line
/// says.
pub fn run_fresh(sheet: &[u8], words: Vec<u64>, slots: Vec<u32>) -> (LentStore, FirstLine) {
    let mut store = LentStore { words, slots, node_count: 0, table_size: 0 };
    let mut counts = Counts { count: u64::MAX, size: usize::MAX };
    let (mut form, mut id, mut record) = (0, 0, 0);
    let refused = unsafe {
        curvalique_run_sheet_fresh(
            sheet.as_ptr(),
            sheet.len(),
            store.words.as_mut_ptr(),
            store.words.len(),
            store.slots.as_mut_ptr(),
            store.slots.len(),
            &mut counts.count,
            &mut counts.size,
            &mut form,
            &mut id,
            &mut record,
        )
    };
    // 1 and 22 before a store is opened leave the counts as they were.
    if counts.count != u64::MAX {
        counts.put(&mut store);
    }
    let first = match unless_refused(refused, form) {
        Ok(form) => FirstLine::of_form(form, id, 0, 0),
        Err(number) => FirstLine::Refused { number, record },
    };
    (store, first)
}

/// The listing of a sheet.
pub fn list(sheet: &[u8]) -> Vec<u8> {
    let mut listing = vec![0; LISTING_BYTES];
    let mut length = 0;
    unsafe { curvalique_list_sheet(sheet.as_ptr(), sheet.len(), listing.as_mut_ptr(), &mut length) };
    listing.truncate(length);
    listing
}

/// What reading a listing gave: its first line and the words of its nodes, the line that is wrong, or too few words.
#[derive(Clone, Debug, PartialEq, Eq)]
pub enum Reading {
    Read(FirstLine, Vec<u64>),
    Wrong(u64),
    Full,
}

/// Reads a listing into so many words.
pub fn read(bytes: &[u8], lent: usize) -> Reading {
    let mut words = vec![u64::MAX; lent];
    let [mut count, mut form, mut id, mut number, mut record, mut line] = [0; 6];
    let status = unsafe {
        curvalique_read_listing(
            bytes.as_ptr(),
            bytes.len(),
            words.as_mut_ptr(),
            words.len(),
            &mut count,
            &mut form,
            &mut id,
            &mut number,
            &mut record,
            &mut line,
        )
    };
    match status {
        READ => {
            words.truncate(count as usize * WORDS_PER_NODE);
            Reading::Read(FirstLine::of_form(form, id, number, record), words)
        }
        WRONG_LINE => Reading::Wrong(line),
        _ => Reading::Full,
    }
}
