//! The listing of a sheet, and reading a listing back.

use crate::{FORM_EMPTY, FORM_OK, FORM_SPENT, LISTING_BYTES, NODE_WORDS, Node, Refusal, WRONG_LINE, raw};

/// What the first line of a listing says.
#[derive(Clone, Copy, PartialEq, Eq, Debug)]
pub enum Outcome {
    Ok(u64),
    Empty,
    Spent(u64),
    Refused { refusal: Refusal, record: u64 },
}

/// A listing that is read: its first line, and its nodes in the lent words.
pub struct Listing<'lent> {
    pub outcome: Outcome,
    words: &'lent [u64],
}

impl Listing<'_> {
    /// The nodes, by rising id.
    pub fn nodes(&self) -> impl ExactSizeIterator<Item = Node> {
        self.words.as_chunks().0.iter().map(Node::from_words)
    }
}

/// Why a listing is not read.
#[derive(Clone, Copy, PartialEq, Eq, Debug)]
pub enum Unread {
    WrongLine(u64),
    TooFewWords,
}

/// What stands behind the pointers of a call that reads a listing.
#[derive(Default)]
struct Answers {
    count: u64,
    form: u64,
    id: u64,
    number: u64,
    record: u64,
    line: u64,
}

impl Answers {
    fn outcome(&self) -> Outcome {
        match self.form {
            FORM_OK => Outcome::Ok(self.id),
            FORM_EMPTY => Outcome::Empty,
            FORM_SPENT => Outcome::Spent(self.id),
            _ => Outcome::Refused { refusal: Refusal(self.number), record: self.record },
        }
    }
}

/// Reads a listing into the lent words.
pub fn read_listing<'lent>(bytes: &[u8], nodes: &'lent mut [u64]) -> Result<Listing<'lent>, Unread> {
    let mut answers = Answers::default();
    // SAFETY: the lists are borrowed for the call, with their lengths, and apart from the answers.
    let returned = unsafe {
        raw::curvalique_read_listing(
            bytes.as_ptr(),
            bytes.len(),
            nodes.as_mut_ptr(),
            nodes.len(),
            &mut answers.count,
            &mut answers.form,
            &mut answers.id,
            &mut answers.number,
            &mut answers.record,
            &mut answers.line,
        )
    };
    match returned {
        0 => Ok(Listing { outcome: answers.outcome(), words: &nodes[..answers.count as usize * NODE_WORDS] }),
        WRONG_LINE => Err(Unread::WrongLine(answers.line)),
        _ => Err(Unread::TooFewWords),
    }
}

/// Writes the listing of a sheet, and gives the part of the lent bytes that it fills.
pub fn list_sheet<'lent>(sheet: &[u8], listing: &'lent mut [u8; LISTING_BYTES]) -> &'lent [u8] {
    let mut length = 0;
    // SAFETY: the sheet and the listing are borrowed for the call; the listing has as many bytes as are asked for.
    unsafe { raw::curvalique_list_sheet(sheet.as_ptr(), sheet.len(), listing, &mut length) };
    &listing[..length]
}
