//! One node written by the port and by the checker, and read back.

use checker::{TextLists, read_text, rival_with_fewer_brackets, write_text};
use generator::Random;

/// The most bytes of a text.
const TEXT_BYTES: usize = 8_192;
/// Texts are held against all with fewer bracket pairs where those are at most about so many.
const RIVALS: usize = 40_000;

/// How many writings were compared, how many of those also with rivals, and how many met each refusal.
#[derive(Default)]
pub struct Writings {
    count: u64,
    rivals: u64,
    bracketed: u64,
    refusals: [u64; 25],
}

impl Writings {
    /// Writes a node into buffers around its text's length and around the most of a text.
    pub fn around(
        &mut self,
        random: &mut Random,
        lists: &TextLists,
        id: u32,
        read: Option<&[u8]>,
    ) -> Result<(), String> {
        let length = write_text(lists, id, TEXT_BYTES).map_or(random.below(40), |text| text.len());
        let near = [length, length.saturating_sub(1), length + random.below(9), 0];
        for buffer in [random.pick(&[TEXT_BYTES, TEXT_BYTES + 1]), random.pick(&near)] {
            self.compare(lists, id, buffer, read)?;
        }
        Ok(())
    }

    /// Writes a node into a buffer of so many bytes; `read` is a text that was read to it.
    pub fn compare(&mut self, lists: &TextLists, id: u32, buffer: usize, read: Option<&[u8]>) -> Result<(), String> {
        let answer = port::writings::write(lists, id, buffer);
        let right = write_text(lists, id, buffer).map_err(|refusal| u64::from(refusal.number()));
        self.note(&answer);
        let what = match &right {
            _ if answer != right => Some("answer"),
            Ok(text) => self.fault_of_text(lists, id, text, read),
            Err(_) => None,
        };
        match what {
            None => Ok(()),
            Some(what) => {
                let shown = |answer: Result<Vec<u8>, u64>| answer.map(|text| text.escape_ascii().to_string());
                let (answer, right) = (shown(answer), shown(right));
                Err(format!("{what}: id {id} of {lists:?}\ngave {answer:?}\nexpected {right:?}"))
            }
        }
    }

    /// What 02 says of a written text and does not hold of this one.
    fn fault_of_text(&mut self, lists: &TextLists, id: u32, text: &[u8], read: Option<&[u8]>) -> Option<&'static str> {
        let (mut by_port, mut by_checker) = (lists.clone(), lists.clone());
        let is_read_back = port::texts::read(&mut by_port, text) == Ok(u64::from(id))
            && read_text(&mut by_checker, text) == Ok(id)
            && by_port == *lists
            && by_checker == *lists;
        let pairs = bracket_pairs(text);
        self.bracketed += u64::from(pairs > 0);
        if !is_read_back {
            Some("read back")
        } else if text.contains(&b' ') {
            Some("a blank")
        } else if read.is_some_and(|read| bracket_pairs(read) < pairs) {
            Some("more brackets than were read")
        } else if pairs > 0 && has_few_rivals(text.len(), pairs) {
            self.rivals += 1;
            rival_with_fewer_brackets(text).map(|_| "a rival with fewer brackets")
        } else {
            None
        }
    }

    fn note(&mut self, answer: &Result<Vec<u8>, u64>) {
        self.count += 1;
        if let Err(number) = answer {
            self.refusals[*number as usize] += 1;
        }
    }

    pub fn show(&self, what: &str) {
        let Writings { count, rivals, bracketed, .. } = self;
        println!("{count} writings of {what}, {bracketed} with brackets, {rivals} beside rivals, no difference");
        for (number, times) in self.refusals.iter().enumerate().filter(|(_, times)| **times > 0) {
            println!("  refusal {number}: {times}");
        }
    }
}

fn bracket_pairs(text: &[u8]) -> usize {
    text.iter().filter(|byte| **byte == b'(').count()
}

/// Whether the ways to put one pair less among the other bytes are few.
fn has_few_rivals(length: usize, pairs: usize) -> bool {
    let places = length - 2 * pairs + 1;
    places.checked_pow(2 * (pairs as u32 - 1)).is_some_and(|ways| ways <= RIVALS)
}
