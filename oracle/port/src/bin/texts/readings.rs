//! One reading by the port, by the checker's reader and by definition.

use checker::{Refusal, TextLists, read_text, read_text_by_definition};
use port::difference;

/// Texts up to this length are always read by definition, and none above the other.
const SHORT: usize = 24;
const LONGEST_BY_DEFINITION: usize = 400;

/// How many readings were compared, by definition too, and how many met each refusal.
#[derive(Default)]
pub struct Readings {
    count: u64,
    by_definition: u64,
    refusals: [u64; 25],
}

impl Readings {
    /// Reads a text on copies of the lists; what the reading leaves.
    pub fn compare(&mut self, before: &TextLists, text: &[u8], by_definition: bool) -> Result<TextLists, String> {
        let (mut ours, mut expected) = (before.clone(), before.clone());
        let answer = port::texts::read(&mut ours, text);
        let right = numbered(read_text(&mut expected, text));
        self.note(&answer);
        let mut what = if answer != right { Some("answer") } else { difference::of_lists(&ours, &expected) };
        if text.len() <= SHORT || by_definition && text.len() <= LONGEST_BY_DEFINITION {
            self.by_definition += 1;
            let mut defined = before.clone();
            let definition = numbered(read_text_by_definition(&mut defined, text));
            if (&definition, &defined) != (&right, &expected) {
                what = Some("definition");
            }
        }
        match what {
            None => Ok(ours),
            Some(what) => {
                let text = text.escape_ascii();
                Err(format!("{what}: '{text}' gave {answer:?}, expected {right:?}\nbefore {before:?}\nafter {ours:?}"))
            }
        }
    }

    fn note(&mut self, answer: &Result<u64, u64>) {
        self.count += 1;
        if let Err(number) = answer {
            self.refusals[*number as usize] += 1;
        }
    }

    pub fn show(&self, what: &str) {
        println!("{} {what}, {} of them by definition too, no difference", self.count, self.by_definition);
        for (number, times) in self.refusals.iter().enumerate().filter(|(_, times)| **times > 0) {
            println!("  refusal {number}: {times}");
        }
    }
}

fn numbered(answer: Result<u32, Refusal>) -> Result<u64, u64> {
    answer.map(u64::from).map_err(|refusal| u64::from(refusal.number()))
}
