//! The lent name list (01, "symbol registry and settings"; refusals 20, 9, 24).

use crate::refusal::Refusal;

/// The most bytes of a name.
pub const NAME_BYTES: usize = 32;
/// The most names of a list.
pub const NAMES_MAXIMUM: usize = 4_096;

/// An entry is a length byte, then 32 bytes, unused ones 0.
pub type Entry = [u8; NAME_BYTES + 1];

#[derive(Clone, Debug, PartialEq, Eq)]
pub struct LentNames {
    pub entries: Vec<Entry>,
    pub count: u64,
}

impl LentNames {
    /// Whether the list is sound (else refusal 20).
    pub fn sound(&self) -> bool {
        if self.count > self.entries.len() as u64 || self.count > NAMES_MAXIMUM as u64 {
            return false;
        }
        let used = self.used();
        let no_name_twice = (0..used.len()).all(|number| !used[..number].contains(&used[number]));
        used.iter().all(entry_is_sound) && no_name_twice
    }

    /// The number of a name, which a new one gets by order of first interning.
    pub fn intern(&mut self, name: &[u8]) -> Result<u32, Refusal> {
        if !self.sound() {
            return Err(Refusal::NotSound);
        }
        if name.is_empty() || name.len() > NAME_BYTES {
            return Err(Refusal::NameLength);
        }
        self.number(name)
    }

    /// The number of a name of 1 to 32 bytes in a list that is sound.
    pub fn number(&mut self, name: &[u8]) -> Result<u32, Refusal> {
        let entry = entry_of(name);
        if let Some(number) = self.used().iter().position(|old| *old == entry) {
            return Ok(number as u32);
        }
        let number = self.count as usize;
        if number >= self.entries.len().min(NAMES_MAXIMUM) {
            return Err(Refusal::NoNamePlace);
        }
        self.entries[number] = entry;
        self.count += 1;
        Ok(number as u32)
    }

    /// The name with this number in a list that is sound, if there is one.
    pub fn name(&self, number: u64) -> Option<&[u8]> {
        let entry = self.used().get(usize::try_from(number).ok()?)?;
        Some(&entry[1..][..usize::from(entry[0])])
    }

    fn used(&self) -> &[Entry] {
        &self.entries[..self.count as usize]
    }
}

fn entry_of(name: &[u8]) -> Entry {
    let mut entry = [0; NAME_BYTES + 1];
    entry[0] = name.len() as u8;
    entry[1..][..name.len()].copy_from_slice(name);
    entry
}

fn entry_is_sound(entry: &Entry) -> bool {
    let length = usize::from(entry[0]);
    (1..=NAME_BYTES).contains(&length) && entry[1 + length..].iter().all(|byte| *byte == 0)
}
