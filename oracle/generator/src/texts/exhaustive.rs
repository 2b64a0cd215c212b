//! Every text over a few bytes up to a length.

/// All texts over an alphabet up to a length.
#[derive(Clone, Copy, Debug)]
pub struct Family {
    pub alphabet: &'static [u8],
    pub longest: u32,
}

/// All signs with a letter, a digit and a blank; and longer texts over fewer bytes.
pub const FAMILIES: [Family; 4] = [
    Family { alphabet: b"x1()+-*^# ", longest: 6 },
    Family { alphabet: b"x()-^", longest: 8 },
    Family { alphabet: b"x()-*^", longest: 7 },
    Family { alphabet: b"ab/-^ ", longest: 7 },
];

impl Family {
    /// How many texts of each length there are, up to the longest.
    pub fn count(&self) -> u64 {
        (0..=self.longest).map(|length| (self.alphabet.len() as u64).pow(length)).sum()
    }

    /// The text with this number, shorter ones first.
    pub fn text(&self, number: u64) -> Vec<u8> {
        let base = self.alphabet.len() as u64;
        let (mut rest, mut length) = (number, 0);
        while rest >= base.pow(length) {
            rest -= base.pow(length);
            length += 1;
        }
        let digit = |place: u32| self.alphabet[(rest / base.pow(place) % base) as usize];
        (0..length).map(digit).collect()
    }
}
