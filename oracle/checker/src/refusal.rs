//! Refusal numbers (01, "Refusals from the input", "Refusals from the state";
//! 02: 10 is a constant's and a text's, 11 to 14 are those of texts).

#[derive(Clone, Copy, Debug, PartialEq, Eq, PartialOrd, Ord)]
#[repr(u8)]
pub enum Refusal {
    /// Sheet empty, over 16,384 bytes, or first byte not 1; a text of 0 or over 8,192 bytes.
    Sheet = 1,
    /// Record past the end, unknown, or wrong length.
    Record = 2,
    /// Record 1,024 reached.
    TooManyRecords = 3,
    /// Operand not earlier, or id not below the count.
    Operand = 4,
    /// Operator, flags, control or depth value not listed.
    Value = 5,
    /// Number of children.
    ChildCount = 6,
    /// Threshold NaN or sign bit set.
    Threshold = 7,
    /// Setting.
    Setting = 8,
    /// Name length.
    NameLength = 9,
    /// A constant whose bits are a NaN.
    NotANumber = 10,
    /// Text outside the language.
    Language = 11,
    /// Brackets, minus factors and powers nested over 64 deep.
    Nesting = 12,
    /// A node that has no text, or a symbol without a name of the text's form.
    NoText = 13,
    /// Text over 8,192 bytes, longer than the lent text buffer, or too deep for reading.
    TextRoom = 14,
    /// Store or name list not sound, or its counts or sizes not as listed.
    NotSound = 20,
    /// No place for a new node.
    NoNodePlace = 21,
    /// A new node needs a doubling and the lent slots are too few.
    NoSlots = 22,
    /// Over 4,096 terms.
    TooManyTerms = 23,
    /// No name place.
    NoNamePlace = 24,
}

impl Refusal {
    pub const fn number(self) -> u8 {
        self as u8
    }
}
