//! What the driver asks of the Rust original: one record at a time, with
//! operands as ids, and the nodes that are there afterwards.

/// A record of a sheet whose operands are the ids that its records answered.
#[derive(Clone, Debug, PartialEq)]
pub enum Record {
    Variable { symbol: u32 },
    Constant { bits: u64 },
    Operator { operator: u8, flags: u8, operands: Vec<u32> },
    Function { number: u32, operands: Vec<u32> },
    Control { control: u8, operands: Vec<u32> },
    Simplify { root: u32, depth_limit: u8 },
    Prune { root: u32, threshold: f64 },
}

/// A node as it is compared. Payloads of variables and functions are the
/// numbers that the sheet gave, found through their names.
#[derive(Clone, Debug, PartialEq, Eq)]
pub struct Node {
    pub kind: u8,
    pub payload: u64,
    pub coefficient_bits: u64,
    pub flags: u8,
    pub children: Vec<u32>,
}

/// What the counter lines of the instrumented copy counted in one record.
#[derive(Clone, Copy, Debug, Default, PartialEq, Eq)]
pub struct Counts {
    /// Turns of the walk's loop.
    pub turns: u64,
    /// Terms of the chain before anything is dropped, and terms kept.
    pub chain: Option<(usize, usize)>,
}

/// One build of the Rust original: one engine, one builder.
pub trait Judge {
    /// Does the record and answers its id.
    fn perform(&mut self, record: &Record) -> u32;
    /// The counts since the last call of this.
    fn take_counts(&mut self) -> Counts;
    /// All nodes by rising id.
    fn nodes(&self) -> Vec<Node>;
}
