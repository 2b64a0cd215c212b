//! Reads the records of a sheet that is inside the domain, so well formed.

use judge::Record;

/// Cuts the next record's body off the bytes.
pub fn cut(bytes: &[u8]) -> (&[u8], &[u8]) {
    let length = usize::from(number(&bytes[..2]) as u16);
    bytes[2..].split_at(length)
}

/// Reads a body; `answers` are the ids of the earlier records.
pub fn read(body: &[u8], answers: &[u32]) -> Record {
    let id = |bytes: &[u8]| answers[number(bytes) as usize];
    let ids = |bytes: &[u8]| bytes.chunks(2).map(id).collect::<Vec<u32>>();
    match body[0] {
        1 => Record::Variable { symbol: number(&body[1..]) as u32 },
        2 => Record::Constant { bits: number(&body[1..]) },
        3 => Record::Operator { operator: body[1], flags: body[2], operands: ids(&body[3..]) },
        4 => Record::Function { number: number(&body[1..5]) as u32, operands: ids(&body[5..]) },
        5 => Record::Control { control: body[1], operands: ids(&body[2..]) },
        6 => Record::Simplify { root: id(&body[1..3]), depth_limit: body[3] },
        7 => Record::Prune { root: id(&body[1..3]), threshold: f64::from_bits(number(&body[3..])) },
        _ => unreachable!("a record inside the domain"),
    }
}

/// The big-endian number in at most 8 bytes.
fn number(bytes: &[u8]) -> u64 {
    bytes.iter().fold(0, |number, byte| number << 8 | u64::from(*byte))
}
