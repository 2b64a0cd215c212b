//! Folding two constants in binary64 (01, "patterns"; 02 b).

use crate::node::Operator;

/// What folding two constants gives.
#[derive(Clone, Copy, Debug, PartialEq, Eq)]
pub enum Folded {
    Bits(u64),
    /// "A fold to NaN is now declined."
    NotANumber,
    /// Two such constants do not fold.
    Never,
}

/// Whether bits are those of a NaN, of any pattern.
pub fn is_not_a_number(bits: u64) -> bool {
    f64::from_bits(bits).is_nan()
}

pub fn fold(operator: Operator, left: f64, right: f64) -> Folded {
    let number = match operator {
        Operator::Add => left + right,
        Operator::Sub => left - right,
        Operator::Mul => left * right,
        Operator::Div if right != 0.0 => left / right,
        _ => return Folded::Never,
    };
    if number.is_nan() { Folded::NotANumber } else { Folded::Bits(number.to_bits()) }
}
