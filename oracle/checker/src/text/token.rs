//! Cuts a text into numbers, names and signs. Each number and name is cut as
//! long as it goes: no two of them stand beside each other in the language.

use super::{BITS_DIGITS, BITS_SIGN, BLANK, WHOLE_DIGITS_MAXIMUM};
use crate::names::NAME_BYTES;

#[derive(Clone, Copy, Debug, PartialEq, Eq)]
pub enum Token<'a> {
    /// The bits of a binary64 number.
    Number(u64),
    Name(&'a [u8]),
    /// One of `+ - * / ^ ( )`.
    Sign(u8),
}

/// The tokens of a text, or nothing if it is not made of them.
pub fn tokens(text: &[u8]) -> Option<Vec<Token<'_>>> {
    let mut tokens = Vec::new();
    let mut rest = text;
    while let Some((&first, after)) = rest.split_first() {
        if first == BLANK {
            rest = after;
            continue;
        }
        let (token, after) = match first {
            b'0'..=b'9' => whole_number(rest)?,
            BITS_SIGN => bits(after)?,
            b'A'..=b'Z' | b'a'..=b'z' => name(rest)?,
            b'+' | b'-' | b'*' | b'/' | b'^' | b'(' | b')' => (Token::Sign(first), after),
            _ => return None,
        };
        tokens.push(token);
        rest = after;
    }
    Some(tokens)
}

/// Cuts off the bytes at the start that are of a kind.
fn cut_while(bytes: &[u8], is_of_the_kind: fn(&u8) -> bool) -> (&[u8], &[u8]) {
    let length = bytes.iter().position(|byte| !is_of_the_kind(byte)).unwrap_or(bytes.len());
    bytes.split_at(length)
}

fn whole_number(bytes: &[u8]) -> Option<(Token<'_>, &[u8])> {
    let (digits, after) = cut_while(bytes, u8::is_ascii_digit);
    if digits.len() > WHOLE_DIGITS_MAXIMUM {
        return None;
    }
    let value = digits.iter().fold(0_u32, |value, digit| value * 10 + u32::from(digit - b'0'));
    Some((Token::Number(f64::from(value).to_bits()), after))
}

/// The number after its sign.
fn bits(bytes: &[u8]) -> Option<(Token<'_>, &[u8])> {
    let (digits, after) = bytes.split_at_checked(BITS_DIGITS)?;
    let mut bits = 0;
    for &digit in digits {
        bits = bits << 4 | u64::from(char::from(digit).to_digit(16)?);
    }
    Some((Token::Number(bits), after))
}

fn name(bytes: &[u8]) -> Option<(Token<'_>, &[u8])> {
    let (name, after) = cut_while(bytes, u8::is_ascii_alphanumeric);
    (name.len() <= NAME_BYTES).then_some((Token::Name(name), after))
}
