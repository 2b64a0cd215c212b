//! The reader: one pass over the tokens with a stack of what is open, so that
//! no nesting of a text nests calls here.

use super::token::{Token, tokens};
use super::{NESTING_MAXIMUM, check_length};
use crate::arithmetic::is_not_a_number;
use crate::node::Operator;
use crate::refusal::Refusal;

/// What a text asks for, operands first, left before right.
#[derive(Clone, Copy, Debug, PartialEq, Eq)]
pub enum Step<'a> {
    Constant(u64),
    /// A name, and its variable just after it.
    Variable(&'a [u8]),
    Operator(Operator),
}

/// The steps of a text, or refusal 1, 11, 12 or 10, in this order.
pub fn steps_of(text: &[u8]) -> Result<Vec<Step<'_>>, Refusal> {
    check_length(text)?;
    let (steps, nesting) = read(text).ok_or(Refusal::Language)?;
    if nesting > NESTING_MAXIMUM {
        return Err(Refusal::Nesting);
    }
    if steps.iter().any(|step| matches!(step, Step::Constant(bits) if is_not_a_number(*bits))) {
        return Err(Refusal::NotANumber);
    }
    Ok(steps)
}

/// What waits for the end of what stands after it.
#[derive(Clone, Copy, Debug, PartialEq, Eq)]
enum Open {
    Bracket,
    Minus,
    Operator(Operator),
}

#[derive(Default)]
struct Reader<'a> {
    open: Vec<Open>,
    steps: Vec<Step<'a>>,
    /// Brackets, minuses and powers among `open`, and the most there were.
    nesting: usize,
    deepest: usize,
}

/// The steps of a text of the language, and how deep it is nested.
fn read(text: &[u8]) -> Option<(Vec<Step<'_>>, usize)> {
    let mut reader = Reader::default();
    let mut factor_is_due = true;
    for token in tokens(text)? {
        factor_is_due = if factor_is_due { reader.factor(token)? } else { reader.after_factor(token)? };
    }
    reader.close_while(|_| true);
    (!factor_is_due && reader.open.is_empty()).then_some((reader.steps, reader.deepest))
}

impl<'a> Reader<'a> {
    /// Takes a token where a factor is due; whether one is still due after it.
    fn factor(&mut self, token: Token<'a>) -> Option<bool> {
        match token {
            Token::Number(bits) => self.steps.push(Step::Constant(bits)),
            Token::Name(name) => self.steps.push(Step::Variable(name)),
            Token::Sign(b'-') => {
                self.push(Open::Minus);
                return Some(true);
            }
            Token::Sign(b'(') => {
                self.push(Open::Bracket);
                return Some(true);
            }
            Token::Sign(_) => return None,
        }
        self.close_minuses();
        Some(false)
    }

    /// Takes a token after a factor; whether a factor is due after it.
    fn after_factor(&mut self, token: Token<'a>) -> Option<bool> {
        let Token::Sign(sign) = token else { return None };
        if sign == b')' {
            self.close_while(|_| true);
            (self.pop()? == Open::Bracket).then_some(())?;
            self.close_minuses();
            return Some(false);
        }
        let operator = operator_of(sign)?;
        self.close_while(|earlier| is_grouped_before(earlier, operator));
        self.push(Open::Operator(operator));
        Some(true)
    }

    fn push(&mut self, open: Open) {
        self.open.push(open);
        self.nesting += usize::from(nests(open));
        self.deepest = self.deepest.max(self.nesting);
    }

    fn pop(&mut self) -> Option<Open> {
        let open = self.open.pop()?;
        self.nesting -= usize::from(nests(open));
        Some(open)
    }

    /// A minus takes just the factor after it.
    fn close_minuses(&mut self) {
        while self.open.last() == Some(&Open::Minus) {
            self.pop();
            self.steps.push(Step::Operator(Operator::Neg));
        }
    }

    /// Ends the last operators as long as they meet a condition, down to a bracket.
    fn close_while(&mut self, ends: impl Fn(Operator) -> bool) {
        while let Some(&Open::Operator(operator)) = self.open.last()
            && ends(operator)
        {
            self.pop();
            self.steps.push(Step::Operator(operator));
        }
    }
}

fn operator_of(sign: u8) -> Option<Operator> {
    match sign {
        b'+' => Some(Operator::Add),
        b'-' => Some(Operator::Sub),
        b'*' => Some(Operator::Mul),
        b'/' => Some(Operator::Div),
        b'^' => Some(Operator::Pow),
        _ => None,
    }
}

/// How tight an operator binds its operands.
fn tightness(operator: Operator) -> u8 {
    match operator {
        Operator::Pow => 2,
        Operator::Mul | Operator::Div => 1,
        _ => 0,
    }
}

/// Whether of two operators with one operand between them the earlier takes it:
/// the tighter one does; sums and products group left, ^ groups right.
fn is_grouped_before(earlier: Operator, later: Operator) -> bool {
    let (earlier, later_tightness) = (tightness(earlier), tightness(later));
    earlier > later_tightness || earlier == later_tightness && later != Operator::Pow
}

fn nests(open: Open) -> bool {
    matches!(open, Open::Bracket | Open::Minus | Open::Operator(Operator::Pow))
}
