//! The walk of a simplify (01, "engine: the walk"; strictly 02 i), written as
//! a recursion.

use crate::node::{COMMUTATIVE_ASSOCIATIVE, Children, Kind, Node, Operator};
use crate::patterns;
use crate::refusal::Refusal;
use crate::store::Store;
use crate::strict;

/// Whether a walk is strict: it then has other patterns, and sets and heeds
/// no marks.
#[derive(Clone, Copy, Debug, PartialEq, Eq)]
pub enum Mode {
    Standard,
    Strict,
}

/// The answer of a simplify that is not refused.
#[derive(Clone, Copy, Debug, PartialEq, Eq)]
pub struct Walked {
    pub id: u32,
    pub steps: u32,
    pub spent: bool,
}

/// Why a walk ends before its root is finished.
enum Stop {
    Spent,
    Refused(Refusal),
}

impl From<Refusal> for Stop {
    fn from(refusal: Refusal) -> Stop {
        Stop::Refused(refusal)
    }
}

struct Walk<'a> {
    store: &'a mut Store,
    mode: Mode,
    depth_limit: u8,
    budget: u32,
    steps: u32,
}

/// Walks the formula under `root`, which is below the node count.
pub fn simplify(store: &mut Store, mode: Mode, root: u32, depth_limit: u8, budget: u32) -> Result<Walked, Refusal> {
    let mut walk = Walk { store, mode, depth_limit, budget, steps: 0 };
    match walk.frame(root, 0) {
        Ok(id) => Ok(Walked { id, steps: walk.steps, spent: false }),
        Err(Stop::Spent) => Ok(Walked { id: root, steps: walk.steps, spent: true }),
        Err(Stop::Refused(refusal)) => Err(refusal),
    }
}

impl Walk<'_> {
    /// One turn of the Rust's loop, or the end of the budget.
    fn step(&mut self) -> Result<(), Stop> {
        if self.steps == self.budget {
            return Err(Stop::Spent);
        }
        self.steps += 1;
        Ok(())
    }

    /// The value of a frame: one turn at the limit, else one turn for each
    /// child and one that finishes it.
    fn frame(&mut self, id: u32, depth: u16) -> Result<u32, Stop> {
        if depth >= u16::from(self.depth_limit) {
            self.step()?;
            return Ok(id);
        }
        let children = self.store.node(id).children;
        let mut values = children.ids().to_vec();
        for value in &mut values {
            self.step()?;
            let child = self.store.node(*value);
            let taken = self.mode == Mode::Standard && child.is_marked();
            if !child.is_leaf() && !taken {
                *value = self.frame(*value, depth + 1)?;
            }
        }
        self.step()?;
        let result = rebuild(self.store, self.mode, id, &values)?;
        if self.mode == Mode::Standard {
            self.store.mark(result);
        }
        Ok(result)
    }
}

/// The result of a finished frame: a pattern's, else the node itself if its
/// children are unchanged, else what the constructor gives.
fn rebuild(store: &mut Store, mode: Mode, id: u32, values: &[u32]) -> Result<u32, Refusal> {
    let node = *store.node(id);
    let fitted = match mode {
        Mode::Standard => patterns::apply(store, node.kind, values)?,
        Mode::Strict => strict::apply(store, node.kind, values)?,
    };
    if let Some(result) = fitted {
        return Ok(result);
    }
    if node.children.ids() == values {
        return Ok(id);
    }
    let flags = match node.kind {
        Kind::Operator(Operator::Add | Operator::Mul) if values.len() == 2 => COMMUTATIVE_ASSOCIATIVE,
        _ => 0,
    };
    store.intern(Node { flags, children: Children::new(values), ..node })
}
