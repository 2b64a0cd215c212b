//! Stand-in for the packed format, which no comparison uses.

use super::arena::DagArena;

pub struct PackedArenaImage;

impl PackedArenaImage {
    pub fn from_arena(_: &DagArena) -> Self {
        Self
    }
}
