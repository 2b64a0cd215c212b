//! The port, through its C interface, on one pair of lent lists.

use std::ffi::c_uint;

use crate::inputs::Request;
use crate::store::{Node, Store};

pub const NODE_WORDS: usize = 22;
const MOST_NODES: usize = 65_536;
const SLOTS: usize = 131_072;
/// Over 4,096 terms (01).
pub const TOO_MANY_TERMS: u64 = 23;

unsafe extern "C" {
    fn curvalique_fresh(nodes: *const u64, words: usize, slots: *mut u32, lent: usize, count: *mut u64, size: *mut usize) -> u64;
    fn curvalique_operator(
        nodes: *mut u64, words: usize, slots: *mut u32, lent: usize, count: *mut u64, size: *mut usize,
        code: c_uint, flags: c_uint, operands: *const u32, operand_count: usize, id: *mut u64,
    ) -> u64;
    fn curvalique_run_sheet_fresh(
        sheet: *const u8, length: usize, nodes: *mut u64, words: usize, slots: *mut u32, lent: usize, count: *mut u64, size: *mut usize,
        form: *mut u64, id: *mut u64, record: *mut u64,
    ) -> u64;
    fn curvalique_audit(nodes: *const u64, words: usize, slots: *const u32, lent: usize, count: u64, size: usize) -> bool;
    fn curvalique_node_hash(kind: u64, payload: u64, children: *const u64, many: usize) -> u64;
    fn curvalique_build_sound(
        nodes: *mut u64, words: usize, slots: *mut u32, lent: usize, count: *mut u64, size: *mut usize,
        kind: u64, payload: u64, flags: u64, operands: *const u32, operand_count: usize, id: *mut u64,
    ) -> u64;
    fn curvalique_simplify_sound(
        nodes: *mut u64, words: usize, slots: *mut u32, lent: usize, count: *mut u64, size: *mut usize,
        root: u32, depth: u32, budget: u64, id: *mut u64, spent: *mut u64, steps: *mut u64,
    ) -> u64;
    fn curvalique_prune_sound(
        nodes: *mut u64, words: usize, slots: *mut u32, lent: usize, count: *mut u64, size: *mut usize,
        root: u32, threshold: u64, id: *mut u64, kept: *mut u64, dropped: *mut u64,
    ) -> u64;
}

/// The hash of a node alone.
pub fn node_hash(kind: u64, payload: u64, children: &[u64]) -> u64 {
    // SAFETY: the slice is borrowed for the call.
    unsafe { curvalique_node_hash(kind, payload, children.as_ptr(), children.len()) }
}

pub struct Ours {
    nodes: Vec<u64>,
    slots: Vec<u32>,
    count: u64,
    size: usize,
}

impl Ours {
    pub fn new() -> Self {
        let mut store = Self { nodes: vec![0; MOST_NODES * NODE_WORDS], slots: vec![0; SLOTS], count: 0, size: 0 };
        store.clear();
        store
    }

    pub fn clear(&mut self) {
        // SAFETY: the lists and numbers are this store's own, and apart from each other.
        let refusal = unsafe {
            curvalique_fresh(
                self.nodes.as_ptr(), self.nodes.len(), self.slots.as_mut_ptr(), self.slots.len(), &mut self.count, &mut self.size,
            )
        };
        assert_eq!(refusal, 0);
    }

    #[inline]
    pub fn build(&mut self, kind: u64, payload: u64, flags: u64, operands: &[u32]) -> u32 {
        let mut id = 0;
        // SAFETY: as in `clear`; the store is sound, since only calls of the library wrote it.
        let refusal = unsafe {
            curvalique_build_sound(
                self.nodes.as_mut_ptr(), self.nodes.len(), self.slots.as_mut_ptr(), self.slots.len(), &mut self.count, &mut self.size,
                kind, payload, flags, operands.as_ptr(), operands.len(), &mut id,
            )
        };
        debug_assert_eq!(refusal, 0);
        id as u32
    }

    #[inline]
    pub fn request(&mut self, request: &Request) -> u32 {
        self.build(request.kind, request.payload, request.flags, request.operands())
    }

    /// The public call for an operator, which audits the store first.
    pub fn audited_operator(&mut self, code: u32, flags: u32, operands: &[u32]) -> u32 {
        let mut id = 0;
        // SAFETY: as in `clear`.
        let refusal = unsafe {
            curvalique_operator(
                self.nodes.as_mut_ptr(), self.nodes.len(), self.slots.as_mut_ptr(), self.slots.len(), &mut self.count, &mut self.size,
                code, flags, operands.as_ptr(), operands.len(), &mut id,
            )
        };
        assert_eq!(refusal, 0);
        id as u32
    }

    /// The lists and counts themselves, for `by_hand`.
    pub fn lists(&mut self) -> (*mut u64, *mut u32, u64, usize) {
        (self.nodes.as_mut_ptr(), self.slots.as_mut_ptr(), self.count, self.size)
    }

    pub fn set_count(&mut self, count: u64) {
        self.count = count;
    }

    /// A sheet on a fresh store; the last answer.
    pub fn run_sheet(&mut self, sheet: &[u8]) -> u32 {
        let (mut form, mut id, mut record) = (0, 0, 0);
        // SAFETY: as in `clear`; the sheet is borrowed for the call.
        let refusal = unsafe {
            curvalique_run_sheet_fresh(
                sheet.as_ptr(), sheet.len(), self.nodes.as_mut_ptr(), self.nodes.len(), self.slots.as_mut_ptr(), self.slots.len(),
                &mut self.count, &mut self.size, &mut form, &mut id, &mut record,
            )
        };
        assert_eq!((refusal, form), (0, 0));
        id as u32
    }

    pub fn audit(&self) -> bool {
        // SAFETY: as in `clear`.
        unsafe { curvalique_audit(self.nodes.as_ptr(), self.nodes.len(), self.slots.as_ptr(), self.slots.len(), self.count, self.size) }
    }

    /// The answer and the steps.
    pub fn simplify(&mut self, root: u32) -> (u32, u64) {
        let (mut id, mut spent, mut steps) = (0, 0, 0);
        // SAFETY: as in `build`.
        let refusal = unsafe {
            curvalique_simplify_sound(
                self.nodes.as_mut_ptr(), self.nodes.len(), self.slots.as_mut_ptr(), self.slots.len(), &mut self.count, &mut self.size,
                root, 255, u64::MAX, &mut id, &mut spent, &mut steps,
            )
        };
        assert_eq!((refusal, spent), (0, 0));
        (id as u32, steps)
    }

    /// The answer and both counts.
    pub fn prune(&mut self, root: u32, threshold: f64) -> (u32, u64, u64) {
        self.try_prune(root, threshold).expect("the prune is not refused")
    }

    /// The answer and both counts, or the number of a refusal.
    pub fn try_prune(&mut self, root: u32, threshold: f64) -> Result<(u32, u64, u64), u64> {
        let (mut id, mut kept, mut dropped) = (0, 0, 0);
        // SAFETY: as in `build`.
        let refusal = unsafe {
            curvalique_prune_sound(
                self.nodes.as_mut_ptr(), self.nodes.len(), self.slots.as_mut_ptr(), self.slots.len(), &mut self.count, &mut self.size,
                root, threshold.to_bits(), &mut id, &mut kept, &mut dropped,
            )
        };
        if refusal == 0 { Ok((id as u32, kept, dropped)) } else { Err(refusal) }
    }
}

impl Store for Ours {
    fn variable(&mut self, number: u32) -> u32 {
        self.build(0, u64::from(number), 0, &[])
    }

    fn constant(&mut self, value: f64) -> u32 {
        self.build(1, value.to_bits(), 0, &[])
    }

    fn operator(&mut self, code: u8, flags: u8, operands: &[u32]) -> u32 {
        self.build(2 + u64::from(code), 0, u64::from(flags), operands)
    }

    fn nodes(&self) -> Vec<Node> {
        let words = self.nodes[..self.count as usize * NODE_WORDS].chunks(NODE_WORDS);
        words
            .map(|word| Node {
                kind: word[0] as u8,
                payload: word[1],
                flags: word[4] as u8,
                children: word[6..6 + word[5] as usize].iter().map(|&child| child as u32).collect(),
            })
            .collect()
    }
}
