//! A prune written by hand over the port's lists, with nothing that 01 asks for refused, hardly a bound checked, and the processor's vector
//! instructions (SSE2) by name: what code like the port's takes without proofs.

use std::arch::x86_64::{
    __m128i, _mm_cmpeq_epi32, _mm_loadu_si128, _mm_movemask_epi8, _mm_packs_epi16, _mm_packs_epi32, _mm_setzero_si128,
};

use crate::ours::{NODE_WORDS, Ours};

const OFFSET_BASIS: u64 = 14_695_981_039_346_656_037;
const PRIME: u64 = 1_099_511_628_211;
const BITS_OF_ONE: u64 = 0x3FF0_0000_0000_0000;
const CONSTANT: u64 = 1;
const ADD: u64 = 2;
const ADD_FLAGS: u64 = 3;
const MOST_TERMS: usize = 4_096;
/// Slots looked at together for an empty one.
const FREE_WINDOW: usize = 16;
/// Slots whose nodes' hashes are compared together.
const SEARCH_WINDOW: usize = 4;

/// The hash of an Add's kind and payload, nine bytes of which eight are 0.
const ADD_HASH: u64 = {
    let mut hash = (OFFSET_BASIS ^ ADD).wrapping_mul(PRIME);
    let mut byte = 0;
    while byte < 8 {
        hash = hash.wrapping_mul(PRIME);
        byte += 1;
    }
    hash
};

#[inline(always)]
fn with_child(hash: u64, id: u64) -> u64 {
    let hash = hash.wrapping_mul(PRIME.wrapping_mul(PRIME));
    ((hash ^ id >> 8).wrapping_mul(PRIME) ^ id & 255).wrapping_mul(PRIME)
}

struct Lists {
    nodes: *mut u64,
    slots: *mut u32,
    count: u64,
    size: usize,
}

impl Lists {
    /// # Safety
    /// The id is below the count, or the place after it.
    #[inline(always)]
    unsafe fn node(&self, id: u64) -> *mut u64 {
        unsafe { self.nodes.add(id as usize * NODE_WORDS) }
    }

    /// Whether an id's node is the sum of two ids.
    ///
    /// # Safety
    /// The id is below the count.
    #[inline(always)]
    unsafe fn is_sum(&self, id: u64, hash: u64, left: u64, right: u64) -> bool {
        unsafe {
            let node = self.node(id);
            let sum = *node.add(2) == hash && *node == ADD && *node.add(5) == 2 && *node.add(4) & 3 == ADD_FLAGS;
            sum && *node.add(6) == left && *node.add(7) == right
        }
    }

    /// A new sum, in a slot that is empty.
    ///
    /// # Safety
    /// As for `add_terms`.
    #[inline(always)]
    unsafe fn put(&mut self, at: usize, hash: u64, left: u64, right: u64) -> u64 {
        let id = self.count;
        unsafe {
            *self.slots.add(at) = id as u32 + 1;
            let mut words = [0; NODE_WORDS];
            words[..8].copy_from_slice(&[ADD, 0, hash, BITS_OF_ONE, ADD_FLAGS, 2, left, right]);
            self.node(id).cast::<[u64; NODE_WORDS]>().write(words);
        }
        self.count += 1;
        id
    }

    /// The search slot by slot.
    ///
    /// # Safety
    /// As for `add_terms`.
    #[inline(never)]
    unsafe fn add_by_slots(&mut self, hash: u64, left: u64, right: u64) -> u64 {
        let mut at = hash as usize & (self.size - 1);
        unsafe {
            loop {
                let slot = u64::from(*self.slots.add(at));
                if slot == 0 {
                    return self.put(at, hash, left, right);
                }
                if self.is_sum(slot - 1, hash, left, right) {
                    return slot - 1;
                }
                at = (at + 1) & (self.size - 1);
            }
        }
    }

    /// How many slots from a place on are in use before the first empty one; more than `FREE_WINDOW` if none of so many is empty.
    ///
    /// # Safety
    /// So many slots follow the place.
    #[inline(always)]
    unsafe fn first_empty(&self, home: usize) -> usize {
        unsafe {
            let slots: *const __m128i = self.slots.add(home).cast();
            let empty = |quarter| _mm_cmpeq_epi32(_mm_loadu_si128(slots.add(quarter)), _mm_setzero_si128());
            let halves = [_mm_packs_epi32(empty(0), empty(1)), _mm_packs_epi32(empty(2), empty(3))];
            _mm_movemask_epi8(_mm_packs_epi16(halves[0], halves[1])).trailing_zeros() as usize
        }
    }

    /// Whether a node of some slots from a place on has a hash. Nodes below the sum's greatest child are others.
    ///
    /// # Safety
    /// So many slots follow the place, and the greatest child is below the count.
    #[inline(always)]
    unsafe fn any_near(&self, from: usize, hash: u64, greatest: u64) -> bool {
        (0..SEARCH_WINDOW).fold(false, |met, i| unsafe {
            let slot = u64::from(*self.slots.add(from + i));
            let id = if slot > greatest { slot - 1 } else { greatest };
            met | (*self.node(id).add(2) == hash)
        })
    }

    /// The search where more slots are in use than are compared together, or a hash is the sum's.
    ///
    /// # Safety
    /// As for `add_terms`.
    #[inline(never)]
    unsafe fn add_far(&mut self, hash: u64, left: u64, right: u64, first: usize) -> u64 {
        let home = hash as usize & (self.size - 1);
        let greatest = left.max(right);
        unsafe {
            let any = |met, i| met | self.any_near(home + i, hash, greatest);
            if first < FREE_WINDOW && !(0..first).step_by(SEARCH_WINDOW).fold(false, any) {
                return self.put(home + first, hash, left, right);
            }
            self.add_by_slots(hash, left, right)
        }
    }

    /// The id of a sum of two terms, old or new. The lists have place for it, and the table need not grow. The first slots are
    /// looked at together.
    ///
    /// # Safety
    /// The store is sound and both ids are below the count.
    #[inline(always)]
    unsafe fn add_terms(&mut self, left: u64, right: u64) -> u64 {
        let hash = with_child(with_child(ADD_HASH, left), right);
        let home = hash as usize & (self.size - 1);
        unsafe {
            if home + FREE_WINDOW > self.size {
                return self.add_by_slots(hash, left, right);
            }
            let first = self.first_empty(home);
            if first <= SEARCH_WINDOW && !self.any_near(home, hash, left.max(right)) {
                return self.put(home + first, hash, left, right);
            }
            self.add_far(hash, left, right, first)
        }
    }

    /// The same for sums of halves: a sum over the newest node is new.
    ///
    /// # Safety
    /// As for `add_terms`.
    #[inline(always)]
    unsafe fn add_sums(&mut self, left: u64, right: u64) -> u64 {
        let hash = with_child(with_child(ADD_HASH, left), right);
        let home = hash as usize & (self.size - 1);
        unsafe {
            if home + FREE_WINDOW <= self.size {
                let first = self.first_empty(home);
                if right + 1 == self.count && first < FREE_WINDOW {
                    return self.put(home + first, hash, left, right);
                }
            }
            self.add_by_slots(hash, left, right)
        }
    }

    /// # Safety
    /// As for `add_terms`, of all terms.
    unsafe fn balanced_add(&mut self, terms: &[u64]) -> u64 {
        unsafe {
            match *terms {
                [only] => only,
                [left, right] => self.add_terms(left, right),
                _ => {
                    let (left, right) = terms.split_at(terms.len() / 2);
                    let left = self.balanced_add(left);
                    let right = self.balanced_add(right);
                    self.add_sums(left, right)
                }
            }
        }
    }

    /// Whether a threshold keeps a term.
    ///
    /// # Safety
    /// The id is below the count.
    #[inline(always)]
    unsafe fn keeps(&self, id: u64, threshold: f64) -> bool {
        unsafe {
            let node = self.node(id);
            let magnitude = if *node == CONSTANT { f64::from_bits(*node.add(1)).abs() } else { 1.0 };
            magnitude >= threshold
        }
    }

    /// The terms of a chain of Adds of two that a threshold keeps, from the last to the first: in the last places. The first of them.
    ///
    /// # Safety
    /// The store is sound, the root is below the count and has at most `MOST_TERMS` terms.
    unsafe fn flatten(&self, root: u64, threshold: f64, terms: &mut [u64; MOST_TERMS]) -> usize {
        let (mut first, mut top, mut id) = (MOST_TERMS, 0, root);
        unsafe {
            loop {
                let node = self.node(id);
                let is_add = *node == ADD;
                let term = if is_add { *node.add(7) } else { id };
                if is_add && *self.node(term) == ADD {
                    *terms.get_unchecked_mut(top) = *node.add(6);
                    top += 1;
                    id = term;
                    continue;
                }
                *terms.get_unchecked_mut(first - 1) = term;
                first -= usize::from(self.keeps(term, threshold));
                if is_add {
                    id = *node.add(6);
                } else if top == 0 {
                    return first;
                } else {
                    top -= 1;
                    id = *terms.get_unchecked(top);
                }
            }
        }
    }
}

/// The prune of a chain of Adds of two of which some terms are kept, in a store whose table need not grow for it.
pub fn prune(store: &mut Ours, root: u32, threshold: f64) -> u32 {
    let mut terms = [0; MOST_TERMS];
    let (nodes, slots, count, size) = store.lists();
    let mut lists = Lists { nodes, slots, count, size };
    // SAFETY: the benchmark's stores are sound, its chains have Adds of two and 4,096 terms.
    let id = unsafe {
        let first = lists.flatten(u64::from(root), threshold, &mut terms);
        lists.balanced_add(&terms[first..])
    };
    store.set_count(lists.count);
    id as u32
}
