//! A call of the checker's, done by the port on a lent store.

use checker::{Call, CallAnswer, LentStore, Mode, Pruned, Walked};

use crate::interface::*;
use crate::lists::Counts;
use crate::unless_refused;

/// Calls a function of the interface on the lent lists of a store.
macro_rules! on {
    ($store:ident, $counts:ident, $function:ident($($argument:expr),*)) => {
        unsafe {
            $function(
                $store.words.as_mut_ptr(),
                $store.words.len(),
                $store.slots.as_mut_ptr(),
                $store.slots.len(),
                &mut $counts.count,
                &mut $counts.size,
                $($argument),*
            )
        }
    };
}

/// Does a call; the lists and counts are left as the port leaves them.
pub fn call(store: &mut LentStore, call: &Call) -> Result<CallAnswer, u64> {
    let mut counts = Counts::of(store);
    let answer = perform(store, &mut counts, call);
    counts.put(store);
    answer
}

fn perform(store: &mut LentStore, counts: &mut Counts, call: &Call) -> Result<CallAnswer, u64> {
    let (mut id, mut first, mut second) = (0, 0, 0);
    let number = match call {
        Call::Variable { symbol } => on!(store, counts, curvalique_variable(*symbol, &mut id)),
        Call::Constant { bits } => on!(store, counts, curvalique_constant(*bits, &mut id)),
        Call::Operator { operator, flags, operands } => on!(
            store,
            counts,
            curvalique_operator(*operator as u32, u32::from(*flags), operands.as_ptr(), operands.len(), &mut id)
        ),
        Call::Function { number, operands } => {
            on!(store, counts, curvalique_function(*number, operands.as_ptr(), operands.len(), &mut id))
        }
        Call::Control { control, operands } => {
            on!(store, counts, curvalique_control(*control as u32, operands.as_ptr(), operands.len(), &mut id))
        }
        Call::Simplify { mode, root, depth_limit, budget } => {
            let (depth, budget) = (*depth_limit as u32, u64::from(*budget));
            let number = match mode {
                Mode::Standard => {
                    on!(store, counts, curvalique_simplify(*root, depth, budget, &mut id, &mut first, &mut second))
                }
                Mode::Strict => on!(
                    store,
                    counts,
                    curvalique_simplify_strictly(*root, depth, budget, &mut id, &mut first, &mut second)
                ),
            };
            return unless_refused(
                number,
                CallAnswer::Walked(Walked { id: id as u32, steps: second as u32, spent: first != 0 }),
            );
        }
        Call::Prune { root, threshold } => {
            let bits = threshold.to_bits();
            let number = on!(store, counts, curvalique_prune(*root, bits, &mut id, &mut first, &mut second));
            return pruned(number, id, first, second);
        }
        Call::PruneBySetting { root, setting } => {
            let setting = *setting as u32;
            let number =
                on!(store, counts, curvalique_prune_by_setting(*root, setting, &mut id, &mut first, &mut second));
            return pruned(number, id, first, second);
        }
    };
    unless_refused(number, CallAnswer::Built { id: id as u32 })
}

fn pruned(number: u64, id: u64, kept: u64, dropped: u64) -> Result<CallAnswer, u64> {
    unless_refused(number, CallAnswer::Pruned(Pruned { id: id as u32, kept: kept as u32, dropped: dropped as u32 }))
}
