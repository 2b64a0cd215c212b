//! Budgets at the very number of steps that a walk takes, and below it.

use checker::{Detail, run};

use crate::random::Random;
use crate::sheet::Sheet;

/// Sets a third of the budgets to exactly the steps that the checker counts.
pub fn tighten(random: &mut Random, sheet: &mut Sheet) {
    for (index, steps) in steps_of(sheet) {
        if random.once_in(3) {
            sheet.set_budget(index, steps);
        }
    }
}

/// Sets a third of the budgets to any number up to the steps.
pub fn cut_short(random: &mut Random, sheet: &mut Sheet) {
    for (index, steps) in steps_of(sheet) {
        if random.once_in(3) {
            let short = random.pick(&[0, 1, steps / 2, steps.saturating_sub(1), steps]);
            sheet.set_budget(index, short);
        }
    }
}

/// The index and the steps of each answered simplify record.
fn steps_of(sheet: &Sheet) -> Vec<(usize, u32)> {
    let answers = run(&sheet.bytes()).answers;
    let steps = |detail| if let Detail::Walked { steps, .. } = detail { Some(steps) } else { None };
    answers.iter().enumerate().filter_map(|(index, answer)| Some((index, steps(answer.detail)?))).collect()
}
