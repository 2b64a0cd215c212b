//! A sheet, run on a store.

use crate::{FORM_EMPTY, FORM_SPENT, Refusal, Store, raw};

/// What a sheet answers with its last record.
#[derive(Clone, Copy, PartialEq, Eq, Debug)]
pub enum SheetAnswer {
    Ok(u32),
    Empty,
    Spent(u32),
}

/// Why a sheet is refused, and at which record.
#[derive(Clone, Copy, PartialEq, Eq, Debug)]
pub struct RefusedSheet {
    pub refusal: Refusal,
    pub record: u64,
}

/// What stands behind the pointers of a call that runs a sheet.
#[derive(Default)]
struct Answers {
    form: u64,
    id: u64,
    record: u64,
}

impl Answers {
    fn of(&self, returned: u64) -> Result<SheetAnswer, RefusedSheet> {
        if returned != 0 {
            return Err(RefusedSheet { refusal: Refusal(returned), record: self.record });
        }
        Ok(match self.form {
            FORM_EMPTY => SheetAnswer::Empty,
            FORM_SPENT => SheetAnswer::Spent(self.id as u32),
            _ => SheetAnswer::Ok(self.id as u32),
        })
    }
}

/// Calls a function that runs a sheet, and gives its answer.
macro_rules! run {
    ($store:ident, $function:ident, $sheet:ident) => {{
        let mut answers = Answers::default();
        // SAFETY: the lists and numbers are borrowed for the call, with their lengths, and apart from the answers.
        let returned = unsafe {
            raw::$function(
                $sheet.as_ptr(),
                $sheet.len(),
                $store.nodes.as_mut_ptr(),
                $store.nodes.len(),
                $store.slots.as_mut_ptr(),
                $store.slots.len(),
                &mut $store.count,
                &mut $store.size,
                &mut answers.form,
                &mut answers.id,
                &mut answers.record,
            )
        };
        answers.of(returned)
    }};
}

impl Store<'_> {
    /// Runs a sheet on the store.
    pub fn run_sheet(&mut self, sheet: &[u8]) -> Result<SheetAnswer, RefusedSheet> {
        run!(self, curvalique_run_sheet, sheet)
    }

    /// Makes the store a fresh one and runs a sheet on it.
    pub fn run_sheet_fresh(&mut self, sheet: &[u8]) -> Result<SheetAnswer, RefusedSheet> {
        run!(self, curvalique_run_sheet_fresh, sheet)
    }
}
