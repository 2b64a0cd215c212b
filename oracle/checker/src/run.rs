//! Running a sheet in the listing program's fresh store (01, "sheets and the
//! listing").

use crate::node::{Children, Kind, Node};
use crate::prune::prune;
use crate::record::{self, Record};
use crate::refusal::Refusal;
use crate::store::Store;
use crate::walk::{Mode, simplify};

const LISTING_NODES: usize = 512;
const LISTING_SLOTS: usize = 1_024;
const SHEET_BYTES_MAXIMUM: usize = 16_384;
const SHEET_FIRST_BYTE: u8 = 1;
const RECORDS_MAXIMUM: usize = 1_024;

/// What a record answered besides its id.
#[derive(Clone, Copy, Debug, PartialEq, Eq)]
pub enum Detail {
    Built,
    Walked { steps: u32, spent: bool },
    Pruned { kept: u32, dropped: u32 },
}

#[derive(Clone, Copy, Debug, PartialEq, Eq)]
pub struct Answer {
    pub id: u32,
    pub detail: Detail,
}

/// How a sheet ended.
#[derive(Clone, Copy, Debug, PartialEq, Eq)]
pub enum End {
    Done,
    Refused { refusal: Refusal, at: usize },
}

/// The store after a sheet, and the answers of its records before a refusal.
#[derive(Clone, Debug)]
pub struct Run {
    pub store: Store,
    pub answers: Vec<Answer>,
    /// The root and the answer of each strict walk.
    pub strict_walks: Vec<(u32, u32)>,
    pub end: End,
}

/// Runs a sheet.
pub fn run(sheet: &[u8]) -> Run {
    let store = Store::fresh(LISTING_NODES, LISTING_SLOTS).expect("the listing lends at least 64 slots");
    let mut run = Run { store, answers: Vec::new(), strict_walks: Vec::new(), end: End::Done };
    match sheet.split_first() {
        Some((&SHEET_FIRST_BYTE, records)) if sheet.len() <= SHEET_BYTES_MAXIMUM => {
            if let Err(refusal) = run.records(records) {
                run.end = End::Refused { refusal, at: run.answers.len() };
            }
        }
        _ => run.end = End::Refused { refusal: Refusal::Sheet, at: 0 },
    }
    run
}

impl Run {
    fn records(&mut self, mut bytes: &[u8]) -> Result<(), Refusal> {
        while !bytes.is_empty() {
            let index = self.answers.len();
            if index == RECORDS_MAXIMUM {
                return Err(Refusal::TooManyRecords);
            }
            let (body, rest) = record::cut(bytes)?;
            let record = record::read(body, index)?;
            let answer = self.perform(&record)?;
            self.answers.push(answer);
            bytes = rest;
        }
        Ok(())
    }

    fn perform(&mut self, record: &Record) -> Result<Answer, Refusal> {
        match record {
            Record::Variable { symbol } => self.store.variable(*symbol).map(built),
            Record::Constant { bits } => self.store.constant(*bits).map(built),
            Record::Operator { operator, flags, operands } => {
                self.build(Kind::Operator(*operator), 0, *flags, operands)
            }
            Record::Function { number, operands } => self.build(Kind::Function, u64::from(*number), 0, operands),
            Record::Control { control, operands } => self.build(Kind::Control, *control as u64, 0, operands),
            Record::Simplify { mode, operand, depth_limit, budget } => {
                let root = self.id(*operand);
                self.store.noticed.strict_walk |= *mode == Mode::Strict;
                let walked = simplify(&mut self.store, *mode, root, *depth_limit, *budget)?;
                if *mode == Mode::Strict {
                    self.strict_walks.push((root, walked.id));
                }
                let detail = Detail::Walked { steps: walked.steps, spent: walked.spent };
                Ok(Answer { id: walked.id, detail })
            }
            Record::Prune { operand, threshold } => {
                let root = self.id(*operand);
                let pruned = prune(&mut self.store, root, *threshold)?;
                let detail = Detail::Pruned { kept: pruned.kept, dropped: pruned.dropped };
                Ok(Answer { id: pruned.id, detail })
            }
        }
    }

    /// The id that an earlier record answered.
    fn id(&self, operand: u16) -> u32 {
        self.answers[usize::from(operand)].id
    }

    fn build(&mut self, kind: Kind, payload: u64, flags: u8, operands: &[u16]) -> Result<Answer, Refusal> {
        let ids: Vec<u32> = operands.iter().map(|&operand| self.id(operand)).collect();
        self.store.intern(Node { kind, payload, flags, children: Children::new(&ids) }).map(built)
    }
}

fn built(id: u32) -> Answer {
    Answer { id, detail: Detail::Built }
}
