//! Plays a sheet on the unchanged original and on the instrumented copy, and
//! holds the two against each other after every record.

use judge::{Counts, Judge, Node, Record};

use crate::sheet;

/// What a record answered besides its id.
pub enum Detail {
    Built,
    Walked { turns: u64 },
    Pruned { kept: usize, dropped: usize },
}

pub struct Played {
    pub answers: Vec<u32>,
    pub details: Vec<Detail>,
    pub nodes: Vec<Node>,
}

/// Plays a sheet that is inside the domain.
pub fn play(sheet: &[u8]) -> Played {
    let mut unchanged = original::machine::Machine::new();
    let mut counted = counted::machine::Machine::new();
    let mut played = Played { answers: Vec::new(), details: Vec::new(), nodes: Vec::new() };
    let mut bytes = &sheet[1..];
    while !bytes.is_empty() {
        let (body, rest) = sheet::cut(bytes);
        let record = sheet::read(body, &played.answers);
        let id = unchanged.perform(&record);
        assert_eq!(id, counted.perform(&record), "the instrumented copy answers differently");
        assert_eq!(unchanged.take_counts(), Counts::default(), "the unchanged original counts");
        played.answers.push(id);
        played.details.push(detail(&record, counted.take_counts()));
        bytes = rest;
    }
    played.nodes = unchanged.nodes();
    assert_eq!(played.nodes, counted.nodes(), "the instrumented copy has other nodes");
    played
}

/// A prune of a root that is no Add counts nothing: 1 kept, 0 dropped.
fn detail(record: &Record, counts: Counts) -> Detail {
    match record {
        Record::Simplify { .. } => Detail::Walked { turns: counts.turns },
        Record::Prune { .. } => {
            let (terms, kept) = counts.chain.unwrap_or((1, 1));
            Detail::Pruned { kept, dropped: terms - kept }
        }
        _ => Detail::Built,
    }
}
