//! The listing of a sheet, and the details that `--details` adds to it.

use std::fmt::Write;

use crate::node::Node;
use crate::run::{Answer, Detail, End, Run};

/// The listing as 01 prints it.
pub fn listing(run: &Run) -> String {
    let mut text = first_line(run);
    for (id, node) in run.store.nodes().iter().enumerate() {
        node_line(&mut text, id, node);
    }
    text
}

fn first_line(run: &Run) -> String {
    match (run.end, run.answers.last()) {
        (End::Refused { refusal, at }, _) => format!("refused {} at {at}\n", refusal.number()),
        (End::Done, None) => "ok -\n".to_string(),
        (End::Done, Some(Answer { id, detail: Detail::Walked { spent: true, .. } })) => format!("spent {id}\n"),
        (End::Done, Some(answer)) => format!("ok {}\n", answer.id),
    }
}

fn node_line(text: &mut String, id: usize, node: &Node) {
    write!(text, "{id} {} {:016X} {}", node.kind.code(), node.payload, node.flags).unwrap();
    for child in node.children.ids() {
        write!(text, " {child}").unwrap();
    }
    text.push('\n');
}

/// One line for each answered record, then each node's coefficient bits.
pub fn details(run: &Run) -> String {
    let mut text = String::new();
    for (index, answer) in run.answers.iter().enumerate() {
        write!(text, "record {index} answer {}", answer.id).unwrap();
        match answer.detail {
            Detail::Built => {}
            Detail::Walked { steps, .. } => write!(text, " steps {steps}").unwrap(),
            Detail::Pruned { kept, dropped } => write!(text, " kept {kept} dropped {dropped}").unwrap(),
        }
        text.push('\n');
    }
    for (id, node) in run.store.nodes().iter().enumerate() {
        writeln!(text, "coefficient {id} {:016X}", node.coefficient_bits()).unwrap();
    }
    text
}
