//! Prints what was played in the form of 01's listing, and the details.

use crate::play::{Detail, Played};

pub fn listing(played: &Played) -> String {
    let last = played.answers.last().map_or("-".to_string(), u32::to_string);
    let mut text = format!("ok {last}\n");
    for (id, node) in played.nodes.iter().enumerate() {
        let children: String = node.children.iter().map(|child| format!(" {child}")).collect();
        text += &format!("{id} {} {:016X} {}{children}\n", node.kind, node.payload, node.flags);
    }
    text
}

pub fn details(played: &Played) -> String {
    let mut text = String::new();
    for (index, (id, detail)) in played.answers.iter().zip(&played.details).enumerate() {
        text += &format!("record {index} answer {id}");
        match detail {
            Detail::Built => {}
            Detail::Walked { turns } => text += &format!(" steps {turns}"),
            Detail::Pruned { kept, dropped } => text += &format!(" kept {kept} dropped {dropped}"),
        }
        text.push('\n');
    }
    for (id, node) in played.nodes.iter().enumerate() {
        text += &format!("coefficient {id} {:016X}\n", node.coefficient_bits);
    }
    text
}
