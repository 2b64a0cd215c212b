//! Reads a formula typed as text from standard input into a fresh store and an empty name list, and prints its listing
//! as docs/REFERENCE.md describes it, and after it a line for each name: its number and the name.

use std::io::{Read, stdin};
use std::process::ExitCode;

use curvalique::{ENTRY_BYTES, NODE_WORDS, Names, Refusal, Store};

const NODES: usize = 512;
const SLOTS: usize = 1_024;
const ENTRIES: usize = 64;

fn print_node(store: &Store, id: u32) -> Result<(), Refusal> {
    let node = store.node(id)?;
    let children: String = node.children().iter().map(|child| format!(" {child}")).collect();
    println!("{id} {} {:016X} {}{children}", node.kind, node.payload, node.flags);
    Ok(())
}

fn print_name(names: &Names, number: u32) -> Result<(), Refusal> {
    let name = names.name(number)?.unwrap_or_default();
    println!("name {number} {}", String::from_utf8_lossy(&name));
    Ok(())
}

fn run(text: &[u8]) -> Result<(), Refusal> {
    let (mut nodes, mut slots, mut entries) = ([0; NODES * NODE_WORDS], [0; SLOTS], [0; ENTRIES * ENTRY_BYTES]);
    let mut store = Store::fresh(&mut nodes, &mut slots)?;
    store.lend_names(&mut entries);
    println!("ok {}", store.read_text(text)?);
    (0..store.count as u32).try_for_each(|id| print_node(&store, id))?;
    (0..store.names.count as u32).try_for_each(|number| print_name(&store.names, number))
}

fn main() -> ExitCode {
    let mut text = Vec::new();
    if stdin().read_to_end(&mut text).is_err() {
        eprintln!("reader: the text could not be read");
        return ExitCode::FAILURE;
    }
    if let Err(refusal) = run(&text) {
        eprintln!("reader: {refusal}");
        return ExitCode::FAILURE;
    }
    ExitCode::SUCCESS
}
