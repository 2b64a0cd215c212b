//! Reads a listing from standard input, works each node's value out once by its number, and prints the value of the
//! answer, in decimal and as its bits. Functions and controls are refused, and so is an answer that is not finite.

use std::env::args;
use std::io::{Read, stdin};
use std::process::ExitCode;

use curvalique::{LISTING_BYTES, Listing, NODE_WORDS, Node, Outcome, Refusal, Unread, read_listing};

const USAGE: &str = "usage: loader [SYMBOL=VALUE ..] < LISTING";

/// As many as the listing program's store has.
const NODES: usize = 512;

// Kinds of nodes.
const VARIABLE: u64 = 0;
const CONSTANT: u64 = 1;
const ADD: u64 = 2;
const SUB: u64 = 3;
const MUL: u64 = 4;
const DIV: u64 = 5;
const POW: u64 = 6;
const MOD: u64 = 7;
const NEG: u64 = 8;
const FUNCTION: u64 = 16;

/// The value of a variable, as it is given in an argument.
struct Given {
    symbol: u64,
    value: f64,
}

fn read_argument(argument: String) -> Option<Given> {
    let (symbol, value) = argument.split_once('=')?;
    Some(Given { symbol: symbol.parse().ok()?, value: value.parse().ok()? })
}

fn variable_value(variables: &[Given], symbol: u64) -> Result<f64, String> {
    let given = variables.iter().find(|given| given.symbol == symbol);
    given.map(|given| given.value).ok_or(format!("no value is given for symbol {symbol}"))
}

fn read_input() -> Result<Vec<u8>, String> {
    let mut bytes = Vec::new();
    stdin().take(LISTING_BYTES as u64 + 1).read_to_end(&mut bytes).map_err(|error| error.to_string())?;
    if bytes.len() > LISTING_BYTES {
        return Err(format!("the listing is longer than {LISTING_BYTES} bytes"));
    }
    Ok(bytes)
}

fn message(unread: Unread) -> String {
    match unread {
        Unread::WrongLine(line) => format!("line {line} of the listing is wrong"),
        Unread::TooFewWords => format!("the listing has more than {NODES} nodes"),
    }
}

/// The answer's id, which the reader sees to be one of the listing's nodes, and whether the last record ran out of its
/// budget.
fn answer_of(listing: &Listing) -> Result<(usize, bool), String> {
    match listing.outcome {
        Outcome::Ok(id) => Ok((id as usize, false)),
        Outcome::Spent(id) => Ok((id as usize, true)),
        Outcome::Empty => Err("the sheet has no records and no answer".to_string()),
        Outcome::Refused { refusal: Refusal(number), record } => {
            Err(format!("the sheet is refused with {number} at record {record}"))
        }
    }
}

/// The value of a node, from itself and the values of the nodes before it.
fn node_value(node: &Node, values: &[f64], variables: &[Given]) -> Result<f64, String> {
    let children: Vec<f64> = node.children().iter().map(|&child| values[child as usize]).collect();
    match (node.kind, children.as_slice()) {
        (VARIABLE, _) => variable_value(variables, node.payload),
        (CONSTANT, _) => Ok(f64::from_bits(node.payload)),
        (ADD, [first, others @ ..]) => Ok(others.iter().fold(*first, |sum, child| sum + child)),
        (MUL, [first, others @ ..]) => Ok(others.iter().fold(*first, |product, child| product * child)),
        (SUB, [a, b]) => Ok(a - b),
        (DIV, [a, b]) => Ok(a / b),
        (POW, [a, b]) => Ok(a.powf(*b)),
        (MOD, [a, b]) => Ok(a % b),
        (NEG, [a]) => Ok(-a),
        (FUNCTION, _) => Err("a function has no value here".to_string()),
        _ => Err("a control has no value here".to_string()),
    }
}

/// What the loader prints of the listing.
fn load(variables: &[Given]) -> Result<String, String> {
    let bytes = read_input()?;
    let mut words = [0; NODES * NODE_WORDS];
    let listing = read_listing(&bytes, &mut words).map_err(message)?;
    let (answer, spent) = answer_of(&listing)?;
    let mut values = Vec::new();
    for (id, node) in listing.nodes().enumerate() {
        values.push(node_value(&node, &values, variables).map_err(|fault| format!("node {id}: {fault}"))?);
    }
    let value = values[answer];
    if !value.is_finite() {
        return Err(format!("the value of node {answer} is not finite"));
    }
    let word = if spent { " (spent)" } else { "" };
    Ok(format!("node {answer}{word}: {value:.6} {:016X}", value.to_bits()))
}

fn main() -> ExitCode {
    let Some(variables) = args().skip(1).map(read_argument).collect::<Option<Vec<_>>>() else {
        eprintln!("{USAGE}");
        return ExitCode::from(2);
    };
    match load(&variables) {
        Ok(line) => println!("{line}"),
        Err(fault) => {
            eprintln!("loader: {fault}");
            return ExitCode::FAILURE;
        }
    }
    ExitCode::SUCCESS
}
