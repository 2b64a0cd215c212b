//! Runs a batch command over many sheets.

use std::io::{self, BufReader, BufWriter, Write};
use std::process::{ChildStdin, Command, Stdio};
use std::thread;

use crate::{read_frame, write_frame};

/// The answers to the sheets, fewer than there are sheets if the command
/// stops early.
pub fn answers(command: &str, sheets: &[Vec<u8>]) -> io::Result<Vec<Vec<u8>>> {
    let mut child = Command::new("sh").args(["-c", command]).stdin(Stdio::piped()).stdout(Stdio::piped()).spawn()?;
    let input = child.stdin.take().expect("standard input is piped");
    let mut output = BufReader::new(child.stdout.take().expect("standard output is piped"));
    let answers = thread::scope(|scope| {
        // A command that stops early closes its input; what it answered counts.
        scope.spawn(|| feed(input, sheets).ok());
        let mut answers = Vec::with_capacity(sheets.len());
        while let Ok(Some(answer)) = read_frame(&mut output) {
            answers.push(answer);
        }
        answers
    });
    child.wait()?;
    Ok(answers)
}

fn feed(input: ChildStdin, sheets: &[Vec<u8>]) -> io::Result<()> {
    let mut input = BufWriter::new(input);
    for sheet in sheets {
        write_frame(&mut input, sheet)?;
    }
    input.flush()
}
