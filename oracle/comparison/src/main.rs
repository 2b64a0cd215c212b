//! Compares the Rust original, the checker and a third program on generated
//! sheets. Started by ../compare, which builds everything first.

mod options;
mod party;
mod shrink;
mod tally;
mod work;

use std::process::ExitCode;
use std::time::Instant;

fn main() -> ExitCode {
    let Some(options) = options::read() else {
        eprintln!("{}", options::USAGE);
        return ExitCode::FAILURE;
    };
    let start = Instant::now();
    let tally = work::compare(&options);
    print!("{}", tally.summary());
    println!("seconds: {:.1}", start.elapsed().as_secs_f64());
    if tally.differences.is_empty() { ExitCode::SUCCESS } else { ExitCode::FAILURE }
}
