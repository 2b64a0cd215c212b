//! generate SEED COUNT [--mode MODE] [--from NUMBER]: framed sheets on
//! standard output.

use std::io::{self, BufWriter, Write};
use std::process::ExitCode;

use batch::write_frame;
use generator::{Mode, sheet};

struct Options {
    seed: u64,
    count: u64,
    mode: Mode,
    from: u64,
}

fn main() -> ExitCode {
    let Some(options) = options() else {
        eprintln!("usage: generate SEED COUNT [--mode domain|any|exhaustive|damaged|limits] [--from NUMBER]");
        return ExitCode::FAILURE;
    };
    match generate(&options) {
        Ok(()) => ExitCode::SUCCESS,
        Err(error) => {
            eprintln!("{error}");
            ExitCode::FAILURE
        }
    }
}

fn options() -> Option<Options> {
    let mut arguments = std::env::args().skip(1);
    let seed = arguments.next()?.parse().ok()?;
    let count = arguments.next()?.parse().ok()?;
    let mut options = Options { seed, count, mode: Mode::Domain, from: 0 };
    while let Some(argument) = arguments.next() {
        let value = arguments.next()?;
        match argument.as_str() {
            "--mode" => options.mode = Mode::from_name(&value)?,
            "--from" => options.from = value.parse().ok()?,
            _ => return None,
        }
    }
    Some(options)
}

fn generate(options: &Options) -> io::Result<()> {
    let mut output = BufWriter::new(io::stdout().lock());
    for number in options.from..options.from + options.count {
        write_frame(&mut output, &sheet(options.mode, options.seed, number))?;
    }
    output.flush()
}
