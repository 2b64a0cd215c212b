//! The command line of the driver and the checker.

use std::io::{self, BufReader, BufWriter, Read, Write};
use std::process::ExitCode;

use crate::{read_frame, write_frame};

struct Options {
    batch: bool,
    details: bool,
    hexadecimal: bool,
}

/// Answers one sheet from standard input, or with `--batch` every framed one.
///
/// `answer` takes a sheet and whether `--details` was given. With `--hex` the
/// input of a single sheet is hexadecimal text with any white space.
pub fn serve(answer: impl FnMut(&[u8], bool) -> Vec<u8>) -> ExitCode {
    let Some(options) = options() else {
        eprintln!("options: --batch, --details, --hex");
        return ExitCode::FAILURE;
    };
    let served = if options.batch { serve_batch(&options, answer) } else { serve_one(&options, answer) };
    match served {
        Ok(()) => ExitCode::SUCCESS,
        Err(error) => {
            eprintln!("{error}");
            ExitCode::FAILURE
        }
    }
}

fn options() -> Option<Options> {
    let mut options = Options { batch: false, details: false, hexadecimal: false };
    for argument in std::env::args().skip(1) {
        match argument.as_str() {
            "--batch" => options.batch = true,
            "--details" => options.details = true,
            "--hex" => options.hexadecimal = true,
            _ => return None,
        }
    }
    Some(options)
}

fn serve_batch(options: &Options, mut answer: impl FnMut(&[u8], bool) -> Vec<u8>) -> io::Result<()> {
    let mut input = BufReader::new(io::stdin().lock());
    let mut output = BufWriter::new(io::stdout().lock());
    while let Some(sheet) = read_frame(&mut input)? {
        write_frame(&mut output, &answer(&sheet, options.details))?;
    }
    output.flush()
}

fn serve_one(options: &Options, mut answer: impl FnMut(&[u8], bool) -> Vec<u8>) -> io::Result<()> {
    let mut sheet = Vec::new();
    io::stdin().lock().read_to_end(&mut sheet)?;
    if options.hexadecimal {
        sheet = from_hexadecimal(&sheet)?;
    }
    io::stdout().lock().write_all(&answer(&sheet, options.details))
}

fn from_hexadecimal(text: &[u8]) -> io::Result<Vec<u8>> {
    let digits: Option<Vec<u32>> =
        text.iter().filter(|byte| !byte.is_ascii_whitespace()).map(|byte| (*byte as char).to_digit(16)).collect();
    match digits {
        Some(digits) if digits.len() % 2 == 0 => {
            Ok(digits.chunks(2).map(|pair| (pair[0] * 16 + pair[1]) as u8).collect())
        }
        _ => Err(io::Error::other("not hexadecimal text")),
    }
}
