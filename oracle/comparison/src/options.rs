//! The command line.

use generator::Mode;

pub const USAGE: &str = "options: --driver PATH, --with COMMAND, --mode MODE, --seed SEED, --count COUNT, \
--from NUMBER, --threads COUNT";

pub struct Options {
    /// The driver's path; without it the Rust original is left out.
    pub driver: Option<String>,
    /// A third program's batch command.
    pub with: Option<String>,
    pub mode: Mode,
    pub seed: u64,
    pub count: u64,
    pub from: u64,
    pub threads: usize,
}

pub fn read() -> Option<Options> {
    let mut options =
        Options { driver: None, with: None, mode: Mode::Domain, seed: 1, count: 100_000, from: 0, threads: 2 };
    let mut arguments = std::env::args().skip(1);
    while let Some(argument) = arguments.next() {
        let value = arguments.next()?;
        match argument.as_str() {
            "--driver" => options.driver = Some(value),
            "--with" => options.with = Some(value),
            "--mode" => options.mode = Mode::from_name(&value)?,
            "--seed" => options.seed = value.parse().ok()?,
            "--count" => options.count = value.parse().ok()?,
            "--from" => options.from = value.parse().ok()?,
            "--threads" => options.threads = value.parse().ok()?,
            _ => return None,
        }
    }
    Some(options)
}
