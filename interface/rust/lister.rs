//! Reads a sheet from standard input and writes its listing, as the program `listing` does.

use std::io::{Read, Result, Write, stdin, stdout};

use curvalique::{LISTING_BYTES, list_sheet};

fn main() -> Result<()> {
    let mut sheet = Vec::new();
    stdin().read_to_end(&mut sheet)?;
    stdout().write_all(list_sheet(&sheet, &mut [0; LISTING_BYTES]))
}
