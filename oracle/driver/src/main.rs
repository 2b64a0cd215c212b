//! The driver `oracle`: runs sheets on the Rust original.

mod listing;
mod play;
mod sheet;

use std::process::ExitCode;

fn main() -> ExitCode {
    batch::serve(answer)
}

/// The listing of a sheet inside 01's domain, or one line that says why it is
/// outside. The checker decides which.
fn answer(sheet: &[u8], with_details: bool) -> Vec<u8> {
    if let Some(outside) = checker::outside(&checker::run(sheet)) {
        return format!("outside {}\n", outside.words()).into_bytes();
    }
    let played = play::play(sheet);
    let mut text = listing::listing(&played);
    if with_details {
        text.push_str(&listing::details(&played));
    }
    text.into_bytes()
}
