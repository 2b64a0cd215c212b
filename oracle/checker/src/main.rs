//! The checker's command line: answers sheets as document 01 says.

fn main() -> std::process::ExitCode {
    batch::serve(checker::answer)
}
