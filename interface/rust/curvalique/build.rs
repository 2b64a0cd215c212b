//! Says where libcurvalique.a is: in the folder that CURVALIQUE_LIB names, else in the repository that this package
//! stands in (target/staticlib, as interface/build writes it), else under the prefix that interface/install was given.

use std::env;
use std::path::PathBuf;
use std::process::exit;

const ARCHIVE: &str = "libcurvalique.a";

fn folders() -> Vec<PathBuf> {
    if let Some(folder) = env::var_os("CURVALIQUE_LIB") {
        return vec![folder.into()];
    }
    let package = PathBuf::from(env::var_os("CARGO_MANIFEST_DIR").unwrap_or_default());
    let above = package.join("../../..");
    vec![above.join("target/staticlib"), above.join("lib")]
}

fn main() {
    println!("cargo:rerun-if-env-changed=CURVALIQUE_LIB");
    let folders = folders();
    let Some(folder) = folders.iter().find(|folder| folder.join(ARCHIVE).is_file()) else {
        eprintln!("{ARCHIVE} is in none of {folders:?}.");
        eprintln!("Build it with `interface/build library`, or set CURVALIQUE_LIB to the folder that has it.");
        exit(1);
    };
    println!("cargo:rerun-if-changed={}", folder.join(ARCHIVE).display());
    println!("cargo:rustc-link-search=native={}", folder.display());
    println!("cargo:rustc-link-lib=static=curvalique");
}
