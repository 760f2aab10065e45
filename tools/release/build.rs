//! Links the static library that is in this crate.

use std::{env, process::ExitCode};

fn main() -> ExitCode {
    println!("cargo:rerun-if-changed=native");
    let target = env::var("TARGET").unwrap_or_default();
    if target != "x86_64-unknown-linux-gnu" {
        eprintln!("the library in this crate is for x86_64-unknown-linux-gnu, and not for {target}");
        return ExitCode::FAILURE;
    }
    let folder = env::var("CARGO_MANIFEST_DIR").unwrap_or_default();
    println!("cargo:rustc-link-search=native={folder}/native");
    println!("cargo:rustc-link-lib=static=jwtproved");
    ExitCode::SUCCESS
}
