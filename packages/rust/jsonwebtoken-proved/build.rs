//! Links the installed library that `pkg-config` finds. The documentation alone needs no library: docs.rs sets DOCS_RS, and has none.

use std::env;
use std::process::{Command, ExitCode};

fn main() -> ExitCode {
    println!("cargo:rerun-if-env-changed=PKG_CONFIG_PATH");
    println!("cargo:rerun-if-env-changed=DOCS_RS");
    if env::var_os("DOCS_RS").is_some() {
        return ExitCode::SUCCESS;
    }
    let words = ["--libs", "--print-errors", "jwtproved"];
    let ran = match Command::new("pkg-config").args(words).output() {
        Ok(ran) => ran,
        Err(error) => return refused(&format!("pkg-config can't be run: {error}")),
    };
    if !ran.status.success() {
        return refused(&String::from_utf8_lossy(&ran.stderr));
    }
    for word in String::from_utf8_lossy(&ran.stdout).split_whitespace() {
        match (word.strip_prefix("-L"), word.strip_prefix("-l")) {
            (Some(folder), _) => println!("cargo:rustc-link-search=native={folder}"),
            (_, Some(name)) => println!("cargo:rustc-link-lib={name}"),
            _ => {}
        }
    }
    ExitCode::SUCCESS
}

fn refused(why: &str) -> ExitCode {
    eprintln!(
        "the library jwtproved is missing; `make -C packages/c install` in a checkout of its repository installs it: {why}"
    );
    ExitCode::FAILURE
}
