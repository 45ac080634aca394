//! Compares the declarations by hand with the machine's headers, if it has them and a C compiler.
use std::env;
use std::process::{exit, Command, Output};

const HEADERS: &str = "src/headers.c";

fn main() {
    println!("cargo:rerun-if-changed={HEADERS}");
    println!("cargo:rerun-if-env-changed=CC");
    let has_headers = compiler(&["-E", HEADERS]).map_or(false, |output| output.status.success());
    if !has_headers {
        return;
    }
    if let Some(wrong) = compiler(&["-std=gnu11", "-fsyntax-only", HEADERS]).filter(|output| !output.status.success()) {
        eprintln!("the declarations aren't those of the installed headers:\n{}", String::from_utf8_lossy(&wrong.stderr));
        exit(1)
    }
}

/// `None`: there is no C compiler.
fn compiler(words: &[&str]) -> Option<Output> {
    let name = env::var("CC").unwrap_or_else(|_| "cc".to_owned());
    let mut own = name.split_whitespace();
    Command::new(own.next()?).args(own).args(words).output().ok()
}
