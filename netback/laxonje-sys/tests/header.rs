//! The declarations beside the header that comes with the library: build.rs compares what is declared; here, that nothing is left out, and that
//! the comparison finds what it is for.
use std::collections::BTreeSet;
use std::env;
use std::fs;
use std::process::Command;

#[path = "../header.rs"]
mod header;

const RUST: &str = include_str!("../src/lib.rs");

/// The header's text without its comments. `None`: there is none beside the library.
fn text() -> Option<String> {
    let text = fs::read_to_string(format!("{}/laxonje.h", option_env!("LAXONJE_INCLUDE")?)).unwrap();
    let mut kept = String::new();
    for (number, part) in text.split("/*").enumerate() {
        kept.push_str(if number == 0 { part } else { part.split_once("*/").unwrap().1 });
    }
    Some(kept)
}

/// The words of a text.
fn words(text: &str) -> impl Iterator<Item = &str> {
    text.split(|it: char| !it.is_ascii_alphanumeric() && it != '_').filter(|it| !it.is_empty())
}

/// The enumerators and the numbers that the header defines.
fn constants(text: &str) -> BTreeSet<&str> {
    let lines = text.lines().map(str::trim).filter(|line| !line.contains('('));
    let named = lines.filter_map(|line| words(line.strip_prefix("#define ").unwrap_or(line)).next());
    let mut found: BTreeSet<_> = named.filter(|it| it.starts_with("LAXONJE_") && *it != "LAXONJE_H").collect();
    for line in text.lines().filter(|line| line.starts_with("enum ")) {
        found.extend(words(line).filter(|it| it.starts_with("LAXONJE_")));
    }
    found
}

/// The calls that the header declares and doesn't define.
fn calls(text: &str) -> BTreeSet<&str> {
    let lines = text.lines().filter(|line| line.starts_with(|it: char| it.is_ascii_lowercase()) && !line.starts_with("static"));
    lines.filter_map(|line| words(line.split_once('(')?.0).last()).filter(|it| it.starts_with("laxonje_")).collect()
}

#[test]
fn nothing_of_the_header_is_left_out() {
    let text = match text() {
        Some(text) => text,
        None => return,
    };
    let declared: BTreeSet<_> = header::constants(RUST).into_iter().map(|(name, _)| name).collect();
    assert_eq!(constants(&text), declared);
    let declared: BTreeSet<_> = header::calls(RUST).into_iter().map(|(name, ..)| name).collect();
    assert_eq!(calls(&text), declared);
    assert!(declared.len() > 25);
    for line in text.lines().filter(|line| line.starts_with("struct ") && line.ends_with('{')) {
        let name = words(line).nth(1).unwrap();
        assert!(header::structs(RUST).iter().any(|(known, _)| *known == name), "{name}");
    }
}

/// Whether a compiler takes these declarations beside the header. `None`: there is no compiler, or no header.
fn fits(rust: &str, name: &str) -> Option<bool> {
    let source = env::temp_dir().join(format!("laxonje-{}-{name}.c", std::process::id()));
    fs::write(&source, header::checks(rust)).unwrap();
    let words = ["-std=gnu11", "-fsyntax-only", "-I", option_env!("LAXONJE_INCLUDE")?];
    let said = Command::new(env::var("CC").unwrap_or_else(|_| "cc".to_owned())).args(words).arg(&source).output();
    fs::remove_file(&source).unwrap();
    Some(said.ok()?.status.success())
}

#[test]
fn a_declaration_that_differs_is_found() {
    if fits(RUST, "right") != Some(true) {
        assert_eq!(fits(RUST, "right"), None);
        return;
    }
    let wrong = [
        ("LAXONJE_HALT_SLOTS: u32 = 3;", "LAXONJE_HALT_SLOTS: u32 = 4;"),
        ("pub const LAXONJE_NOWHERE: usize = usize::MAX;", "pub const LAXONJE_NOWHERE: usize = 0;"),
        ("    pub tx: u32,\n    pub rx: u32,", "    pub rx: u32,\n    pub tx: u32,"),
        ("    pub domain: u16,", "    pub domain: u32,"),
        ("    pub segment_size: u16,", "    pub segment_size: u32,"),
        ("        self.frame\n", "        self.word\n"),
        ("        self.value[0]\n", "        self.value[1]\n"),
        ("    pub value: [u32; 2],", "    pub value: [u32; 3],"),
        ("    pub slots: u32,\n", ""),
        ("packet: *const u8, packet_bytes: usize) -> u32;", "packet: *mut u8, packet_bytes: usize) -> u32;"),
        (
            "pub fn laxonje_queue_await(queue: *mut laxonje_queue, pages: u32)",
            "pub fn laxonje_queue_await(queue: *mut laxonje_queue, pages: usize)",
        ),
        ("pub const LAXONJE_RELISTED_MAPS: u32 = 3;", "pub const LAXONJE_RELISTED_MAPS: u32 = 2;"),
        ("pub fn laxonje_version() -> u32;", "pub fn laxonje_version() -> u64;"),
        ("pub fn laxonje_free(program: *mut laxonje_program);", "pub fn laxonje_free(program: *mut laxonje_queue);"),
    ];
    for (number, (old, new)) in wrong.into_iter().enumerate() {
        assert!(RUST.contains(old), "{old}");
        assert_eq!(fits(&RUST.replacen(old, new, 1), &number.to_string()), Some(false), "{new}");
    }
}
