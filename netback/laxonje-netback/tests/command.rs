//! The program by its words, on a machine without Xen too.
use std::path::PathBuf;
use std::process::{Command, Output, Stdio};

fn run(words: &[&str]) -> Output {
    Command::new(env!("CARGO_BIN_EXE_laxonje-netback")).args(words).output().unwrap()
}

fn text(bytes: &[u8]) -> &str {
    std::str::from_utf8(bytes).unwrap()
}

/// Nothing on standard output, one line on standard error, and the status.
fn one_line(output: &Output, status: i32) -> String {
    let said = text(&output.stderr);
    assert_eq!(output.status.code(), Some(status), "{said}");
    assert!(
        output.stdout.is_empty() && said.starts_with("laxonje-netback: ") && said.ends_with('\n') && said.matches('\n').count() == 1,
        "{said}"
    );
    said.to_owned()
}

fn settings(example: &str) -> PathBuf {
    PathBuf::from(env!("CARGO_MANIFEST_DIR")).join("../../examples").join(example).join("settings.toml")
}

#[test]
fn help_and_version_are_said() {
    let help = run(&["--help"]);
    assert!(help.status.success() && text(&help.stdout).starts_with("usage: laxonje-netback "));
    assert_eq!(text(&run(&["--version"]).stdout), concat!("laxonje-netback ", env!("CARGO_PKG_VERSION"), "\n"));
}

#[test]
fn wrong_words_get_one_line_and_status_2() {
    for words in [&["--queues", "many"][..], &["serve"], &["check"], &["stats", "--xml"], &["--filters"], &["--grants", "flip"]] {
        one_line(&run(words), 2);
    }
}

#[test]
fn a_filter_is_checked() {
    let accepted = run(&["check", settings("count-protocols").to_str().unwrap()]);
    assert_eq!(text(&accepted.stdout), "accepted, 18 instructions, map protocols 256x1\n");
    let refused = PathBuf::from(env!("CARGO_MANIFEST_DIR")).join("Cargo.toml");
    assert!(one_line(&run(&["check", refused.to_str().unwrap()]), 1).contains("Cargo.toml: L3: "));
    assert!(one_line(&run(&["check", "/nothing/there"]), 1).contains("/nothing/there: No such file"));
}

#[test]
fn a_fifo_is_not_waited_for() {
    let fifo = std::env::temp_dir().join(format!("laxonje-command-{}.toml", std::process::id()));
    assert!(Command::new("mkfifo").arg(&fifo).status().unwrap().success());
    assert!(one_line(&run(&["check", fifo.to_str().unwrap()]), 1).contains("no regular file"));
    std::fs::remove_file(&fifo).unwrap();
}

#[test]
fn nobody_answers_where_nobody_serves() {
    for question in ["stats", "reload"] {
        let said = one_line(&run(&[question, "--socket", "/nothing/there"]), 1);
        assert!(said.contains("/nothing/there: "));
    }
}

#[test]
fn processes_of_guests_are_started_by_the_program_alone() {
    for words in [&["start-guests", "0"][..], &["serve-guest", "3", "0"]] {
        let by_hand = Command::new(env!("CARGO_BIN_EXE_laxonje-netback")).args(words).stdin(Stdio::null()).output().unwrap();
        assert!(one_line(&by_hand, 1).contains("Socket operation on non-socket"), "{words:?}");
    }
    one_line(&run(&["serve-guest", "x"]), 2);
}

#[test]
fn without_xen_it_says_what_is_not_there() {
    if !PathBuf::from("/dev/xen").exists() && !PathBuf::from("/proc/xen").exists() {
        one_line(&run(&["--socket", "/nothing/there"]), 1);
    }
}
