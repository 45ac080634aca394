//! A network backend of Xen that runs a verified BPF program on each packet of a guest. `--help` says how it is used.
#![deny(unsafe_code)]
mod backend;
mod control;
mod device;
mod ffi;
mod filters;
mod frame;
mod guests;
mod keys;
mod lists;
mod log;
mod options;
#[allow(unsafe_code)]
mod os;
mod panics;
mod serve;
mod settings;
mod stats;
#[allow(unsafe_code)]
mod xen;

use backend::Backend;
use filters::{unread_line, unread_lists, Filter};
use laxonje::Offers;
use log::plain;
use options::{Command, Options};
use std::io::{self, Write};
use std::path::Path;
use std::process::exit;

const VERSION: &str = concat!("laxonje-netback ", env!("CARGO_PKG_VERSION"));
const FAILED: i32 = 1;
const USAGE: i32 = 2;

fn main() {
    let words: Vec<String> = std::env::args_os().skip(1).map(|word| word.to_string_lossy().into_owned()).collect();
    let command = options::command(&words).unwrap_or_else(|wrong| ends(USAGE, &wrong));
    if let Err(why) = obey(command) {
        ends(FAILED, &why);
    }
}

/// Ends with one line on standard error.
fn ends(status: i32, why: &str) -> ! {
    let _ = writeln!(io::stderr(), "laxonje-netback: {why}");
    exit(status)
}

fn obey(command: Command) -> Result<(), String> {
    laxonje::check_version().map_err(|error| error.to_string())?;
    panics::keep();
    match command {
        Command::Help => say(options::HELP),
        Command::Version => say(&format!("{VERSION}\n")),
        Command::Check(file) => check(&file),
        Command::Ask { question, socket } => {
            let answer = control::ask(&socket, question).map_err(|error| format!("{}: {error}", socket.display()))?;
            say(&answer)
        }
        Command::Serve(options) => serve(options),
        Command::StartGuests { words, restricted } => guests::start_guests(words, restricted).map_err(|error| error.to_string()),
        Command::ServeGuest { domain, own, options } => guests::serve_guest(domain, own, &options).map_err(|error| error.to_string()),
    }
}

fn say(text: &str) -> Result<(), String> {
    io::stdout().write_all(text.as_bytes()).map_err(|error| format!("standard output: {error}"))
}

fn check(file: &Path) -> Result<(), String> {
    let filter = Filter::load(file).map_err(|error| error.to_string())?;
    let maps: Vec<_> = filter
        .program
        .map_names()
        .iter()
        .zip(filter.program.maps())
        .map(|(name, map)| format!(", map {} {}x{}", plain(name), map.entries, map.counters))
        .collect();
    let gso = if filter.offers == Offers::ALL { "" } else { ", gso = false" };
    let unread: String = unread_lists(file, &filter.text).iter().map(|list| plain(&unread_line(file, list)) + "\n").collect();
    say(&format!("accepted, {} instructions{}{gso}\n{unread}", filter.program.instructions(), maps.concat()))
}

fn serve(options: Options) -> Result<(), String> {
    let mut backend = Backend::open(options).map_err(|error| error.to_string())?;
    backend.run().map_err(|error| error.to_string())?;
    // To close XenStore would wait for a thread of its library, which it ends by a signal that isn't on the list of system calls.
    exit(0)
}
