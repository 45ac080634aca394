//! Panics: a fault of this program in a queue's thread is caught and told, and the other queues go on.
use crate::log::Log;
use std::cell::RefCell;
use std::panic::{catch_unwind, set_hook, AssertUnwindSafe};
use std::thread;

/// How the threads of packets are named.
pub const PACKET_THREAD: &str = "vif";

thread_local! {
    static LAST: RefCell<String> = const { RefCell::new(String::new()) };
}

/// From now on a panic is one line. That of a thread of packets is kept for `caught`, and others are written.
pub fn keep() {
    set_hook(Box::new(|panic| {
        let line = panic.to_string().replace('\n', " ");
        if !thread::current().name().map_or(false, |name| name.starts_with(PACKET_THREAD)) {
            Log::of("main").line(&line);
        }
        LAST.with(|last| *last.borrow_mut() = line);
    }));
}

/// What a function returns, or the line of its panic. What it has changed may be used only as far as a half-made change does no harm.
pub fn caught<Result_>(body: impl FnOnce() -> Result_) -> Result<Result_, String> {
    catch_unwind(AssertUnwindSafe(body)).map_err(|_| LAST.with(|last| last.take()))
}

#[cfg(test)]
mod tests {
    use super::*;

    #[test]
    fn a_panic_of_a_packet_thread_is_one_line_for_who_caught_it() {
        keep();
        let body = || (caught(|| 7), caught(|| -> u32 { panic!("planted\nin two lines") }), caught(|| 8));
        let thread = thread::Builder::new().name("vif1.0-0".to_owned()).spawn(body).unwrap();
        let (before, panicked, after) = thread.join().unwrap();
        let line = panicked.unwrap_err();
        assert!(line.starts_with("panicked at ") && line.contains("planted in two lines") && line.contains("panics.rs:"), "{line}");
        assert_eq!((before, after), (Ok(7), Ok(8)));
    }
}
