//! Memory that runs out inside the library: a queue that isn't replaced goes on as it was.
#![cfg(all(target_os = "linux", target_env = "gnu"))]
#[allow(dead_code)]
mod memory;

use laxonje::{Counters, Indices, MakeError, Program, Queue, ReplaceError, ShareError, Turn};
use memory::{answers, setup, udp, Memory};
use std::ffi::c_void;
use std::ptr::null_mut;
use std::sync::atomic::{AtomicUsize, Ordering::SeqCst};

const COUNT: &str = include_str!("count-protocols.toml");
/// A queue takes a block of more bytes, and a handle, a list or what Rust's own code takes here one of fewer.
const LARGE: usize = 30_000;

/// Blocks of more bytes aren't given.
static MOST: AtomicUsize = AtomicUsize::new(usize::MAX);

extern "C" {
    fn __libc_malloc(bytes: usize) -> *mut c_void;
}

/// The library's, since a program's own comes before glibc's.
///
/// # Safety
/// As glibc's.
#[no_mangle]
pub unsafe extern "C" fn malloc(bytes: usize) -> *mut c_void {
    match bytes > MOST.load(SeqCst) {
        true => null_mut(),
        false => __libc_malloc(bytes),
    }
}

/// Makes a call for which there are small blocks alone.
fn without_memory<Answer>(call: impl FnOnce() -> Answer) -> Answer {
    MOST.store(LARGE, SeqCst);
    let answer = call();
    MOST.store(usize::MAX, SeqCst);
    answer
}

fn counts() -> Program {
    Program::from_settings(COUNT.as_bytes()).unwrap()
}

/// Takes a packet of UDP.
fn take(guest: &mut Memory, queue: &mut Queue) {
    let index = queue.indices().unwrap().tx;
    guest.send(index, guest.grant(0, false), 0, 60);
    assert!(matches!(queue.turn(guest), Turn::Ran(_)));
}

#[test]
fn a_queue_that_is_not_replaced_goes_on_as_it_was() {
    let (program, mut guest) = (counts(), Memory::new());
    let mut counters = Counters::new(&program, 2).unwrap();
    let mut queue = guest.queue(&program, Indices::default());
    queue.share(&mut counters).unwrap();
    guest.fill(0, &udp(60));
    take(&mut guest, &mut queue);
    assert_eq!(counters.at(0, 17, 0), 1);
    // under another program it would share no longer, and under the same one go on to share
    for (next, count) in [(answers(2), 2), (counts(), 3)] {
        assert_eq!(without_memory(|| queue.replace(&next)), Err(ReplaceError::Make(MakeError::Memory)));
        take(&mut guest, &mut queue);
        assert_eq!((counters.at(0, 17, 0), queue.share(&mut counters)), (count, Err(ShareError::Already)));
    }
    queue.replace(&counts()).unwrap();
    take(&mut guest, &mut queue);
    assert_eq!((counters.at(0, 17, 0), queue.counters()[17]), (4, 0));
    assert_eq!(without_memory(|| Queue::new(&program, &setup(Indices::default()))).unwrap_err(), MakeError::Memory);
}
