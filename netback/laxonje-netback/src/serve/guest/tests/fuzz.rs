//! A fuzz target: guests whose rings, pages and grants come of the bytes that libFuzzer chooses. `netback/fuzz` builds and runs it.
#![allow(unsafe_code)]
use super::any::{until_it_halts, Came};
use super::*;
use std::env;
use std::ffi::CString;
use std::os::raw::{c_char, c_int};
use std::ptr;
use std::slice;

/// Where the words for libFuzzer are.
const WORDS: &str = "LAXONJE_FUZZ";
const ROUNDS: usize = 40;

extern "C" {
    fn LLVMFuzzerRunDriver(count: *mut c_int, words: *mut *mut *mut c_char, one: extern "C" fn(*const u8, usize) -> c_int) -> c_int;
}

/// The next number of bytes: of as few as it takes.
pub fn below(bytes: &mut Vec<u8>, most: u32) -> u32 {
    let wanted = if most <= 1 << 8 { 1 } else { 3 };
    let taken = bytes.drain(..wanted.min(bytes.len()));
    taken.fold(0, |number, byte| number << 8 | u32::from(byte)) % most
}

/// The first byte says what is tried.
fn try_bytes(bytes: &[u8]) {
    let (first, rest) = match bytes.split_first() {
        Some((first, rest)) => (*first, Any::Bytes(rest.to_vec())),
        None => return,
    };
    let answer = 2 + first % 2;
    match first / 2 % 3 {
        0 => until_it_halts(Way::Copy, answer, rest, ROUNDS, &mut Came::default()),
        1 => until_it_halts(Way::Map, answer, rest, ROUNDS, &mut Came::default()),
        _ => ways::rounds(answer, rest, &mut ways::Seen::default()),
    }
}

extern "C" fn one(at: *const u8, length: usize) -> c_int {
    if length > 0 {
        // SAFETY: libFuzzer lends that many bytes for the time of this call.
        try_bytes(unsafe { slice::from_raw_parts(at, length) });
    }
    0
}

#[test]
fn fuzzed() {
    let words = env::var(WORDS).expect("netback/fuzz runs this");
    let words: Vec<CString> = ["fuzz"].into_iter().chain(words.split_whitespace()).map(|word| CString::new(word).unwrap()).collect();
    let mut pointers: Vec<*mut c_char> = words.iter().map(|word| word.as_ptr() as *mut c_char).chain([ptr::null_mut()]).collect();
    let (mut count, mut first) = (words.len() as c_int, pointers.as_mut_ptr());
    // SAFETY: the words end with a null, as those of `main`, and stay until the process ends.
    assert_eq!(unsafe { LLVMFuzzerRunDriver(&mut count, &mut first, one) }, 0);
}
