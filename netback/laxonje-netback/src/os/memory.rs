//! How much memory this process may have, and whether enough of it is left.
//!
//! What makes each `unsafe` block sound: the calls take numbers, or a limit of the caller's own; what is mapped here is unmapped before
//! anybody has its address.
use super::done;
use crate::ffi;
use std::io;
use std::ptr;

/// Limits the addresses of this process: memory of any kind, and what is mapped. It can't be raised again. A limit that is lower already
/// stays.
pub fn limit_memory(bytes: u64) -> io::Result<()> {
    let mut limit = ffi::rlimit::default();
    // SAFETY: the module's reason. The C library would reserve 64 MB of addresses for each thread.
    unsafe { ffi::mallopt(ffi::M_ARENA_MAX, 1) };
    // SAFETY: the module's reason.
    done(unsafe { ffi::getrlimit(ffi::RLIMIT_AS, &mut limit) })?;
    let lower = ffi::rlimit { current: bytes.min(limit.current), most: bytes.min(limit.most) };
    // SAFETY: the module's reason.
    done(unsafe { ffi::setrlimit(ffi::RLIMIT_AS, &lower) })
}

/// Whether that much memory is left of what this process may have. Nothing of it is touched.
pub fn look_for_memory(bytes: usize) -> io::Result<()> {
    let (access, kind) = (ffi::PROT_READ | ffi::PROT_WRITE, ffi::MAP_PRIVATE | ffi::MAP_ANONYMOUS);
    // SAFETY: the module's reason.
    let at = unsafe { ffi::mmap(ptr::null_mut(), bytes, access, kind, -1, 0) };
    if at as usize == ffi::MAP_FAILED {
        return Err(io::Error::last_os_error());
    }
    // SAFETY: the module's reason.
    done(unsafe { ffi::munmap(at, bytes) })
}

#[cfg(test)]
mod tests {
    use super::*;

    #[test]
    fn what_is_looked_for_is_there_or_is_refused() {
        assert!(look_for_memory(1 << 20).is_ok());
        assert_eq!(look_for_memory(1 << 60).unwrap_err().kind(), io::ErrorKind::OutOfMemory);
    }
}
