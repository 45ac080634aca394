//! Waiting for descriptors, and signals as one of them.
use crate::ffi;
use std::fs::File;
use std::io::{self, Read};
use std::os::unix::io::{AsRawFd, FromRawFd, RawFd};
use std::ptr;
use std::time::Duration;

/// A descriptor to wait for, whether it became readable, and whether it has failed.
#[derive(Clone, Copy, Debug)]
pub struct Wanted {
    pub fd: RawFd,
    pub ready: bool,
    pub failed: bool,
}

impl Wanted {
    pub fn of(fd: RawFd) -> Wanted {
        Wanted { fd, ready: false, failed: false }
    }

    fn polled(self) -> ffi::pollfd {
        ffi::pollfd { fd: self.fd, events: ffi::POLLIN, revents: 0 }
    }

    /// None: it is never ready.
    pub fn none() -> Wanted {
        Wanted::of(-1)
    }
}

/// Waits until one is ready or the time is over, to whole milliseconds. Without a time it waits for ever. A signal ends it too.
pub fn wait<const COUNT: usize>(wanted: &mut [Wanted; COUNT], time: Option<Duration>) -> io::Result<()> {
    let mut on = wanted.map(Wanted::polled);
    poll(wanted, &mut on, time)
}

/// The same for any number of them.
pub fn wait_for_all(wanted: &mut [Wanted], time: Option<Duration>) -> io::Result<()> {
    let mut on: Vec<_> = wanted.iter().copied().map(Wanted::polled).collect();
    poll(wanted, &mut on, time)
}

fn poll(wanted: &mut [Wanted], on: &mut [ffi::pollfd], time: Option<Duration>) -> io::Result<()> {
    let milliseconds = time.map_or(-1, |time| time.as_micros().saturating_add(999).min(i32::MAX as u128 * 1000) as i64 / 1000);
    // SAFETY: there are that many elements.
    let count = unsafe { ffi::poll(on.as_mut_ptr(), on.len() as u64, milliseconds as i32) };
    for (one, polled) in wanted.iter_mut().zip(&*on) {
        one.ready = count > 0 && polled.revents != 0;
        one.failed = count > 0 && polled.revents & ffi::POLLERR != 0;
    }
    match count {
        0.. => Ok(()),
        _ => Some(io::Error::last_os_error()).filter(|error| error.raw_os_error() != Some(ffi::EINTR)).map_or(Ok(()), Err),
    }
}

/// The signals by which a user or a service manager ends or reloads the program. Both may send them to all its processes.
pub const FROM_USERS: [i32; 3] = [ffi::SIGHUP, ffi::SIGTERM, ffi::SIGINT];

/// From now on a fault of memory ends the process at once. Rust's own handler changes what the signal does and returns, so that the fault
/// comes once more; where that isn't on the list of system calls, it would come for ever.
pub fn end_by_faults() {
    for signal in [ffi::SIGSEGV, ffi::SIGBUS] {
        // SAFETY: it takes numbers: no function handles the signal any longer.
        unsafe { ffi::signal(signal, ffi::SIG_DFL) };
    }
}

/// Signals that are blocked and read from a descriptor. They are blocked in the threads that are started later too.
pub struct Signals(File);

impl Signals {
    pub fn block(signals: &[i32]) -> io::Result<Signals> {
        let mut set = ffi::signal_set { words: [0; 16] };
        // SAFETY: the set is the caller's own, and is there during each call.
        let fd = unsafe {
            ffi::sigemptyset(&mut set);
            for signal in signals {
                ffi::sigaddset(&mut set, *signal);
            }
            ffi::pthread_sigmask(ffi::SIG_BLOCK, &set, ptr::null_mut());
            ffi::signalfd(-1, &set, ffi::SIGNALFD_FLAGS)
        };
        if fd < 0 {
            return Err(io::Error::last_os_error());
        }
        // SAFETY: the descriptor is new, and nobody else owns it.
        Ok(Signals(unsafe { File::from_raw_fd(fd) }))
    }

    pub fn fd(&self) -> RawFd {
        self.0.as_raw_fd()
    }

    /// The next signal that has come.
    pub fn next(&mut self) -> Option<i32> {
        let mut bytes = [0; ffi::SIGNALFD_BYTES];
        self.0.read_exact(&mut bytes).ok()?;
        Some(i32::from_ne_bytes([bytes[0], bytes[1], bytes[2], bytes[3]]))
    }
}

#[cfg(test)]
mod tests {
    use super::*;
    use std::io::Write;
    use std::os::unix::net::UnixStream;
    use std::time::Instant;

    #[test]
    fn what_is_readable_is_ready_and_time_ends() {
        let (near, mut far) = UnixStream::pair().unwrap();
        let mut wanted = [Wanted::of(near.as_raw_fd()), Wanted::none()];
        let began = Instant::now();
        wait(&mut wanted, Some(Duration::from_millis(20))).unwrap();
        assert!(!wanted[0].ready && began.elapsed() >= Duration::from_millis(20));
        far.write_all(b"x").unwrap();
        wait(&mut wanted, None).unwrap();
        assert!(wanted[0].ready && !wanted[0].failed && !wanted[1].ready);
    }

    #[test]
    fn a_pipe_without_a_reader_has_failed() {
        let mut child = std::process::Command::new("true").stdin(std::process::Stdio::piped()).spawn().unwrap();
        let pipe = child.stdin.take().unwrap();
        child.wait().unwrap();
        let mut wanted = [Wanted::of(pipe.as_raw_fd())];
        wait(&mut wanted, Some(Duration::ZERO)).unwrap();
        assert!(wanted[0].failed);
    }
}
