//! A file that the processes of one start hold locked, so that those of the next wait until all of them have ended.
use super::done;
use crate::ffi;
use std::fs::{File, OpenOptions};
use std::io;
use std::os::unix::io::AsRawFd;
use std::path::Path;
use std::thread::sleep;
use std::time::{Duration, Instant};

const EACH: Duration = Duration::from_millis(20);

/// The file, locked. It stays so until the last process that has the descriptor, or one that came of it, has ended. An error: others had it for
/// all the time.
pub fn lock(path: &Path, time: Duration) -> io::Result<File> {
    let file = OpenOptions::new().create(true).append(true).open(path)?;
    let end = Instant::now() + time;
    loop {
        // SAFETY: it takes numbers.
        match done(unsafe { ffi::flock(file.as_raw_fd(), ffi::LOCK_EX | ffi::LOCK_NB) }) {
            Ok(()) => return Ok(file),
            Err(error) if error.kind() == io::ErrorKind::WouldBlock && Instant::now() < end => sleep(EACH),
            Err(error) => return Err(error),
        }
    }
}

#[cfg(test)]
mod tests {
    use super::*;

    #[test]
    fn the_next_waits_until_all_copies_are_closed() {
        let path = std::env::temp_dir().join(format!("laxonje-lock-{}", std::process::id()));
        let first = lock(&path, Duration::ZERO).unwrap();
        let copy = first.try_clone().unwrap();
        drop(first);
        assert_eq!(lock(&path, Duration::from_millis(50)).unwrap_err().kind(), io::ErrorKind::WouldBlock);
        drop(copy);
        // a program that another test starts may have a copy for a moment
        assert!(lock(&path, Duration::from_secs(60)).is_ok());
        std::fs::remove_file(&path).unwrap();
    }
}
