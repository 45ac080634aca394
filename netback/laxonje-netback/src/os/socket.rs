//! Messages between two processes of this program, and descriptors with them: a pair of sockets that keeps messages apart (`unix(7)`,
//! SOCK_SEQPACKET).
//!
//! What makes each `unsafe` block sound: buffers and headers are there during the call, with the lengths that are said; a descriptor that the
//! kernel answers is new, and nobody else owns it.
use super::done;
use crate::ffi;
use std::io;
use std::mem::{size_of, size_of_val};
use std::os::raw::c_int;
use std::os::unix::io::{AsFd, AsRawFd, FromRawFd, OwnedFd, RawFd};
use std::ptr;

/// The most descriptors with one message. Linux takes 253.
pub const MOST_DESCRIPTORS: usize = 192;
/// The header of a control message, in words of 8 bytes.
const HEADER_WORDS: usize = size_of::<ffi::cmsghdr>() / 8;
/// How long the kernel waits for room in the other end's buffer.
const PATIENCE: ffi::timeval = ffi::timeval { seconds: 2, microseconds: 0 };

/// One end of a pair.
#[derive(Debug)]
pub struct Socket(OwnedFd);

impl Socket {
    pub fn pair() -> io::Result<(Socket, Socket)> {
        let mut ends = [0; 2];
        // SAFETY: there is room for two descriptors.
        done(unsafe { ffi::socketpair(ffi::AF_UNIX, ffi::SOCK_SEQPACKET | ffi::SOCK_CLOEXEC, 0, ends.as_mut_ptr()) })?;
        // SAFETY: the module's reason.
        let [near, far] = ends.map(|fd| Socket(unsafe { OwnedFd::from_raw_fd(fd) }));
        near.limit_sends()?;
        far.limit_sends()?;
        Ok((near, far))
    }

    /// The end that this process was started with, as its standard input.
    pub fn of_input() -> io::Result<Socket> {
        let socket = Socket(io::stdin().as_fd().try_clone_to_owned()?);
        socket.limit_sends().map(|()| socket)
    }

    pub fn into_descriptor(self) -> OwnedFd {
        self.0
    }

    pub fn fd(&self) -> RawFd {
        self.0.as_raw_fd()
    }

    fn limit_sends(&self) -> io::Result<()> {
        let (time, bytes) = (&PATIENCE as *const ffi::timeval, size_of::<ffi::timeval>() as u32);
        // SAFETY: the module's reason.
        done(unsafe { ffi::setsockopt(self.fd(), ffi::SOL_SOCKET, ffi::SO_SNDTIMEO, time.cast(), bytes) })
    }

    /// Sends a message, and waits for room for it, but not for ever.
    pub fn send(&self, message: &[u8]) -> io::Result<()> {
        self.send_flagged(message, 0)
    }

    /// Sends a message if there is room for it now.
    pub fn send_at_once(&self, message: &[u8]) -> io::Result<()> {
        self.send_flagged(message, ffi::MSG_DONTWAIT)
    }

    fn send_flagged(&self, message: &[u8], flags: c_int) -> io::Result<()> {
        // SAFETY: the module's reason.
        sent(|| unsafe { ffi::send(self.fd(), message.as_ptr().cast(), message.len(), flags | ffi::MSG_NOSIGNAL) })
    }

    /// Sends a message with descriptors, which this process keeps too.
    pub fn send_with(&self, message: &[u8], descriptors: &[RawFd]) -> io::Result<()> {
        if descriptors.is_empty() {
            return self.send(message);
        }
        let bytes = size_of::<ffi::cmsghdr>() + size_of_val(descriptors);
        let mut control = vec![0_u64; (bytes + 7) / 8];
        let head = ffi::cmsghdr { length: bytes, level: ffi::SOL_SOCKET, kind: ffi::SCM_RIGHTS };
        // SAFETY: there is room for the header and, behind it, for the descriptors; words are aligned for both.
        unsafe {
            control.as_mut_ptr().cast::<ffi::cmsghdr>().write(head);
            let first = control.as_mut_ptr().add(HEADER_WORDS).cast::<c_int>();
            ptr::copy_nonoverlapping(descriptors.as_ptr(), first, descriptors.len());
        }
        let mut part = ffi::iovec { base: message.as_ptr() as *mut _, bytes: message.len() };
        let head = ffi::msghdr { parts: &mut part, count: 1, control: control.as_mut_ptr().cast(), control_bytes: bytes, ..no_head() };
        // SAFETY: the module's reason.
        sent(|| unsafe { ffi::sendmsg(self.fd(), &head, ffi::MSG_NOSIGNAL) })
    }

    /// The next message, if one is there: how many bytes of the room it takes. Descriptors that come with it are closed by the kernel. The other
    /// end was closed, or the message is empty or doesn't fit: an error.
    pub fn take(&self, room: &mut [u8]) -> io::Result<Option<usize>> {
        // SAFETY: the module's reason.
        let came = unsafe { ffi::recv(self.fd(), room.as_mut_ptr().cast(), room.len(), ffi::MSG_DONTWAIT | ffi::MSG_TRUNC) };
        length(came, room.len())
    }

    /// The same with the descriptors that come with it.
    pub fn take_with(&self, room: &mut [u8]) -> io::Result<Option<(usize, Vec<OwnedFd>)>> {
        let mut control = vec![0_u64; HEADER_WORDS + MOST_DESCRIPTORS / 2];
        let mut part = ffi::iovec { base: room.as_mut_ptr().cast(), bytes: room.len() };
        let control_bytes = control.len() * 8;
        let mut head = ffi::msghdr { parts: &mut part, count: 1, control: control.as_mut_ptr().cast(), control_bytes, ..no_head() };
        // SAFETY: the module's reason.
        let came = unsafe { ffi::recvmsg(self.fd(), &mut head, ffi::MSG_DONTWAIT | ffi::MSG_TRUNC | ffi::MSG_CMSG_CLOEXEC) };
        let length = length(came, room.len())?;
        let descriptors = if length.is_some() { descriptors(&control, head.control_bytes) } else { Vec::new() };
        match head.flags & ffi::MSG_CTRUNC {
            0 => Ok(length.map(|length| (length, descriptors))),
            _ => Err(io::Error::from(io::ErrorKind::InvalidData)),
        }
    }
}

fn no_head() -> ffi::msghdr {
    ffi::msghdr {
        name: ptr::null_mut(),
        name_bytes: 0,
        parts: ptr::null_mut(),
        count: 0,
        control: ptr::null_mut(),
        control_bytes: 0,
        flags: 0,
    }
}

/// Sends, and once more if that was interrupted: with a limit of time the kernel doesn't do so by itself.
fn sent(send: impl Fn() -> isize) -> io::Result<()> {
    loop {
        match usize::try_from(send()) {
            Ok(_) => return Ok(()),
            Err(_) => match io::Error::last_os_error() {
                error if error.kind() == io::ErrorKind::Interrupted => {}
                error => return Err(error),
            },
        }
    }
}

fn length(came: isize, room: usize) -> io::Result<Option<usize>> {
    match usize::try_from(came) {
        Ok(0) => Err(io::Error::from(io::ErrorKind::UnexpectedEof)),
        Ok(length) if length > room => Err(io::Error::from(io::ErrorKind::InvalidData)),
        Ok(length) => Ok(Some(length)),
        Err(_) => match io::Error::last_os_error() {
            error if matches!(error.kind(), io::ErrorKind::WouldBlock | io::ErrorKind::Interrupted) => Ok(None),
            error => Err(error),
        },
    }
}

/// The descriptors of a control message.
fn descriptors(control: &[u64], bytes: usize) -> Vec<OwnedFd> {
    if bytes < size_of::<ffi::cmsghdr>() {
        return Vec::new();
    }
    // SAFETY: the kernel has written a header, and behind it as many descriptors as its length says; words are aligned for both.
    unsafe {
        let head = control.as_ptr().cast::<ffi::cmsghdr>().read();
        if (head.level, head.kind) != (ffi::SOL_SOCKET, ffi::SCM_RIGHTS) {
            return Vec::new();
        }
        let count = head.length.min(bytes).saturating_sub(size_of::<ffi::cmsghdr>()) / size_of::<c_int>();
        let first = control.as_ptr().add(HEADER_WORDS).cast::<c_int>();
        (0..count).map(|number| OwnedFd::from_raw_fd(first.add(number).read())).collect()
    }
}

#[cfg(test)]
mod tests {
    use super::*;
    use std::cell::Cell;
    use std::fs::File;
    use std::io::{Read, Write};
    use std::os::unix::net::UnixStream;

    #[test]
    fn messages_are_kept_apart_and_bring_descriptors() {
        let (near, far) = Socket::pair().unwrap();
        let pairs: Vec<_> = (0..130).map(|_| UnixStream::pair().unwrap()).collect();
        let given: Vec<_> = pairs.iter().map(|pair| pair.0.as_raw_fd()).collect();
        near.send(b"first").unwrap();
        near.send_with(b"second", &given).unwrap();
        let mut room = [0; 64];
        assert_eq!(far.take(&mut room).unwrap(), Some(5));
        let (length, came) = far.take_with(&mut room).unwrap().unwrap();
        assert_eq!((&room[..length], came.len()), (&b"second"[..], 130));
        File::from(came.into_iter().nth(129).unwrap()).write_all(b"x").unwrap();
        let mut byte = [0];
        (&pairs[129].1).read_exact(&mut byte).unwrap();
        assert_eq!((byte, far.take(&mut room).unwrap(), far.take_with(&mut room).unwrap().is_none()), (*b"x", None, true));
    }

    #[test]
    fn what_does_not_fit_or_has_ended_is_an_error_and_descriptors_that_nobody_asked_for_are_closed() {
        let (near, far) = Socket::pair().unwrap();
        let (kept, given) = UnixStream::pair().unwrap();
        near.send_with(b"x", &[given.as_raw_fd()]).unwrap();
        drop(given);
        let mut room = [0; 8];
        assert_eq!(far.take(&mut room).unwrap(), Some(1));
        kept.set_read_timeout(Some(std::time::Duration::from_secs(20))).unwrap();
        assert_eq!((&kept).read(&mut room).unwrap(), 0, "the descriptor was closed");
        near.send(&[0; 9]).unwrap();
        assert_eq!(far.take(&mut room).unwrap_err().kind(), io::ErrorKind::InvalidData);
        let many: Vec<_> = std::iter::repeat(near.fd()).take(MOST_DESCRIPTORS + 40).collect();
        near.send_with(b"x", &many).unwrap();
        assert_eq!(far.take_with(&mut room).unwrap_err().kind(), io::ErrorKind::InvalidData);
        near.send(b"").unwrap();
        assert_eq!(far.take(&mut room).unwrap_err().kind(), io::ErrorKind::UnexpectedEof);
    }

    extern "C" {
        fn __errno_location() -> *mut c_int;
    }

    #[test]
    fn an_interrupted_send_is_made_once_more() {
        let tries = Cell::new(0);
        let interrupted_twice = |last: isize| {
            tries.set(tries.get() + 1);
            let (status, number) = if tries.get() <= 2 { (-1, ffi::EINTR) } else { (last, ffi::EBUSY) };
            // SAFETY: it is this thread's own number of the last error.
            unsafe { *__errno_location() = number };
            status
        };
        assert!(sent(|| interrupted_twice(7)).is_ok());
        assert_eq!((tries.replace(0), sent(|| interrupted_twice(-1)).unwrap_err().raw_os_error()), (3, Some(ffi::EBUSY)));
    }

    #[test]
    fn a_full_buffer_is_not_waited_for_for_ever() {
        let (near, _far) = Socket::pair().unwrap();
        let sent = (0..1000).take_while(|_| near.send_at_once(&[0; 4096]).is_ok()).count();
        assert!((10..1000).contains(&sent), "{sent}");
        assert_eq!(near.send(&[0; 4096]).unwrap_err().kind(), io::ErrorKind::WouldBlock);
    }
}
