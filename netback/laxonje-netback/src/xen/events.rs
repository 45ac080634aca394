//! An event channel of a guest.
//!
//! What makes each `unsafe` block sound: the handle is one that `xenevtchn_open` or `xenevtchn_fdopen` answered, until `xenevtchn_close`, and one thread has it.
use crate::ffi;
use crate::os::done;
use std::io;
use std::os::unix::io::{IntoRawFd, OwnedFd, RawFd};
use std::ptr::{self, NonNull};

/// The local end of one event channel. The main process binds it, and that of its guest uses it.
pub struct Events {
    handle: NonNull<ffi::xenevtchn_handle>,
    port: u32,
    masked: bool,
}

// SAFETY: the handle is a file descriptor with a logger; any thread may have it, one at a time.
unsafe impl Send for Events {}

impl Events {
    /// Binds a guest's port. An error: the guest hasn't offered it to this domain.
    pub fn bind(domain: u16, remote: u32) -> io::Result<Events> {
        // SAFETY: no logger and no flags.
        let handle = unsafe { ffi::xenevtchn_open(ptr::null_mut(), 0) };
        let handle = NonNull::new(handle).ok_or_else(io::Error::last_os_error)?;
        let mut events = Events { handle, port: 0, masked: false };
        // SAFETY: the module's reason.
        let port = unsafe { ffi::xenevtchn_bind_interdomain(handle.as_ptr(), domain.into(), remote) };
        events.port = u32::try_from(port).map_err(|_| io::Error::last_os_error())?;
        Ok(events)
    }

    /// A port that another process has bound by this descriptor.
    pub fn of(descriptor: OwnedFd, port: u32) -> io::Result<Events> {
        // SAFETY: no logger and no flags; the descriptor is the library's from now on.
        let handle = unsafe { ffi::xenevtchn_fdopen(ptr::null_mut(), descriptor.into_raw_fd(), 0) };
        let handle = NonNull::new(handle).ok_or_else(io::Error::last_os_error)?;
        Ok(Events { handle, port, masked: false })
    }

    /// The number that this domain has it by.
    pub fn port(&self) -> u32 {
        self.port
    }

    /// Becomes readable when a notice has come.
    pub fn fd(&self) -> RawFd {
        // SAFETY: the module's reason.
        unsafe { ffi::xenevtchn_fd(self.handle.as_ptr()) }
    }

    /// Sends a notice.
    pub fn notify(&self) -> io::Result<()> {
        // SAFETY: the module's reason.
        done(unsafe { ffi::xenevtchn_notify(self.handle.as_ptr(), self.port) })
    }

    /// Takes the notice that has come. No other comes until `unmask`.
    pub fn take(&mut self) -> io::Result<()> {
        // SAFETY: the module's reason.
        let port = unsafe { ffi::xenevtchn_pending(self.handle.as_ptr()) };
        self.masked = true;
        done(port.min(0))
    }

    /// Lets notices come again; one that came meanwhile too.
    pub fn unmask(&mut self) -> io::Result<()> {
        if !self.masked {
            return Ok(());
        }
        self.masked = false;
        // SAFETY: the module's reason.
        done(unsafe { ffi::xenevtchn_unmask(self.handle.as_ptr(), self.port) })
    }
}

impl Drop for Events {
    fn drop(&mut self) {
        // SAFETY: the module's reason. The port is unbound when the last process closes it.
        unsafe { ffi::xenevtchn_close(self.handle.as_ptr()) };
    }
}
