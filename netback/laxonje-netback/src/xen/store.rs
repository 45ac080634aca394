//! XenStore. Nothing of the store's answers is trusted but their form: what a guest wrote is text, or it isn't there.
//!
//! What makes each `unsafe` block sound: the handle is one that `xs_open` answered, until `xs_close`; a path is a C string; what the
//! library answers was allocated by `malloc`, and is freed here once.
use crate::ffi;
use std::ffi::{CStr, CString};
use std::io;
use std::os::raw::{c_char, c_void};
use std::os::unix::io::RawFd;
use std::ptr::NonNull;
use std::slice;

const NO_TRANSACTION: u32 = 0;

/// A connection to XenStore.
pub struct Store(NonNull<ffi::xs_handle>);

/// A key has changed, or may have: its path, and the token of the watch.
#[derive(Debug, Clone, PartialEq, Eq)]
pub struct Change {
    pub path: String,
    pub token: String,
}

/// Paths and values with a zero byte in them don't exist.
fn text(of: &str) -> io::Result<CString> {
    CString::new(of).map_err(|_| io::Error::from(io::ErrorKind::InvalidInput))
}

/// Memory that the library allocated.
struct Allocated(*mut c_void);

impl Drop for Allocated {
    fn drop(&mut self) {
        // SAFETY: the module's reason.
        unsafe { ffi::free(self.0) }
    }
}

/// # Safety
/// `at` is a C string.
unsafe fn string(at: *const c_char) -> String {
    CStr::from_ptr(at).to_string_lossy().into_owned()
}

impl Store {
    pub fn open() -> io::Result<Store> {
        // SAFETY: it takes nothing but flags.
        let handle = unsafe { ffi::xs_open(0) };
        NonNull::new(handle).map(Store).ok_or_else(io::Error::last_os_error)
    }

    /// Becomes readable when there is a change.
    pub fn fd(&self) -> RawFd {
        // SAFETY: the module's reason.
        unsafe { ffi::xs_fileno(self.0.as_ptr()) }
    }

    /// The text of a key. `None`: it isn't there, or isn't UTF-8.
    pub fn read(&self, path: &str) -> Option<String> {
        let (path, mut length) = (text(path).ok()?, 0);
        // SAFETY: the module's reason.
        let at = unsafe { ffi::xs_read(self.0.as_ptr(), NO_TRANSACTION, path.as_ptr(), &mut length) };
        let owned = Allocated(NonNull::new(at)?.as_ptr());
        // SAFETY: the library says how many bytes there are.
        let bytes = unsafe { slice::from_raw_parts(owned.0 as *const u8, length as usize) };
        String::from_utf8(bytes.to_vec()).ok()
    }

    /// The names of the keys below one; none if it isn't there.
    pub fn list(&self, path: &str) -> Vec<String> {
        let (path, mut count) = (text(path).unwrap_or_default(), 0);
        // SAFETY: the module's reason.
        let at = unsafe { ffi::xs_directory(self.0.as_ptr(), NO_TRANSACTION, path.as_ptr(), &mut count) };
        if at.is_null() {
            return Vec::new();
        }
        let owned = Allocated(at.cast());
        // SAFETY: the library answers `count` pointers to C strings in one block.
        unsafe { slice::from_raw_parts(owned.0 as *const *const c_char, count as usize).iter().map(|name| string(*name)).collect() }
    }

    pub fn write(&self, path: &str, value: &str) -> io::Result<()> {
        let path = text(path)?;
        // SAFETY: the module's reason; the value has that many bytes.
        done(unsafe { ffi::xs_write(self.0.as_ptr(), NO_TRANSACTION, path.as_ptr(), value.as_ptr().cast(), value.len() as u32) })
    }

    /// Asks for changes of a key and of those below it. The first comes at once.
    pub fn watch(&self, path: &str, token: &str) -> io::Result<()> {
        let (path, token) = (text(path)?, text(token)?);
        // SAFETY: the module's reason.
        done(unsafe { ffi::xs_watch(self.0.as_ptr(), path.as_ptr(), token.as_ptr()) })
    }

    pub fn unwatch(&self, path: &str, token: &str) -> io::Result<()> {
        let (path, token) = (text(path)?, text(token)?);
        // SAFETY: the module's reason.
        done(unsafe { ffi::xs_unwatch(self.0.as_ptr(), path.as_ptr(), token.as_ptr()) })
    }

    /// The next change that has come, if there is one.
    pub fn change(&self) -> Option<Change> {
        // SAFETY: the module's reason.
        let at = unsafe { ffi::xs_check_watch(self.0.as_ptr()) };
        let owned = Allocated(NonNull::new(at)?.as_ptr().cast());
        let words = owned.0 as *const *const c_char;
        // SAFETY: the library answers two C strings or more in one block.
        unsafe { Some(Change { path: string(*words.add(ffi::XS_WATCH_PATH)), token: string(*words.add(ffi::XS_WATCH_TOKEN)) }) }
    }
}

fn done(well: bool) -> io::Result<()> {
    match well {
        true => Ok(()),
        false => Err(io::Error::last_os_error()),
    }
}

impl Drop for Store {
    fn drop(&mut self) {
        // SAFETY: the module's reason; nothing uses the handle after it is dropped.
        unsafe { ffi::xs_close(self.0.as_ptr()) }
    }
}
