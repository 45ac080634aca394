//! Pages that a guest grants: mapped, or copied from and to.
//!
//! What makes each `unsafe` block sound: the handle is one that `xengnttab_open` answered, until the last of those that hold it is
//! dropped; a mapping is of one page, and is unmapped once, when nothing borrows from it; a copy's memory is borrowed while it is made.
use super::memory::{Memory, Sharing};
use crate::ffi;
use laxonje::{Page, PAGE_BYTES};
use std::io;
use std::ops::Deref;
use std::os::raw::{c_char, c_int, c_void};
use std::ptr::NonNull;
use std::sync::Arc;

/// Xen's interface to grants of other domains.
#[derive(Clone)]
pub struct Grants {
    handle: Arc<Handle>,
    sharing: Option<Sharing>,
}

struct Handle(NonNull<ffi::xengnttab_handle>);

// SAFETY: the handle is a file descriptor with a logger, which the library doesn't change after it was opened.
unsafe impl Send for Handle {}
// SAFETY: as above; each call is one or two system calls with that descriptor.
unsafe impl Sync for Handle {}

extern "C" fn silent(_: *mut ffi::xentoollog_logger, _: c_int, _: c_int, _: *const c_char, _: *const c_char, _: *mut c_void) {}
extern "C" fn kept(_: *mut ffi::xentoollog_logger) {}

/// The libraries' own logger writes a line for each grant that Xen refuses, and a guest can have as many refused as it likes: this one is
/// silent. It is there as long as the process.
pub fn silent_logger() -> *mut ffi::xentoollog_logger {
    Box::leak(Box::new(ffi::xentoollog_logger { vmessage: silent, progress: None, destroy: kept }))
}

/// A page of a guest's, mapped.
pub struct Mapping {
    at: NonNull<Page>,
    handle: Arc<Handle>,
}

// SAFETY: a mapping is memory of the process, and its words are atomic.
unsafe impl Send for Mapping {}

/// A copy between a granted page and memory of this process.
#[derive(Clone, Copy, Debug, PartialEq, Eq)]
pub struct PageCopy {
    pub reference: u32,
    /// The first byte in the granted page.
    pub offset: usize,
    /// The first byte in the memory, all in one page of it.
    pub at: usize,
    pub bytes: usize,
    /// Whether Xen allowed it, once it was made.
    pub allowed: bool,
}

/// What Xen does with the pages that a guest grants.
pub trait Pages {
    /// A page of the guest's, until it is dropped.
    type Mapped: Deref<Target = Page>;

    /// Memory for copies.
    fn memory(&self, pages: usize) -> Memory;
    /// Maps the page of a reference. `None`: Xen doesn't allow it.
    fn map(&self, domain: u16, reference: u32, writes: bool) -> Option<Self::Mapped>;
    /// Copies from the guest's pages, all in one call, and says of each copy whether Xen allowed it.
    fn fetch(&self, domain: u16, copies: &mut [PageCopy], into: &mut Memory) -> io::Result<()>;
    /// Copies to the guest's pages, as `fetch` does from them.
    fn put(&self, domain: u16, copies: &mut [PageCopy], from: &Memory) -> io::Result<()>;
}

impl Grants {
    /// `own`: the number of this domain.
    pub fn open(own: u16) -> io::Result<Grants> {
        // SAFETY: the logger is there as long as the process.
        let handle = NonNull::new(unsafe { ffi::xengnttab_open(silent_logger(), 0) }).ok_or_else(io::Error::last_os_error)?;
        let mut grants = Grants { handle: Arc::new(Handle(handle)), sharing: Sharing::open(own) };
        if !grants.copies_to_shared(own) {
            grants.sharing = None;
        }
        Ok(grants)
    }

    /// Tries it: a copy from one shared page to another.
    fn copies_to_shared(&self, own: u16) -> bool {
        let mut memory = self.memory(2);
        let reference = match memory.references() {
            Some(references) => references[0],
            None => return false,
        };
        memory.bytes_mut()[..4].fill(1);
        let mut copies = [PageCopy { reference, offset: 0, at: PAGE_BYTES, bytes: 4, allowed: false }];
        self.fetch(own, &mut copies, &mut memory).is_ok() && copies[0].allowed && memory.bytes()[PAGE_BYTES..][..4] == [1; 4]
    }

    /// Whether copies go to pages that are shared.
    pub fn shares(&self) -> bool {
        self.sharing.is_some()
    }

    /// Makes copies of which both sides are known.
    fn copy(&self, copies: &mut [PageCopy], segment: impl Fn(&PageCopy) -> ffi::xengnttab_grant_copy_segment) -> io::Result<()> {
        let mut segments: Vec<_> = copies.iter().map(segment).collect();
        if segments.is_empty() {
            return Ok(());
        }
        // SAFETY: each segment has memory that `fetch` and `put` borrow, and its length.
        let status = unsafe { ffi::xengnttab_grant_copy(self.handle.0.as_ptr(), segments.len() as u32, segments.as_mut_ptr()) };
        if status != 0 {
            return Err(io::Error::last_os_error());
        }
        for (copy, segment) in copies.iter_mut().zip(&segments) {
            copy.allowed = segment.status == ffi::GNTST_OKAY;
        }
        Ok(())
    }
}

impl Pages for Grants {
    type Mapped = Mapping;

    fn memory(&self, pages: usize) -> Memory {
        Memory::new(pages, self.sharing.as_ref())
    }

    fn map(&self, domain: u16, reference: u32, writes: bool) -> Option<Mapping> {
        let prot = ffi::PROT_READ | if writes { ffi::PROT_WRITE } else { 0 };
        // SAFETY: the module's reason.
        let at = unsafe { ffi::xengnttab_map_grant_ref(self.handle.0.as_ptr(), domain.into(), reference, prot) };
        Some(Mapping { at: NonNull::new(at.cast())?, handle: Arc::clone(&self.handle) })
    }

    fn fetch(&self, domain: u16, copies: &mut [PageCopy], into: &mut Memory) -> io::Result<()> {
        let first = into.bytes_mut().as_mut_ptr();
        let into = &*into;
        self.copy(copies, |copy| {
            let (side, shared) = own_side(into, first, copy);
            let flags = ffi::GNTCOPY_SOURCE_GREF | if shared { ffi::GNTCOPY_DEST_GREF } else { 0 };
            segment(copy, foreign(domain, copy.reference, copy.offset), side, flags)
        })
    }

    fn put(&self, domain: u16, copies: &mut [PageCopy], from: &Memory) -> io::Result<()> {
        let first = from.bytes().as_ptr() as *mut u8;
        self.copy(copies, |copy| {
            let (side, shared) = own_side(from, first, copy);
            let flags = ffi::GNTCOPY_DEST_GREF | if shared { ffi::GNTCOPY_SOURCE_GREF } else { 0 };
            segment(copy, side, foreign(domain, copy.reference, copy.offset), flags)
        })
    }
}

fn foreign(domid: u16, reference: u32, offset: usize) -> ffi::copy_side {
    ffi::copy_side { foreign: ffi::foreign_side { reference, offset: offset as u16, domid } }
}

/// This process's side of a copy, and whether it is a reference.
fn own_side(memory: &Memory, first: *mut u8, copy: &PageCopy) -> (ffi::copy_side, bool) {
    let (page, offset) = (copy.at / PAGE_BYTES, copy.at % PAGE_BYTES);
    assert!(page < memory.pages() && offset + copy.bytes <= PAGE_BYTES, "a copy lies in a page");
    match memory.references() {
        Some(references) => (foreign(ffi::DOMID_SELF, references[page], offset), true),
        None => (ffi::copy_side { virt: first.wrapping_add(copy.at).cast() }, false),
    }
}

fn segment(copy: &PageCopy, source: ffi::copy_side, dest: ffi::copy_side, flags: u16) -> ffi::xengnttab_grant_copy_segment {
    assert!(copy.offset + copy.bytes <= PAGE_BYTES, "a copy lies in a page");
    ffi::xengnttab_grant_copy_segment { source, dest, len: copy.bytes as u16, flags, status: 0 }
}

impl Deref for Mapping {
    type Target = Page;

    fn deref(&self) -> &Page {
        // SAFETY: a page is mapped there for reading at least, until the mapping is dropped. Its words are atomic. A word is written only
        // by those who mapped it for writing (a ring's page, a granted page of an entry that writes).
        unsafe { self.at.as_ref() }
    }
}

impl Drop for Mapping {
    fn drop(&mut self) {
        // SAFETY: the module's reason.
        unsafe { ffi::xengnttab_unmap(self.handle.0.as_ptr(), self.at.as_ptr().cast(), 1) };
    }
}

impl Drop for Handle {
    fn drop(&mut self) {
        // SAFETY: the module's reason.
        unsafe { ffi::xengnttab_close(self.0.as_ptr()) };
    }
}
