//! Memory of this process that Xen copies to and from.
//!
//! If Xen is to copy to an address, the kernel looks the page up and holds it for each copy, which takes longer than the copy. So these
//! pages are granted by this domain to itself (`xen-gntalloc`), and Xen is given their references: what comes into one page one
//! after the other is looked up once. If that isn't to be had, it is memory like any other.
//!
//! What makes each `unsafe` block sound: the handle is one that `xengntshr_open` answered, until the last of those that hold it is
//! dropped; shared pages lie where `xengntshr_share_pages` put them until they are dropped, only their owner has slices of them, and Xen
//! writes them in a call alone that has them borrowed for writing.
use super::grants::silent_logger;
use crate::ffi;
use laxonje::PAGE_BYTES;
use std::ptr::NonNull;
use std::slice;
use std::sync::Arc;

/// Whole pages, aligned.
pub struct Memory(Kind);

enum Kind {
    /// More bytes than there are pages for, and where the first page begins.
    Plain {
        bytes: Vec<u8>,
        start: usize,
    },
    Shared {
        at: NonNull<u8>,
        references: Vec<u32>,
        sharing: Sharing,
    },
}

// SAFETY: shared pages are memory of the process.
unsafe impl Send for Memory {}

/// Linux's interface to grants of this domain's own pages.
#[derive(Clone)]
pub struct Sharing {
    handle: Arc<Handle>,
    own: u16,
}

struct Handle(NonNull<ffi::xengntdev_handle>);

// SAFETY: the handle is a file descriptor with a logger, which the library doesn't change after it was opened.
unsafe impl Send for Handle {}
// SAFETY: as above; each call is one or two system calls with that descriptor.
unsafe impl Sync for Handle {}

impl Sharing {
    /// `None`: this kernel hasn't the module. `own`: the number of this domain.
    pub fn open(own: u16) -> Option<Sharing> {
        // SAFETY: the logger is there as long as the process.
        let handle = unsafe { ffi::xengntshr_open(silent_logger(), 0) };
        Some(Sharing { handle: Arc::new(Handle(NonNull::new(handle)?)), own })
    }
}

impl Memory {
    /// That many pages of zeros, shared if possible.
    pub fn new(pages: usize, sharing: Option<&Sharing>) -> Memory {
        sharing.and_then(|sharing| Memory::shared(pages, sharing)).unwrap_or_else(|| Memory::plain(pages))
    }

    pub fn plain(pages: usize) -> Memory {
        let bytes = vec![0; (pages + 1) * PAGE_BYTES];
        let address = bytes.as_ptr() as usize;
        Memory(Kind::Plain { bytes, start: (PAGE_BYTES - address % PAGE_BYTES) % PAGE_BYTES })
    }

    fn shared(pages: usize, sharing: &Sharing) -> Option<Memory> {
        let mut references = vec![0; pages];
        let (handle, own) = (sharing.handle.0.as_ptr(), sharing.own.into());
        // SAFETY: there is room for that many references.
        let at = unsafe { ffi::xengntshr_share_pages(handle, own, pages as i32, references.as_mut_ptr(), 1) };
        Some(Memory(Kind::Shared { at: NonNull::new(at.cast())?, references, sharing: sharing.clone() }))
    }

    pub fn pages(&self) -> usize {
        match &self.0 {
            Kind::Plain { bytes, .. } => bytes.len() / PAGE_BYTES - 1,
            Kind::Shared { references, .. } => references.len(),
        }
    }

    pub fn bytes(&self) -> &[u8] {
        let length = self.pages() * PAGE_BYTES;
        match &self.0 {
            Kind::Plain { bytes, start } => &bytes[*start..*start + length],
            // SAFETY: the module's reason.
            Kind::Shared { at, .. } => unsafe { slice::from_raw_parts(at.as_ptr(), length) },
        }
    }

    pub fn bytes_mut(&mut self) -> &mut [u8] {
        let length = self.pages() * PAGE_BYTES;
        match &mut self.0 {
            Kind::Plain { bytes, start } => &mut bytes[*start..*start + length],
            // SAFETY: the module's reason.
            Kind::Shared { at, .. } => unsafe { slice::from_raw_parts_mut(at.as_ptr(), length) },
        }
    }

    /// The references of its pages, if it is shared.
    pub fn references(&self) -> Option<&[u32]> {
        match &self.0 {
            Kind::Plain { .. } => None,
            Kind::Shared { references, .. } => Some(references),
        }
    }
}

impl Drop for Memory {
    fn drop(&mut self) {
        if let Kind::Shared { at, references, sharing } = &self.0 {
            // SAFETY: the module's reason.
            unsafe { ffi::xengntshr_unshare(sharing.handle.0.as_ptr(), at.as_ptr().cast(), references.len() as u32) };
        }
    }
}

impl Drop for Handle {
    fn drop(&mut self) {
        // SAFETY: the module's reason.
        unsafe { ffi::xengntshr_close(self.0.as_ptr()) };
    }
}

/// Places in whole pages, one after another, none of them across two pages.
pub struct Places {
    next: usize,
    end: usize,
}

impl Places {
    pub fn of(memory: &Memory) -> Places {
        Places { next: 0, end: memory.pages() * PAGE_BYTES }
    }

    /// The next place of that many bytes, a page at most. `None`: all pages are taken.
    pub fn take(&mut self, bytes: usize) -> Option<usize> {
        let left = PAGE_BYTES - self.next % PAGE_BYTES;
        let at = if bytes <= left { self.next } else { self.next + left };
        let fits = at + bytes <= self.end;
        if fits {
            self.next = at + bytes;
        }
        fits.then_some(at)
    }
}

#[cfg(test)]
mod tests {
    use super::*;

    #[test]
    fn places_lie_one_behind_the_other_each_in_one_page() {
        let mut memory = Memory::plain(3);
        let mut places = Places::of(&memory);
        let taken = [64, 4000, 100, 4096, 0, 1].map(|bytes| places.take(bytes));
        assert_eq!(taken, [Some(0), Some(64), Some(4096), Some(8192), Some(12288), None]);
        assert_eq!((memory.bytes().len(), memory.bytes().as_ptr() as usize % PAGE_BYTES), (12288, 0));
        memory.bytes_mut()[12287] = 1;
        assert!(memory.references().is_none());
    }
}
