//! A guest's memory as rust-vmm has it: the accesses of a queue, and the owners of its frames.
use laxonje::{Extent, Guest, PAGE_BYTES};
use std::sync::atomic::{fence, Ordering};
use std::sync::mpsc::Sender;
use vm_memory::{Address, Bytes, GuestAddress, GuestMemory, GuestMemoryMmap, GuestMemoryRegion};

/// A domain that doesn't exist: the owner of a hole (Xen's `DOMID_INVALID`).
const NOBODY: u16 = 0x7ff4;

/// A guest's memory, and where its notices go.
pub struct Memory {
    pub pages: GuestMemoryMmap,
    pub notices: Sender<()>,
}

/// The address of a word of a frame.
pub fn address(frame: u32, word: usize) -> GuestAddress {
    GuestAddress(u64::from(frame) * PAGE_BYTES as u64 + 4 * word as u64)
}

pub fn load(pages: &GuestMemoryMmap, frame: u32, word: usize) -> u32 {
    pages.load(address(frame, word), Ordering::Acquire).expect("the queue names frames of the guest's alone")
}

pub fn store(pages: &GuestMemoryMmap, frame: u32, word: usize, value: u32) {
    pages.store(value, address(frame, word), Ordering::Release).expect("the queue names frames of the guest's alone");
}

impl Guest for Memory {
    fn read(&mut self, frame: u32, word: usize, into: &mut [u32]) {
        for (place, to) in into.iter_mut().enumerate() {
            *to = load(&self.pages, frame, word + place);
        }
    }

    fn write(&mut self, frame: u32, word: usize, from: &[u32]) {
        for (place, value) in from.iter().enumerate() {
            store(&self.pages, frame, word + place, *value);
        }
    }

    fn push(&mut self, frame: u32, word: usize, value: u32, then: usize) -> u32 {
        store(&self.pages, frame, word, value);
        fence(Ordering::SeqCst);
        load(&self.pages, frame, then)
    }

    fn notify(&mut self, _port: u32) {
        // a guest that has gone hears nothing
        let _ = self.notices.send(());
    }
}

/// The owners of a guest's frames from frame 0 on: whole pages of its regions are its own, and what lies between is nobody's.
pub fn extents(pages: &GuestMemoryMmap, domain: u16) -> Vec<Extent> {
    let mut found = Vec::new();
    let mut next = 0;
    for region in pages.iter() {
        let page = PAGE_BYTES as u64;
        let begin = (region.start_addr().raw_value() + page - 1) / page;
        let end = (region.start_addr().raw_value() + region.len()) / page;
        push_run(&mut found, begin.saturating_sub(next), NOBODY);
        push_run(&mut found, end.saturating_sub(begin.max(next)), domain);
        next = next.max(end);
    }
    found
}

/// Adds frames; an extent has fewer than 2^32, and a queue takes no more in all.
fn push_run(to: &mut Vec<Extent>, frames: u64, domain: u16) {
    if frames > 0 {
        to.push(Extent { frames: u32::try_from(frames).unwrap_or(u32::MAX), domain });
    }
}
