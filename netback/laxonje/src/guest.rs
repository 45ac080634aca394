//! What a queue asks of its host: the accesses of a guest's pages, and notices.
use crate::loads::read_words;
use core::sync::atomic::{fence, AtomicU32, Ordering};
use laxonje_sys as sys;

/// The words of a page, and its bytes.
pub const PAGE_WORDS: usize = 1024;
/// The bytes of a page.
pub const PAGE_BYTES: usize = 4 * PAGE_WORDS;

/// A page that a guest may read and write at any time.
pub type Page = [AtomicU32; PAGE_WORDS];

/// A host that has the guest's pages mapped, as a VMM that emulates Xen.
pub trait GuestMemory {
    /// The words of a frame. It is one of the guest's own.
    fn page(&self, frame: u32) -> &Page;
    /// Sends a notice to the guest by its event channel.
    fn notify(&mut self, port: u32);
    /// Each op once it is made: a trace. As of [`Guest::told`].
    fn told(&mut self, _op: &Op, _words: &[u32]) {}
}

/// Where an entry of the grant table lies, and which reference it is.
#[derive(Clone, Copy, Debug, PartialEq, Eq)]
pub struct Entry {
    /// The reference: the number of the entry in the table.
    pub reference: u32,
    /// The frame of the table that has the entry.
    pub frame: u32,
    /// The entry's first word in that frame.
    pub word: usize,
    /// Whether the page is going to be written.
    pub writes: bool,
}

/// An op of the queue's, for a trace.
#[derive(Clone, Copy, Debug, PartialEq, Eq)]
#[non_exhaustive]
pub enum Op {
    /// Words of a page were read.
    Read {
        /// The page's frame.
        frame: u32,
        /// The first word.
        word: usize,
    },
    /// An entry of the grant table was read.
    Entry(Entry),
    /// Words of a page were written.
    Write {
        /// The page's frame.
        frame: u32,
        /// The first word.
        word: usize,
    },
    /// A word was written and, after a full fence, another read.
    Push {
        /// The ring's frame.
        frame: u32,
        /// The word that was written.
        word: usize,
        /// What was written.
        value: u32,
        /// The word that was read.
        then: usize,
    },
    /// A notice was sent to this port.
    Notify(u32),
    /// The turn, the delivery or the wait is over.
    Done,
}

impl Op {
    pub(crate) fn of(op: &sys::laxonje_op) -> Op {
        let (frame, word) = (op.frame, op.word as usize);
        match op.kind {
            sys::LAXONJE_OP_READ if op.entry != sys::LAXONJE_ENTRY_NONE => Op::Entry(Entry::of(op)),
            sys::LAXONJE_OP_READ => Op::Read { frame, word },
            sys::LAXONJE_OP_WRITE | sys::LAXONJE_OP_STORE => Op::Write { frame, word },
            sys::LAXONJE_OP_PUSH => Op::Push { frame, word, value: op.value[0], then: op.value[1] as usize },
            sys::LAXONJE_OP_NOTIFY => Op::Notify(op.value[0]),
            _ => Op::Done,
        }
    }
}

impl Entry {
    pub(crate) fn of(op: &sys::laxonje_op) -> Entry {
        Entry { reference: op.reference(), frame: op.frame, word: op.word as usize, writes: op.entry == sys::LAXONJE_ENTRY_WRITE }
    }
}

/// A host that makes each access itself. Each [`GuestMemory`] is one; implement it if pages have to be asked for, as under Xen.
///
/// Between the entry of a grant and a `push`, or the end of the turn or the delivery, the page may be read, or written if the entry says so. A page
/// that is read may be given back at the push of the tx ring's word 2, and one that is written at that of the rx ring's: no access of it comes then.
pub trait Guest {
    /// Reads words of a ring's page, or of a granted page, in rising order, each once.
    fn read(&mut self, frame: u32, word: usize, into: &mut [u32]);
    /// Writes words of a ring's page, or of a granted page, in rising order, each once.
    fn write(&mut self, frame: u32, word: usize, from: &[u32]);
    /// Writes a word of a ring's page and then, after a full fence, reads the word `then` of the same page.
    fn push(&mut self, frame: u32, word: usize, value: u32, then: usize) -> u32;
    /// Sends a notice to the guest by its event channel.
    fn notify(&mut self, port: u32);
    /// Reads the two words of an entry of the grant table. The answer says whose frame it is and what is permitted, as Xen's `grant_entry_v1`
    /// does: flags in the low half of the first word, the domain in the high half, then the frame. A host that maps pages answers flags of
    /// `permit_access` (1) with its own domain and a frame of its choosing, or zeros if the page can't be had.
    fn entry(&mut self, entry: &Entry) -> [u32; 2] {
        let mut words = [0; 2];
        self.read(entry.frame, entry.word, &mut words);
        words
    }
    /// The turn, the delivery or the wait is over.
    fn over(&mut self) {}
    /// Each op once it is made, with the words that were read or written: a trace.
    fn told(&mut self, _op: &Op, _words: &[u32]) {}
}

impl<Memory: GuestMemory + ?Sized> Guest for Memory {
    fn read(&mut self, frame: u32, word: usize, into: &mut [u32]) {
        read_words(&self.page(frame)[word..word + into.len()], into);
    }

    fn write(&mut self, frame: u32, word: usize, from: &[u32]) {
        let to = &self.page(frame)[word..word + from.len()];
        for (shared, value) in to.iter().zip(from) {
            shared.store(*value, Ordering::Release);
        }
    }

    fn push(&mut self, frame: u32, word: usize, value: u32, then: usize) -> u32 {
        let page = self.page(frame);
        page[word].store(value, Ordering::Release);
        fence(Ordering::SeqCst);
        page[then].load(Ordering::Acquire)
    }

    fn notify(&mut self, port: u32) {
        GuestMemory::notify(self, port);
    }

    fn told(&mut self, op: &Op, words: &[u32]) {
        GuestMemory::told(self, op, words);
    }
}
