//! A ring's page, and guesses at its requests.
use crate::xen::PageCopy;
use laxonje::Page;
use std::ops::{Deref, Range};
use std::sync::atomic::Ordering;

/// Words of a ring: the producer of requests and that of responses, the first slot, and how many words a slot has (`ring.h`, `netif.h`).
pub const REQUESTS: usize = 0;
pub const RESPONSES: usize = 2;
pub const SLOTS: usize = 16;
pub const TX_SLOT: usize = 3;
pub const RX_SLOT: usize = 2;
pub const REQUESTS_IN_RING: u32 = 256;

/// A guess at a request: the bytes of a tx slot that were copied, or a packet's page that was copied to the buffer of an rx slot.
#[derive(Clone, Debug, PartialEq, Eq)]
pub struct Guess {
    pub reference: u32,
    /// Where the copy of a tx slot lies, or where the packet's page begins.
    pub place: usize,
    /// Which bytes of the guest's page.
    pub bytes: Range<usize>,
    pub allowed: bool,
}

impl Guess {
    pub fn of(copy: &PageCopy, place: usize) -> Guess {
        let bytes = copy.offset..copy.offset + copy.bytes;
        Guess { reference: copy.reference, place, bytes, allowed: copy.allowed }
    }
}

/// One of a queue's two rings.
pub struct Ring<Mapped> {
    pub page: Mapped,
    /// The index up to which responses are shown: that of the queue's next request.
    pub done: u32,
    /// For each slot a guess, and which slots were read in the turn under way.
    pub guesses: Vec<Option<Guess>>,
    pub read: Vec<usize>,
    /// How many of these, from the first on, have no guess any more.
    passed: usize,
    pub slot_words: usize,
}

impl<Mapped: Deref<Target = Page>> Ring<Mapped> {
    pub fn new(page: Mapped, slot_words: usize, fresh: bool) -> Self {
        let done = if fresh { 0 } else { page[RESPONSES].load(Ordering::Acquire) };
        Ring { page, done, guesses: vec![None; REQUESTS_IN_RING as usize], read: Vec::new(), passed: 0, slot_words }
    }

    /// How many requests the guest shows. More than a ring has: it lies.
    pub fn shown(&self) -> u32 {
        self.page[REQUESTS].load(Ordering::Acquire).wrapping_sub(self.done)
    }

    /// The slot of the request that comes `number` after the next.
    pub fn slot(&self, number: u32) -> usize {
        (self.done.wrapping_add(number) % REQUESTS_IN_RING) as usize
    }

    /// The first words of a slot, in their order, each read once.
    pub fn words<const COUNT: usize>(&self, slot: usize) -> [u32; COUNT] {
        let first = SLOTS + self.slot_words * slot;
        let mut words = [0; COUNT];
        for (word, shared) in words.iter_mut().zip(&self.page[first..first + COUNT]) {
            *word = shared.load(Ordering::Acquire);
        }
        words
    }

    /// Notes the slots that these words are.
    pub fn note_read(&mut self, word: usize, count: usize) {
        if let Some(at) = word.checked_sub(SLOTS) {
            let first = at / self.slot_words;
            self.read.extend(first..first + count / self.slot_words);
        }
    }

    /// Forgets which slots were read.
    pub fn forget_read(&mut self) {
        self.read.clear();
        self.passed = 0;
    }

    /// The guess of the first slot that was read and names this reference.
    pub fn guess(&mut self, reference: u32) -> Option<Guess> {
        let matches = |slot: &usize| matches!(&self.guesses[*slot], Some(guess) if guess.reference == reference);
        let at = self.passed + self.read[self.passed..].iter().position(matches)?;
        if at == self.passed {
            self.passed += 1;
        }
        self.guesses[self.read[at]].take()
    }
}
