//! A guest for the test: it sends packets, a few at a time, and looks at each answer. Numbers are those of Xen's netif.h, ring.h and grant_table.h.
use crate::memory::{load, store};
use laxonje::PAGE_WORDS;
use std::sync::mpsc::{Receiver, Sender};
use std::time::Duration;
use vm_memory::GuestMemoryMmap;

/// The frames of the rings, of the grant table, and of the pages that references from 8 on grant; these lie beyond a hole.
pub const TX: u32 = 0;
pub const RX: u32 = 1;
pub const TABLE: u32 = 2;
pub const DATA: u32 = 64;
pub const DATA_FRAMES: u32 = 32;
const FIRST: u32 = 8;
const BATCH: u32 = 8;
const RING: u32 = 256;
const SLOTS: usize = 16;
const PERMIT: u32 = 1;
const PATIENCE: Duration = Duration::from_secs(20);

/// What a guest has of its own: its memory, its number, and the ways to and from the host.
pub struct Front {
    pub pages: GuestMemoryMmap,
    pub number: usize,
    pub events: Sender<usize>,
    pub notices: Receiver<()>,
}

fn tx_slot(index: u32) -> usize {
    SLOTS + 3 * (index % RING) as usize
}

fn rx_slot(index: u32) -> usize {
    SLOTS + 2 * (index % RING) as usize
}

/// The length of a packet: 60 to 1,513 bytes.
fn length(index: u32) -> u32 {
    60 + index * 7919 % 1454
}

/// A word of a packet.
fn word(index: u32, place: u32) -> u32 {
    index.wrapping_mul(2_654_435_761).wrapping_add(place)
}

impl Front {
    /// Empty rings, whose event indices are 1, and grants of all pages.
    pub fn connect(&self) {
        for ring in [TX, RX] {
            for (place, value) in [0, 1, 0, 1].into_iter().enumerate() {
                store(&self.pages, ring, place, value);
            }
        }
        for page in 0..DATA_FRAMES {
            let entry = 2 * (FIRST + page) as usize;
            store(&self.pages, TABLE, entry + 1, DATA + page);
            store(&self.pages, TABLE, entry, PERMIT);
        }
    }

    /// Sends so many packets. Returns the number of wrong answers, or of packets that never came back.
    pub fn run(&self, packets: u32) -> u32 {
        (0..packets).step_by(BATCH as usize).map(|first| self.exchange(first, BATCH.min(packets - first))).sum()
    }

    fn exchange(&self, first: u32, count: u32) -> u32 {
        for index in first..first + count {
            self.post(index);
            self.send(index);
        }
        let end = first + count;
        // buffers first: the host may still be looking for packets, and delivers what it finds
        for ring in [RX, TX] {
            store(&self.pages, ring, 3, end); // the event index: told once all have come
            store(&self.pages, ring, 0, end);
        }
        if self.events.send(self.number).is_err() {
            return count;
        }
        while load(&self.pages, TX, 2) != end || load(&self.pages, RX, 2) != end {
            if self.notices.recv_timeout(PATIENCE).is_err() {
                return count;
            }
        }
        (first..end).filter(|index| !self.is_right(*index)).count() as u32
    }

    fn post(&self, index: u32) {
        let page = BATCH + index % BATCH;
        store(&self.pages, RX, rx_slot(index), index & 0xffff);
        store(&self.pages, RX, rx_slot(index) + 1, FIRST + page);
    }

    fn send(&self, index: u32) {
        let page = index % BATCH;
        for place in 0..(length(index) + 3) / 4 {
            store(&self.pages, DATA + page, place as usize % PAGE_WORDS, word(index, place));
        }
        store(&self.pages, TX, tx_slot(index), FIRST + page);
        store(&self.pages, TX, tx_slot(index) + 1, 0);
        store(&self.pages, TX, tx_slot(index) + 2, index & 0xffff | length(index) << 16);
    }

    /// Whether a packet was taken, and came back as it was sent.
    fn is_right(&self, index: u32) -> bool {
        let (sent, bytes) = (load(&self.pages, TX, tx_slot(index)), length(index));
        let came = (load(&self.pages, RX, rx_slot(index)), load(&self.pages, RX, rx_slot(index) + 1));
        let page = DATA + BATCH + index % BATCH;
        let is_same = (0..bytes / 4).all(|place| load(&self.pages, page, place as usize) == word(index, place));
        sent == index & 0xffff && came == (index & 0xffff, bytes << 16) && is_same
    }
}
