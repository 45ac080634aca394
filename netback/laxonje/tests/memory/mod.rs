//! A guest in memory: frames that it shares, and a frontend of a few lines. Numbers are those of Xen's netif.h, ring.h and
//! grant_table.h.
use laxonje::{Extent, GuestMemory, Indices, Page, Program, Queue, Setup};
use std::sync::atomic::{AtomicU32, Ordering::SeqCst};

pub const TX: usize = 0;
pub const RX: usize = 1;
pub const TABLE: usize = 2;
pub const DATA: usize = 3;
pub const GUEST: u16 = 5;
const FRAMES: usize = 16;
pub const RING: usize = 16; // the first word of a ring's slots
const PERMIT: u32 = 1;
const READONLY: u32 = 4;

pub struct Memory {
    pages: Vec<Box<Page>>,
    pub notices: Vec<u32>,
}

impl GuestMemory for Memory {
    fn page(&self, frame: u32) -> &Page {
        &self.pages[frame as usize]
    }

    fn notify(&mut self, port: u32) {
        self.notices.push(port);
    }
}

impl Memory {
    /// Rings without requests, whose event indices are 1, and no grants.
    pub fn new() -> Memory {
        let page = || Box::new([(); 1024].map(|()| AtomicU32::new(0)));
        let memory = Memory { pages: (0..FRAMES).map(|_| page()).collect(), notices: Vec::new() };
        for ring in [TX, RX] {
            memory.set(ring, 1, 1);
            memory.set(ring, 3, 1);
        }
        memory
    }

    /// A guest none of whose pages can be had.
    pub fn gone() -> Memory {
        Memory { pages: Vec::new(), notices: Vec::new() }
    }

    pub fn set(&self, frame: usize, word: usize, value: u32) {
        self.pages[frame][word].store(value, SeqCst);
    }

    pub fn get(&self, frame: usize, word: usize) -> u32 {
        self.pages[frame][word].load(SeqCst)
    }

    /// Grants the frame `DATA + number` by the reference `8 + number`.
    pub fn grant(&self, number: usize, writable: bool) -> u32 {
        let reference = 8 + number;
        self.set(TABLE, 2 * reference, PERMIT | if writable { 0 } else { READONLY });
        self.set(TABLE, 2 * reference + 1, (DATA + number) as u32);
        reference as u32
    }

    /// Puts bytes at the start of a page of data.
    pub fn fill(&self, number: usize, bytes: &[u8]) {
        for (word, four) in bytes.chunks(4).enumerate() {
            let mut padded = [0; 4];
            padded[..four.len()].copy_from_slice(four);
            self.set(DATA + number, word, u32::from_le_bytes(padded));
        }
    }

    /// A tx request at an index, which the producer shows.
    pub fn send(&self, index: u32, reference: u32, flags: u32, size: u32) {
        let slot = RING + 3 * (index as usize % 256);
        self.set(TX, slot, reference);
        self.set(TX, slot + 1, flags << 16);
        self.set(TX, slot + 2, 100u32.wrapping_add(index) & 0xffff | size << 16);
        self.set(TX, 0, index.wrapping_add(1));
    }

    /// The id and the status of the tx response at an index.
    pub fn sent(&self, index: u32) -> (u32, i16) {
        let word = self.get(TX, RING + 3 * (index as usize % 256));
        (word & 0xffff, (word >> 16) as i16)
    }

    /// An rx buffer at an index, which the producer shows.
    pub fn post(&self, index: u32, reference: u32) {
        let slot = RING + 2 * (index as usize % 256);
        self.set(RX, slot, 200 + index);
        self.set(RX, slot + 1, reference);
        self.set(RX, 0, index.wrapping_add(1));
    }

    /// The id, the offset, the flags and the status of the rx response at an index.
    pub fn received(&self, index: u32) -> (u32, u32, u32, i16) {
        let slot = RING + 2 * (index as usize % 256);
        let (first, second) = (self.get(RX, slot), self.get(RX, slot + 1));
        (first & 0xffff, first >> 16, second & 0xffff, (second >> 16) as i16)
    }

    pub fn queue(&self, program: &Program, at: Indices) -> Queue {
        Queue::new(program, &setup(at)).unwrap()
    }
}

/// r0 = `number`; exit.
pub fn answers(number: u8) -> Program {
    Program::load(&[0xb7, 0, 0, 0, number, 0, 0, 0, 0x95, 0, 0, 0, 0, 0, 0, 0], &[]).unwrap()
}

/// A frame of IPv4 with UDP.
pub fn udp(length: usize) -> Vec<u8> {
    let mut packet: Vec<u8> = (0..length).map(|byte| byte as u8).collect();
    packet[12..15].copy_from_slice(&[8, 0, 0x45]);
    packet[23] = 17;
    packet
}

pub fn setup(at: Indices) -> Setup<'static> {
    const EXTENTS: [Extent; 1] = [Extent { frames: FRAMES as u32, domain: GUEST }];
    Setup {
        frames: &EXTENTS,
        table: &[TABLE as u32],
        tx: TX as u32,
        rx: RX as u32,
        frontend: GUEST,
        backend: 0,
        port: 9,
        ifindex: 0,
        queue: 0,
        at,
    }
}
