//! A guest and Xen in memory: grants that are given and ended, and a guest that changes its slots.
mod any;
mod counting;
mod deliveries;
#[cfg(feature = "fuzz")]
mod fuzz;
mod turns;
mod ways;

use self::any::Any;
use super::ahead::MORE_EXTRAS;
use super::ring::SLOTS;
use super::*;
use laxonje::{Accepts, Action, Delivery, Offers, Program, Queue, Refusal, SegmentKind, Segments, Setup, Turn};
use std::cell::RefCell;
use std::collections::BTreeMap;
use std::rc::Rc;
use std::sync::atomic::{AtomicU32, Ordering::SeqCst};

const GUEST: u16 = 4;
const TX: u32 = 1000;
const RX: u32 = 1001;
const MORE: u32 = 4;
const EXTRA: u32 = 8;

/// A page that may be written, or not.
type Granted = (Rc<Page>, bool);

/// Pages by their references, and what was asked of Xen.
#[derive(Clone, Default)]
struct Pretended {
    pages: Rc<RefCell<BTreeMap<u32, Granted>>>,
    said: Rc<RefCell<Vec<String>>>,
    /// How many rx responses were shown when a copy to the guest was made.
    shown: Rc<RefCell<Vec<u32>>>,
}

impl Pages for Pretended {
    type Mapped = Rc<Page>;

    fn map(&self, domain: u16, reference: u32, writes: bool) -> Option<Rc<Page>> {
        assert_eq!(domain, GUEST);
        let pages = self.pages.borrow();
        let (page, writable) = pages.get(&reference)?;
        (*writable || !writes).then(|| Rc::clone(page))
    }

    fn memory(&self, pages: usize) -> Memory {
        Memory::plain(pages)
    }

    fn fetch(&self, domain: u16, copies: &mut [PageCopy], into: &mut Memory) -> io::Result<()> {
        self.note(copies, '<');
        for copy in copies {
            let page = self.map(domain, copy.reference, false);
            copy.allowed = page.is_some();
            if let Some(page) = page {
                into.bytes_mut()[copy.at..][..copy.bytes].copy_from_slice(&bytes_of(&page)[copy.offset..][..copy.bytes]);
            }
        }
        Ok(())
    }

    fn put(&self, domain: u16, copies: &mut [PageCopy], from: &Memory) -> io::Result<()> {
        self.note(copies, '>');
        for copy in copies {
            self.shown.borrow_mut().push(self.page(RX)[RESPONSES].load(SeqCst));
            let page = self.map(domain, copy.reference, true);
            copy.allowed = page.is_some();
            if let Some(page) = page {
                let mut bytes = bytes_of(&page);
                bytes[copy.offset..][..copy.bytes].copy_from_slice(&from.bytes()[copy.at..][..copy.bytes]);
                fill(&page, &bytes);
            }
        }
        Ok(())
    }
}

fn bytes_of(page: &Page) -> Vec<u8> {
    page.iter().flat_map(|word| word.load(SeqCst).to_le_bytes()).collect()
}

fn fill(page: &Page, bytes: &[u8]) {
    for (word, four) in page.iter().zip(bytes.chunks_exact(4)) {
        word.store(u32::from_le_bytes([four[0], four[1], four[2], four[3]]), SeqCst);
    }
}

struct Bench {
    memory: Pretended,
    guest: XenGuest<Pretended>,
    queue: Queue,
}

impl Bench {
    /// A program that answers this number to each packet.
    fn new(way: Way, answer: u8) -> Bench {
        Bench::of(way, &Program::load(&[0xb7, 0, 0, 0, answer, 0, 0, 0, 0x95, 0, 0, 0, 0, 0, 0, 0], &[]).unwrap())
    }

    fn of(way: Way, program: &Program) -> Bench {
        let memory = Pretended::default();
        memory.grant(TX, true);
        memory.grant(RX, true);
        for ring in [TX, RX] {
            memory.page(ring)[1].store(1, SeqCst);
            memory.page(ring)[3].store(1, SeqCst);
        }
        let keys = QueueKeys { tx: TX, rx: RX, event: 1 };
        let guest = XenGuest::connect(GUEST, &keys, true, way, memory.clone(), Arc::default()).unwrap();
        let table: Vec<u32> = (0..TABLE_FRAMES).collect();
        let (frames, at) = (guest.extents(), guest.indices());
        let setup = Setup {
            frames: &frames,
            table: &table,
            tx: TX_RING,
            rx: RX_RING,
            frontend: GUEST,
            backend: OWN_DOMAIN,
            port: 0,
            ifindex: 0,
            queue: 0,
            at,
        };
        let mut queue = Queue::new(program, &setup).unwrap();
        queue.offer(Offers::ALL).and_then(|()| queue.accept(Accepts::ALL)).unwrap();
        Bench { memory, guest, queue }
    }

    /// A turn of one packet.
    fn turn(&mut self) -> Turn {
        self.turns(1).pop().unwrap_or(Turn::Idle)
    }

    /// A turn of up to `most`.
    fn turns(&mut self, most: usize) -> Vec<Turn> {
        let turns = self.queue.turns(most, &mut self.guest);
        (0..turns).map(|number| self.queue.turned(number)).collect()
    }

    fn action(&mut self) -> Action {
        match self.turn() {
            Turn::Ran(run) => run.action,
            other => panic!("{other:?}"),
        }
    }

    fn packet(&self) -> Vec<u8> {
        self.packet_of(0)
    }

    fn packet_of(&self, number: usize) -> Vec<u8> {
        let mut packet = vec![0; 65535];
        let length = self.queue.packet_of(number, &mut packet);
        packet.truncate(length);
        packet
    }

    /// The grant that Xen refused of a packet of the last turn, as a log has it.
    fn refused_of(&self, number: usize) -> String {
        self.guest.refused_of(&self.queue, number).to_string()
    }

    fn is_done(&self, end: u32) -> bool {
        self.guest.left_before(end) == 0
    }

    fn deliver(&mut self, arena: &Arena) -> Delivery {
        let packet = arena.first().unwrap();
        self.queue.deliver_as(arena.bytes(packet), packet.offload, &mut Delivering { guest: &mut self.guest, arena, packet }).unwrap()
    }

    fn count(&self, of: fn(&Totals) -> &std::sync::atomic::AtomicU64) -> u64 {
        of(&self.guest.totals).load(SeqCst)
    }
}

impl Pretended {
    fn note(&self, copies: &[PageCopy], way: char) {
        let what = |copy: &PageCopy| format!("{}{way}{}+{}", copy.reference, copy.offset, copy.bytes);
        if !copies.is_empty() {
            self.said.borrow_mut().push(copies.iter().map(what).collect::<Vec<_>>().join(" "));
        }
    }

    fn page(&self, reference: u32) -> Rc<Page> {
        Rc::clone(&self.pages.borrow()[&reference].0)
    }

    fn grant(&self, reference: u32, writable: bool) {
        let page = Rc::new([(); 1024].map(|()| AtomicU32::new(0)));
        self.pages.borrow_mut().insert(reference, (page, writable));
    }

    /// A grant with a page whose bytes count from a number on.
    fn grant_bytes(&self, reference: u32, from: u8) {
        self.grant(reference, false);
        let bytes: Vec<u8> = (0..4096u32).map(|byte| (byte as u8).wrapping_add(from)).collect();
        fill(&self.page(reference), &bytes);
    }

    fn end(&self, reference: u32) {
        self.pages.borrow_mut().remove(&reference);
    }

    fn send(&self, index: u32, reference: u32, offset: u32, flags: u32, size: u32) {
        let (page, slot) = (self.page(TX), SLOTS + TX_SLOT * (index % 256) as usize);
        page[slot].store(reference, SeqCst);
        page[slot + 1].store(offset | (flags << 16), SeqCst);
        page[slot + 2].store((index % 256) | (size << 16), SeqCst);
        page[0].store(index.wrapping_add(1), SeqCst);
    }

    /// An extra info of these words.
    fn extra(&self, index: u32, first: u32, second: u32) {
        let (page, slot) = (self.page(TX), SLOTS + TX_SLOT * (index % 256) as usize);
        page[slot].store(first, SeqCst);
        page[slot + 1].store(second, SeqCst);
        page[0].store(index.wrapping_add(1), SeqCst);
    }

    fn post(&self, index: u32, reference: u32) {
        let (page, slot) = (self.page(RX), SLOTS + RX_SLOT * (index % 256) as usize);
        page[slot].store(index % 256, SeqCst);
        page[slot + 1].store(reference, SeqCst);
        page[0].store(index.wrapping_add(1), SeqCst);
    }

    /// The status of a response: of the tx ring, and of the rx ring.
    fn status(&self, ring: u32, index: u32) -> i16 {
        let (words, at) = if ring == TX { (TX_SLOT, 0) } else { (RX_SLOT, 1) };
        (self.page(ring)[SLOTS + words * (index % 256) as usize + at].load(SeqCst) >> 16) as i16
    }

    fn said(&self) -> Vec<String> {
        std::mem::take(&mut *self.said.borrow_mut())
    }
}

/// The first word of a GSO extra (netif.h).
fn gso(size: u32) -> u32 {
    1 | size << 16
}

fn arena(lengths: &[usize]) -> Arena {
    let mut arena = Arena::new();
    lengths.iter().for_each(|length| arena.put(&vec![0x5a; *length]));
    arena
}

#[test]
fn an_entry_permits_what_is_asked_for_and_no_more() {
    let mut bench = Bench::new(Way::Copy, 2);
    bench.memory.grant(30, true);
    let mut entry = |writes| bench.guest.entry(&Entry { reference: 30, frame: 0, word: 60, writes });
    // grant_table.h: GTF_permit_access 1, GTF_readonly 4, then the domain
    assert_eq!(entry(false), [0x7ff0_0005, 128]);
    assert_eq!(entry(true), [0x7ff0_0001, 129]);
}

#[test]
fn a_packet_that_is_sent_back_is_written_before_its_response() {
    for way in [Way::Copy, Way::Map] {
        let mut bench = Bench::new(way, 3);
        bench.memory.grant_bytes(20, 7);
        bench.memory.grant(30, true);
        bench.memory.grant(31, true);
        bench.memory.send(0, 20, 0, MORE, 4200);
        bench.memory.send(1, 20, 0, 0, 200);
        bench.memory.post(0, 30);
        bench.memory.post(1, 31);
        bench.guest.fetch().unwrap();
        assert_eq!(bench.action(), Action::Tx, "{way:?}");
        assert_eq!(bench.memory.page(30)[1].load(SeqCst), u32::from_le_bytes([11, 12, 13, 14]));
        // byte 4,196 of the packet is byte 196 of the second slot's
        assert_eq!(bench.memory.page(31)[25].load(SeqCst).to_le_bytes(), [203, 204, 205, 206]);
        assert_eq!((bench.memory.status(RX, 0), bench.memory.status(RX, 1)), (4096, 104));
        assert!(bench.memory.shown.borrow().iter().all(|shown| *shown == 0));
        assert_eq!((bench.count(|totals| &totals.strange), bench.count(|totals| &totals.ended_grants)), (0, 0));
    }
}

#[test]
fn one_buffer_for_two_pages_has_the_last() {
    let mut bench = Bench::new(Way::Copy, 3);
    bench.memory.grant_bytes(20, 0);
    bench.memory.grant(30, true);
    bench.memory.send(0, 20, 0, MORE, 4200);
    bench.memory.send(1, 20, 0, 0, 200);
    bench.memory.post(0, 30);
    bench.memory.post(1, 30);
    assert_eq!(bench.action(), Action::Tx);
    assert_eq!(bench.memory.page(30)[0].load(SeqCst).to_le_bytes()[0], 96);
    assert_eq!(bench.count(|totals| &totals.strange), 0);
}

#[test]
fn pages_can_be_mapped() {
    let mut bench = Bench::new(Way::Map, 2);
    bench.memory.grant_bytes(20, 3);
    bench.memory.send(0, 20, 0, 0, 60);
    assert_eq!(bench.guest.fetch().unwrap(), 1);
    assert_eq!((bench.action(), bench.packet()[0]), (Action::Pass, 3));
    assert_eq!(Rc::strong_count(&bench.memory.page(20)), 2, "it is unmapped by now");
    bench.memory.grant(30, true);
    bench.memory.post(0, 30);
    let arena = arena(&[60]);
    assert_eq!(bench.guest.put(&arena).unwrap(), 1);
    assert_eq!(bench.deliver(&arena), Delivery::Sent { slots: 1 });
    assert_eq!(bench.memory.page(30)[0].load(SeqCst), 0x5a5a_5a5a);
    assert!(bench.memory.said().is_empty());
}

#[test]
fn rings_are_gone_on_with_where_responses_are_shown_up_to() {
    let memory = Pretended::default();
    memory.grant(TX, true);
    memory.grant(RX, true);
    memory.page(TX)[RESPONSES].store(70_000, SeqCst);
    let keys = QueueKeys { tx: TX, rx: RX, event: 1 };
    let connect = |keys: &QueueKeys, fresh| XenGuest::connect(GUEST, keys, fresh, Way::Copy, memory.clone(), Arc::default());
    assert_eq!(connect(&keys, false).unwrap().indices(), laxonje::Indices { tx: 70_000, rx: 0 });
    assert_eq!(connect(&keys, true).unwrap().indices(), laxonje::Indices::default());
    let why = connect(&QueueKeys { rx: 5, ..keys }, true).err().unwrap().to_string();
    assert_eq!(why, "Xen doesn't grant its rx ring's page");
}

#[test]
fn a_producer_that_lies_halts_the_queue() {
    let mut bench = Bench::new(Way::Copy, 2);
    bench.memory.page(TX)[0].store(300, SeqCst);
    bench.memory.page(RX)[0].store(0x8000_0000, SeqCst);
    assert_eq!((bench.guest.fetch().unwrap(), bench.guest.posted()), (256, 256));
    assert!(bench.memory.said().is_empty());
    bench.guest.put(&arena(&[60])).unwrap();
    assert!(matches!(bench.turn(), Turn::Halted(_)));
}
