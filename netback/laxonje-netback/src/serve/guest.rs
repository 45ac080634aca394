//! A guest's rings and pages under Xen.
//!
//! The queue asks for words of the guest's grant table, which no backend under Xen can read. So the table's frames are made up: a read
//! of an entry asks Xen for the page of that reference, and the answer permits what Xen allowed, or nothing. The frame that an entry names
//! is a number of this process's own: `GRANTED` plus the number of the page among those of the turn.
//!
//! To ask Xen for each page in a call of its own is dear. So the pages of all requests that the guest has shown are copied in one call
//! before their turns, and the packets that wait are copied to the posted buffers in one call before their deliveries. What was
//! copied is a guess at what the queue is going to ask for: an entry that isn't the one guessed is asked for then. All pages are
//! given back before a response is shown.
mod ahead;
mod held;
mod ring;

use self::held::Held;
use self::ring::{Ring, REQUESTS_IN_RING, RESPONSES, RX_SLOT, TX_SLOT};
use super::arena::{Arena, Packet};
use crate::keys::QueueKeys;
use crate::stats::{Rings, Totals};
use crate::xen::{Memory, PageCopy, Pages};
use laxonje::{Entry, Extent, Grant, Guest, GuestMemory, Page, Queue, MOST_TURNS, PAGE_BYTES};
use std::fmt;
use std::io;
use std::sync::atomic::{fence, Ordering};
use std::sync::Arc;

pub const TABLE_FRAMES: u32 = laxonje::TABLE_FRAMES as u32;
const ENTRIES: u32 = 512;
pub const TX_RING: u32 = TABLE_FRAMES;
pub const RX_RING: u32 = TABLE_FRAMES + 1;
const GRANTED: u32 = 2 * TABLE_FRAMES;

/// The domain that the made-up entries are for: DOMID_SELF, which no guest has.
pub const OWN_DOMAIN: u16 = 0x7ff0;
/// The room for what is copied ahead: all packets of a ring that are short, or two of the longest.
const PAGES_AHEAD: usize = 32;
/// The pages that a turn can ask for one by one, and more.
const PAGES_ASKED: usize = 64;
/// The memory for the pages of a queue that are copied: each of its three rooms may take a page more.
pub const COPIES_BYTES: usize = (2 * PAGES_AHEAD + PAGES_ASKED + 3) * PAGE_BYTES;
const PERMIT_ACCESS: u32 = 1;
const READONLY: u32 = 4;
/// The entry of a page that Xen refuses.
const REFUSED: [u32; 2] = [0, 0];

/// How pages of a guest are had.
#[derive(Clone, Copy, Debug, PartialEq, Eq)]
pub enum Way {
    /// Copied by Xen.
    Copy,
    /// Mapped, each for its turn.
    Map,
}

/// The grant that Xen refused, if it did: its reference, and the index of its packet's first slot. As the end of a log line.
#[derive(Clone, Copy, Debug, Default, PartialEq, Eq)]
pub struct RefusedGrant(Option<(u32, u32)>);

impl RefusedGrant {
    /// What was read last for the packet at an index.
    fn of(grant: Option<Grant>, index: u32) -> RefusedGrant {
        RefusedGrant(grant.filter(|grant| grant.words == REFUSED).map(|grant| (grant.entry.reference, index)))
    }
}

impl fmt::Display for RefusedGrant {
    fn fmt(&self, to: &mut fmt::Formatter<'_>) -> fmt::Result {
        match self.0 {
            Some((reference, index)) => write!(to, ": Xen refuses reference {reference}, of the packet at index {index}"),
            None => Ok(()),
        }
    }
}

/// A guest's queue under Xen.
pub struct XenGuest<Xen: Pages> {
    domain: u16,
    xen: Xen,
    way: Way,
    tx: Ring<Xen::Mapped>,
    rx: Ring<Xen::Mapped>,
    /// Room for what is copied from the guest ahead of its turns, to the guest ahead of its deliveries, and in a turn.
    taken: Memory,
    given: Memory,
    asked: Memory,
    asked_count: usize,
    /// How many of the further pages are of pages that are read.
    asked_to_read: usize,
    copies: Vec<PageCopy>,
    /// The slots of each ring that have a guess.
    tx_guessed: Vec<usize>,
    rx_guessed: Vec<usize>,
    held: Vec<Held<Xen::Mapped>>,
    owes_notice: bool,
    totals: Arc<Totals>,
}

impl<Xen: Pages> XenGuest<Xen> {
    /// Maps the rings of a queue, whose references are the guest's. `fresh`: the rings begin at 0; else they are gone on with where responses
    /// are shown up to.
    pub fn connect(domain: u16, keys: &QueueKeys, fresh: bool, way: Way, xen: Xen, totals: Arc<Totals>) -> io::Result<Self> {
        let refused = |what: &str| io::Error::new(io::ErrorKind::PermissionDenied, format!("Xen doesn't grant its {what} ring's page"));
        let tx = xen.map(domain, keys.tx, true).ok_or_else(|| refused("tx"))?;
        let rx = xen.map(domain, keys.rx, true).ok_or_else(|| refused("rx"))?;
        let (tx, rx) = (Ring::new(tx, TX_SLOT, fresh), Ring::new(rx, RX_SLOT, fresh));
        let room = || match way {
            Way::Copy => xen.memory(PAGES_AHEAD),
            Way::Map => Memory::plain(0),
        };
        let (taken, given, asked) = (room(), room(), Memory::plain(PAGES_ASKED));
        let shared = [&taken, &given].iter().filter_map(|memory| memory.references()).map(<[u32]>::len).sum();
        Totals::set(&totals.shared_pages, shared);
        let (copies, tx_guessed, rx_guessed, held) = (Vec::new(), Vec::new(), Vec::new(), Vec::new());
        Ok(XenGuest {
            domain,
            xen,
            way,
            tx,
            rx,
            taken,
            given,
            asked,
            asked_count: 0,
            asked_to_read: 0,
            copies,
            tx_guessed,
            rx_guessed,
            held,
            owes_notice: false,
            totals,
        })
    }

    /// Frames of the host's own numbers, which are all the guest's.
    pub fn extents(&self) -> [Extent; 1] {
        [Extent { frames: GRANTED + TABLE_FRAMES * ENTRIES, domain: self.domain }]
    }

    pub fn indices(&self) -> laxonje::Indices {
        laxonje::Indices { tx: self.tx.done, rx: self.rx.done }
    }

    /// Where its rings stand.
    pub fn rings(&self) -> Rings {
        let ring = |ring: &Ring<Xen::Mapped>| (ring.shown().wrapping_add(ring.done), ring.done);
        Rings { tx: ring(&self.tx), rx: ring(&self.rx) }
    }

    /// Whether the guest shows a request of the tx ring.
    pub fn shows_packets(&self) -> bool {
        self.tx.shown() > 0
    }

    /// How many buffers the guest has posted.
    pub fn posted(&self) -> usize {
        self.rx.shown().min(REQUESTS_IN_RING) as usize
    }

    /// Whether the guest is owed a notice. After that it isn't.
    pub fn take_notice(&mut self) -> bool {
        std::mem::take(&mut self.owes_notice)
    }

    /// Which grant Xen refused of a packet of the last turn, by its number in it.
    pub fn refused_of(&self, queue: &Queue, number: usize) -> RefusedGrant {
        let slots: u32 = (number..MOST_TURNS).map(|number| queue.slots_of(number)).sum();
        RefusedGrant::of(queue.grant_of(number), self.tx.done.wrapping_sub(slots))
    }

    /// Which it refused of the last delivery, that has taken so many slots.
    pub fn refused_to(&self, queue: &Queue, slots: u32) -> RefusedGrant {
        RefusedGrant::of(queue.last_grant(), self.rx.done.wrapping_sub(slots))
    }

    fn ring(&self, frame: u32) -> Option<&Page> {
        match frame {
            TX_RING => Some(&self.tx.page),
            RX_RING => Some(&self.rx.page),
            _ => None,
        }
    }

    fn write_ring_or(&mut self, frame: u32, word: usize, from: &[u32], delivered: Option<(&Arena, Packet)>) {
        match self.ring(frame) {
            Some(page) => Words(page).write(frame, word, from),
            None => self.write_granted(frame.wrapping_sub(GRANTED), word, from, delivered),
        }
    }
}

/// A page that is mapped, whatever its frame's number is.
struct Words<'page>(&'page Page);

impl GuestMemory for Words<'_> {
    fn page(&self, _frame: u32) -> &Page {
        self.0
    }
    fn notify(&mut self, _port: u32) {}
}

impl<Xen: Pages> Guest for XenGuest<Xen> {
    fn read(&mut self, frame: u32, word: usize, into: &mut [u32]) {
        let ring = match frame {
            TX_RING => &mut self.tx,
            RX_RING => &mut self.rx,
            _ => return self.read_granted(frame.wrapping_sub(GRANTED), 4 * word..4 * (word + into.len()), into),
        };
        ring.note_read(word, into.len());
        Words(&ring.page).read(frame, word, into);
    }

    fn write(&mut self, frame: u32, word: usize, from: &[u32]) {
        self.write_ring_or(frame, word, from, None);
    }

    fn push(&mut self, frame: u32, word: usize, value: u32, then: usize) -> u32 {
        let ring = if frame == TX_RING {
            self.give_back();
            &mut self.tx
        } else {
            self.give_back_written();
            &mut self.rx
        };
        if word == RESPONSES {
            ring.done = value;
        }
        let page: &Page = &ring.page;
        page[word].store(value, Ordering::Release);
        fence(Ordering::SeqCst);
        page[then].load(Ordering::Acquire)
    }

    /// Notices of several turns are sent as one, before this process waits.
    fn notify(&mut self, _port: u32) {
        self.owes_notice = true;
    }

    fn entry(&mut self, entry: &Entry) -> [u32; 2] {
        match self.hold(entry) {
            Some(held) => {
                let frame = GRANTED + self.held.len() as u32;
                self.held.push(held);
                let access = if entry.writes { PERMIT_ACCESS } else { PERMIT_ACCESS | READONLY };
                [access | u32::from(OWN_DOMAIN) << 16, frame]
            }
            None => {
                Totals::add(&self.totals.refused_grants, 1);
                REFUSED
            }
        }
    }

    fn over(&mut self) {
        self.give_back();
    }
}

/// The guest while a packet is delivered that was copied to its buffers before.
pub struct Delivering<'queue, Xen: Pages> {
    pub guest: &'queue mut XenGuest<Xen>,
    pub arena: &'queue Arena,
    pub packet: Packet,
}

impl<Xen: Pages> Guest for Delivering<'_, Xen> {
    fn read(&mut self, frame: u32, word: usize, into: &mut [u32]) {
        Guest::read(self.guest, frame, word, into);
    }

    fn write(&mut self, frame: u32, word: usize, from: &[u32]) {
        self.guest.write_ring_or(frame, word, from, Some((self.arena, self.packet)));
    }

    fn push(&mut self, frame: u32, word: usize, value: u32, then: usize) -> u32 {
        self.guest.push(frame, word, value, then)
    }

    fn notify(&mut self, port: u32) {
        Guest::notify(self.guest, port);
    }

    fn entry(&mut self, entry: &Entry) -> [u32; 2] {
        self.guest.entry(entry)
    }

    fn over(&mut self) {
        self.guest.over();
    }
}

#[cfg(test)]
mod tests;
