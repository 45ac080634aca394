//! What is copied ahead: the pages of requests that the guest shows, before their turns, and packets that wait for it, before their deliveries.
use super::ring::{Guess, REQUESTS_IN_RING, TX_SLOT};
use super::{Way, XenGuest};
use crate::serve::arena::{Arena, Packet};
use crate::stats::Totals;
use crate::xen::{PageCopy, Pages, Places};
use laxonje::PAGE_BYTES;
use std::io;

/// Flags of a tx request, in its second word, and of an extra info, in its first.
pub const MORE_DATA: u32 = 4 << 16;
pub const EXTRA_INFO: u32 = 8 << 16;
pub const MORE_EXTRAS: u32 = 1 << 8;

/// What the next tx slot is, by those before it (netif.h).
#[derive(Clone, Copy, Debug, PartialEq, Eq)]
pub enum Comes {
    /// The first of a packet.
    First,
    /// One with more of its data.
    Data,
    /// An extra info, and behind the last of them more data, or the next packet.
    Extra { then_data: bool },
}

impl Comes {
    fn is_extra(self) -> bool {
        matches!(self, Comes::Extra { .. })
    }

    /// What comes behind this slot, of these first words.
    pub fn behind(self, first: u32, second: u32) -> Comes {
        let then_data = match self {
            Comes::First if second & EXTRA_INFO != 0 => return Comes::Extra { then_data: second & MORE_DATA != 0 },
            Comes::Extra { .. } if first & MORE_EXTRAS != 0 => return self,
            Comes::Extra { then_data } => then_data,
            Comes::First | Comes::Data => second & MORE_DATA != 0,
        };
        if then_data {
            Comes::Data
        } else {
            Comes::First
        }
    }
}

impl<Xen: Pages> XenGuest<Xen> {
    /// Copies the pages of requests that are shown, and says up to which index.
    pub fn fetch(&mut self) -> io::Result<u32> {
        self.forget();
        let shown = self.tx.shown();
        if self.way == Way::Map || shown > REQUESTS_IN_RING {
            return Ok(self.tx.done.wrapping_add(shown.min(REQUESTS_IN_RING)));
        }
        let count = self.guess_requests(shown);
        self.xen.fetch(self.domain, &mut self.copies, &mut self.taken)?;
        Totals::add(&self.totals.copied_pages, self.copies.len() as u64);
        for (slot, copy) in self.tx_guessed.iter().zip(&self.copies) {
            self.tx.guesses[*slot] = Some(Guess::of(copy, copy.at));
        }
        Ok(self.tx.done.wrapping_add(count))
    }

    /// Guesses at the next requests, of whole packets as far as there is room. How many.
    fn guess_requests(&mut self, shown: u32) -> u32 {
        let mut places = Places::of(&self.taken);
        let (mut requests, mut copies) = (0, 0);
        let mut comes = Comes::First;
        self.copies.clear();
        for number in 0..shown {
            let slot = self.tx.slot(number);
            let words = self.tx.words(slot);
            if !comes.is_extra() && !self.guess_request(slot, words, &mut places) {
                break;
            }
            comes = comes.behind(words[0], words[1]);
            if comes == Comes::First {
                (requests, copies) = (number + 1, self.copies.len());
            }
        }
        self.copies.truncate(copies);
        match requests {
            0 => shown, // no packet that ends here: its pages are asked for
            _ => requests,
        }
    }

    /// Guesses at what a tx slot with these words asks to be read: whole words of one page. Returns whether there was room.
    fn guess_request(&mut self, slot: usize, [reference, second, third]: [u32; TX_SLOT], places: &mut Places) -> bool {
        let (offset, size) = ((second & 0xffff) as usize, (third >> 16) as usize);
        let start = (offset / 4 * 4).min(PAGE_BYTES);
        let bytes = ((offset + size + 3) / 4 * 4).min(PAGE_BYTES) - start;
        let at = match places.take(bytes) {
            Some(at) => at,
            None => return false,
        };
        if bytes > 0 {
            self.copies.push(PageCopy { reference, offset: start, at, bytes, allowed: false });
            self.tx_guessed.push(slot);
        }
        true
    }

    /// How many requests before an index aren't answered yet.
    pub fn left_before(&self, end: u32) -> usize {
        end.wrapping_sub(self.tx.done) as usize
    }

    /// Forgets what was copied for turns and deliveries that didn't come, or went another way.
    pub fn forget(&mut self) {
        self.tx_guessed.drain(..).for_each(|slot| self.tx.guesses[slot] = None);
        self.rx_guessed.drain(..).for_each(|slot| self.rx.guesses[slot] = None);
    }

    /// Copies packets that wait to the buffers that are posted for them, as many as there are buffers and room for. How many packets.
    pub fn put(&mut self, arena: &Arena) -> io::Result<usize> {
        self.forget();
        if self.way == Way::Map {
            return Ok(arena.packets().count());
        }
        let (posted, mut places, mut slots, mut count) = (self.posted(), Places::of(&self.given), 0, 0);
        self.copies.clear();
        for packet in arena.packets() {
            if slots + packet.slots() > posted || !self.give(arena, packet, slots, &mut places) {
                break;
            }
            slots += packet.slots();
            count += 1;
        }
        self.xen.put(self.domain, &mut self.copies, &self.given)?;
        Totals::add(&self.totals.copied_pages, self.copies.len() as u64);
        let places = arena.packets().take(count).flat_map(Packet::places);
        for ((slot, copy), place) in self.rx_guessed.iter().zip(&self.copies).zip(places) {
            self.rx.guesses[*slot] = Some(Guess::of(copy, place));
        }
        Ok(count)
    }

    /// Guesses at the buffers of a packet, whose first slot is the one `slots` after the next. Whether there was room for all of it.
    fn give(&mut self, arena: &Arena, packet: Packet, slots: usize, places: &mut Places) -> bool {
        let before = self.copies.len();
        for page in 0..packet.pages() {
            let bytes = arena.page(packet, page);
            let at = match places.take(bytes.len()) {
                Some(at) => at,
                None => {
                    self.copies.truncate(before);
                    self.rx_guessed.truncate(before);
                    return false;
                }
            };
            self.given.bytes_mut()[at..at + bytes.len()].copy_from_slice(bytes);
            let slot = self.rx.slot((slots + packet.slot_of(page)) as u32);
            let [_, reference] = self.rx.words(slot);
            self.copies.push(PageCopy { reference, offset: 0, at, bytes: bytes.len(), allowed: false });
            self.rx_guessed.push(slot);
        }
        true
    }
}
