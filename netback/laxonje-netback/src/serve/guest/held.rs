//! The pages of the turn that is under way, each of which is a frame by its number here.
use super::ring::Guess;
use super::{Way, Words, XenGuest, TX_RING};
use crate::serve::arena::{Arena, Packet};
use crate::stats::Totals;
use crate::xen::{PageCopy, Pages};
use laxonje::{Entry, Guest, PAGE_BYTES};
use std::ops::Range;

/// A page of the turn that is under way.
pub struct Held<Mapped> {
    pub reference: u32,
    pub writes: bool,
    pub bytes: Range<usize>,
    pub place: Place<Mapped>,
    /// What was written and isn't in the guest's page yet.
    pub changed: Range<usize>,
}

/// Where the bytes of a page are.
pub enum Place<Mapped> {
    /// Copied before the turn, to this place.
    Guessed(usize),
    /// In the further page that begins at this place.
    Asked(usize),
    /// In the guest is already the page of a packet that begins at this place: of the packet that is delivered, or of one before that was refused.
    Delivered(usize),
    Mapped(Mapped),
}

impl<Xen: Pages> XenGuest<Xen> {
    /// The page of an entry. `None`: Xen doesn't allow it.
    pub fn hold(&mut self, entry: &Entry) -> Option<Held<Xen::Mapped>> {
        if !matches!(self.held.last(), Some(held) if held.writes) {
            self.asked_to_read = self.asked_count;
        }
        if self.way == Way::Map {
            let page = self.xen.map(self.domain, entry.reference, entry.writes)?;
            return Some(Held::new(entry, 0..PAGE_BYTES, Place::Mapped(page)));
        }
        let guess = if entry.writes { self.rx.guess(entry.reference) } else { self.tx.guess(entry.reference) };
        match guess {
            Some(Guess { allowed: false, .. }) => None,
            Some(guess) if entry.writes => Some(Held::new(entry, guess.bytes, Place::Delivered(guess.place))),
            Some(guess) => Some(Held::new(entry, guess.bytes, Place::Guessed(guess.place))),
            None => self.ask(entry.reference, entry.writes).map(|at| Held::new(entry, 0..PAGE_BYTES, Place::Asked(at))),
        }
    }

    /// Copies a whole page, or writes 0 into its first word, which shows whether Xen allows it: that word is written later. Returns where
    /// the page lies here.
    fn ask(&mut self, reference: u32, writes: bool) -> Option<usize> {
        let at = self.further_page()?;
        let mut copies = [PageCopy { reference, offset: 0, at, bytes: if writes { 4 } else { PAGE_BYTES }, allowed: false }];
        let made = if writes {
            self.asked.bytes_mut()[at..at + 4].fill(0);
            self.xen.put(self.domain, &mut copies, &self.asked)
        } else {
            self.xen.fetch(self.domain, &mut copies, &mut self.asked)
        };
        Totals::add(&self.totals.asked_pages, 1);
        (made.is_ok() && copies[0].allowed).then_some(at)
    }

    /// A page of this process for the turn under way. `None`: it has had more than a turn can ask for.
    fn further_page(&mut self) -> Option<usize> {
        let at = self.asked_count * PAGE_BYTES;
        self.asked_count += 1;
        (self.asked_count <= self.asked.pages()).then_some(at)
    }

    /// Reads a granted page. One that was copied for fewer bytes is copied again.
    #[inline(never)]
    pub fn read_granted(&mut self, number: u32, bytes: Range<usize>, into: &mut [u32]) {
        let held = match self.held.get(number as usize) {
            Some(held) => held,
            None => {
                Totals::add(&self.totals.strange, 1); // the queue reads what it was granted
                return into.fill(0);
            }
        };
        let covers = held.bytes.start <= bytes.start && bytes.end <= held.bytes.end;
        let from = match &held.place {
            Place::Mapped(page) => return Words(page).read(TX_RING, bytes.start / 4, into),
            Place::Guessed(at) if covers => &self.taken.bytes()[at + bytes.start - held.bytes.start..],
            Place::Asked(at) if covers => &self.asked.bytes()[at + bytes.start..],
            _ => match self.ask(held.reference, false) {
                Some(at) => &self.asked.bytes()[at + bytes.start..],
                None => {
                    Totals::add(&self.totals.ended_grants, 1);
                    return into.fill(0);
                }
            },
        };
        for (to, four) in into.iter_mut().zip(from.chunks_exact(4)) {
            *to = u32::from_le_bytes([four[0], four[1], four[2], four[3]]);
        }
    }

    /// Writes a granted page: in what is copied to the guest before the next push, if it isn't there already.
    pub fn write_granted(&mut self, number: u32, word: usize, from: &[u32], delivered: Option<(&Arena, Packet)>) {
        let (bytes, position) = (4 * word..4 * (word + from.len()), number as usize);
        if !matches!(self.held.get(position), Some(held) if held.writes && !held.is_written(&bytes)) {
            return Totals::add(&self.totals.strange, 1); // the queue writes what it was granted, once
        }
        match (&self.held[position].place, delivered) {
            (Place::Mapped(page), _) => return Words(page).write(TX_RING, word, from),
            (Place::Delivered(place), Some((arena, packet))) if is(arena.page_at(packet, *place), word, from) => {}
            _ => self.change(position, &bytes, from),
        }
        self.held[position].bytes = bytes;
    }

    /// Keeps words that are to be copied to the guest.
    fn change(&mut self, position: usize, bytes: &Range<usize>, from: &[u32]) {
        let at = match self.held[position].place {
            Place::Asked(at) => Some(at),
            _ => self.further_page(),
        };
        let at = match at {
            Some(at) => at,
            None => return Totals::add(&self.totals.strange, 1),
        };
        let held = &mut self.held[position];
        held.place = Place::Asked(at);
        held.changed = bytes.clone();
        let to = &mut self.asked.bytes_mut()[at..at + PAGE_BYTES][bytes.clone()];
        for (four, word) in to.chunks_exact_mut(4).zip(from) {
            four.copy_from_slice(&word.to_le_bytes());
        }
    }

    /// Gives all pages back: what was written is copied to the guest, and what is mapped is unmapped.
    pub fn give_back(&mut self) {
        self.give_back_written();
        self.held.clear();
        self.asked_count = 0;
        self.tx.forget_read();
    }

    /// Gives the pages back that are written. Those that are read stay, for the other packets of the turn: they were held before.
    pub fn give_back_written(&mut self) {
        if self.held.iter().any(|held| !held.changed.is_empty()) {
            self.put_changed();
        }
        if let Some(first) = self.held.iter().position(|held| held.writes) {
            self.held.truncate(first);
            self.asked_count = self.asked_to_read;
        }
        self.rx.forget_read();
    }

    #[cold]
    fn put_changed(&mut self) {
        let copy = |held: &Held<_>| match held.place {
            Place::Asked(at) if !held.changed.is_empty() => {
                let (offset, bytes) = (held.changed.start, held.changed.len());
                Some(PageCopy { reference: held.reference, offset, at: at + offset, bytes, allowed: false })
            }
            _ => None,
        };
        let mut copies: Vec<_> = self.held.iter().filter_map(copy).collect();
        let made = self.xen.put(self.domain, &mut copies, &self.asked);
        // a grant that ended after it was checked: the guest can't be told any more
        let late = copies.iter().filter(|copy| made.is_err() || !copy.allowed).count();
        Totals::add(&self.totals.ended_grants, late as u64);
    }
}

impl<Mapped> Held<Mapped> {
    fn new(entry: &Entry, bytes: Range<usize>, place: Place<Mapped>) -> Self {
        let bytes = if entry.writes { 0..0 } else { bytes };
        Held { reference: entry.reference, writes: entry.writes, bytes, place, changed: 0..0 }
    }

    /// Whether the page was written: `bytes` is then what was written.
    fn is_written(&self, bytes: &Range<usize>) -> bool {
        !self.bytes.is_empty() && bytes.start <= self.bytes.start
    }
}

/// So many words are compared without a jump, several by each instruction: a word at a time takes as long as all else of a long delivery.
const WORDS_AT_ONCE: usize = 64;

/// Whether the words are those at their place of these bytes, if there are such.
fn is(bytes: Option<&[u8]>, word: usize, words: &[u32]) -> bool {
    let there = match bytes.and_then(|bytes| bytes.get(4 * word..4 * (word + words.len()))) {
        Some(there) => there,
        None => return false,
    };
    let mut blocks = there.chunks(4 * WORDS_AT_ONCE).zip(words.chunks(WORDS_AT_ONCE));
    blocks.all(|(bytes, words)| differ(bytes, words) == 0)
}

/// The bits in which bytes differ from words: 0 if they are the same.
fn differ(bytes: &[u8], words: &[u32]) -> u32 {
    let word = |four: &[u8]| u32::from_le_bytes([four[0], four[1], four[2], four[3]]);
    bytes.chunks_exact(4).zip(words).fold(0, |bits, (four, other)| bits | (word(four) ^ other))
}

#[cfg(test)]
mod tests {
    use super::*;

    #[test]
    fn bytes_are_words_only_if_each_is() {
        let mut words: Vec<u32> = (0..1024u32).map(|number| number.wrapping_mul(0x0101_0101)).collect();
        let bytes: Vec<u8> = words.iter().flat_map(|word| word.to_le_bytes()).collect();
        assert!(is(Some(&bytes), 0, &words) && is(Some(&bytes), 1000, &words[1000..1003]) && is(Some(&bytes[..8]), 2, &[]));
        assert!(!is(None, 0, &words) && !is(Some(&bytes[..4092]), 0, &words) && !is(Some(&bytes), 1, &words));
        for changed in [0, 1, 63, 64, 127, 1000, 1023] {
            words[changed] ^= 0x100;
            assert!(!is(Some(&bytes), 0, &words), "{changed}");
            words[changed] ^= 0x100;
        }
    }
}
