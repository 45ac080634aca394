//! Packets on their way between the guest and the TAP device.
use crate::frame::segments::Cut;
use crate::frame::to_guest::{self, Told};
use crate::os::{Tap, HEADER_BYTES};
use laxonje::{Offload, MOST_BYTES, PAGE_BYTES};
use std::collections::VecDeque;
use std::ops::Range;

/// A packet of the TAP device lies from the start of a page on, its header at the end of the page before.
const PACKET_PAGES: usize = (MOST_BYTES + PAGE_BYTES - 1) / PAGE_BYTES;
const ROOM_PAGES: usize = 1 + PACKET_PAGES;
const ROOMS: usize = 32;
const LEAST_READS: usize = 2;
const SHORTEST: usize = 14;
const OUT_BYTES: usize = 4 * (HEADER_BYTES + MOST_BYTES);
const ROOMS_BYTES: usize = ROOMS * ROOM_PAGES * PAGE_BYTES;
/// The room behind the others for segments that are made here: those of seven packets.
const CUT_BYTES: usize = 1 << 19;
/// The memory for packets of a queue, both ways.
pub const PACKETS_BYTES: usize = ROOMS_BYTES + CUT_BYTES + OUT_BYTES;

/// A packet that is to be delivered.
#[derive(Clone, Copy, Debug, PartialEq, Eq)]
pub struct Packet {
    /// Where its first byte is.
    at: usize,
    pub length: usize,
    /// What is left to the guest of it.
    pub offload: Offload,
}

impl Packet {
    pub fn pages(&self) -> usize {
        (self.length + PAGE_BYTES - 1) / PAGE_BYTES
    }

    /// How many rx slots it takes: one for each page, and one for what it says of segments.
    pub fn slots(&self) -> usize {
        self.pages() + self.extras()
    }

    /// Where each of its pages begins.
    pub fn places(self) -> impl Iterator<Item = usize> {
        (0..self.pages()).map(move |page| self.at + page * PAGE_BYTES)
    }

    /// Which of its slots a page is for: what it says of segments comes behind the first.
    pub fn slot_of(&self, page: usize) -> usize {
        page + if page > 0 { self.extras() } else { 0 }
    }

    fn extras(&self) -> usize {
        usize::from(matches!(self.offload, Offload::Segments(_)))
    }
}

/// What an exchange with a TAP device came to.
#[derive(Clone, Copy, Debug, Default, PartialEq, Eq)]
pub struct Exchanged {
    /// How many packets the device didn't take.
    pub lost: u64,
    /// How many it had that no guest takes.
    pub unfit: u64,
    /// It may have more.
    pub more: bool,
}

/// The packets that wait to be delivered, in their order.
pub struct Arena {
    bytes: Vec<u8>,
    /// How many bytes of the room for segments are taken.
    cut: usize,
    packets: VecDeque<Packet>,
    /// How many to read at once: as many as came last, and one more.
    reads: usize,
}

impl Arena {
    pub fn new() -> Arena {
        Arena { bytes: vec![0; ROOMS_BYTES + CUT_BYTES], cut: 0, packets: VecDeque::new(), reads: LEAST_READS }
    }

    pub fn packets(&self) -> impl Iterator<Item = Packet> + '_ {
        self.packets.iter().copied()
    }

    pub fn first(&self) -> Option<Packet> {
        self.packets.front().copied()
    }

    /// The first packet is done with.
    pub fn leave(&mut self) {
        self.packets.pop_front();
    }

    /// Takes away the packets of more than a page. Returns how many there were.
    pub fn leave_long(&mut self) -> usize {
        let before = self.packets.len();
        self.packets.retain(|packet| packet.pages() == 1);
        before - self.packets.len()
    }

    /// The bytes of a packet.
    pub fn bytes(&self, packet: Packet) -> &[u8] {
        &self.bytes[packet.at..][..packet.length]
    }

    /// The bytes of a page of a packet, with zeros up to the end of the last word.
    pub fn page(&self, packet: Packet, number: usize) -> &[u8] {
        let start = number * PAGE_BYTES;
        let end = packet.length.min(start + PAGE_BYTES);
        &self.bytes[packet.at + start..packet.at + (end + 3) / 4 * 4]
    }

    /// The same of the page that begins at a place. `None`: it is no page of this packet.
    pub fn page_at(&self, packet: Packet, place: usize) -> Option<&[u8]> {
        let number = place.checked_sub(packet.at)? / PAGE_BYTES;
        (number < packet.pages()).then(|| self.page(packet, number))
    }

    /// Gives packets to a TAP device, and reads those that it has, if none waits here and they are wanted.
    pub fn exchange(&mut self, tap: &mut Tap, out: &Out, wants: bool) -> Exchanged {
        let reads = if wants && self.packets.is_empty() { self.reads } else { 0 };
        self.cut = if self.packets.is_empty() { 0 } else { self.cut };
        let rooms = self.bytes.chunks_exact_mut(ROOM_PAGES * PAGE_BYTES);
        let rooms = rooms.take(reads).map(|room| &mut room[PAGE_BYTES - HEADER_BYTES..PAGE_BYTES + MOST_BYTES + 1]);
        let (written, read) = tap.exchange(out.packets(), rooms).split_at(out.count());
        let lost = written.iter().zip(&out.ranges).filter(|(length, range)| **length != Some(range.len())).count();
        let came = read.iter().flatten().count();
        let taken = (0..).zip(read).filter_map(|(room, length)| Some((room, (*length)?.saturating_sub(HEADER_BYTES))));
        let unfit = taken.filter(|(room, length)| !self.take(*room, *length)).count();
        if reads > 0 {
            self.reads = if came == reads { 2 * reads } else { came + 1 }.clamp(LEAST_READS, ROOMS);
        }
        Exchanged { lost: lost as u64, unfit: unfit as u64, more: reads > 0 && came == reads }
    }

    /// A packet has come into a room, behind its header. Whether it waits now, or its segments do: what is no frame doesn't, nor what its header
    /// doesn't fit.
    fn take(&mut self, room: usize, length: usize) -> bool {
        if !(SHORTEST..=MOST_BYTES).contains(&length) {
            return false;
        }
        let at = first_of(room);
        let (before, bytes) = self.bytes.split_at_mut(at);
        bytes[length..(length + 3) / 4 * 4].fill(0);
        let mut header = [0; HEADER_BYTES];
        header.copy_from_slice(&before[at - HEADER_BYTES..]);
        let told = Told::of(&header);
        match to_guest::offload(told, &mut bytes[..length]) {
            Some(offload) => self.packets.push_back(Packet { at, length, offload }),
            None => return self.cut(told, at, length),
        }
        true
    }

    /// Makes the segments of a packet here. Whether there was one, and room for all.
    fn cut(&mut self, told: Told, at: usize, length: usize) -> bool {
        let (rooms, room) = self.bytes.split_at_mut(ROOMS_BYTES);
        let cut = match Cut::of(&told, &rooms[at..at + length]) {
            Some(cut) => cut,
            None => return false,
        };
        let (mut from, mut end, before) = (0, self.cut, self.packets.len());
        while end + cut.longest() + 3 <= CUT_BYTES {
            let (length, next) = match cut.make(from, &mut room[end..]) {
                Some(made) => made,
                None => {
                    self.cut = end;
                    return true;
                }
            };
            self.packets.push_back(Packet { at: ROOMS_BYTES + end, length, offload: Offload::Nothing });
            let whole = (length + 3) / 4 * 4;
            room[end + length..end + whole].fill(0);
            (from, end) = (next, end + whole);
        }
        self.packets.truncate(before);
        false
    }
}

/// The first byte of the packet of a room.
fn first_of(room: usize) -> usize {
    (room * ROOM_PAGES + 1) * PAGE_BYTES
}

/// The packets that passed and are to be given to the TAP device, each with its header in front.
pub struct Out {
    bytes: Vec<u8>,
    ranges: Vec<Range<usize>>,
}

impl Out {
    pub fn new() -> Out {
        Out { bytes: vec![0; OUT_BYTES], ranges: Vec::new() }
    }

    pub fn is_empty(&self) -> bool {
        self.ranges.is_empty()
    }

    pub fn count(&self) -> usize {
        self.ranges.len()
    }

    /// Whether a longest packet wouldn't fit.
    pub fn is_full(&self) -> bool {
        self.end() + HEADER_BYTES + MOST_BYTES > self.bytes.len()
    }

    fn end(&self) -> usize {
        self.ranges.last().map_or(0, |range| range.end)
    }

    /// The room for the next packet, after its header.
    pub fn room(&mut self) -> &mut [u8] {
        let start = self.end() + HEADER_BYTES;
        &mut self.bytes[start..start + MOST_BYTES]
    }

    /// The packet in the room, of this length, is the next one.
    pub fn push(&mut self, header: [u8; HEADER_BYTES], length: usize) {
        let start = self.end();
        self.bytes[start..start + HEADER_BYTES].copy_from_slice(&header);
        self.ranges.push(start..start + HEADER_BYTES + length);
    }

    pub fn clear(&mut self) {
        self.ranges.clear();
    }

    fn packets(&self) -> impl Iterator<Item = &[u8]> {
        self.ranges.iter().map(move |range| &self.bytes[range.clone()])
    }
}

#[cfg(test)]
impl Arena {
    /// A packet, as if the TAP device had had it.
    pub fn put(&mut self, packet: &[u8]) {
        assert!(self.put_behind([0; HEADER_BYTES], packet));
    }

    /// A packet behind a header. Whether it waits.
    pub fn put_behind(&mut self, header: [u8; HEADER_BYTES], packet: &[u8]) -> bool {
        let room = self.packets.len() % ROOMS;
        let start = first_of(room);
        self.bytes[start - HEADER_BYTES..start].copy_from_slice(&header);
        self.bytes[start..start + packet.len()].copy_from_slice(packet);
        self.take(room, packet.len())
    }
}

#[cfg(test)]
mod tests {
    use super::*;

    #[test]
    fn packets_lie_at_the_start_of_pages_with_zeros_behind() {
        let mut arena = Arena::new();
        arena.bytes.fill(7);
        (0..ROOMS).for_each(|room| arena.bytes[room * ROOM_PAGES * PAGE_BYTES..][..PAGE_BYTES].fill(0));
        for (room, length) in [(0, 61), (1, 5000), (2, 13), (3, 60), (31, MOST_BYTES), (4, MOST_BYTES + 1)] {
            arena.take(room, length);
        }
        let packets: Vec<_> = arena.packets().collect();
        assert_eq!(packets.iter().map(|packet| packet.length).collect::<Vec<_>>(), [61, 5000, 60, MOST_BYTES]);
        assert_eq!(arena.page(packets[0], 0)[59..], [7, 7, 0, 0, 0]);
        assert_eq!((arena.page(packets[1], 0).len(), arena.page(packets[1], 1).len()), (4096, 904));
        assert_eq!((arena.bytes(packets[1]).len(), arena.page(packets[3], 15).len()), (5000, 4096));
        assert_eq!(arena.leave_long(), 2);
        assert_eq!(arena.packets().map(|packet| packet.length).collect::<Vec<_>>(), [61, 60]);
        (0..2).for_each(|_| arena.leave());
        assert_eq!((arena.first(), arena.leave_long()), (None, 0));
    }

    #[test]
    fn packets_go_out_one_behind_the_other() {
        let mut out = Out::new();
        for (header, length) in [(1, 60), (2, MOST_BYTES), (3, MOST_BYTES)] {
            assert!(!out.is_full());
            out.room()[..length].fill(header + 10);
            out.push([header; HEADER_BYTES], length);
        }
        let packets: Vec<_> = out.packets().collect();
        assert_eq!((packets[0].len(), packets[2].len()), (70, HEADER_BYTES + MOST_BYTES));
        assert!(packets
            .iter()
            .zip(1..)
            .all(|(packet, header)| packet[..10] == [header; 10] && packet[10..].iter().all(|byte| *byte == header + 10)));
        assert!(!out.is_full());
        out.push([0; HEADER_BYTES], MOST_BYTES);
        assert!(out.is_full());
        out.clear();
        assert!(out.is_empty() && !out.is_full());
    }
}
