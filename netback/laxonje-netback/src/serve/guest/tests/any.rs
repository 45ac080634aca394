//! Guests that change anything, by numbers of a seed or of a fuzz target's bytes.
use super::deliveries::to_segment;
use super::*;
use crate::os::HEADER_BYTES;
use laxonje::Offload;

/// What came of the turns and deliveries of a guest that changes anything.
#[derive(Debug, Default)]
pub struct Came {
    ran: u32,
    /// Those of them that are to be segmented.
    segmented: u32,
    refused: u32,
    sent: u32,
    /// The deliveries that leave something to the guest.
    left: u32,
    halts: u32,
    asked: u64,
}

/// A guest that changes its rings while its pages are copied, and whose grants come and go.
#[test]
fn whatever_a_guest_writes_nothing_ungranted_is_touched() {
    let mut came = Came::default();
    for seed in 1..300u32 {
        let way = if seed % 3 == 0 { Way::Map } else { Way::Copy };
        until_it_halts(way, 2 + (seed % 2) as u8, Any::Seed(seed), usize::MAX, &mut came);
    }
    assert!(
        came.segmented > 30
            && came.left > 300
            && came.ran > 300
            && came.refused > 300
            && came.sent > 300
            && came.halts == 299
            && came.asked > 300,
        "{came:?}"
    );
}

/// A guest of these numbers, for so many rounds at most.
pub fn until_it_halts(way: Way, answer: u8, mut any: Any, rounds: usize, came: &mut Came) {
    let mut bench = Bench::new(way, answer);
    (20..36).for_each(|reference| bench.memory.grant(reference, reference % 3 > 0));
    let mut arena = arena(&[60, 9000, 61]);
    let _ = (0..rounds).find(|_| one_round(&mut bench, &mut any, &mut arena, came));
    assert_eq!(bench.count(|totals| &totals.strange), 0, "{any:?}");
    came.asked += bench.count(|totals| &totals.asked_pages);
}

/// A turn of one packet or of several, and a delivery, with changes before, between and after the copies. Whether the queue halted.
fn one_round(bench: &mut Bench, any: &mut Any, arena: &mut Arena, came: &mut Came) -> bool {
    any.scribble(&bench.memory);
    let _ = bench.guest.fetch();
    any.scribble(&bench.memory);
    let most = 1 + 15 * any.below(2) as usize;
    let turns = bench.turns(most);
    let _ = bench.guest.put(arena);
    any.scribble(&bench.memory);
    if arena.first().is_none() {
        let (header, frame) = any.for_guest();
        assert!(arena.put_behind(header, &frame));
    }
    came.left += u32::from(!matches!(arena.first(), Some(Packet { offload: Offload::Nothing, .. })));
    let delivery = bench.deliver(arena);
    if delivery != Delivery::FewSlots {
        arena.leave();
    }
    bench.guest.forget();
    let halted = matches!(turns.last(), Some(Turn::Halted(_))) || matches!(delivery, Delivery::Halted(_));
    for turn in turns {
        came.ran += u32::from(matches!(turn, Turn::Ran(_)));
        came.segmented += u32::from(matches!(turn, Turn::Ran(run) if run.segments.is_some()));
        came.refused += u32::from(matches!(turn, Turn::Refused(_)));
    }
    came.sent += u32::from(matches!(delivery, Delivery::Sent { .. }));
    came.halts += u32::from(halted);
    halted
}

/// Numbers: those of a seed, or of bytes, and then zeros.
#[derive(Clone, Debug, PartialEq)]
pub enum Any {
    Seed(u32),
    #[cfg(feature = "fuzz")]
    Bytes(Vec<u8>),
}

impl Any {
    pub fn below(&mut self, most: u32) -> u32 {
        match self {
            Any::Seed(seed) => {
                *seed = seed.wrapping_mul(1_664_525).wrapping_add(1_013_904_223);
                (*seed >> 8) % most
            }
            #[cfg(feature = "fuzz")]
            Any::Bytes(bytes) => fuzz::below(bytes, most),
        }
    }

    fn reference(&mut self) -> u32 {
        match self.below(8) {
            0 => self.below(40_000),
            1 => TX,
            _ => 20 + self.below(18),
        }
    }

    /// A packet to the guest behind its header: whole, with a blank checksum, or to be segmented.
    pub fn for_guest(&mut self) -> ([u8; HEADER_BYTES], Vec<u8>) {
        let kind = if self.below(2) == 0 { SegmentKind::Tcpv4 } else { SegmentKind::Tcpv6 };
        let length = if self.below(8) == 0 { 9000 + self.below(50_000) } else { 80 + self.below(9000) };
        let (mut header, frame) = to_segment(kind, 1 + self.below(80) as u16, length as usize);
        match self.below(4) {
            0 => header = [0; HEADER_BYTES],
            1 => header[1] = 0,
            _ => {}
        }
        (header, frame)
    }

    /// The words of an extra: most often a GSO one that is near to what is taken, and now and then one more behind it.
    pub fn extra(&mut self) -> (u32, u32) {
        let kind = match self.below(32) {
            0 => self.below(256),
            1 => 1 + self.below(5),
            _ => 1,
        };
        let size = match self.below(4) {
            0 => self.below(65_536),
            1 => 534 + self.below(4),
            _ => 536 + self.below(1000),
        };
        let more = if self.below(12) == 0 { MORE_EXTRAS } else { 0 };
        let segments = if self.below(8) == 0 { self.below(256) } else { 1 + self.below(2) };
        (kind | more | size << 16, segments)
    }

    /// Slots that are near to what is looked at, a producer, and now and then a grant that ends or comes.
    fn scribble(&mut self, memory: &Pretended) {
        let (tx, rx) = (memory.page(TX), memory.page(RX));
        let (sent, posted) = (tx[2].load(SeqCst), rx[2].load(SeqCst));
        let (mut count, mut index) = (self.below(4), sent);
        while count > 0 {
            count -= 1;
            let more = if count > 0 && self.below(2) == 0 { MORE } else { 0 };
            let extra = if self.below(4) == 0 { EXTRA } else { 0 };
            let (reference, offset, size) = (self.reference(), self.below(4200), self.below(3000));
            memory.send(index, reference, offset, more | extra, size);
            index = index.wrapping_add(1);
            if extra > 0 {
                let (first, second) = self.extra();
                memory.extra(index, first, second);
                index = index.wrapping_add(1);
            }
        }
        for number in 0..self.below(4) {
            let reference = self.reference();
            memory.post(posted.wrapping_add(number), reference);
        }
        if self.below(100) == 0 {
            tx[self.below(20) as usize].store(self.below(70_000), SeqCst);
        }
        match self.below(10) {
            0 => memory.end(20 + self.below(16)),
            1 => memory.grant(20 + self.below(16), true),
            _ => {}
        }
    }
}
