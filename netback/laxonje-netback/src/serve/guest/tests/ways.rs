//! Whether pages are copied or mapped, and packets taken one by one or several at once, a guest gets the same responses and the host the same frames.
use super::*;
use crate::os::HEADER_BYTES;

const READ: std::ops::Range<u32> = 20..28;
const WRITTEN: std::ops::Range<u32> = 28..36;

/// One guest four times: its pages copied, and mapped, and its packets taken by turns of one and of several.
struct Alike(Vec<(usize, Bench)>);

/// What came of all seeds.
#[derive(Debug, Default)]
pub struct Seen {
    passed: u32,
    /// Those that are to be segmented.
    segmented: u32,
    returned: u32,
    refused: u32,
    sent: u32,
    halted: u32,
}

impl Alike {
    fn new(answer: u8) -> Alike {
        let ways = [(1, Way::Copy), (1, Way::Map), (16, Way::Copy), (16, Way::Map)];
        Alike(ways.into_iter().map(|(most, way)| (most, Bench::new(way, answer))).collect())
    }

    /// Does the same to each, by the same numbers.
    fn each<Answer>(&mut self, any: &mut Any, mut what: impl FnMut(&mut Bench, &mut Any, usize) -> Answer) -> Vec<Answer> {
        let first = any.clone();
        let mut answers = Vec::new();
        for (number, (most, bench)) in self.0.iter_mut().enumerate() {
            let mut own = first.clone();
            answers.push(what(bench, &mut own, *most));
            assert!(number == 0 || own == *any);
            *any = own;
        }
        answers
    }

    fn same<Answer: PartialEq + std::fmt::Debug>(
        &mut self, any: &mut Any, what: impl FnMut(&mut Bench, &mut Any, usize) -> Answer,
    ) -> Answer {
        let mut answers = self.each(any, what);
        answers.iter().for_each(|answer| assert_eq!(*answer, answers[0]));
        answers.swap_remove(0)
    }
}

impl Any {
    fn frame(&mut self) -> Vec<u8> {
        let length = 14 + self.below(6000) as usize;
        self.bytes(length)
    }

    fn bytes(&mut self, count: usize) -> Vec<u8> {
        let (first, step) = (self.below(256), self.below(256) | 1);
        (0..count as u32).map(|byte| (first + step * byte) as u8).collect()
    }
}

/// Pages anew, some of them for reading alone, one of them not granted.
fn grant(bench: &mut Bench, any: &mut Any, _: usize) {
    for reference in READ.chain(WRITTEN) {
        bench.memory.grant(reference, any.below(5) > 0);
        fill(&bench.memory.page(reference), &any.bytes(PAGE_BYTES));
    }
    bench.memory.end(READ.start + any.below(16));
}

/// Requests and buffers, few of them right.
fn show(bench: &mut Bench, any: &mut Any, _: usize) {
    let (sent, posted) = (bench.guest.tx.done, bench.guest.rx.done);
    let (requests, buffers) = (any.below(7), any.below(7));
    let mut index = sent;
    for number in 0..requests {
        let more = if number + 1 < requests && any.below(3) == 0 { MORE } else { 0 };
        let extra = if any.below(6) == 0 { EXTRA } else { 0 };
        let reference = if any.below(20) == 0 { any.below(40_000) } else { READ.start + any.below(8) };
        let (offset, size) = (any.below(3000), any.below(1500));
        bench.memory.send(index, reference.max(READ.start), offset, more | extra, size);
        if extra > 0 {
            let (first, second) = any.extra();
            bench.memory.extra(index.wrapping_add(1), first, second);
        }
        index = index.wrapping_add(1 + extra / EXTRA);
    }
    for number in 0..buffers {
        bench.memory.post(posted.wrapping_add(number), WRITTEN.start + any.below(8));
    }
    if any.below(300) == 0 {
        bench.memory.page(TX)[0].store(any.below(70_000), SeqCst);
    }
}

/// The words of a page.
fn words(bench: &Bench, reference: u32) -> Vec<u32> {
    let pages = bench.memory.pages.borrow();
    pages.get(&reference).map_or(Vec::new(), |(page, _)| page.iter().map(|word| word.load(SeqCst)).collect())
}

fn turns(bench: &mut Bench, _: &mut Any, most: usize) -> Vec<(Turn, Vec<u8>, String)> {
    let mut came = Vec::new();
    // a packet that isn't whole is no guess: it comes with the next pages
    while bench.guest.shows_packets() && came.len() < 8 {
        let end = bench.guest.fetch().unwrap();
        while !bench.is_done(end) && came.len() < 8 {
            let turns = bench.turns(most.min(bench.guest.left_before(end)).min(8 - came.len()));
            let each = turns.into_iter().enumerate();
            came.extend(each.map(|(number, turn)| (turn, bench.packet_of(number), bench.refused_of(number))));
            if matches!(came.last(), None | Some((Turn::Halted(_), ..))) {
                return came;
            }
        }
        bench.guest.forget();
    }
    came
}

fn deliveries(bench: &mut Bench, any: &mut Any, _: usize) -> Vec<Delivery> {
    let mut arena = Arena::new();
    for _ in 0..any.below(5) {
        let (header, frame) = match any.below(2) {
            0 => any.for_guest(),
            _ => ([0; HEADER_BYTES], any.frame()),
        };
        assert!(arena.put_behind(header, &frame));
    }
    let mut came = Vec::new();
    while goes_on(&arena, &came) {
        // what was copied for all that fit is there while one of them is refused
        let fits = bench.guest.put(&arena).unwrap().max(1);
        for _ in 0..fits {
            if goes_on(&arena, &came) {
                came.push(bench.deliver(&arena));
                arena.leave();
            }
        }
    }
    bench.guest.forget();
    came
}

/// Whether there is a packet, and no delivery before it has ended.
fn goes_on(arena: &Arena, came: &[Delivery]) -> bool {
    arena.first().is_some() && !matches!(came.last(), Some(Delivery::FewSlots | Delivery::Halted(_)))
}

fn is_halted(turns: &[(Turn, Vec<u8>, String)], deliveries: &[Delivery]) -> bool {
    turns.iter().any(|(turn, ..)| matches!(turn, Turn::Halted(_)))
        || deliveries.iter().any(|delivery| matches!(delivery, Delivery::Halted(_)))
}

/// A round of all. Returns whether the queues have halted.
fn round(alike: &mut Alike, any: &mut Any, seen: &mut Seen) -> bool {
    alike.each(any, show);
    let turns = alike.same(any, turns);
    let deliveries = alike.same(any, deliveries);
    let halts = is_halted(&turns, &deliveries);
    // behind a halt packets of a turn of several may have responses that aren't shown
    alike.same(any, |bench, _, _| if halts { Default::default() } else { (words(bench, TX), words(bench, RX)) });
    alike.same(any, |bench, _, _| bench.guest.rings());
    let is_refused = |turn: &Turn| matches!(turn, Turn::Refused(_));
    let (passed, refused) =
        (turns.iter().filter(|came| !came.1.is_empty()).count(), turns.iter().filter(|came| is_refused(&came.0)).count());
    let unsent = deliveries.iter().filter(|delivery| !matches!(delivery, Delivery::Sent { .. })).count();
    match refused + unsent {
        // what is refused may have been copied to a buffer by then
        0 => drop(alike.same(any, |bench, _, _| WRITTEN.map(|reference| words(bench, reference)).collect::<Vec<_>>())),
        _ => drop(alike.each(any, grant)),
    }
    let returned = turns.iter().filter(|(turn, ..)| matches!(turn, Turn::Ran(run) if run.action == Action::Tx)).count();
    seen.passed += passed as u32;
    seen.segmented += turns.iter().filter(|(turn, ..)| matches!(turn, Turn::Ran(run) if run.segments.is_some())).count() as u32;
    seen.returned += returned as u32;
    seen.refused += refused as u32;
    seen.sent += (deliveries.len() - unsent) as u32;
    seen.halted += u32::from(halts);
    halts
}

/// Some rounds of these numbers.
pub fn rounds(answer: u8, mut any: Any, seen: &mut Seen) {
    let mut alike = Alike::new(answer);
    alike.each(&mut any, grant);
    let _ = (0..20).find(|_| round(&mut alike, &mut any, seen));
}

#[test]
fn copies_and_mappings_by_one_and_by_several_give_the_same_frames_and_responses() {
    let mut seen = Seen::default();
    for seed in 1..40u32 {
        rounds(2 + (seed % 2) as u8, Any::Seed(seed), &mut seen);
    }
    assert!(
        seen.passed > 100 && seen.segmented > 10 && seen.returned > 20 && seen.refused > 100 && seen.sent > 60 && seen.halted > 2,
        "{seen:?}"
    );
}
