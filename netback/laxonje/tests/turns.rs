//! Turns of several packets: what became of each, and its bytes.
#[allow(dead_code)]
mod memory;

use laxonje::{
    Action, Counters, Delivery, Entry, Guest, GuestMemory, Halt, Indices, Op, Page, Program, Refusal, Stopped, Turn, MOST_TURNS,
};
use memory::{answers, setup, udp, Memory, RX, TX};
use std::thread;

const BLANK: u32 = 1;
const MORE: u32 = 4;
const NOT_GRANTED: u32 = 77;

/// Packets of these lengths, each in a page of its own; of an odd number of bytes the checksum is blank. The first `readable` pages are granted.
fn sends(guest: &Memory, first: u32, lengths: &[u32], readable: usize) {
    for (number, length) in lengths.iter().enumerate() {
        let reference = if number < readable { guest.grant(number, false) } else { NOT_GRANTED };
        guest.fill(number, &udp(*length as usize));
        guest.send(first + number as u32, reference, length % 2 * BLANK, *length);
    }
}

fn actions(turns: &[Turn]) -> Vec<Option<Action>> {
    let action = |turn: &Turn| if let Turn::Ran(run) = turn { Some(run.action) } else { None };
    turns.iter().map(action).collect()
}

#[test]
fn each_packet_has_its_own_result_and_bytes() {
    let mut guest = Memory::new();
    let mut queue = guest.queue(&answers(2), Indices::default());
    assert_eq!(queue.turns(MOST_TURNS, &mut guest), 0);
    sends(&guest, 0, &[60, 61, 62, 63], 3);
    assert_eq!(queue.turns(MOST_TURNS, &mut guest), 4);
    let turns: Vec<_> = (0..5).map(|number| queue.turned(number)).collect();
    assert_eq!(actions(&turns), [Some(Action::Pass), Some(Action::Pass), Some(Action::Pass), None, None]);
    assert_eq!(turns[3..], [Turn::Refused(Refusal::GRANT), Turn::Idle]);
    for (number, turn) in turns[..3].iter().enumerate() {
        let mut packet = [0; 100];
        let length = queue.packet_of(number, &mut packet);
        assert_eq!(packet[..length], udp(60 + number)[..]);
        assert!(matches!(turn, Turn::Ran(run) if run.flags.checksum_blank() == (number == 1) && run.slots == 1), "{turn:?}");
        assert_eq!(queue.grant_of(number).map(|grant| grant.entry.reference), Some(8 + number as u32));
    }
    let refused = queue.grant_of(3).expect("its entry was read");
    assert_eq!((refused.entry.reference, refused.words), (NOT_GRANTED, [0, 0]));
    assert_eq!((queue.packet_of(3, &mut [0; 100]), queue.packet_of(4, &mut [0; 100]), queue.grant_of(16)), (0, 0, None));
    assert_eq!(((0..5).map(|number| queue.slots_of(number)).collect::<Vec<_>>(), &guest.notices[..]), (vec![1, 1, 1, 1, 0], &[9][..]));
    assert_eq!((guest.get(TX, 2), queue.indices()), (4, Ok(Indices { tx: 4, rx: 0 })));
}

#[test]
fn few_packets_are_taken_as_many_as_there_are() {
    let mut guest = Memory::new();
    let mut queue = guest.queue(&answers(2), Indices::default());
    sends(&guest, 0, &[60, 61, 62], 3);
    for (most, taken) in [(0, 1), (1, 1), (usize::MAX, 1), (usize::MAX, 0)] {
        assert_eq!(queue.turns(most, &mut guest), taken);
        assert_eq!(queue.turned(0) == Turn::Idle, taken == 0);
    }
    sends(&guest, 3, &[60, 61, 62], 3);
    assert_eq!((queue.turns(2, &mut guest), queue.turns(2, &mut guest), queue.turns(2, &mut guest)), (2, 1, 0));
    // a chain that begins in the last slot that is read ahead goes on behind it
    guest.send(6, guest.grant(0, false), 0, 60);
    guest.send(7, guest.grant(1, false), MORE, 80);
    guest.send(8, guest.grant(2, false), 0, 30);
    assert_eq!((queue.turns(2, &mut guest), queue.slots_of(1), queue.packet_of(1, &mut [])), (2, 2, 80));
}

#[test]
fn packets_stay_while_others_are_delivered() {
    let mut guest = Memory::new();
    let mut queue = guest.queue(&answers(2), Indices::default());
    sends(&guest, 0, &[60, 61, 62], 3);
    assert_eq!(queue.turns(MOST_TURNS, &mut guest), 3);
    for number in 0..3 {
        let mut packet = [0; 100];
        let length = queue.packet_of(number, &mut packet);
        guest.post(number as u32, guest.grant(3 + number, true));
        assert_eq!(queue.deliver(&packet[..length], &mut guest), Ok(Delivery::Sent { slots: 1 }));
        assert_eq!(guest.received(number as u32).3, 60 + number as i16);
    }
    assert_eq!((queue.turned(2) != Turn::Idle, guest.get(RX, 2)), (true, 3));
}

#[test]
fn packets_before_a_halt_are_answered() {
    let mut guest = Memory::new();
    let mut queue = guest.queue(&answers(2), Indices::default());
    sends(&guest, 0, &[60, 61], 2);
    guest.send(2, guest.grant(2, false), MORE, 60);
    assert_eq!(queue.turns(MOST_TURNS, &mut guest), 3);
    assert_eq!(queue.turned(2), Turn::Halted(Halt::SHORT_CHAIN));
    assert_eq!((queue.packet_of(1, &mut []), queue.packet_of(2, &mut []), queue.slots_of(2)), (61, 0, 0));
    assert_eq!((guest.get(TX, 2), queue.indices()), (2, Err(Stopped::Halted(Halt::SHORT_CHAIN))));
    assert_eq!((queue.turns(MOST_TURNS, &mut guest), queue.turned(0)), (1, Turn::Halted(Halt::SHORT_CHAIN)));
    assert_eq!(queue.packet_of(0, &mut []), 0);
}

#[test]
fn packets_go_back_in_their_order() {
    let mut guest = Memory::new();
    let mut queue = guest.queue(&answers(3), Indices::default());
    sends(&guest, 0, &[60, 61, 62], 3);
    (0..2).for_each(|number| guest.post(number, guest.grant(3 + number as usize, true)));
    assert_eq!(queue.turns(MOST_TURNS, &mut guest), 3);
    let turns: Vec<_> = (0..3).map(|number| queue.turned(number)).collect();
    assert_eq!((actions(&turns[..2]), turns[2]), (vec![Some(Action::Tx); 2], Turn::Refused(Refusal::FEW_SLOTS)));
    assert_eq!((guest.received(0).3, guest.received(1).3, guest.get(RX, 2), guest.get(TX, 2)), (60, 61, 2, 3));
}

#[test]
fn queues_that_share_counters_take_several() {
    const TURNS: u32 = 50;
    const PACKETS: u32 = 8;
    let program = Program::from_settings(include_bytes!("count-protocols.toml")).unwrap();
    let mut counters = Counters::new(&program, 4).unwrap();
    let mut served: Vec<_> = (0..4).map(|_| Memory::new()).map(|guest| (guest.queue(&program, Indices::default()), guest)).collect();
    for (queue, guest) in &mut served {
        queue.share(&mut counters).unwrap();
        guest.fill(0, &udp(61));
    }
    thread::scope(|scope| {
        for (queue, guest) in &mut served {
            scope.spawn(move || {
                let reference = guest.grant(0, false);
                for turn in 0..TURNS {
                    (0..PACKETS).for_each(|number| guest.send(PACKETS * turn + number, reference, 0, 61));
                    assert_eq!(queue.turns(MOST_TURNS, guest), PACKETS as usize);
                    assert!((0..PACKETS as usize).all(|number| actions(&[queue.turned(number)]) == [Some(Action::Pass)]));
                }
            });
        }
    });
    assert_eq!(counters.at(0, 17, 0), 4 * u64::from(TURNS * PACKETS));
}

/// A guest that counts the ops of its turns, and whose host panics at one of them.
struct Counted {
    memory: Memory,
    ops: usize,
    panics_at: usize,
}

impl GuestMemory for Counted {
    fn page(&self, frame: u32) -> &Page {
        self.memory.page(frame)
    }

    fn notify(&mut self, port: u32) {
        GuestMemory::notify(&mut self.memory, port);
    }

    fn told(&mut self, _op: &Op, _words: &[u32]) {
        self.ops += 1;
        assert_ne!(self.ops, self.panics_at);
    }
}

#[test]
fn a_turn_that_was_left_is_abandoned() {
    let mut guest = Counted { memory: Memory::new(), ops: 0, panics_at: 5 };
    let mut queue = guest.memory.queue(&answers(2), Indices::default());
    sends(&guest.memory, 0, &[60, 61, 62], 3);
    let left = std::panic::catch_unwind(std::panic::AssertUnwindSafe(|| queue.turns(MOST_TURNS, &mut guest)));
    assert!(left.is_err());
    assert_eq!((queue.turns(MOST_TURNS, &mut guest), queue.turned(0), queue.packet_of(0, &mut [])), (1, Turn::Abandoned, 0));
    assert_eq!((queue.turn(&mut guest), guest.ops), (Turn::Abandoned, 5));
}

/// A guest each of whose pages is asked for, and answered with a frame of the host's choosing.
struct Asked(Memory, Vec<Entry>);

impl Guest for Asked {
    fn read(&mut self, frame: u32, word: usize, into: &mut [u32]) {
        let held = frame.checked_sub(100).map(|number| memory::DATA as u32 + self.1[number as usize].reference);
        Guest::read(&mut self.0, held.unwrap_or(frame), word, into);
    }

    fn write(&mut self, frame: u32, word: usize, from: &[u32]) {
        Guest::write(&mut self.0, frame, word, from);
    }

    fn push(&mut self, frame: u32, word: usize, value: u32, then: usize) -> u32 {
        Guest::push(&mut self.0, frame, word, value, then)
    }

    fn notify(&mut self, port: u32) {
        GuestMemory::notify(&mut self.0, port);
    }

    fn entry(&mut self, entry: &Entry) -> [u32; 2] {
        self.1.push(*entry);
        [1, 99 + self.1.len() as u32]
    }
}

#[test]
fn pages_may_have_the_frames_in_which_they_are_held() {
    let mut guest = Asked(Memory::new(), Vec::new());
    let frames = [laxonje::Extent { frames: 200, domain: memory::GUEST }];
    let program: Program = answers(2);
    let mut queue = laxonje::Queue::new(&program, &laxonje::Setup { frames: &frames, ..setup(Indices::default()) }).unwrap();
    for number in 0..3 {
        guest.0.fill(number, &udp(60 + number));
        guest.0.send(number as u32, number as u32, 0, 60 + number as u32);
    }
    assert_eq!(queue.turns(MOST_TURNS, &mut guest), 3);
    let mut packet = [0; 100];
    assert!((0..3).all(|number| queue.packet_of(number, &mut packet) == 60 + number && packet[..60 + number] == udp(60 + number)[..]));
}
