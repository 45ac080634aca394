//! The queue under a guest in memory.
mod memory;

use laxonje::{
    Action, Awaited, Counters, DeliverError, Delivery, Extent, Guest, Halt, Indices, MakeError, NoCounter, Program, Queue, Refusal,
    ReplaceError, Setup, ShareError, Stopped, Turn, TurnRun, MOST_SHARES,
};
use memory::{answers, setup, udp, Memory, DATA, RX, TX};
use std::thread;
use std::time::Duration;

const OKAY: i16 = 0;
const ERROR: i16 = -1;
const BLANK: u32 = 1;
const VALIDATED: u32 = 2;
const MORE: u32 = 4;
const COUNT: &str = include_str!("count-protocols.toml");

fn counts() -> Program {
    Program::from_settings(COUNT.as_bytes()).unwrap()
}

fn ran(turn: Turn) -> TurnRun {
    match turn {
        Turn::Ran(run) => run,
        other => panic!("{other:?}"),
    }
}

fn action(turn: Turn) -> Action {
    ran(turn).action
}

#[test]
fn a_packet_passes_and_is_counted() {
    let (program, mut guest) = (counts(), Memory::new());
    let mut queue = guest.queue(&program, Indices::default());
    assert_eq!(queue.turn(&mut guest), Turn::Idle);
    let reference = guest.grant(0, false);
    guest.fill(0, &udp(61));
    guest.send(0, reference, BLANK | VALIDATED, 61);
    let run = ran(queue.turn(&mut guest));
    assert_eq!((run.number, run.action, run.operations, run.slots), (2, Action::Pass, 1, 1));
    assert!(run.flags.checksum_blank() && run.flags.data_validated() && !run.flags.more_data());
    let mut packet = [0; 100];
    assert_eq!(queue.packet(&mut packet), 61);
    assert_eq!(packet[..61], udp(61)[..]);
    assert_eq!(queue.packet(&mut packet[..7]), 61);
    assert_eq!((guest.sent(0), guest.get(TX, 2), &guest.notices[..]), ((100, OKAY), 1, &[9][..]));
    assert_eq!(queue.counters()[program.place(0, 17, 0).unwrap()], 1);
    assert_eq!(queue.turn(&mut guest), Turn::Idle);
    assert_eq!(queue.indices(), Ok(Indices { tx: 1, rx: 0 }));
}

/// Drops packets in even seconds, as examples/host/clock.c, and passes others.
const ODD_SECONDS: &str =
    "program = [\"bfa2000000000000\", \"07020000fcffffff\", \"620afcff00000000\", \"18110000000000000000000000000000\",
    \"8500000001000000\", \"1500040000000000\", \"7900000000000000\", \"3700000000ca9a3b\", \"5700000001000000\", \"0700000001000000\",
    \"9500000000000000\"]\nmap = [{ name = \"bpf_ktime_get_ns\", entries = 1 }]";

#[test]
fn a_program_gets_the_time_that_its_queue_is_given() {
    let (program, other) = (Program::from_settings(ODD_SECONDS.as_bytes()).unwrap(), counts());
    assert_eq!((program.clock(), other.clock()), (Some(0), None));
    let mut guest = Memory::new();
    let mut queue = guest.queue(&other, Indices::default());
    queue.set_time(Duration::MAX);
    assert!(!queue.asks_for_time() && queue.counters().iter().all(|count| *count == 0));
    let reference = guest.grant(0, false);
    guest.fill(0, &udp(60));
    let mut index = 0;
    let mut turn = |queue: &mut Queue| {
        guest.send(index, reference, 0, 60);
        index += 1;
        action(queue.turn(&mut guest))
    };
    queue.replace(&program).unwrap();
    assert!(queue.asks_for_time());
    assert_eq!(turn(&mut queue), Action::Drop, "the time is 0 before it is set");
    for (milliseconds, wanted) in
        [(999, Action::Drop), (1000, Action::Pass), (1999, Action::Pass), (1000, Action::Pass), (2000, Action::Drop)]
    {
        queue.set_time(Duration::from_millis(milliseconds));
        assert_eq!(turn(&mut queue), wanted, "{milliseconds}");
    }
    // a program with the same maps goes on with the time, which isn't added up
    queue.set_time(Duration::from_secs(3));
    queue.replace(&program).unwrap();
    assert_eq!((turn(&mut queue), queue.counters()), (Action::Pass, &[3_000_000_000][..]));
    queue.set_time(Duration::MAX);
    assert_eq!(queue.counters(), [u64::MAX]);
    queue.replace(&other).unwrap();
    queue.set_time(Duration::from_secs(1));
    assert!(!queue.asks_for_time() && queue.counters().iter().all(|count| *count == 0));
}

#[test]
fn a_queue_says_whether_its_program_runs_alone() {
    let text = COUNT.to_owned() + "\n[[map]]\nname = \"bpf_spin_lock\"\nentries = 1\n";
    let (alone, other) = (Program::from_settings(text.as_bytes()).unwrap(), counts());
    assert!(alone.runs_alone() && !other.runs_alone());
    let mut queue = Memory::new().queue(&alone, Indices::default());
    for (program, wanted) in [(&alone, true), (&other, false), (&alone, true)] {
        queue.replace(program).unwrap();
        assert_eq!(queue.runs_alone(), wanted);
    }
}

#[test]
fn a_packet_of_two_slots_is_joined() {
    let (program, mut guest) = (answers(2), Memory::new());
    let mut queue = guest.queue(&program, Indices::default());
    let (first, second) = (guest.grant(0, false), guest.grant(1, false));
    guest.fill(0, &udp(60)[..20]);
    guest.fill(1, &udp(60)[20..]);
    guest.send(0, first, MORE, 60);
    guest.send(1, second, 0, 40);
    let run = ran(queue.turn(&mut guest));
    assert_eq!((run.slots, run.flags.more_data()), (2, true));
    let mut packet = [0; 60];
    assert_eq!(queue.packet(&mut packet), 60);
    assert_eq!(packet[..], udp(60)[..]);
    assert_eq!((guest.sent(0), guest.sent(1)), ((100, OKAY), (101, OKAY)));
}

#[test]
fn a_refused_packet_says_why_and_the_next_is_taken() {
    let (program, mut guest) = (answers(1), Memory::new());
    let mut queue = guest.queue(&program, Indices::default());
    guest.send(0, 77, 0, 60);
    let refused = Turn::Refused(Refusal(4));
    assert_eq!(queue.turn(&mut guest), refused);
    assert_eq!(queue.packet(&mut [0; 100]), 0);
    assert_eq!(Refusal(4).to_string(), "a slot's grant failed its check");
    assert_eq!(guest.sent(0), (100, ERROR));
    let reference = guest.grant(0, false);
    guest.send(1, reference, 0, 13);
    assert_eq!(queue.turn(&mut guest), Turn::Refused(Refusal(1)));
    guest.send(2, reference, 0, 60);
    assert_eq!(action(queue.turn(&mut guest)), Action::Drop);
}

#[test]
fn a_packet_goes_back() {
    let (program, mut guest) = (answers(3), Memory::new());
    let mut queue = guest.queue(&program, Indices::default());
    let (from, to) = (guest.grant(0, false), guest.grant(1, true));
    guest.fill(0, &udp(60));
    guest.send(0, from, 0, 60);
    guest.post(0, to);
    assert_eq!(action(queue.turn(&mut guest)), Action::Tx);
    assert_eq!((guest.sent(0), guest.received(0)), ((100, OKAY), (200, 0, 0, 60)));
    assert_eq!(guest.get(DATA + 1, 3), guest.get(DATA, 3));
    guest.send(1, from, 0, 60);
    assert_eq!(queue.turn(&mut guest), Turn::Refused(Refusal(6)));
}

#[test]
fn a_broken_ring_halts_the_queue() {
    let (program, mut guest) = (answers(2), Memory::new());
    let mut queue = guest.queue(&program, Indices::default());
    guest.set(TX, 0, 257);
    let halt = Halt(1);
    assert_eq!(queue.turn(&mut guest), Turn::Halted(halt));
    assert_eq!(halt.to_string(), "the tx producer is more than a ring ahead");
    assert_eq!(queue.indices(), Err(Stopped::Halted(halt)));
    assert_eq!(queue.replace(&answers(1)), Err(ReplaceError::Halted(halt)));
    // its guest's pages may be gone
    let mut gone = Memory::gone();
    assert_eq!(queue.turn(&mut gone), Turn::Halted(halt));
    assert_eq!(queue.deliver(&udp(60), &mut gone), Ok(Delivery::Halted(halt)));
    assert_eq!(queue.wait_for(60, &mut gone), Ok(Awaited::Halted(halt)));
}

#[test]
fn a_packet_is_delivered_once_there_are_buffers() {
    let (program, mut guest) = (answers(2), Memory::new());
    let mut queue = guest.queue(&program, Indices::default());
    let packet = udp(5000);
    assert_eq!(queue.deliver(&packet, &mut guest), Ok(Delivery::FewSlots));
    assert_eq!(queue.wait_for(packet.len(), &mut guest), Ok(Awaited::Waiting));
    assert_eq!(guest.get(RX, 1), 2);
    guest.post(0, guest.grant(0, true));
    assert_eq!(queue.wait_for(packet.len(), &mut guest), Ok(Awaited::Waiting));
    guest.post(1, guest.grant(1, true));
    assert_eq!(queue.wait_for(packet.len(), &mut guest), Ok(Awaited::Posted));
    assert_eq!(queue.deliver(&packet, &mut guest), Ok(Delivery::Sent { slots: 2 }));
    assert_eq!((guest.received(0), guest.received(1)), ((200, 0, MORE, 4096), (201, 0, 0, 904)));
    assert_eq!(guest.get(DATA, 3).to_le_bytes(), packet[12..16]);
    assert_eq!(guest.get(DATA + 1, 0).to_le_bytes(), packet[4096..4100]);
}

#[test]
fn a_delivery_is_refused_or_halts() {
    let (program, mut guest) = (answers(2), Memory::new());
    let mut queue = guest.queue(&program, Indices::default());
    guest.post(0, guest.grant(0, false));
    assert_eq!(queue.deliver(&udp(60), &mut guest), Ok(Delivery::Refused { slots: 1 }));
    assert_eq!(guest.received(0).3, ERROR);
    assert!(queue.deliver(&[0; 13], &mut guest).is_err());
    assert!(queue.deliver(&vec![0; laxonje::MOST_BYTES + 1], &mut guest).is_err());
    for bytes in [0, 13, laxonje::MOST_BYTES + 1, usize::MAX] {
        assert_eq!(queue.wait_for(bytes, &mut guest), Err(DeliverError::Length), "{bytes}");
    }
    guest.set(RX, 0, 500);
    assert_eq!(queue.deliver(&udp(60), &mut guest), Ok(Delivery::Halted(Halt(6))));
    assert_eq!(queue.wait_for(60, &mut guest), Ok(Awaited::Halted(Halt(6))));
}

#[test]
fn another_program_goes_on_with_the_rings_and_equal_maps() {
    let (program, mut guest) = (counts(), Memory::new());
    let mut queue = guest.queue(&program, Indices { tx: 0xffff_ffff, rx: 0 });
    let reference = guest.grant(0, false);
    guest.fill(0, &udp(60));
    guest.set(TX, 1, 0);
    guest.send(0xffff_ffff, reference, 0, 60);
    assert_eq!(action(queue.turn(&mut guest)), Action::Pass);
    queue.replace(&counts()).unwrap();
    assert_eq!((queue.indices(), queue.counters()[17]), (Ok(Indices::default()), 1));
    queue.replace(&answers(1)).unwrap();
    assert!(queue.counters().is_empty());
    guest.send(0, reference, 0, 60);
    assert_eq!(action(queue.turn(&mut guest)), Action::Drop);
    queue.replace(&counts()).unwrap();
    assert_eq!(queue.counters()[17], 0);
    queue.counters_mut()[17] = 41;
    guest.send(1, reference, 0, 60);
    assert_eq!((action(queue.turn(&mut guest)), queue.counters()[17]), (Action::Pass, 42));
    // the same sizes under another name count something else
    let renamed = Program::from_settings(COUNT.replace("\"protocols\"", "\"others\"").as_bytes()).unwrap();
    assert_eq!(renamed.maps(), counts().maps());
    queue.replace(&renamed).unwrap();
    assert_eq!(queue.counters()[17], 0);
}

#[test]
fn a_wrong_setup_says_what_is_wrong() {
    let program = answers(2);
    let right = setup(Indices::default());
    let why = |setup: Setup| Queue::new(&program, &setup).err().unwrap();
    assert_eq!(why(Setup { table: &[], ..right }), MakeError::Table);
    assert_eq!(why(Setup { table: &[99], ..right }), MakeError::Table);
    assert_eq!(why(Setup { tx: 99, ..right }), MakeError::Ring);
    assert_eq!(why(Setup { tx: RX as u32, ..right }), MakeError::Ring);
    assert_eq!(why(Setup { rx: memory::TABLE as u32, ..right }), MakeError::Ring);
    assert_eq!(why(Setup { frontend: 6, ..right }), MakeError::Table);
    assert_eq!(why(Setup { backend: memory::GUEST, ..right }), MakeError::Domain);
    let most = Extent { frames: u32::MAX, domain: memory::GUEST };
    assert_eq!(why(Setup { frames: &[most, most], ..right }), MakeError::Frames);
    assert_eq!(MakeError::Domain.to_string(), "the guest's domain is the host's own");
}

#[test]
fn a_queue_goes_to_another_thread() {
    let (program, mut guest) = (answers(1), Memory::new());
    let mut queue = guest.queue(&program, Indices::default());
    drop(program);
    let reference = guest.grant(0, false);
    guest.send(0, reference, 0, 60);
    let turn = std::thread::spawn(move || queue.turn(&mut guest)).join().unwrap();
    assert_eq!(action(turn), Action::Drop);
}

#[test]
fn a_guest_may_be_of_a_type_that_is_known_later() {
    let (program, mut guest) = (answers(1), Memory::new());
    let mut queue = guest.queue(&program, Indices::default());
    guest.send(0, guest.grant(0, false), 0, 60);
    let guest: &mut dyn Guest = &mut guest;
    assert_eq!(action(queue.turn(guest)), Action::Drop);
    assert_eq!(queue.deliver(&udp(60), guest), Ok(Delivery::FewSlots));
}

#[test]
fn a_table_lies_in_any_frames() {
    let (program, mut guest) = (answers(2), Memory::new());
    // references of the second frame, and of the third, are 512 and 1,024 on
    for (table, reference) in [(&[9, 12, 11][..], 512 + 3), (&[12, 13], 3), (&[11, 12], 512 + 3), (&[13, 11, 12], 1024 + 3), (&[12, 9], 3)]
    {
        let setup = Setup { table, ..setup(Indices::default()) };
        let mut queue = Queue::new(&program, &setup).unwrap();
        for word in 0..4 {
            guest.set(TX, word, [0, 1, 0, 1][word]);
        }
        guest.set(12, 6, 5);
        guest.set(12, 7, 4);
        guest.set(4, 0, table.len() as u32);
        guest.send(0, reference, 0, 60);
        assert_eq!(action(queue.turn(&mut guest)), Action::Pass, "{table:?}");
        let mut packet = [0; 60];
        queue.packet(&mut packet);
        assert_eq!(packet[0], table.len() as u8);
    }
}

#[test]
fn owners_in_a_list_are_the_same_frames() {
    assert_eq!(Extent::of_owners(&[]), []);
    let extents = Extent::of_owners(&[3, 3, 3, 0, 3, 9, 9]);
    let runs: Vec<_> = extents.iter().map(|extent| (extent.frames, extent.domain)).collect();
    assert_eq!(runs, [(3, 3), (1, 0), (1, 3), (2, 9)]);
    let frames = Extent::of_owners(&[memory::GUEST; 16]);
    assert!(Queue::new(&answers(2), &Setup { frames: &frames, ..setup(Indices::default()) }).is_ok());
    let frames = Extent::of_owners(&[memory::GUEST, memory::GUEST, 6]);
    assert_eq!(Queue::new(&answers(2), &Setup { frames: &frames, ..setup(Indices::default()) }).unwrap_err(), MakeError::Table);
}

#[test]
fn queues_on_threads_share_counters_and_lose_none() {
    const TURNS: u32 = 200;
    let program = counts();
    let mut counters = Counters::new(&program, MOST_SHARES).unwrap();
    let mut served: Vec<(Memory, Queue)> = Vec::new();
    for _ in 0..MOST_SHARES {
        let guest = Memory::new();
        let mut queue = guest.queue(&program, Indices::default());
        queue.share(&mut counters).unwrap();
        served.push((guest, queue));
    }
    let mut late = Memory::new().queue(&program, Indices::default());
    assert_eq!(late.share(&mut counters), Err(ShareError::Seats));
    assert_eq!(served[0].1.share(&mut counters), Err(ShareError::Already));
    thread::scope(|scope| {
        for (guest, queue) in &mut served {
            scope.spawn(move || {
                let reference = guest.grant(0, false);
                guest.fill(0, &udp(61));
                for turn in 0..TURNS {
                    guest.send(turn, reference, 0, 61);
                    assert_eq!(action(queue.turn(guest)), Action::Pass);
                }
            });
        }
    });
    assert_eq!(counters.at(0, 17, 0), u64::from(TURNS) * MOST_SHARES as u64);
    assert_eq!((counters.at(0, 6, 0), counters.at(1, 0, 0)), (0, 0));
    for (map, entry, counter) in [(1, 0, 0), (0, 256, 0), (0, 0, 1)] {
        assert_eq!(counters.add(map, entry, counter, 5), Err(NoCounter));
    }
    assert_eq!(counters.add(0, 6, 0, 5), Ok(()));
    assert_eq!(counters.add(0, 6, 0, u64::MAX - 4), Ok(()), "modulo 2^64");
    counters.set_time(Duration::MAX);
    assert_eq!((counters.all()[17], counters.all().iter().sum()), (counters.at(0, 17, 0), counters.at(0, 17, 0)));
    let (guest, queue) = &mut served[0];
    assert_eq!(queue.counters().iter().sum::<u64>(), 0);
    queue.replace(&counts()).unwrap();
    guest.send(TURNS, guest.grant(0, false), 0, 61);
    assert_eq!(action(queue.turn(guest)), Action::Pass);
    assert_eq!(counters.at(0, 17, 0), u64::from(TURNS) * MOST_SHARES as u64 + 1);
    assert!(counters.fit(&program) && !counters.fit(&answers(2)));
    queue.replace(&answers(2)).unwrap();
    assert_eq!(late.share(&mut counters), Err(ShareError::Seats));
}

#[test]
fn queues_that_share_counters_get_one_time_that_does_not_go_back() {
    let program = Program::from_settings(ODD_SECONDS.as_bytes()).unwrap();
    let mut counters = Counters::new(&program, 2).unwrap();
    let mut served: Vec<_> = (0..2).map(|_| Memory::new()).map(|guest| (guest.queue(&program, Indices::default()), guest)).collect();
    served.iter_mut().for_each(|(queue, _)| queue.share(&mut counters).unwrap());
    for (index, (milliseconds, wanted)) in (0..).zip([(999, Action::Drop), (1000, Action::Pass), (999, Action::Pass), (2000, Action::Drop)])
    {
        counters.set_time(Duration::from_millis(milliseconds));
        for (queue, guest) in &mut served {
            queue.set_time(Duration::from_secs(9));
            let reference = guest.grant(0, false);
            guest.send(index, reference, 0, 60);
            assert_eq!(action(queue.turn(guest)), wanted, "{milliseconds}");
        }
    }
    assert_eq!(counters.at(0, 0, 0), 2_000_000_000);
    counters.set_time(Duration::MAX);
    assert_eq!(counters.at(0, 0, 0), u64::MAX);
}

#[test]
fn shared_counters_are_of_the_same_maps_and_of_few_queues() {
    let program = counts();
    let mut counters = Counters::new(&program, 1).unwrap();
    let mut other = Memory::new().queue(&answers(2), Indices::default());
    assert_eq!(other.share(&mut counters), Err(ShareError::Maps));
    assert_eq!(Counters::new(&program, 0).unwrap_err(), ShareError::Seats);
    assert_eq!(Counters::new(&program, MOST_SHARES + 1).unwrap_err(), ShareError::Seats);
}
