//! Programs: accepted, refused with a cause, run, handed to another thread.
mod packets;

use laxonje::{Action, Cause, Extent, Fault, LoadError, MapSize, Outcome, Packet, Program, Queue, Setup};
use packets::udp;
use std::ops::Range;
use std::sync::Arc;

/// r0 = 2; exit.
const PASS: [u8; 16] = [0xb7, 0, 0, 0, 2, 0, 0, 0, 0x95, 0, 0, 0, 0, 0, 0, 0];
const COUNT: &str = include_str!("count-protocols.toml");

#[test]
fn a_program_is_accepted_and_run() {
    let mut program = Program::load(&PASS, &[]).unwrap();
    assert_eq!((program.instructions(), program.maps().len()), (2, 0));
    let run = program.run(&mut [], &mut udp(), 0, 0).unwrap();
    assert_eq!((run.number, run.action, run.instructions), (2, Action::Pass, 2));
}

#[test]
fn a_refusal_has_its_cause_its_slot_and_its_text() {
    let refused = Program::load(&PASS[8..], &[]).unwrap_err();
    assert_eq!(refused, LoadError::Refused { cause: Cause::UNSET, slot: 0 });
    assert_eq!(refused.to_string(), "V7 at slot 0: a register is read that may be unset");
    assert!(!refused.advice().is_empty());
    assert_eq!(Program::load(&[], &[]).unwrap_err(), LoadError::Refused { cause: Cause(1), slot: 0 });
    assert_eq!(Program::load(&PASS, &[MapSize { entries: 0, counters: 1 }]).unwrap_err(), LoadError::Map(0));
    assert_eq!(Program::from_settings(b"x").unwrap_err().to_string(), "L2: not TOML");
    assert_eq!(Program::from_settings(b"program = []\nx = 1").unwrap_err(), LoadError::Settings(Fault::KEY));
}

#[test]
fn counters_are_words_of_the_hosts_own() {
    let mut program = Program::from_settings(COUNT.as_bytes()).unwrap();
    assert_eq!(program.maps(), [MapSize { entries: 256, counters: 1 }]);
    assert_eq!(program.map_names(), ["protocols"]);
    assert_eq!((program.map_named("protocols"), program.map_named("protocol"), program.map_named("")), (Some(0), None, None));
    let mut counters = program.new_counters();
    assert_eq!(counters.len(), 256);
    for _ in 0..3 {
        assert_eq!(program.run(&mut counters, &mut udp(), 0, 0).map(|run| run.action), Some(Action::Pass));
    }
    assert_eq!(program.place(0, 17, 0).map(|place| counters[place]), Some(3));
    assert_eq!((program.place(1, 0, 0), program.place(0, 256, 0), program.place(0, 0, 1)), (None, None, None));
    assert_eq!(counters.iter().sum::<u64>(), 3);
}

#[test]
fn what_is_not_run_changes_nothing() {
    let mut program = Program::from_settings(COUNT.as_bytes()).unwrap();
    let mut counters = program.new_counters();
    assert_eq!(program.run(&mut counters[..255], &mut udp(), 0, 0), None);
    assert_eq!(program.run(&mut counters, &mut vec![0; laxonje::MOST_BYTES + 1], 0, 0), None);
    assert_eq!(counters, program.new_counters());
    assert!(program.run(&mut counters, &mut vec![0; laxonje::MOST_BYTES], 0, 0).is_some());
}

#[test]
fn another_thread_has_its_own() {
    let mut program = Program::from_settings(COUNT.as_bytes()).unwrap();
    let mut other = program.try_clone().unwrap();
    let mut counters = program.new_counters();
    let theirs = std::thread::spawn(move || {
        let mut counters = other.new_counters();
        other.run(&mut counters, &mut udp(), 0, 0);
        counters
    });
    program.run(&mut counters, &mut udp(), 0, 0);
    assert_eq!(theirs.join().unwrap(), counters);
}

/// Threads that share a program: each call by a `&` answers as if it were alone.
#[test]
fn threads_share_a_program() {
    let program = Arc::new(Program::from_settings(COUNT.as_bytes()).unwrap());
    let frames = [Extent { frames: 3, domain: 1 }];
    let setup = Setup { frames: &frames, table: &[2], tx: 0, rx: 1, frontend: 1, ..Setup::default() };
    std::thread::scope(|scope| {
        for _ in 0..4 {
            let (program, setup) = (Arc::clone(&program), &setup);
            scope.spawn(move || {
                for _ in 0..500 {
                    assert_eq!((program.place(0, 17, 0), program.map_named("protocols")), (Some(17), Some(0)));
                    let mut own = program.try_clone().unwrap();
                    let mut counters = program.new_counters();
                    assert!(own.run(&mut counters, &mut udp(), 0, 0).is_some());
                    let mut queue = Queue::new(&program, setup).unwrap();
                    assert_eq!((counters[17], queue.relist(&program)), (1, Ok(())));
                }
            });
        }
    });
}

#[test]
fn the_library_has_the_version_of_the_crate() {
    laxonje::check_version().unwrap();
    let other = laxonje::VersionError { library: 1 };
    assert!(other.to_string().starts_with("liblaxonje has version 1"));
}

#[test]
fn a_check_keeps_nothing_and_says_the_same() {
    assert_eq!(laxonje::check(&PASS, &[]), Ok(2));
    for program in [&PASS[..8], &PASS[8..], &PASS[1..], &[]] {
        assert_eq!(laxonje::check(program, &[]), Program::load(program, &[]).map(|program| program.instructions()));
    }
    assert_eq!(laxonje::check(&PASS, &[MapSize { entries: 1025, counters: 1 }]), Err(LoadError::Map(0)));
}

#[test]
fn the_library_says_how_it_was_built() {
    let (release, word) = (env!("CARGO_PKG_VERSION"), if laxonje::proved() { ", proved, " } else { ", unproved, " });
    assert!(laxonje::build().starts_with(&format!("laxonje {release}{word}")), "{}", laxonje::build());
}

#[test]
fn a_batch_is_its_packets_runs() {
    let mut program = Program::from_settings(COUNT.as_bytes()).unwrap();
    let (mut counters, mut bytes) = (program.new_counters(), [udp(), udp()].concat());
    // the two frames, nothing, bytes that both have, what doesn't lie there, and a range whose end is before its start
    let reversed = Range { start: 121, end: 120 };
    let packets: [Packet; 7] = [0..60, 60..120, 5..5, 30..90, 61..121, usize::MAX - 1..usize::MAX, reversed].map(Packet::from);
    let mut outcomes = [Outcome::default(); 8];
    assert_eq!(outcomes[0].run(), None);
    assert_eq!(program.run_batch(&mut counters, &mut bytes, &packets, &mut outcomes, 0, 0), 7);
    let ran = outcomes.map(|outcome| outcome.run().map(|run| run.action));
    let passed = Some(Action::Pass);
    assert_eq!(ran, [passed, passed, passed, passed, None, None, None, None]);
    assert_eq!(counters.iter().sum::<u64>(), 2);
    assert_eq!(program.run_batch(&mut counters, &mut bytes, &packets, &mut outcomes[..1], 0, 0), 1);
    assert_eq!(program.run_batch(&mut counters[1..], &mut bytes, &packets, &mut outcomes, 0, 0), 7);
    assert_eq!((outcomes.map(|outcome| outcome.run()), counters.iter().sum::<u64>()), ([None; 8], 3));
}

#[test]
fn each_cause_has_a_name() {
    let names: Vec<_> = Cause::ALL.iter().map(|cause| (cause.0, cause.name())).collect();
    assert_eq!((names.len(), names[0]), (18, (1, "no whole slots, none, or more than 4,096")));
    assert_eq!(
        (Fault::RELOCATION.name(), Fault(9).name(), Cause(18).to_string()),
        ("a relocation", "an unknown cause", "an unknown cause".into())
    );
    // the match that a host writes
    assert!(matches!(Program::load(&PASS[..8], &[]), Err(LoadError::Refused { cause: Cause::END, slot: 0 })));
}

/// The header's comments are the causes' names.
#[test]
fn the_names_are_the_headers() {
    let header = match std::fs::read_to_string(concat!(env!("CARGO_MANIFEST_DIR"), "/../../include/laxonje.h")) {
        Ok(header) => header,
        Err(_) => return, // not in the repository
    };
    let is_said = |word: &str, name: &str| header.lines().any(|line| line.trim_start().starts_with(word) && line.contains(name));
    assert!(Cause::ALL.iter().all(|cause| is_said("LAXONJE_V_", cause.name())));
    assert!(Fault::ALL.iter().all(|fault| is_said("LAXONJE_L_", fault.name())));
    assert!(laxonje::Refusal::ALL.iter().all(|refusal| is_said("LAXONJE_REFUSAL_", refusal.name())));
    assert!(laxonje::Halt::ALL.iter().all(|halt| is_said("LAXONJE_HALT_", halt.name())));
}
