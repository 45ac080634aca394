//! What is told of a device with several queues: their sums, whatever counters each of them counts by.
use super::*;
use crate::serve::counting::SharedCounters;
use crate::serve::Told;
use crate::stats::{add, text, Counts, DeviceStats, MapCounts};
use laxonje::MOST_SHARES;
use std::sync::mpsc::channel;
use std::thread;
use std::time::Duration;

const COUNT_PROTOCOLS: &[u8] = include_bytes!("../../../../../../examples/count-protocols/settings.toml");
const DATA: u32 = 20;
/// Where the words of a packet say that it is IPv4, and that it is UDP.
const ETHERTYPE: usize = 12;
const PROTOCOL: usize = 23;
const UDP: u8 = 17;

fn program() -> Program {
    Program::from_settings(COUNT_PROTOCOLS).unwrap()
}

fn queues(program: &Program, count: usize) -> (Vec<Bench>, SharedCounters) {
    let mut benches: Vec<_> = (0..count).map(|_| Bench::of(Way::Copy, program)).collect();
    let shared = SharedCounters::of(program, count);
    benches.iter_mut().for_each(|bench| shared.share(&mut bench.queue));
    (benches, shared)
}

impl Bench {
    /// Sends so many UDP packets, one after another, each of which passes.
    fn send_udp(&mut self, count: u32) {
        let mut bytes = [0; PAGE_BYTES];
        (bytes[ETHERTYPE], bytes[PROTOCOL]) = (8, UDP);
        self.memory.grant(DATA, false);
        fill(&self.memory.page(DATA), &bytes);
        for _ in 0..count {
            self.memory.send(self.guest.tx.done, DATA, 0, 0, 60);
            self.guest.fetch().unwrap();
            assert_eq!(self.action(), Action::Pass);
            self.guest.forget();
        }
    }

    fn told(&self) -> Told {
        Told { counters: self.queue.counters().to_vec(), rings: Some(self.guest.rings()) }
    }
}

/// What the main process tells of these queues.
fn stats(program: &Program, benches: &[Bench], told: &[Option<Told>]) -> String {
    let (mut counts, mut counters) = (Counts::default(), program.new_counters());
    benches.iter().for_each(|bench| counts.add(&bench.guest.totals.counts()));
    told.iter().flatten().for_each(|told| add(&mut counters, &told.counters));
    let rings = told.iter().map(|told| told.as_ref().and_then(|told| told.rings)).collect();
    let maps = MapCounts::of(program, &counters);
    let mut stats = DeviceStats { queues: benches.len(), rings, maps, ..DeviceStats::default() };
    stats.tell(&counts);
    text(&[stats])
}

#[test]
fn several_queues_are_told_as_their_sum() {
    let program = program();
    let (mut benches, shared) = queues(&program, 3);
    (1..).zip(&mut benches).for_each(|(count, bench)| bench.send_udp(count));
    // they count by what they share, and not each for itself
    assert!(benches.iter().all(|bench| bench.queue.counters().iter().all(|count| *count == 0)));
    let mut told: Vec<_> = benches.iter().map(|bench| Some(bench.told())).collect();
    shared.add_to(&mut told);
    let said = stats(&program, &benches, &told);
    assert!(said.contains(", queues 3, ") && said.contains("  copied-pages 6\n"), "{said}");
    assert!(said.contains("  rings 0 tx 1 1 rx 0 0\n  rings 1 tx 2 2 rx 0 0\n  rings 2 tx 3 3 rx 0 0\n"), "{said}");
    assert!(said.ends_with("  counter protocols 17 0 6\n"), "{said}");
    // a thread that doesn't answer takes nothing of it away
    let mut told: Vec<_> = benches.iter().enumerate().map(|(number, bench)| (number > 0).then(|| bench.told())).collect();
    shared.add_to(&mut told);
    assert!(stats(&program, &benches, &told).ends_with("  counter protocols 17 0 6\n"));
    // nor does one whose counters are lost with it
    let mut told = vec![Some(Told { counters: Vec::new(), rings: None })];
    shared.add_to(&mut told);
    assert!(stats(&program, &benches, &told).ends_with("  counter protocols 17 0 6\n"));
}

#[test]
fn queues_without_a_share_count_for_themselves() {
    let program = program();
    for count in [1, MOST_SHARES + 2] {
        let (mut benches, shared) = queues(&program, count);
        benches.iter_mut().for_each(|bench| bench.send_udp(1));
        let alone = benches.iter().filter(|bench| bench.queue.counters().contains(&1)).count();
        assert_eq!(alone, if count == 1 { 1 } else { 2 });
        let mut told: Vec<_> = benches.iter().map(|bench| Some(bench.told())).collect();
        shared.add_to(&mut told);
        assert!(stats(&program, &benches, &told).ends_with(&format!("  counter protocols 17 0 {count}\n")));
    }
}

#[test]
fn queues_whose_filter_asks_for_the_time_share_it_and_nobody_is_told_it() {
    let program = Program::from_settings(with_map("bpf_ktime_get_ns").as_bytes()).unwrap();
    let clock = program.clock().unwrap();
    let (mut benches, mut shared) = queues(&program, 2);
    let time = |shared: &SharedCounters| {
        let mut told = [Some(Told { counters: Vec::new(), rings: None })];
        shared.add_to(&mut told);
        told[0].as_ref().unwrap().counters[clock]
    };
    for (seconds, wanted) in [(7, 7), (9, 9), (8, 9)] {
        shared.set_time(Duration::from_secs(seconds));
        assert_eq!(time(&shared), wanted * 1_000_000_000);
    }
    // a program with the same maps gets the time, and not twice as much
    replace(&mut benches, &mut shared, &program);
    shared.set_time(Duration::from_secs(9));
    assert_eq!(time(&shared), 9_000_000_000);
    benches.iter_mut().for_each(|bench| bench.send_udp(1));
    let mut told: Vec<_> = benches.iter().map(|bench| Some(bench.told())).collect();
    shared.add_to(&mut told);
    let said = stats(&program, &benches, &told);
    assert!(said.ends_with("  counter protocols 17 0 2\n") && !said.contains("ktime"), "{said}");
    // another one's counters begin at 0
    let (plain, none) = (self::program(), SharedCounters::default());
    replace(&mut benches, &mut shared, &plain);
    shared.set_time(Duration::from_secs(10));
    none.set_time(Duration::from_secs(10));
    replace(&mut benches, &mut shared, &program);
    assert_eq!(time(&shared), 0);
    shared.set_time(Duration::from_secs(11));
    assert_eq!(time(&shared), 11_000_000_000);
}

/// Settings of one more map, which no program uses.
fn with_map(name: &str) -> String {
    String::from_utf8_lossy(COUNT_PROTOCOLS).into_owned() + &format!("\n[[map]]\nname = \"{name}\"\nentries = 1\n")
}

#[test]
fn one_queue_at_a_time_takes_a_turn_if_the_filter_wants_that() {
    let (alone, plain) = (with_map("bpf_spin_lock"), with_map("bpf_spin_locks"));
    for (first, second, waits) in [(&alone, &alone, true), (&plain, &alone, true), (&plain, &plain, false), (&alone, &plain, false)] {
        let [first, second] = [first, second].map(|text| Program::from_settings(text.as_bytes()).unwrap());
        let mut shared = SharedCounters::of(&first, 2);
        shared.replace(&second, 2);
        let held = shared.alone();
        let (to, from) = channel();
        thread::scope(|scope| {
            scope.spawn(|| {
                let mut bench = Bench::of(Way::Copy, &first);
                bench.queue.replace(&second).unwrap();
                shared.share(&mut bench.queue);
                to.send(None).unwrap();
                to.send(Some(shared.turns(&mut bench.queue, &mut bench.guest, 1))).unwrap();
            });
            assert_eq!(from.recv(), Ok(None));
            let turn = from.recv_timeout(Duration::from_millis(if waits { 200 } else { 20_000 }));
            assert_eq!(turn.is_err(), waits);
            drop(held);
            assert_eq!(turn.or_else(|_| from.recv()), Ok(Some(0)));
        });
    }
    // a queue by itself waits for nobody, and a panic leaves the turn to others
    let none = SharedCounters::default();
    assert!(none.alone().is_none() && none.alone().is_none());
    let shared = SharedCounters::of(&Program::from_settings(alone.as_bytes()).unwrap(), 2);
    let panicked = thread::scope(|scope| {
        let body = || {
            let _held = shared.alone();
            panic!("planted")
        };
        scope.spawn(body).join()
    });
    assert!(panicked.is_err() && shared.alone().is_some());
}

/// The orders that the queues of a device get: another program, and what they share then.
fn replace(benches: &mut [Bench], shared: &mut SharedCounters, program: &Program) {
    shared.replace(program, benches.len());
    for bench in benches {
        bench.queue.replace(program).unwrap();
        shared.share(&mut bench.queue);
    }
}

fn counted(shared: &SharedCounters, benches: &[Bench]) -> Vec<Vec<u64>> {
    let mut told: Vec<_> = benches.iter().map(|bench| Some(bench.told())).collect();
    shared.add_to(&mut told);
    told.into_iter().flatten().map(|told| told.counters.into_iter().filter(|count| *count > 0).collect()).collect()
}

#[test]
fn queues_share_the_counters_of_each_program_that_they_get() {
    let program = program();
    let (mut benches, mut shared) = queues(&program, 2);
    benches[1].send_udp(2);
    let renamed = String::from_utf8_lossy(COUNT_PROTOCOLS).replace("\"protocols\"", "\"others\"");
    let (none, other) =
        (Program::load(&[0xb7, 0, 0, 0, 2, 0, 0, 0, 0x95, 0, 0, 0, 0, 0, 0, 0], &[]), Program::from_settings(renamed.as_bytes()));
    for (replaced, count) in [(&none.unwrap(), 0), (&program, 2), (&other.unwrap(), 2)] {
        replace(&mut benches, &mut shared, replaced);
        assert!(counted(&shared, &benches).concat().is_empty(), "they begin at 0");
        benches.iter_mut().for_each(|bench| bench.send_udp(1));
        assert!(benches.iter().all(|bench| bench.queue.counters().iter().all(|count| *count == 0)), "each counts for itself");
        assert_eq!(counted(&shared, &benches).concat(), if count > 0 { vec![count] } else { vec![] });
    }
    // the same maps: what was counted stays, and is still shared
    replace(&mut benches, &mut shared, &Program::from_settings(renamed.as_bytes()).unwrap());
    benches[0].send_udp(1);
    assert_eq!(counted(&shared, &benches), [vec![3], vec![]]);
}
