//! Whatever safe code calls, in any order and on any thread, with guests that answer anything and panic: each call has an answer, and a queue that
//! was left inside a turn makes no more accesses. `LAXONJE_CALLS` is how many calls are made, and `LAXONJE_SEED` which.
#[allow(dead_code)]
mod memory;

use laxonje::{
    check, Accepts, Counters, Extent, Guest, GuestMemory, Indices, MapSize, Offers, Offload, Outcome, Packet, Program, Queue, SegmentKind,
    Segments, Setup, Stopped, MOST_BYTES, MOST_TURNS, PAGE_WORDS,
};
use memory::{setup, udp, Memory, GUEST};
use std::collections::BTreeSet;
use std::panic::{catch_unwind, resume_unwind, AssertUnwindSafe};
use std::sync::Arc;
use std::thread;

const CALLS: u64 = 4_000;
const FRAMES: u32 = 16;
const MOST: usize = 6;
const PASS: [u8; 16] = [0xb7, 0, 0, 0, 2, 0, 0, 0, 0x95, 0, 0, 0, 0, 0, 0, 0];
const COUNT: &[u8] = include_bytes!("count-protocols.toml");
const LISTS: &[u8] = b"program = [\"b700000003000000\", \"9500000000000000\"]\nmap = [{ name = \"one\", entries = 3, counters = 2 }]\n";

/// Numbers that a seed says (SplitMix64).
#[derive(Clone)]
struct Random(u64);

impl Random {
    fn next(&mut self) -> u64 {
        self.0 = self.0.wrapping_add(0x9e37_79b9_7f4a_7c15);
        let mixed = (self.0 ^ self.0 >> 30).wrapping_mul(0xbf58_476d_1ce4_e5b9);
        let mixed = (mixed ^ mixed >> 27).wrapping_mul(0x94d0_49bb_1331_11eb);
        mixed ^ mixed >> 31
    }

    fn below(&mut self, most: usize) -> usize {
        (self.next() % most as u64) as usize
    }

    fn one_in(&mut self, most: usize) -> bool {
        self.below(most) == 0
    }

    /// Small, at a limit, or any.
    fn word(&mut self) -> u32 {
        match self.below(4) {
            0 => self.below(300) as u32,
            1 => [u32::MAX, 1 << 31, 0xffff, 0x1_0000, 4096, 256, 257, 0][self.below(8)],
            _ => self.next() as u32,
        }
    }

    fn length(&mut self) -> usize {
        match self.below(4) {
            0 => [0, 13, 14, 4095, 4096, 4097, MOST_BYTES, MOST_BYTES + 1][self.below(8)],
            1 => self.below(MOST_BYTES + 2),
            _ => self.below(200),
        }
    }

    /// A text or a program, as it is or with a byte changed or cut off.
    fn bytes(&mut self) -> Vec<u8> {
        let mut bytes = [&PASS[..], COUNT, LISTS][self.below(3)].to_vec();
        if self.one_in(3) {
            let at = self.below(bytes.len());
            bytes[at] = self.next() as u8;
        }
        if self.one_in(8) {
            bytes.truncate(self.below(bytes.len()));
        }
        bytes
    }

    fn offload(&mut self) -> Offload {
        let kind = [SegmentKind::Tcpv4, SegmentKind::Tcpv6, SegmentKind::Unknown(self.word())][self.below(3)];
        [Offload::Nothing, Offload::Validated, Offload::Checksum, Offload::Segments(Segments { kind, size: self.word() })][self.below(4)]
    }
}

/// A guest that keeps the protocol but for words that it changes while they are read. At some accesses its host panics.
struct Anything {
    memory: Memory,
    random: Random,
    accesses: usize,
}

impl Anything {
    /// An access of words that the queue may ask for.
    fn access(&mut self, frame: u32, word: usize, count: usize) {
        assert!(frame < FRAMES && word + count <= PAGE_WORDS, "{frame} {word} {count}");
        self.accesses += 1;
        if self.random.one_in(500) {
            resume_unwind(Box::new("planted"));
        }
    }
}

impl Guest for Anything {
    fn read(&mut self, frame: u32, word: usize, into: &mut [u32]) {
        self.access(frame, word, into.len());
        Guest::read(&mut self.memory, frame, word, into);
        if self.random.one_in(40) {
            let at = self.random.below(into.len());
            into[at] = self.random.word();
        }
    }

    fn write(&mut self, frame: u32, word: usize, from: &[u32]) {
        self.access(frame, word, from.len());
        Guest::write(&mut self.memory, frame, word, from);
    }

    fn push(&mut self, frame: u32, word: usize, value: u32, then: usize) -> u32 {
        self.access(frame, word.max(then), 1);
        Guest::push(&mut self.memory, frame, word, value, then)
    }

    fn notify(&mut self, port: u32) {
        self.access(0, 0, 0);
        GuestMemory::notify(&mut self.memory, port);
    }
}

/// A turn of several packets. Returns what it says.
fn turns(queue: &mut Queue, guest: &mut Anything, most: usize) -> String {
    let turns = queue.turns(most, guest);
    assert!(turns <= most.clamp(1, MOST_TURNS));
    let each = |number| {
        let _ = (queue.slots_of(number), queue.grant_of(number), queue.packet_of(number, &mut [0; 60]));
        format!("{:?}", queue.turned(number))
    };
    (0..turns.max(1)).map(each).collect()
}

/// A queue, its guest, and whether the guest's host has panicked inside a call.
struct Served {
    guest: Anything,
    queue: Queue,
    abandoned: bool,
}

impl Served {
    fn new(program: &Program, random: &mut Random) -> Option<Served> {
        let guest = Anything { memory: Memory::new(), random: Random(random.next()), accesses: 0 };
        let (mut table, mut odd) = (vec![memory::TABLE as u32], setup(Indices { tx: 0, rx: 0 }));
        let frames = [Extent { frames: random.word(), domain: GUEST }, Extent { frames: random.word(), domain: random.word() as u16 }];
        if random.one_in(4) {
            match random.below(4) {
                0 => table.extend((0..random.below(70)).map(|_| random.word())),
                1 => odd.frames = &frames,
                2 => odd.tx = random.word(),
                _ => odd.backend = random.word() as u16,
            }
        }
        let queue = Queue::new(program, &Setup { table: &table, ..odd }).ok()?;
        // what its extents have beside the guest's frames is never asked for
        (odd.tx < FRAMES && odd.frames.len() == 1).then_some(Served { guest, queue, abandoned: false })
    }

    /// The guest sends and posts, as far as it knows where.
    fn offer_packets(&mut self, random: &mut Random) {
        let at = match self.queue.indices() {
            Ok(at) => at,
            Err(_) => return,
        };
        let memory = &self.guest.memory;
        for (slot, more) in [(0, 4), (1, 0)].into_iter().skip(random.below(3)) {
            let reference = [memory.grant(random.below(5), random.one_in(2)), random.word()][usize::from(random.one_in(9))];
            memory.fill(slot, &udp(60));
            memory.send(at.tx.wrapping_add(slot as u32), reference, more | random.below(16) as u32, 14 + random.below(4083) as u32);
        }
        for slot in 0..random.below(4) as u32 {
            memory.post(at.rx.wrapping_add(slot), memory.grant(5 + slot as usize, !random.one_in(9)));
        }
    }

    /// Makes a call with the guest. `None`: the guest's host panicked inside it.
    fn call<Answer>(&mut self, call: impl FnOnce(&mut Queue, &mut Anything) -> Answer) -> Option<Answer> {
        let Served { guest, queue, abandoned } = self;
        let answer = catch_unwind(AssertUnwindSafe(|| call(queue, guest)));
        match answer {
            Ok(answer) => Some(answer),
            Err(why) if why.downcast_ref() == Some(&"planted") => {
                *abandoned = true;
                None
            }
            Err(why) => resume_unwind(why),
        }
    }

    /// A turn, a delivery or a wait. Returns what it says.
    fn access(&mut self, random: &mut Random) -> Option<String> {
        self.offer_packets(random);
        let (packet, offload, was) = (vec![random.next() as u8; random.length()], random.offload(), self.queue.indices().err());
        let made = self.guest.accesses;
        let says = match random.below(4) {
            0 => self.call(|queue, guest| queue.deliver_as(&packet, offload, guest)).map(|it| format!("{it:?}")),
            1 => self.call(|queue, guest| queue.wait_for_as(packet.len(), offload, guest)).map(|it| format!("{it:?}")),
            2 => self.call(|queue, guest| queue.turn(guest)).map(|it| format!("{it:?}")),
            _ => self.call(|queue, guest| turns(queue, guest, random.below(20))),
        };
        let now = self.queue.indices().err();
        if let Some(why) = was {
            assert_eq!((now, self.guest.accesses - made, self.queue.packet(&mut [])), (was, 0, 0));
            assert!(says.as_ref().map_or(false, |says| says.contains("Length") || says.contains(&format!("{why:?}"))));
        } else {
            assert_eq!((says.is_none(), now == Some(Stopped::Abandoned)), (self.abandoned, self.abandoned));
            assert!(says.as_ref().map_or(true, |says| says.contains("Halted") == now.is_some() && !says.contains("Abandoned")));
        }
        says
    }

    /// What needs no guest.
    fn ask(&mut self, program: &Program, counters: Option<&mut Counters>, random: &mut Random) {
        let is_stopped = self.queue.indices().is_err();
        match random.below(6) {
            0 => assert!(self.queue.replace(program).is_err() || !is_stopped),
            1 => drop(self.queue.relist(program)),
            2 => assert!(self.queue.offer(Offers { tcpv4: random.one_in(2), tcpv6: true }).is_ok() != self.abandoned),
            3 => assert!(self.queue.accept(Accepts { checksum: true, ..Accepts::default() }).is_ok() != self.abandoned),
            4 => drop(counters.map(|counters| (self.queue.share(counters), counters.add(random.word(), 0, 0, 7), counters.all()))),
            _ => assert!(self.queue.packet(&mut vec![0; random.length()]) <= MOST_BYTES),
        }
        let _ = (self.queue.flags(), self.queue.segments(), self.queue.last_grant(), format!("{:?}", self.queue));
    }
}

/// What is there at a time.
struct World {
    random: Random,
    programs: Vec<Arc<Program>>,
    served: Vec<Served>,
    counters: Vec<Counters>,
    refused: u64,
    said: BTreeSet<String>,
}

impl World {
    /// One more, in place of another if there are many.
    fn add<Value>(to: &mut Vec<Value>, value: Value, random: &mut Random) {
        match to.len() < MOST {
            true => to.push(value),
            false => {
                let at = random.below(MOST);
                to[at] = value;
            }
        }
    }

    fn load(&mut self) {
        let bytes = self.random.bytes();
        let maps = [MapSize { entries: self.random.word(), counters: self.random.word() }];
        let loaded = match self.random.below(4) {
            0 => Program::load(&bytes, &maps[..self.random.below(2)]),
            1 => Program::from_object(&bytes, "pass"),
            _ => Program::from_settings(&bytes),
        };
        match loaded {
            Ok(program) => World::add(&mut self.programs, Arc::new(program), &mut self.random),
            Err(why) => self.refused += (why.to_string() + &why.advice()).len().min(1) as u64,
        }
        let _ = check(&bytes, &maps);
    }

    fn run(&mut self, program: &Program) {
        let random = &mut self.random;
        let mut own = program.try_clone().expect("nothing but memory");
        let (mut counters, mut packet) = (own.new_counters(), vec![0; random.length()]);
        let less = random.below(2).min(counters.len());
        let is_run = own.run(&mut counters[less..], &mut packet, random.word(), 0).is_some();
        assert_eq!(is_run, less == 0 && packet.len() <= MOST_BYTES);
        let end = |random: &mut Random| [random.length(), usize::MAX - random.below(9)][usize::from(random.one_in(9))];
        let packets: Vec<Packet> = (0..random.below(9)).map(|_| Packet::from(end(random)..end(random))).collect();
        let mut outcomes = vec![Outcome::default(); random.below(9)];
        let count = own.run_batch(&mut counters, &mut packet, &packets, &mut outcomes, 0, random.word());
        assert_eq!(count, packets.len().min(outcomes.len()));
        let place = own.place(random.word() % 3, random.word() % 300, random.word() % 9);
        assert!(place.map_or(true, |place| place < counters.len()));
        let _ = own.relist(&random.bytes());
    }

    /// A program that threads share, and a queue that goes to another and comes back.
    fn on_threads(&mut self, program: &Arc<Program>) {
        let mut served = (!self.served.is_empty()).then(|| self.served.swap_remove(self.random.below(self.served.len())));
        let mut randoms = [Random(self.random.next()), Random(self.random.next())];
        thread::scope(|scope| {
            for random in &mut randoms {
                scope.spawn(move || (0..4).for_each(|_| drop(Served::new(program, random))));
            }
            let (served, random) = (&mut served, &mut self.random);
            scope.spawn(move || served.iter_mut().for_each(|served| drop(served.access(random))));
        });
        self.served.extend(served);
    }

    fn call(&mut self) {
        let program = match self.random.one_in(6) || self.programs.is_empty() {
            true => return self.load(),
            false => Arc::clone(&self.programs[self.random.below(self.programs.len())]),
        };
        match self.random.below(40) {
            0 => self.on_threads(&program),
            1..=4 => self.run(&program),
            5 => {
                if let Ok(counters) = Counters::new(&program, self.random.below(66)) {
                    World::add(&mut self.counters, counters, &mut self.random);
                }
            }
            6..=9 => {
                if let Some(served) = Served::new(&program, &mut self.random) {
                    World::add(&mut self.served, served, &mut self.random);
                }
            }
            which => self.use_queue(which, &program),
        }
    }

    fn use_queue(&mut self, which: usize, program: &Program) {
        let World { random, served, counters, .. } = self;
        match (one_of(served, random), which) {
            (Some(served), 10..=18) => served.ask(program, one_of(counters, random), random),
            (Some(served), _) => {
                let says = served.access(random).unwrap_or_default();
                self.said.extend(says.split(|it: char| !it.is_alphabetic()).map(str::to_owned));
            }
            (None, _) => {}
        }
    }
}

fn one_of<'a, Value>(of: &'a mut [Value], random: &mut Random) -> Option<&'a mut Value> {
    let most = of.len().max(1);
    of.get_mut(random.below(most))
}

fn number(name: &str, other: u64) -> u64 {
    std::env::var(name).map_or(other, |word| word.parse().expect("a number"))
}

#[test]
fn whatever_is_called_has_an_answer() {
    let random = Random(number("LAXONJE_SEED", 1));
    let mut world = World { random, programs: Vec::new(), served: Vec::new(), counters: Vec::new(), refused: 0, said: BTreeSet::new() };
    let calls = number("LAXONJE_CALLS", CALLS);
    (0..calls).for_each(|_| world.call());
    if calls < CALLS {
        return;
    }
    assert!(world.refused > 0);
    for outcome in
        ["Idle", "Pass", "Tx", "Refused", "Halted", "Abandoned", "Sent", "FewSlots", "Posted", "Waiting", "Length", "NotAccepted"]
    {
        assert!(world.said.contains(outcome), "{outcome}");
    }
}
