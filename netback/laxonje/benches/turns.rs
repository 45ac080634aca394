//! What a run, a turn and a delivery take, by a guest in the same thread: `cargo bench -- [TIMES]`
use laxonje::{Delivery, Extent, GuestMemory, Outcome, Packet, Page, Program, Queue, Setup, Turn, MOST_TURNS, PAGE_WORDS};
use std::sync::atomic::{AtomicU32, Ordering::SeqCst};
use std::time::Instant;

const TIMES: u32 = 200_000;
const BATCH: usize = 32;
const SLOTS: usize = 16;
const RING: u32 = 256;

struct Memory(Vec<Page>);

impl GuestMemory for Memory {
    fn page(&self, frame: u32) -> &Page {
        &self.0[frame as usize]
    }

    fn notify(&mut self, _port: u32) {}
}

impl Memory {
    /// Frames 0 to 2 are tx, rx and the table, whose entry 0 grants frame 3 to domain 0.
    fn new() -> Memory {
        let memory = Memory((0..4).map(|_| [(); PAGE_WORDS].map(|()| AtomicU32::new(0))).collect());
        memory.set(2, 0, 1);
        memory.set(2, 1, 3);
        memory
    }

    fn set(&self, frame: u32, word: usize, value: u32) {
        self.page(frame)[word].store(value, SeqCst);
    }

    fn send(&self, index: u32, bytes: u32) {
        let slot = SLOTS + 3 * (index % RING) as usize;
        self.set(0, slot, 0);
        self.set(0, slot + 1, 0);
        self.set(0, slot + 2, bytes << 16);
        self.set(0, 0, index.wrapping_add(1));
    }

    fn post(&self, index: u32) {
        let slot = SLOTS + 2 * (index % RING) as usize;
        self.set(1, slot, 0);
        self.set(1, slot + 1, 0);
        self.set(1, 0, index.wrapping_add(1));
    }
}

/// Prints the nanoseconds of each of so many calls.
fn measured(name: &str, times: u32, each: f64, mut call: impl FnMut(u32)) {
    let begun = Instant::now();
    (0..times).for_each(&mut call);
    println!("{name}: {:.0} ns", begun.elapsed().as_nanos() as f64 / f64::from(times) / each);
}

fn main() {
    let times = std::env::args().skip(1).find_map(|word| word.parse().ok()).unwrap_or(TIMES);
    let mut program = Program::load(&[0xb7, 0, 0, 0, 2, 0, 0, 0, 0x95, 0, 0, 0, 0, 0, 0, 0], &[]).expect("two instructions");
    let mut packet = vec![0; 64];
    measured("a run", times, 1.0, |_| assert!(program.run(&mut [], &mut packet, 0, 0).is_some()));
    let (packets, mut outcomes) = ([Packet::from(0..64); BATCH], [Outcome::default(); BATCH]);
    measured("a run of a batch of 32", times, BATCH as f64, |_| {
        assert_eq!(program.run_batch(&mut [], &mut packet, &packets, &mut outcomes, 0, 0), BATCH);
    });
    let frames = [Extent { frames: 4, domain: 1 }];
    let setup = Setup { frames: &frames, table: &[2], tx: 0, rx: 1, frontend: 1, ..Setup::default() };
    for bytes in [64, 1514] {
        let (mut queue, mut guest) = (Queue::new(&program, &setup).expect("a queue"), Memory::new());
        measured(&format!("a turn of {bytes} bytes"), times, 1.0, |index| {
            guest.send(index, bytes);
            assert!(matches!(queue.turn(&mut guest), Turn::Ran(_)));
        });
        let (mut several, mut others) = (Queue::new(&program, &setup).expect("a queue"), Memory::new());
        measured(&format!("a packet of {bytes} bytes, of a turn of {MOST_TURNS}"), times, MOST_TURNS as f64, |index| {
            let first = index.wrapping_mul(MOST_TURNS as u32);
            (0..MOST_TURNS as u32).for_each(|number| others.send(first.wrapping_add(number), bytes));
            assert_eq!(several.turns(MOST_TURNS, &mut others), MOST_TURNS);
        });
        let frame = vec![0; bytes as usize];
        measured(&format!("a delivery of {bytes} bytes"), times, 1.0, |index| {
            guest.post(index);
            assert_eq!(queue.deliver(&frame, &mut guest), Ok(Delivery::Sent { slots: 1 }));
        });
    }
}
