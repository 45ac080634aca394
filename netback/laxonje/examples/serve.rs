//! A host of one guest: packets that pass are forwarded, and each is answered by one of the host's own. The guest is a few lines beside it.
use laxonje::{Action, Awaited, Delivery, Extent, GuestMemory, Page, Program, Queue, Setup, Turn};
use std::error::Error;
use std::sync::atomic::{AtomicU32, Ordering::SeqCst};

/// The frames of the guest's rings, of its grant table, and of two pages that it grants by the references 8 and 9.
const TX: u32 = 0;
const RX: u32 = 1;
const TABLE: u32 = 2;
const DATA: u32 = 3;
const FRAMES: u32 = 5;
const GUEST: u16 = 7;
const SLOTS: usize = 16; // the word at which a ring's slots begin

struct Memory(Vec<Page>);

impl GuestMemory for Memory {
    fn page(&self, frame: u32) -> &Page {
        &self.0[frame as usize]
    }

    fn notify(&mut self, port: u32) {
        println!("notice {port}");
    }
}

impl Memory {
    /// A guest that grants a page for reading and one for writing, and has posted a buffer.
    fn new() -> Memory {
        let memory = Memory((0..FRAMES).map(|_| [(); laxonje::PAGE_WORDS].map(|()| AtomicU32::new(0))).collect());
        for (frame, word, value) in [(TX, 1, 1), (TX, 3, 1), (RX, 1, 1), (RX, 3, 1)] {
            memory.set(frame, word, value);
        }
        for (reference, flags) in [(8, 5), (9, 1)] {
            memory.set(TABLE, 2 * reference, flags); // permit_access, and readonly; for domain 0
            memory.set(TABLE, 2 * reference + 1, DATA + reference as u32 - 8);
        }
        memory.set(RX, SLOTS + 1, 9);
        memory.set(RX, 0, 1);
        memory
    }

    fn set(&self, frame: u32, word: usize, value: u32) {
        self.page(frame)[word].store(value, SeqCst);
    }

    /// The guest sends 60 bytes by a reference.
    fn send(&self, index: u32, reference: u32) {
        let slot = SLOTS + 3 * index as usize;
        self.set(TX, slot, reference);
        self.set(TX, slot + 2, index | 60 << 16);
        self.set(TX, 0, index + 1);
    }
}

/// Takes turns until there is nothing to do. Returns the number of packets that passed.
fn serve(queue: &mut Queue, guest: &mut Memory) -> Result<u32, Box<dyn Error>> {
    let (mut packet, mut passed) = (vec![0; laxonje::MOST_BYTES], 0);
    loop {
        match queue.turn(guest) {
            Turn::Ran(run) if run.action == Action::Pass => {
                let length = queue.packet(&mut packet);
                passed += 1;
                answer(queue, guest, &packet[..length])?;
            }
            Turn::Ran(_) => {}
            Turn::Refused(why) => println!("refused: {why}, by {:?}", queue.last_grant().map(|grant| grant.entry.reference)),
            Turn::Idle => return Ok(passed),
            other => return Err(format!("{other:?}").into()),
        }
    }
}

fn answer(queue: &mut Queue, guest: &mut Memory, packet: &[u8]) -> Result<(), Box<dyn Error>> {
    match queue.deliver(packet, guest)? {
        Delivery::Sent { slots } => println!("answered in {slots} slot"),
        Delivery::FewSlots if queue.wait_for(packet.len(), guest)? == Awaited::Waiting => {
            println!("no buffer: waits for the guest's event")
        }
        other => println!("{other:?}"),
    }
    Ok(())
}

fn main() -> Result<(), Box<dyn Error>> {
    laxonje::check_version()?;
    let program = Program::load(&[0xb7, 0, 0, 0, 2, 0, 0, 0, 0x95, 0, 0, 0, 0, 0, 0, 0], &[])?;
    let frames = [Extent { frames: FRAMES, domain: GUEST }];
    let setup = Setup { frames: &frames, table: &[TABLE], tx: TX, rx: RX, frontend: GUEST, port: 3, ..Setup::default() };
    let (mut queue, mut guest) = (Queue::new(&program, &setup)?, Memory::new());
    for (index, reference) in [8, 100, 8].into_iter().enumerate() {
        guest.send(index as u32, reference);
    }
    println!("{} packets passed", serve(&mut queue, &mut guest)?);
    Ok(())
}
