//! A host of two guests over rust-vmm's vm-memory: one thread serves their queues, and delivers each packet that passes back to its guest.
#![forbid(unsafe_code)]
mod guest;
mod memory;
#[cfg(test)]
mod tests;

use guest::{Front, RX, TABLE, TX};
use laxonje::{Action, Awaited, Delivery, Program, Queue, Setup, Turn, MOST_TURNS};
use memory::{extents, Memory};
use std::error::Error;
use std::sync::mpsc::{channel, Receiver};
use std::thread;
use vm_memory::{GuestAddress, GuestMemoryMmap};

const GUESTS: usize = 2;
const PACKETS: u32 = 10_000;
/// The guests' domains are 1 and 2, and the host's own is 0.
const FIRST_DOMAIN: u16 = 1;

/// What the host has of a guest.
struct Device {
    memory: Memory,
    queue: Queue,
    packet: Vec<u8>,
}

impl Device {
    fn new(program: &Program, memory: Memory, domain: u16) -> Result<Device, Box<dyn Error>> {
        let frames = extents(&memory.pages, domain);
        let setup = Setup { frames: &frames, table: &[TABLE], tx: TX, rx: RX, frontend: domain, ..Setup::default() };
        Ok(Device { memory, queue: Queue::new(program, &setup)?, packet: vec![0; laxonje::MOST_BYTES] })
    }

    /// Takes turns until the ring is empty. An error: the guest has broken the protocol, and has to connect again.
    fn serve(&mut self) -> Result<(), Box<dyn Error>> {
        loop {
            let packets = self.queue.turns(MOST_TURNS, &mut self.memory);
            if packets == 0 {
                return Ok(());
            }
            (0..packets).try_for_each(|number| self.after_turn(number))?;
        }
    }

    /// What comes after a packet of a turn.
    fn after_turn(&mut self, number: usize) -> Result<(), Box<dyn Error>> {
        match self.queue.turned(number) {
            Turn::Ran(run) if run.action == Action::Pass => self.give_back(number)?,
            Turn::Ran(_) | Turn::Idle => {}
            Turn::Refused(why) => eprintln!("refused: {why}"),
            Turn::Halted(why) => return Err(why.to_string().into()),
            _ => return Err("an access of the guest's memory failed".into()),
        }
        Ok(())
    }

    fn give_back(&mut self, number: usize) -> Result<(), Box<dyn Error>> {
        let length = self.queue.packet_of(number, &mut self.packet);
        loop {
            match self.queue.deliver(&self.packet[..length], &mut self.memory)? {
                Delivery::FewSlots => match self.queue.wait_for(length, &mut self.memory)? {
                    Awaited::Posted => continue,
                    Awaited::Waiting => eprintln!("no buffer: the packet is dropped"),
                    other => return Err(format!("{other:?}").into()),
                },
                Delivery::Halted(why) => return Err(why.to_string().into()),
                _ => {}
            }
            return Ok(());
        }
    }
}

/// Serves the guests whose numbers come as events, until all of them have gone.
fn serve(events: &Receiver<usize>, devices: &mut [Device]) {
    for number in events {
        if let Err(why) = devices[number].serve() {
            eprintln!("guest {number}: {why}");
        }
    }
}

/// Memory in two regions, with a hole between.
fn pages() -> Result<GuestMemoryMmap, Box<dyn Error>> {
    let page = laxonje::PAGE_BYTES;
    let regions = [(GuestAddress(0), 8 * page), (GuestAddress(u64::from(guest::DATA) * page as u64), guest::DATA_FRAMES as usize * page)];
    Ok(GuestMemoryMmap::from_ranges(&regions)?)
}

fn main() -> Result<(), Box<dyn Error>> {
    laxonje::check_version()?;
    let packets = std::env::args().nth(1).map_or(Ok(PACKETS), |word| word.parse())?;
    let program = Program::load(&[0xb7, 0, 0, 0, 2, 0, 0, 0, 0x95, 0, 0, 0, 0, 0, 0, 0], &[])?;
    let (events, come) = channel();
    let (mut devices, mut guests) = (Vec::new(), Vec::new());
    for number in 0..GUESTS {
        let (notices, told) = channel();
        let front = Front { pages: pages()?, number, events: events.clone(), notices: told };
        front.connect();
        devices.push(Device::new(&program, Memory { pages: front.pages.clone(), notices }, FIRST_DOMAIN + number as u16)?);
        guests.push(thread::spawn(move || front.run(packets)));
    }
    drop(events);
    serve(&come, &mut devices);
    let wrong: u32 = guests.into_iter().map(|guest| guest.join().unwrap_or(packets)).sum();
    println!("{} packets of {GUESTS} guests, {wrong} wrong", packets as usize * GUESTS);
    if wrong > 0 {
        return Err("a guest was answered wrongly".into());
    }
    Ok(())
}
