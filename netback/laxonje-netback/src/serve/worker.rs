//! The thread of a queue, as the first thread of its guest's process has it: it is started, gets orders, and reports why it ended.
use super::arena::PACKETS_BYTES;
use super::counting::SharedCounters;
use super::guest::{XenGuest, COPIES_BYTES, OWN_DOMAIN, RX_RING, TABLE_FRAMES, TX_RING};
use super::running::Running;
use crate::log::Log;
use crate::os::{monotonic_time, restrict_to_packets, Tap};
use crate::panics::{caught, PACKET_THREAD};
use crate::stats::{Rings, Totals};
use crate::xen::{Events, Grants};
use laxonje::{Halt, MakeError, Program, Queue, Setup};
use std::io::{self, Write};
use std::mem::size_of;
use std::os::unix::net::UnixStream;
use std::sync::atomic::AtomicUsize;
use std::sync::mpsc::{channel, Sender};
use std::sync::{Arc, Once};
use std::thread::{self, JoinHandle};

/// The stack of a queue's thread.
const STACK_BYTES: usize = 2 << 20;
/// What the library keeps of a queue beside the program's counters.
const LIBRARY_BYTES: usize = 5 << 18;
/// The most memory that a queue takes beside these.
const QUEUE_BYTES: usize = 7 << 20;
const _: () = assert!(PACKETS_BYTES + COPIES_BYTES + STACK_BYTES + LIBRARY_BYTES <= QUEUE_BYTES);

/// What the first thread wants of a queue's.
pub enum Order {
    /// Go on with another program, whose counters the queues of the device share.
    Replace(Program, SharedCounters),
    /// Say what the program counted, and where the rings stand.
    Tell(Sender<Told>),
    /// End, between two turns.
    Stop,
}

/// What a queue's program has counted, and where its rings stand.
#[derive(Debug)]
pub struct Told {
    pub counters: Vec<u64>,
    /// `None`: the thread has ended.
    pub rings: Option<Rings>,
}

/// A queue's thread ends, or has a line for the log.
#[derive(Debug)]
pub struct Report {
    pub place: Place,
    pub why: Ended,
}

/// Which queue of which device.
#[derive(Clone, Copy, Debug, PartialEq, Eq)]
pub struct Place {
    pub domain: u16,
    pub device: u32,
    pub queue: u32,
    /// How many times the device had been connected: a thread of an earlier connection no longer reports.
    pub connection: u64,
}

/// Why a thread ended.
#[derive(Debug)]
pub enum Ended {
    Stopped,
    Halted(Halt),
    Failed(io::Error),
    Panicked(Fault),
}

/// A fault of this program.
#[derive(Debug)]
pub struct Fault {
    /// What the panic said.
    pub line: String,
    /// It came between two turns: another queue may go on.
    pub stands: bool,
}

/// What the process's first thread has of a queue's.
pub struct Handle {
    orders: Sender<Order>,
    wake: UnixStream,
    thread: JoinHandle<Vec<u64>>,
}

/// Reports go by a channel, and a byte wakes who waits for them.
#[derive(Clone)]
pub struct Reports {
    pub to: Sender<Report>,
    pub wake: Arc<UnixStream>,
    /// Threads have fewer system calls than their process.
    pub restricted: bool,
}

impl Reports {
    fn send(&self, report: Report) {
        let _ = self.to.send(report);
        let _ = (&*self.wake).write(&[0]);
    }
}

impl Handle {
    /// Whether the thread still takes orders.
    pub fn order(&mut self, order: Order) -> bool {
        self.orders.send(order).is_ok() && self.wake.write(&[0]).is_ok()
    }

    /// Ends the thread; what its program counted.
    pub fn stop(mut self) -> Vec<u64> {
        self.order(Order::Stop);
        self.thread.join().unwrap_or_default()
    }
}

/// All that a queue's thread has.
pub struct Worker {
    pub place: Place,
    pub guest: XenGuest<Grants>,
    pub events: Events,
    pub queue: Queue,
    /// What it counts by, if the queues of its device share that.
    pub counters: SharedCounters,
    pub tap: Tap,
    pub totals: Arc<Totals>,
    /// How many queues of the device are stalled for so long that its carrier is away.
    pub stalled: Arc<AtomicUsize>,
    pub log: Log,
    pub notifies: bool,
    /// The guest takes packets of more than a page.
    pub scatters: bool,
}

/// The most memory that a queue of this program takes. Its counters are there once more when they are told.
pub fn queue_bytes(program: &Program) -> usize {
    let counters: usize = program.maps().iter().map(|map| map.entries as usize * map.counters as usize).sum();
    QUEUE_BYTES + 2 * counters * size_of::<u64>()
}

/// Makes the library's queue for a guest's rings.
pub fn make_queue(program: &Program, guest: &XenGuest<Grants>, domain: u16, ifindex: u32, queue: u32) -> Result<Queue, MakeError> {
    let table: Vec<u32> = (0..TABLE_FRAMES).collect();
    let setup = Setup {
        frames: &guest.extents(),
        table: &table,
        tx: TX_RING,
        rx: RX_RING,
        frontend: domain,
        backend: OWN_DOMAIN,
        port: 0,
        ifindex,
        queue,
        at: guest.indices(),
    };
    Queue::new(program, &setup)
}

impl Worker {
    /// Gives the filter the time of the turns that follow, if it asks for it.
    pub fn give_time(&mut self) {
        if self.queue.asks_for_time() {
            let time = monotonic_time();
            self.queue.set_time(time);
            self.counters.set_time(time);
        }
    }

    /// Takes a turn of up to `most` packets. Returns how many there were.
    pub fn turns(&mut self, most: usize) -> usize {
        self.counters.turns(&mut self.queue, &mut self.guest, most)
    }

    /// From now on it counts by these.
    pub fn share(&mut self, counters: SharedCounters) {
        counters.share(&mut self.queue);
        self.counters = counters;
    }

    /// Starts the thread, which gives up the system calls that it doesn't need first.
    pub fn start(mut self, reports: Reports) -> io::Result<Handle> {
        self.open_batch();
        let (orders, received) = channel();
        let (wake, woken) = UnixStream::pair()?;
        wake.set_nonblocking(true)?;
        woken.set_nonblocking(true)?;
        let place = self.place;
        let mut running = Running::new(self, received, woken);
        let body = move || {
            let why = match if reports.restricted { restrict_to_packets() } else { Ok(()) } {
                Ok(()) => caught(|| running.run()).unwrap_or_else(|line| running.panicked(line)),
                Err(error) => Ended::Failed(error),
            };
            let counters = running.counters();
            if !matches!(why, Ended::Stopped) {
                reports.send(Report { place, why });
            }
            counters
        };
        let name = format!("{PACKET_THREAD}{}.{}-{}", place.domain, place.device, place.queue);
        Ok(Handle { orders, wake, thread: thread::Builder::new().name(name).stack_size(STACK_BYTES).spawn(body)? })
    }

    fn open_batch(&mut self) {
        static NONE: Once = Once::new();
        if let Err(error) = self.tap.open_batch() {
            let why = format!("no more contexts to give the kernel packets by ({error}, fs.aio-max-nr): each takes a system call");
            NONE.call_once(|| self.log.line(&why));
        }
    }
}
