//! A queue's thread at work: packets both ways, and what its process's first thread orders.
use super::arena::{Arena, Exchanged, Out, Packet};
use super::counting::SharedCounters;
use super::guest::Delivering;
use super::noting::{note_delivered, note_left};
use super::rests::Rests;
use super::stall::{Due, Stall};
use super::worker::{Ended, Fault, Order, Told, Worker};
use crate::frame;
use crate::os::{wait, Wanted};
use crate::stats::Totals;
use laxonje::{Action, Awaited, Delivery, Program, Stopped, Turn, TurnRun};
use std::io::{self, Read};
use std::os::unix::io::AsRawFd;
use std::os::unix::net::UnixStream;
use std::sync::atomic::Ordering;
use std::sync::mpsc::Receiver;
use std::time::{Duration, Instant};

/// A guest that sends no notice for buffers is looked at again after this time.
const LOOK_AGAIN: Duration = Duration::from_millis(10);
/// The most packets of the guest's at once, before those to the guest have their turn.
const BUDGET: usize = 256;
/// How often the TAP device is read to drop all that waits: 32 packets at once, of 1,000.
const MOST_DRAINS: usize = 64;
/// In a build for tests, a packet of that many bytes that passes is a fault of this program.
#[cfg(feature = "plant")]
const PLANTED: usize = 777;
/// And of that many it ends the process.
#[cfg(feature = "plant")]
const PLANTED_END: usize = 778;

/// A worker with what its thread keeps.
pub struct Running {
    worker: Worker,
    orders: Receiver<Order>,
    wake: UnixStream,
    arena: Arena,
    out: Out,
    /// The TAP device may have a packet.
    tap_ready: bool,
    /// The guest has too few buffers, and owes a notice.
    waiting: bool,
    stall: Stall,
    rests: Rests,
}

impl Drop for Running {
    fn drop(&mut self) {
        self.has_buffers();
    }
}

impl Running {
    pub fn new(worker: Worker, orders: Receiver<Order>, wake: UnixStream) -> Running {
        Running {
            worker,
            orders,
            wake,
            arena: Arena::new(),
            out: Out::new(),
            tap_ready: true,
            waiting: false,
            stall: Stall::default(),
            rests: Rests::default(),
        }
    }

    pub fn counters(&self) -> Vec<u64> {
        self.worker.queue.counters().to_vec()
    }

    /// What a panic left: the packets that were on their way are lost, and the queue may stand.
    pub fn panicked(&mut self, line: String) -> Ended {
        let totals = &self.worker.totals;
        Totals::add(&totals.faults, 1);
        Totals::add(&totals.lost, self.out.count() as u64);
        Totals::add(&totals.undelivered, self.arena.packets().count() as u64);
        Ended::Panicked(Fault { line, stands: self.worker.queue.indices().is_ok() })
    }

    pub fn run(&mut self) -> Ended {
        loop {
            match self.round() {
                Ok(true) => {}
                Ok(false) => return Ended::Stopped,
                Err(Ended::Halted(cause)) => {
                    self.worker.totals.halt(cause);
                    return Ended::Halted(cause);
                }
                Err(why) => return why,
            }
        }
    }

    /// Takes what there is to do, and waits if there is nothing. Returns whether to go on.
    fn round(&mut self) -> Result<bool, Ended> {
        let moved = self.take_packets()? | self.deliver_packets()?;
        self.send_notice()?;
        self.rests.rest();
        // if more is to do, this looks for a TAP packet and an order and doesn't wait
        let more = (moved && self.worker.guest.shows_packets()) || self.arm()?;
        self.sleep(more)
    }

    /// Asks the guest for a notice of its next packet. Returns whether there is one by now.
    fn arm(&mut self) -> Result<bool, Ended> {
        self.worker.give_time();
        let turns = self.worker.turns(1);
        self.after_turns(turns)?;
        self.send_notice()?;
        Ok(turns > 0 || !self.out.is_empty() || (!self.waiting && self.arena.first().is_some()))
    }

    /// Sends the notice that is owed, if one is: one for all turns and deliveries since the last.
    fn send_notice(&mut self) -> Result<(), Ended> {
        if !self.worker.guest.take_notice() {
            return Ok(());
        }
        Totals::add(&self.worker.totals.notices, 1);
        self.worker.events.notify().map_err(Ended::Failed)
    }

    /// How long to wait for an event. `None`: for ever.
    fn patience(&self, more: bool) -> Option<Duration> {
        if more || (self.tap_ready && !self.waiting) {
            return Some(Duration::ZERO);
        }
        let drain = if self.waiting { self.stall.left(Instant::now()) } else { None };
        match self.looks_again() {
            true => Some(drain.map_or(LOOK_AGAIN, |drain| drain.min(LOOK_AGAIN))),
            false => drain,
        }
    }

    /// Whether to look for buffers now and then: the guest sends no notice.
    fn looks_again(&self) -> bool {
        self.waiting && !self.worker.notifies
    }

    fn sleep(&mut self, more: bool) -> Result<bool, Ended> {
        let (patience, again) = (self.patience(more), self.looks_again());
        let events = &mut self.worker.events;
        if !more {
            events.unmask().map_err(Ended::Failed)?;
        }
        let tap = if self.waiting || self.tap_ready { Wanted::none() } else { Wanted::of(self.worker.tap.fd()) };
        let mut wanted = [Wanted::of(events.fd()), tap, Wanted::of(self.wake.as_raw_fd())];
        wait(&mut wanted, patience).map_err(Ended::Failed)?;
        if wanted[1].failed {
            return Err(Ended::Failed(io::Error::new(io::ErrorKind::NotFound, "its interface is gone")));
        }
        if wanted[0].ready {
            events.take().map_err(Ended::Failed)?;
            Totals::add(&self.worker.totals.events, 1);
        }
        if wanted[0].ready || again {
            self.waiting = false;
            if self.worker.guest.posted() > 0 {
                self.has_buffers();
            }
        }
        self.tap_ready |= wanted[1].ready;
        self.relieve()?;
        Ok(!wanted[2].ready || self.take_orders())
    }

    /// Whether to go on.
    fn take_orders(&mut self) -> bool {
        let _ = self.wake.read(&mut [0; 64]);
        while let Ok(order) = self.orders.try_recv() {
            match order {
                Order::Stop => return false,
                Order::Tell(to) => {
                    let Worker { queue, guest, .. } = &self.worker;
                    let _ = to.send(Told { counters: queue.counters().to_vec(), rings: Some(guest.rings()) });
                }
                Order::Replace(program, counters) => self.replace(&program, counters),
            }
        }
        true
    }

    fn replace(&mut self, program: &Program, counters: SharedCounters) {
        match self.worker.queue.replace(program) {
            Ok(()) => self.worker.share(counters), // one that has kept its counters shares these already
            Err(why) => self.worker.log.line(&format!("the filter isn't replaced: {why}")),
        }
    }

    /// Does what is due for a guest that posts no buffers.
    fn relieve(&mut self) -> Result<(), Ended> {
        if !self.waiting {
            return Ok(());
        }
        match self.stall.take_due(Instant::now()) {
            Due::Nothing => {}
            Due::Drain => self.drain(),
            Due::CarrierOff => {
                self.drain();
                self.worker.stalled.fetch_add(1, Ordering::Relaxed);
                self.worker.tap.set_carrier(false).map_err(Ended::Failed)?;
                self.worker.log.caused(&"the guest posts no buffers: its interface has no carrier");
            }
        }
        Ok(())
    }

    /// Drops the packets that wait for the guest: as many as a TAP device can have, or somewhat more.
    fn drain(&mut self) {
        for _ in 0..MOST_DRAINS {
            let packets = self.arena.packets().count();
            (0..packets).for_each(|_| self.arena.leave());
            Totals::add(&self.worker.totals.expired, packets as u64);
            self.exchange(true);
            if self.arena.first().is_none() {
                return;
            }
        }
    }

    /// The guest has buffers again, or is left.
    fn has_buffers(&mut self) {
        if self.stall.end() && self.worker.stalled.fetch_sub(1, Ordering::Relaxed) == 1 {
            let _ = self.worker.tap.set_carrier(true);
        }
    }

    /// Takes the packets that the guest shows. Returns whether there was one.
    fn take_packets(&mut self) -> Result<bool, Ended> {
        if !self.worker.guest.shows_packets() {
            return Ok(false);
        }
        let end = self.worker.guest.fetch().map_err(Ended::Failed)?;
        self.worker.give_time();
        let mut count = 0;
        while count < BUDGET {
            let most = self.worker.guest.left_before(end).min(BUDGET - count);
            let turns = if most > 0 { self.worker.turns(most) } else { 0 };
            if turns == 0 {
                break;
            }
            self.after_turns(turns)?;
            count += turns;
        }
        self.worker.guest.forget();
        Ok(count > 0)
    }

    /// Does what comes after each packet of a turn.
    fn after_turns(&mut self, turns: usize) -> Result<(), Ended> {
        (0..turns).try_for_each(|number| self.after_turn(number))
    }

    fn after_turn(&mut self, number: usize) -> Result<(), Ended> {
        let (totals, turn) = (&self.worker.totals, self.worker.queue.turned(number));
        match turn {
            Turn::Idle => {}
            Turn::Ran(run) if matches!(run.action, Action::Pass | Action::Tx) => self.rests.note_packet(),
            _ => self.rests.note_dropped(),
        }
        match turn {
            Turn::Idle => {}
            Turn::Halted(cause) => return Err(Ended::Halted(cause)),
            Turn::Refused(refusal) => {
                totals.refuse(refusal);
                let grant = self.worker.guest.refused_of(&self.worker.queue, number);
                self.worker.log.caused(&format_args!("refused a packet: {refusal}{grant}"));
            }
            Turn::Ran(run) => match run.action {
                Action::Pass => self.forward(run, number),
                Action::Tx => Totals::add(&totals.sent_back, 1),
                Action::Drop => Totals::add(&totals.dropped, 1),
                _ => Totals::add(&totals.aborted, 1),
            },
            _ => return Err(abandoned()),
        }
        Ok(())
    }

    /// A packet that passed is to be given to the TAP device.
    fn forward(&mut self, run: TurnRun, number: usize) {
        let totals = &self.worker.totals;
        let room = self.out.room();
        let length = self.worker.queue.packet_of(number, room);
        #[cfg(feature = "plant")]
        assert_ne!(length, PLANTED, "planted");
        #[cfg(feature = "plant")]
        if length == PLANTED_END {
            std::process::abort();
        }
        Totals::add(&totals.passed, 1);
        Totals::add(&totals.passed_bytes, length as u64);
        let left = frame::left(&mut room[..length], run.flags.checksum_blank(), run.segments);
        note_left(totals, run.flags, run.segments, left);
        if let Some(left) = left {
            self.out.push(frame::header(left), length);
        }
        if self.out.is_full() {
            self.exchange(false);
        }
    }

    /// Gives the packets that passed to the TAP device, and takes those that it has if they are wanted.
    fn exchange(&mut self, wants: bool) {
        let Exchanged { lost, unfit, more } = self.arena.exchange(&mut self.worker.tap, &self.out, wants);
        Totals::add(&self.worker.totals.lost, lost);
        Totals::add(&self.worker.totals.unfit, unfit);
        self.out.clear();
        if wants {
            self.tap_ready = more;
        }
    }

    /// Delivers the packets that the TAP device has. Returns whether one was delivered, or was refused.
    fn deliver_packets(&mut self) -> Result<bool, Ended> {
        // what was just given to the TAP device may be answered at once
        let wants = !self.waiting && self.arena.first().is_none() && (self.tap_ready || !self.out.is_empty());
        if wants || !self.out.is_empty() {
            self.exchange(wants);
        }
        if !self.worker.scatters {
            Totals::add(&self.worker.totals.undelivered, self.arena.leave_long() as u64);
        }
        if self.waiting || self.arena.first().is_none() {
            return Ok(false);
        }
        let fits = self.worker.guest.put(&self.arena).map_err(Ended::Failed)?;
        let mut moved = false;
        for _ in 0..fits.max(1) {
            moved |= self.deliver_first()?;
        }
        self.worker.guest.forget();
        Ok(moved)
    }

    fn deliver_first(&mut self) -> Result<bool, Ended> {
        let packet = match self.arena.first() {
            Some(packet) if !self.waiting => packet,
            _ => return Ok(false),
        };
        let Worker { guest, queue, totals, .. } = &mut self.worker;
        let delivery = queue.deliver_as(self.arena.bytes(packet), packet.offload, &mut Delivering { guest, arena: &self.arena, packet });
        match delivery {
            Ok(Delivery::Sent { .. }) => {
                note_delivered(totals, packet);
                self.has_buffers();
            }
            Ok(Delivery::FewSlots) => return self.await_buffers(packet).map(|()| false),
            Ok(Delivery::Halted(cause)) => return Err(Ended::Halted(cause)),
            Ok(Delivery::Refused { slots }) => {
                Totals::add(&totals.undelivered, 1);
                let grant = guest.refused_to(queue, slots);
                self.worker.log.caused(&format_args!("a packet isn't delivered: an rx slot's grant failed its check{grant}"));
            }
            Ok(_) => return Err(abandoned()),
            // the kernel had it for a connection before, whose guest took it
            Err(_) => Totals::add(&totals.unfit, 1),
        }
        self.arena.leave();
        Ok(true)
    }

    fn await_buffers(&mut self, packet: Packet) -> Result<(), Ended> {
        Totals::add(&self.worker.totals.waits, 1);
        match self.worker.queue.wait_for_as(packet.length, packet.offload, &mut self.worker.guest) {
            Ok(Awaited::Waiting) => {
                self.waiting = true;
                self.stall.begin(Instant::now());
            }
            Ok(Awaited::Posted) => {}
            Ok(Awaited::Halted(cause)) => return Err(Ended::Halted(cause)),
            Ok(_) => return Err(abandoned()),
            Err(_) => self.arena.leave(), // longer than what `deliver` takes
        }
        Ok(())
    }
}

/// A queue that was left in the midst of a turn isn't used again: `caught` ends its thread.
fn abandoned() -> Ended {
    Ended::Failed(io::Error::new(io::ErrorKind::Other, Stopped::Abandoned))
}
