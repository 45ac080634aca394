//! Netback's queue of a guest.
use crate::drive::Driver;
use crate::guest::{Guest, PAGE_BYTES};
use crate::handle::SharedHandle;
use crate::offload::{Accepts, Offload};
use crate::outcome::{Awaited, DeliverError, Delivery, Flags, Grant, ReplaceError, Stopped, Turn};
use crate::program::{nanoseconds, MapSize, Program, MOST_BYTES};
use crate::segments::{OfferError, Offers, Segments};
use crate::setup::{Indices, MakeError, Setup};
use crate::shared::ShareError;
use alloc::string::String;
use alloc::vec::Vec;
use core::fmt;
use core::time::Duration;
use laxonje_sys as sys;

/// The fewest bytes of a packet that is delivered: an Ethernet header.
const LEAST_BYTES: usize = 14;

/// Netback's queue: it takes packets of a guest's tx ring, runs a program on each, and delivers packets on the rx ring.
pub struct Queue {
    pub(crate) driver: Driver,
    maps: Vec<MapSize>,
    names: Vec<String>,
    counters: Vec<u64>,
    /// Which of them is the time, if the program asks for it.
    clock: Option<usize>,
    runs_alone: bool,
}

impl Queue {
    /// Makes a queue that stands between two turns. It has the same program, with counters that are 0.
    pub fn new(program: &Program, setup: &Setup) -> Result<Queue, MakeError> {
        let driver = Driver::new(&program.handle, setup)?;
        let (maps, names) = (program.maps().to_vec(), program.map_names().to_vec());
        let (counters, clock, runs_alone) = (program.new_counters(), program.clock(), program.runs_alone());
        Ok(Queue { driver, maps, names, counters, clock, runs_alone })
    }

    /// Takes a turn: one packet at most.
    pub fn turn(&mut self, guest: &mut (impl Guest + ?Sized)) -> Turn {
        match self.driver.turn(&mut self.counters, guest) {
            Ok(over) => Turn::of(&self.driver.result_of(&over)),
            Err(why) => Turn::stopped(why),
        }
    }

    /// Takes a turn of up to `most` packets, at most [`MOST_TURNS`](crate::MOST_TURNS). Returns how many it took: [`Queue::turned`] has what became of each, in their
    /// order, and with the last of them the queue may have halted. 0: the ring had no request. A queue that has stopped answers 1, and why.
    ///
    /// The accesses of several packets are made at once, and their responses are shown by one push. If the guest shows one packet it is
    /// [`Queue::turn`].
    pub fn turns(&mut self, most: usize, guest: &mut (impl Guest + ?Sized)) -> usize {
        match self.driver.turns(most, &mut self.counters, guest) {
            Ok(count) => count,
            Err(why) => {
                self.driver.turn_stopped(why);
                1
            }
        }
    }

    /// What became of a packet of the last [`Queue::turns`], by its number from 0 on. [`Turn::Idle`]: there are fewer.
    pub fn turned(&self, number: usize) -> Turn {
        self.driver.turned().get(number).map_or(Turn::Idle, Turn::of)
    }

    /// How many slots that packet took: 0 if it was the one with which the queue has halted, or there are fewer.
    pub fn slots_of(&self, number: usize) -> u32 {
        self.driver.turned().get(number).map_or(0, |result| result.slots)
    }

    /// Copies out that packet, if its program ran, as far as there is room. How long it is. It is there until the next turn; if it was taken alone, also
    /// until the next delivery.
    pub fn packet_of(&self, number: usize, out: &mut [u8]) -> usize {
        self.driver.packet_of(number, out)
    }

    /// The last entry of the grant table that was read for that packet, as [`Queue::last_grant`].
    pub fn grant_of(&self, number: usize) -> Option<Grant> {
        self.driver.grants().of(number)
    }

    /// Delivers a packet of the host's own, which leaves nothing to the guest. The program doesn't run on it.
    pub fn deliver(&mut self, packet: &[u8], guest: &mut (impl Guest + ?Sized)) -> Result<Delivery, DeliverError> {
        self.deliver_as(packet, Offload::Nothing, guest)
    }

    /// Delivers a packet that leaves this to the guest, if the guest takes it: [`Queue::accept`]. Whether the packet's bytes are such isn't
    /// looked at.
    pub fn deliver_as(&mut self, packet: &[u8], offload: Offload, guest: &mut (impl Guest + ?Sized)) -> Result<Delivery, DeliverError> {
        let op = match self.driver.deliver(packet, offload, &mut self.counters, guest) {
            Ok(op) => op?,
            Err(why) => return Ok(Delivery::stopped(why)),
        };
        Ok(match op.outcome() {
            sys::LAXONJE_DELIVERY_SENT => Delivery::Sent { slots: op.slots() },
            sys::LAXONJE_DELIVERY_FEW_SLOTS => Delivery::FewSlots,
            sys::LAXONJE_DELIVERY_REFUSED => Delivery::Refused { slots: op.slots() },
            _ => Delivery::Abandoned,
        })
    }

    /// Asks for a notice once there are rx slots for a packet of that many bytes that leaves nothing to the guest. An error, as of
    /// [`Queue::deliver`]: no buffers would be enough.
    pub fn wait_for(&mut self, bytes: usize, guest: &mut (impl Guest + ?Sized)) -> Result<Awaited, DeliverError> {
        self.wait_for_as(bytes, Offload::Nothing, guest)
    }

    /// The same for a packet that leaves this to the guest.
    pub fn wait_for_as(&mut self, bytes: usize, offload: Offload, guest: &mut (impl Guest + ?Sized)) -> Result<Awaited, DeliverError> {
        if !(LEAST_BYTES..=MOST_BYTES).contains(&bytes) {
            return Err(DeliverError::Length);
        }
        let slots = pages_of(bytes) + offload.extras();
        let op = match self.driver.wait_for(slots, &mut self.counters, guest) {
            Ok(op) => op,
            Err(why) => return Ok(Awaited::stopped(why)),
        };
        Ok(match op.outcome() {
            sys::LAXONJE_AWAITED_POSTED => Awaited::Posted,
            sys::LAXONJE_AWAITED_WAITING => Awaited::Waiting,
            _ => Awaited::Abandoned,
        })
    }

    /// Copies out the packet of the last turn, if its program ran, or of the last delivery, as far as there is room. How long it is.
    pub fn packet(&self, out: &mut [u8]) -> usize {
        self.driver.packet(out)
    }

    /// The last entry of the grant table that the last turn, delivery or wait read. After [`Turn::Refused`] for
    /// [`Refusal::GRANT`](crate::Refusal::GRANT) or [`Refusal::RX_GRANT`](crate::Refusal::RX_GRANT), and after [`Delivery::Refused`], it is the
    /// one that was refused; but no entry is read for a reference beyond the table, so then it is that of the slot before, or `None`.
    pub fn last_grant(&self) -> Option<Grant> {
        self.driver.grants().last()
    }

    /// The flags of the first slot of the last turn's packet.
    pub fn flags(&self) -> Flags {
        Flags(self.driver.flags())
    }

    /// The segments that the last turn's packet is to make. `None`: it is to be sent as it is.
    pub fn segments(&self) -> Option<Segments> {
        self.driver.segments()
    }

    /// Makes these offers from its next turn on, in place of those that it made: a new queue makes none. They stay when its program is replaced.
    pub fn offer(&mut self, offers: Offers) -> Result<(), OfferError> {
        self.driver.offer(offers)
    }

    /// What its guest takes from the next delivery on, in place of what it took: nothing of a new queue. It stays when the program is replaced.
    pub fn accept(&mut self, accepts: Accepts) -> Result<(), OfferError> {
        self.driver.accept(accepts)
    }

    /// Where the queue stands: what another queue of the same rings is made with, to go on in its place.
    pub fn indices(&self) -> Result<Indices, Stopped> {
        self.driver.indices()
    }

    /// Goes on with another program. Counters are kept if its maps have the same names and sizes in the same order, and else are 0, and no
    /// longer shared.
    pub fn replace(&mut self, program: &Program) -> Result<(), ReplaceError> {
        let keeps = program.maps() == self.maps && program.map_names() == self.names;
        self.driver.replace(&program.handle, keeps)?;
        if !keeps {
            self.maps = program.maps().to_vec();
            self.names = program.map_names().to_vec();
            self.counters = program.new_counters();
            self.clock = program.clock();
            self.runs_alone = program.runs_alone();
        }
        Ok(())
    }

    /// Shares counters with other queues from its next turn on, as [`Counters::share`](crate::Counters::share).
    pub fn share(&mut self, counters: &mut crate::Counters) -> Result<(), ShareError> {
        counters.share(self)
    }

    pub(crate) fn share_by(&mut self, counters: &mut SharedHandle) -> Result<(), ShareError> {
        self.driver.share(counters)
    }

    /// Whether its program wants that no other queue that shares its counters takes a turn at the same time. The host sees to that.
    pub fn runs_alone(&self) -> bool {
        self.runs_alone
    }

    /// Whether its program asks for the time.
    pub fn asks_for_time(&self) -> bool {
        self.clock.is_some()
    }

    /// The time that its program gets from its next turn on, if it asks for it, up to the next call: 0 before the first. A queue that shares
    /// counters gets that of [`Counters::set_time`](crate::Counters::set_time).
    pub fn set_time(&mut self, time: Duration) {
        if let Some(word) = self.clock.and_then(|clock| self.counters.get_mut(clock)) {
            *word = nanoseconds(time);
        }
    }

    /// The program's counters: [`Program::place`] says which is where. Of a queue that shares counters these are those that it had before.
    pub fn counters(&self) -> &[u64] {
        &self.counters
    }

    /// The same, to preset them.
    pub fn counters_mut(&mut self) -> &mut [u64] {
        &mut self.counters
    }
}

/// How many pages a packet takes.
fn pages_of(bytes: usize) -> u32 {
    ((bytes + PAGE_BYTES - 1) / PAGE_BYTES) as u32
}

impl fmt::Debug for Queue {
    fn fmt(&self, to: &mut fmt::Formatter<'_>) -> fmt::Result {
        to.debug_struct("Queue").field("indices", &self.indices()).field("maps", &self.maps).finish()
    }
}
