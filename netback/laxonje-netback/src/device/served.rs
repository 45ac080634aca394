//! A device that its guest's process serves: what that is given, and what it says.
use super::{Device, Shared, OFFER};
use crate::guests::{Asked, Cause, Connect, QueueTold, Report};
use crate::keys::{self, FrontKeys, QueueKeys, State};
use crate::stats::add;
use crate::xen::Events;
use laxonje::{Accepts, Halt, Offers};
use std::os::unix::io::RawFd;
use std::time::{Duration, Instant};

/// How long the process of a guest may take to serve a device: it may have a filter to verify.
const CONNECTS: Duration = Duration::from_secs(30);
/// How long it may take to say what was counted.
pub const ANSWERS: Duration = Duration::from_secs(3);

/// Who serves a device.
#[derive(Debug)]
pub struct Served {
    /// The number of the process.
    process: u64,
    pub queues: usize,
    fresh: bool,
    /// Until when it has to say that the device is served. `None`: it has said so.
    awaited: Option<Instant>,
}

impl Device {
    /// Whether the guest's process is still to say that it serves the device. One that doesn't in time is ended.
    pub fn is_awaited(&mut self, shared: &Shared) -> bool {
        match self.served.as_ref().and_then(|served| served.awaited) {
            Some(until) if until <= Instant::now() => {
                shared.guests.borrow_mut().give_up(self.id.domain, "it doesn't serve a device in time");
                true
            }
            until => {
                self.later = until;
                false
            }
        }
    }

    pub fn connect(&mut self, shared: &Shared, fresh: bool) {
        // what a process before this offered stands in the node, which the guest can't write
        let earlier = if fresh { None } else { self.key(shared, OFFER).as_deref().and_then(keys::number) };
        let offered = earlier.unwrap_or_else(|| self.offered(shared));
        let front = keys::front(|key| shared.store.read(&format!("{}/{key}", self.front)), offered).map_err(|error| error.to_string());
        match front.and_then(|front| self.order_connect(shared, &front, fresh)) {
            Ok(served) => {
                self.later = served.awaited;
                self.served = Some(served);
            }
            Err(why) => self.give_up(shared, &format!("the guest isn't served: {why}")),
        }
    }

    /// Hands all that a connection takes to the guest's process. What this process has opened for it is closed here.
    fn order_connect(&mut self, shared: &Shared, front: &FrontKeys, fresh: bool) -> Result<Served, String> {
        self.connection += 1;
        shared.guests.borrow_mut().make_way(self.id.domain).map_err(|error| format!("its process: {error}"))?;
        let (offers, accepts) = self.agreed(shared, front);
        let (mut keys, mut open) = (Vec::new(), Vec::new());
        for queue in &front.queues {
            let events = Events::bind(self.id.domain, queue.event)
                .map_err(|error| format!("its event channel {} can't be bound: {error}", queue.event))?;
            let interface = &self.port.interface;
            let tap = interface.open_tap(self.port.kind).map_err(|error| format!("{}: {error}", interface.name()))?;
            tap.leave(accepts).map_err(|error| format!("{}: what its kernel leaves to the guest: {error}", interface.name()))?;
            keys.push(QueueKeys { event: events.port(), ..*queue });
            open.push((tap, events));
        }
        let connect = Connect {
            device: self.id.number,
            connection: self.connection,
            ifindex: self.port.index(),
            program: self.filter.number,
            fresh,
            notifies: front.notifies,
            scatters: front.scatters,
            offers,
            accepts,
            queues: keys,
        };
        let descriptors: Vec<RawFd> = open.iter().flat_map(|(tap, events)| [tap.fd(), events.fd()]).collect();
        let ordered = shared.guests.borrow_mut().connect(self.id.domain, &self.filter, connect, &descriptors);
        let process = ordered.map_err(|error| format!("its process: {error}"))?;
        Ok(Served { process, queues: open.len(), fresh, awaited: Some(Instant::now() + CONNECTS) })
    }

    /// What the guest may leave to this domain, as its backend's keys said, and what may be left to the guest: nothing, if it may leave nothing.
    fn agreed(&self, shared: &Shared, front: &FrontKeys) -> (Offers, Accepts) {
        let offers = keys::offers(|key| self.key(shared, key));
        let is_asked = offers != Offers::default();
        (offers, if is_asked { front.accepts } else { Accepts::default() })
    }

    pub fn asked(&self, served: &Served) -> Asked {
        Asked { device: self.id.number, queues: served.queues, counters: self.counted.len() }
    }

    /// Ends its threads, each between two turns.
    pub fn stop(&mut self, shared: &Shared) {
        if let Some(served) = self.served.take() {
            let told = shared.guests.borrow_mut().disconnect(self.id.domain, self.asked(&served), Instant::now() + ANSWERS);
            for QueueTold { counts, counters, .. } in told.unwrap_or_default() {
                self.counts.add(&counts);
                add(&mut self.counted, &counters);
            }
        }
    }

    /// Takes what the guest's process says of the device, and returns whether that changed anything. What isn't about the present connection,
    /// or comes twice, doesn't.
    pub fn said(&mut self, shared: &Shared, process: u64, report: Report) -> bool {
        let awaited = self.served.as_ref().filter(|served| served.process == process).map(|served| served.awaited.is_some());
        let is_awaited = match (awaited, &report) {
            (_, Report::Line { text, .. }) => {
                self.log.caused(text); // of the device's limit, whatever the process allows itself
                return false;
            }
            (Some(is_awaited), _) => is_awaited,
            (None, _) => return false,
        };
        match report {
            Report::Connected { connection, .. } if connection == self.connection && is_awaited => self.is_served(shared),
            Report::Failed { connection, why, .. } if connection == self.connection && is_awaited => {
                self.served = None;
                self.give_up(shared, &format!("the guest isn't served: {why}"));
            }
            Report::Ended { connection, queue, cause, .. } if connection == self.connection => self.ended(shared, queue, cause),
            _ => return false,
        }
        true
    }

    fn is_served(&mut self, shared: &Shared) {
        if let Some(served) = &mut self.served {
            served.awaited = None;
            let (queues, how) = (served.queues, if served.fresh { "connected" } else { "gone on with" });
            self.enter(shared, State::Connected);
            self.log.caused(&format_args!("{how}, {queues} queues"));
        }
    }

    /// A queue's thread has ended by itself. After a fault of this program between two turns all queues are made anew, where their rings
    /// stand. Else the device is closed, and its guest's driver has to be bound again.
    fn ended(&mut self, shared: &Shared, queue: u32, cause: Cause) {
        let bind = "the guest's driver has to be bound again";
        match cause {
            Cause::Halted(cause) => self.give_up(shared, &format!("queue {queue} halted: {}; {bind}", Halt(cause))),
            Cause::Failed(error) => self.give_up(shared, &format!("queue {queue} failed: {error}")),
            Cause::Panicked { line, stands: true } if self.renewals.allows().is_some() => {
                self.log.line(&format!("queue {queue}: a fault of this program: {line}; the queues are made anew"));
                self.stop(shared);
                self.connect(shared, false);
            }
            Cause::Panicked { line, .. } => self.give_up(shared, &format!("queue {queue}: a fault of this program: {line}; {bind}")),
        }
    }

    /// The guest's process has ended. The device is served by another, where its rings stand, if that doesn't come too often.
    pub fn process_ended(&mut self, shared: &Shared, process: u64, how: &str) {
        if self.served.as_ref().map_or(true, |served| served.process != process) {
            return;
        }
        self.served = None;
        self.counts.add_fault();
        match self.renewals.allows() {
            Some(_) => {
                self.log.line(&format!("its process has ended ({how}); another goes on"));
                self.connect(shared, false);
            }
            None => self.give_up(shared, &format!("its process has ended ({how}); the guest's driver has to be bound again")),
        }
    }
}
