//! A device of a guest: its states, its TAP, its filter and its queues.
pub mod node;
mod port;
mod served;
pub mod told;

use self::node::Kernel;
use self::port::Port;
use self::served::Served;
use crate::filters::{self, Filter, FilterError, Filters, Guest};
use crate::guests::Guests;
use crate::keys::{self, State, Step};
use crate::log::{Limit, Log};
use crate::options::Options;
use crate::os::TapKind;
use crate::stats::Counts;
use crate::xen::Store;
use std::cell::RefCell;
use std::path::Path;
use std::rc::Rc;
use std::time::{Duration, Instant};

/// How often a guest may connect at once, and then once in this time.
const CONNECTIONS: u32 = 10;
const CONNECTS_EACH: Duration = Duration::from_millis(500);
/// How often a device's queues are made anew after a fault of this program, and then once in this time. One more closes the device.
const RENEWALS: u32 = 3;
const RENEWS_EACH: Duration = Duration::from_secs(60);
const MOST_STEPS: usize = 4;
/// The key that says how many queues are offered.
const OFFER: &str = "multi-queue-max-queues";

/// Which device: the guest's domain and its number.
#[derive(Clone, Copy, Debug, PartialEq, Eq, PartialOrd, Ord)]
pub struct Id {
    pub domain: u16,
    pub number: u32,
}

impl Id {
    pub fn back(self) -> String {
        format!("backend/vif/{}/{}", self.domain, self.number)
    }

    /// The token of the watch of its frontend's state.
    pub fn token(self) -> String {
        format!("front {} {}", self.domain, self.number)
    }
}

/// What is the same for all devices.
pub struct Shared {
    pub store: Store,
    pub options: Options,
    pub guests: RefCell<Guests>,
    pub filters: RefCell<Filters>,
}

pub struct Device {
    id: Id,
    front: String,
    guest: Guest,
    state: Option<State>,
    port: Port,
    filter: Rc<Filter>,
    /// Who serves it, if it is connected or about to be.
    served: Option<Served>,
    /// What connections that have ended counted, and their programs.
    counts: Counts,
    counted: Vec<u64>,
    connection: u64,
    pub log: Log,
    connects: Limit,
    renewals: Limit,
    /// The last line about a filter that isn't taken.
    said: String,
    /// The guest connects more often than it may: look again then.
    pub later: Option<Instant>,
}

/// The state of a frontend. `None`: its folder is gone, and so is the guest. What is no state is one that nothing is done for.
fn front_state(store: &Store, front: &str) -> Option<State> {
    let text = store.read(&format!("{front}/state"))?;
    State::of(Some(&text)).or(Some(State::Initialised))
}

/// The filter that a device has to have now.
fn filter_of(shared: &Shared, id: Id, guest: &Guest) -> Result<Rc<Filter>, FilterError> {
    let key = node::key(&shared.store, id, "filter");
    shared.filters.borrow_mut().find(filters::places(&shared.options.filters, key.as_deref(), guest, id.number))
}

impl Device {
    /// A device whose node the toolstack has written. `Ok(None)`: the node isn't whole yet, or is going.
    pub fn find(shared: &Shared, id: Id) -> Result<Option<Device>, String> {
        let key = |name: &str| node::key(&shared.store, id, name);
        let front = match key("frontend") {
            Some(front) => front,
            None => return Ok(None),
        };
        if key("online").as_deref() == Some("0") || front_state(&shared.store, &front).is_none() {
            return Ok(None);
        }
        if let (Some(why), false) = (node::goes_around(key("type").as_deref()), shared.options.with_emulated) {
            return Err(why);
        }
        let guest = node::guest(&shared.store, id);
        let filter = filter_of(shared, id, &guest).map_err(|error| error.to_string())?;
        let port = Port::make(shared, id).map_err(|error| format!("its interface: {error}"))?;
        let mut device = Device {
            id,
            front,
            state: None,
            log: Log::of(port.interface.name()),
            port,
            served: None,
            counts: Counts::default(),
            counted: filter.program.new_counters(),
            filter,
            guest,
            connection: 0,
            connects: Limit::new(CONNECTIONS, CONNECTS_EACH),
            renewals: Limit::new(RENEWALS, RENEWS_EACH),
            said: String::new(),
            later: None,
        };
        if let Err(error) = shared.store.watch(&format!("{}/state", device.front), &id.token()) {
            let _ = device.port.remove();
            return Err(error.to_string());
        }
        device.say_found(key("rate"));
        Ok(Some(device))
    }

    fn say_found(&self, rate: Option<String>) {
        let Device { id, guest, filter, log, .. } = self;
        log.line(&format!("found for domain {} ({}), filter {}", id.domain, guest.name, filter.path.display()));
        if *guest == Guest::default() {
            log.line("the guest's name and UUID can't be read here: no file by them is looked for");
        }
        if let Some(rate) = rate {
            log.line(&format!("its rate isn't limited: the key rate ({rate}) is ignored"));
        }
    }

    fn key(&self, shared: &Shared, name: &str) -> Option<String> {
        node::key(&shared.store, self.id, name)
    }

    /// Does what comes next. Returns whether the device is still there.
    pub fn follow(&mut self, shared: &Shared) -> bool {
        self.later = None;
        if self.is_awaited(shared) {
            return true;
        }
        let _ = self.port.follow();
        if node::kernel(Path::new(node::BACKENDS), self.id) == Kernel::Bound {
            self.log.line("the kernel's driver has taken it");
            return false;
        }
        for _ in 0..MOST_STEPS {
            let front = front_state(&shared.store, &self.front);
            let stored = State::of(self.key(shared, "state").as_deref());
            if stored.is_none() && self.state.is_some() {
                return false; // the toolstack took the node away
            }
            let online = self.key(shared, "online").as_deref() != Some("0");
            match keys::next(self.state, stored, front, online) {
                Step::Stay => return true,
                Step::Leave => return false,
                Step::Offer => self.offer(shared),
                Step::Connect | Step::Resume if self.served.is_some() => return true,
                Step::Connect if !self.may_connect(shared) => return true,
                Step::Connect => self.connect(shared, true),
                Step::Resume => self.connect(shared, false),
                Step::Close => self.close(shared, State::Closing),
                Step::Closed => self.close(shared, State::Closed),
            }
        }
        true
    }

    fn put(&self, shared: &Shared, name: &str, value: &str) {
        if let Err(error) = shared.store.write(&format!("{}/{name}", self.id.back()), value) {
            self.log.line(&format!("the key {name} isn't written: {error}"));
        }
    }

    fn enter(&mut self, shared: &Shared, state: State) {
        self.state = Some(state);
        self.put(shared, "state", &state.to_string());
    }

    fn offer(&mut self, shared: &Shared) {
        self.stop(shared);
        if matches!(self.port.follow(), Ok(false)) {
            // somebody took it away
            match Port::make(shared, self.id) {
                Ok(port) => self.port = port,
                Err(error) => self.log.caused(&format_args!("there is no interface: {error}")),
            }
        }
        for (name, value) in [("feature-sg", "1"), ("feature-rx-copy", "1"), ("feature-ipv6-csum-offload", "1")] {
            self.put(shared, name, value);
        }
        for (name, value) in keys::offers_said(self.port.offers(self.filter.offers)) {
            self.put(shared, name, value);
        }
        self.put(shared, OFFER, &self.offered(shared).to_string());
        self.enter(shared, State::InitWait);
    }

    /// How many queues are offered: those that the TAP device can have.
    fn offered(&self, shared: &Shared) -> u32 {
        match self.port.kind {
            TapKind::One => 1,
            TapKind::Several => node::queues(&shared.store, self.id, shared.options.queues),
        }
    }

    /// Whether the toolstack's script is through, and the guest doesn't connect too often.
    fn may_connect(&mut self, shared: &Shared) -> bool {
        if self.key(shared, "script").is_some() && self.key(shared, "hotplug-status").as_deref() != Some("connected") {
            return false;
        }
        let may = self.connects.allows().is_some();
        if !may {
            self.later = Some(Instant::now() + CONNECTS_EACH);
        }
        may
    }

    /// Closes the device, and says why.
    fn give_up(&mut self, shared: &Shared, why: &str) {
        self.stop(shared);
        let _ = shared.store.write(&format!("error/{}/error", self.id.back()), why);
        self.log.caused(&why);
        self.enter(shared, State::Closing);
    }

    fn close(&mut self, shared: &Shared, state: State) {
        if self.served.is_some() {
            self.log.caused(&"disconnected");
        }
        self.stop(shared);
        self.enter(shared, state);
    }

    /// The device goes, and its TAP too.
    pub fn leave(mut self, shared: &Shared) {
        self.stop(shared);
        let _ = shared.store.unwatch(&format!("{}/state", self.front), &self.id.token());
        if let Err(error) = self.port.remove() {
            self.log.line(&format!("the interface stays: {error}"));
        }
        self.log.line("gone");
    }

    /// Looks for the filter anew, by the guest's present name. Returns what was done, if anything was. The log has it once.
    pub fn reload(&mut self, shared: &Shared) -> Option<String> {
        self.guest = node::guest(&shared.store, self.id);
        let said = match filter_of(shared, self.id, &self.guest) {
            Ok(filter) if Rc::ptr_eq(&filter, &self.filter) => {
                self.said.clear();
                return None;
            }
            Ok(filter) => self.replace(shared, filter),
            Err(error) => format!("the filter stays: {error}"),
        };
        if said != self.said {
            self.log.line(&said);
        }
        self.said = said.clone();
        Some(format!("{}: {said}", self.port.interface.name()))
    }

    fn replace(&mut self, shared: &Shared, filter: Rc<Filter>) -> String {
        if self.served.is_some() {
            let replaced = shared.guests.borrow_mut().replace(self.id.domain, self.id.number, &filter);
            if let Err(error) = replaced {
                return format!("the filter stays: {error}");
            }
        }
        if !filter.counts_as(&self.filter) {
            self.counted = filter.program.new_counters();
        }
        let before = std::mem::replace(&mut self.filter, filter);
        let Filter { path, program, lists_of, offers, .. } = &*self.filter;
        if *lists_of == before.number {
            return format!("the lists are now those of {}", path.display());
        }
        let later = if *offers == before.offers { "" } else { ", and its key gso counts from the guest's next connection on" };
        format!("the filter is now {}, {} instructions{later}", path.display(), program.instructions())
    }
}
