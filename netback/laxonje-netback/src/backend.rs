//! The main process: XenStore's changes, what the processes of guests say, signals, and questions.
use crate::control::Control;
use crate::device::node::{self, Kernel};
use crate::device::{told, Device, Id, Shared};
use crate::ffi::SIGHUP;
use crate::guests::{Guests, News, Report};
use crate::keys;
use crate::log::{plain, Log};
use crate::options::Options;
use crate::os::{allow_priority, keep_capabilities, lock, restrict_to_service, wait_for_all, Keeps, Signals, Wanted, FROM_USERS};
use crate::stats;
use crate::xen::{Grants, Store};
use std::cell::RefCell;
use std::collections::{BTreeMap, BTreeSet};
use std::io;
use std::os::unix::io::RawFd;
use std::path::Path;
use std::thread::sleep;
use std::time::{Duration, Instant};

const BACKENDS: &str = "backend/vif";
const TOKEN: &str = "back";
/// Beside the kernel's xen-netback, a device that no driver is bound to is taken after this time: the kernel may be about to bind its own.
const SETTLES: Duration = Duration::from_secs(1);
/// Nobody can be answered: descriptors have run out.
const PAUSE: Duration = Duration::from_millis(10);
/// How long the processes of an earlier start may take to end.
const EARLIER: Duration = Duration::from_secs(10);
/// The most changes at once, before signals and questions have their turn.
const MOST_CHANGES: usize = 1000;

pub struct Backend {
    shared: Shared,
    control: Control,
    signals: Signals,
    devices: BTreeMap<Id, Device>,
    log: Log,
    /// Devices that aren't served, and lines about them.
    wrong: BTreeMap<Id, String>,
    /// Lines about list files that nothing reads.
    unread: Vec<String>,
    /// Devices that the kernel's xen-netback hasn't bound, and when they may be taken.
    unbound: BTreeMap<Id, Instant>,
    looked: Instant,
}

impl Backend {
    /// Opens all that is needed, and gives up what isn't.
    pub fn open(options: Options) -> io::Result<Backend> {
        let named = |what: &'static str| move |error: io::Error| io::Error::new(error.kind(), format!("{what}: {error}"));
        let signals = Signals::block(&FROM_USERS)?;
        let store = Store::open().map_err(named("XenStore"))?;
        let own = store.read("domid").and_then(|number| keys::number(&number)).and_then(|number| u16::try_from(number).ok()).unwrap_or(0);
        let log = Log::of("main");
        look_at_modules(own, &log).map_err(named("/dev/xen/gntdev (the module xen-gntdev)"))?;
        let control = Control::open(&options.socket).map_err(named("the socket"))?;
        let held = lock(&options.lock(), EARLIER).map_err(named("processes of an earlier start haven't ended"))?;
        allow_priority(options.nice);
        let guests = Guests::open(&options.words_of_guests(own), &held).map_err(named("the process that starts others"))?;
        if options.restricted {
            keep_capabilities(Keeps::Network).map_err(named("capabilities"))?;
            restrict_to_service().map_err(named("the list of system calls"))?;
        }
        store.watch(BACKENDS, TOKEN)?;
        let shared = Shared { store, options, guests: RefCell::new(guests), filters: RefCell::default() };
        let (devices, wrong, unread, unbound, looked) = (BTreeMap::new(), BTreeMap::new(), Vec::new(), BTreeMap::new(), Instant::now());
        Ok(Backend { shared, control, signals, devices, log, wrong, unread, unbound, looked })
    }

    /// Serves until a signal says to end. Guests stay connected: their packets wait for the next process.
    pub fn run(&mut self) -> io::Result<()> {
        self.log.line("serving");
        while self.round()? {}
        self.devices.values_mut().for_each(|device| device.stop(&self.shared));
        let _ = std::fs::remove_file(&self.shared.options.socket);
        self.log.line("ended; connected guests wait for the next start");
        Ok(())
    }

    /// Whether to go on. An error: no process can be started any longer.
    fn round(&mut self) -> io::Result<bool> {
        let own = [self.shared.store.fd(), self.signals.fd()];
        let asking = own.into_iter().chain(self.control.fds());
        let mut wanted: Vec<_> = asking.chain(self.shared.guests.borrow().fds()).map(Wanted::of).collect();
        if let Err(error) = wait_for_all(&mut wanted, self.time()) {
            self.log.caused(&format_args!("no events: {error}"));
            sleep(PAUSE);
        }
        if wanted[0].ready {
            let changed = self.changed();
            self.follow(changed);
        }
        let ready: BTreeSet<RawFd> = wanted.iter().filter(|one| one.ready).map(|one| one.fd).collect();
        self.take_news(&ready)?;
        self.look_again();
        if self.control.fds().any(|fd| ready.contains(&fd)) {
            self.answer();
        }
        Ok(!wanted[1].ready || self.take_signals())
    }

    /// Until when there is nothing to do without an event.
    fn time(&self) -> Option<Duration> {
        if self.shared.guests.borrow().has_kept() {
            return Some(Duration::ZERO);
        }
        let now = Instant::now();
        let device = self.devices.values().filter_map(|device| device.later).min();
        let file = self.shared.options.watch.map(|each| self.looked + each);
        let unbound = self.unbound.values().min().copied();
        device.into_iter().chain(file).chain(unbound).min().map(|at| at.saturating_duration_since(now) + Duration::from_millis(1))
    }

    /// Which devices have changed. Many changes of one device count once.
    fn changed(&mut self) -> BTreeSet<Id> {
        let mut changed = BTreeSet::new();
        for _ in 0..MOST_CHANGES {
            match self.shared.store.change() {
                None => break,
                Some(change) if change.token == TOKEN => match device_of(&change.path) {
                    Some(id) => drop(changed.insert(id)),
                    None => changed.extend(self.all()),
                },
                Some(change) => changed.extend(device_of_token(&change.token)),
            }
        }
        changed
    }

    /// Those in XenStore, and those that were.
    fn all(&self) -> BTreeSet<Id> {
        let mut all: BTreeSet<Id> = self.devices.keys().copied().collect();
        for domain in self.shared.store.list(BACKENDS) {
            let devices = self.shared.store.list(&format!("{BACKENDS}/{domain}"));
            all.extend(devices.iter().filter_map(|device| id(&domain, device)));
        }
        all
    }

    fn follow(&mut self, changed: BTreeSet<Id>) {
        let served = self.shared.options.domain;
        for id in changed.into_iter().filter(|id| served.map_or(true, |domain| domain == id.domain)) {
            if !self.devices.contains_key(&id) && self.may_take(id) {
                self.find(id);
            }
            let stays = self.devices.get_mut(&id).map_or(true, |device| device.follow(&self.shared));
            let gone = if stays { None } else { self.devices.remove(&id) };
            if let Some(device) = gone {
                device.leave(&self.shared);
                self.release(id.domain);
            }
        }
    }

    /// Whether the kernel leaves a device to this process.
    fn may_take(&mut self, id: Id) -> bool {
        let kernel = node::kernel(Path::new(node::BACKENDS), id);
        if kernel != Kernel::Unbound || self.shared.store.read(&format!("{}/frontend", id.back())).is_none() {
            self.unbound.remove(&id);
            return kernel != Kernel::Bound;
        }
        let now = Instant::now();
        let is_settled = *self.unbound.entry(id).or_insert(now + SETTLES) <= now;
        if is_settled {
            self.unbound.remove(&id);
        }
        is_settled
    }

    fn find(&mut self, id: Id) {
        let found = Device::find(&self.shared, id);
        self.say_unread();
        match found {
            Ok(Some(device)) => {
                self.wrong.remove(&id);
                self.devices.insert(id, device);
            }
            Ok(None) => drop(self.wrong.remove(&id)),
            Err(why) => {
                let known = self.wrong.insert(id, why.clone()).map_or(false, |before| before == why);
                let _ = self.shared.store.write(&format!("error/{}/error", id.back()), &why);
                if !known {
                    self.log.caused(&format_args!("domain {} device {} isn't served: {why}", id.domain, id.number));
                }
            }
        }
    }

    /// Says once which list files nothing reads.
    fn say_unread(&mut self) {
        let unread = self.shared.filters.borrow().unread();
        unread.iter().filter(|line| !self.unread.contains(line)).for_each(|line| self.log.line(line));
        self.unread = unread;
    }

    /// The process of a guest that has no device ends.
    fn release(&self, domain: u16) {
        if !self.devices.keys().any(|id| id.domain == domain) {
            self.shared.guests.borrow_mut().release(domain);
        }
    }

    fn take_news(&mut self, ready: &BTreeSet<RawFd>) -> io::Result<()> {
        let news = self.shared.guests.borrow_mut().news(|fd| ready.contains(&fd));
        let news = news.map_err(|error| io::Error::new(error.kind(), format!("the process that starts others: {error}")))?;
        for one in news {
            match one {
                News::Said { domain, process, report } => self.take_report(domain, process, report),
                News::Ended { domain, process, how } => {
                    let devices = self.devices.iter_mut().filter(|(id, _)| id.domain == domain);
                    devices.for_each(|(_, device)| device.process_ended(&self.shared, process, &how));
                }
            }
        }
        Ok(())
    }

    fn take_report(&mut self, domain: u16, process: u64, report: Report) {
        let device = report.device().and_then(|number| self.devices.get_mut(&Id { domain, number }).map(|device| (number, device)));
        match (device, report) {
            (Some((number, device)), report) => {
                if device.said(&self.shared, process, report) {
                    self.follow(BTreeSet::from([Id { domain, number }]));
                }
            }
            (None, Report::Line { text, .. }) => Log::of(&format!("domain {domain}")).line(&text),
            (None, _) => {}
        }
    }

    /// Devices whose time has come, and settings files that are looked at now and then.
    fn look_again(&mut self) {
        let now = Instant::now();
        let due = |device: &Device| device.later.map_or(false, |at| at <= now);
        let devices = self.devices.iter().filter(|(_, device)| due(device)).map(|(id, _)| *id);
        let unbound = self.unbound.iter().filter(|(_, at)| **at <= now).map(|(id, _)| *id);
        let due: BTreeSet<Id> = devices.chain(unbound).collect();
        self.follow(due);
        if self.shared.options.watch.map_or(false, |each| self.looked + each <= now) {
            self.looked = now;
            self.reload();
        }
    }

    /// What was done: a line for each device whose filter is another now, or would be, and for each list file that nothing reads.
    fn reload(&mut self) -> String {
        self.shared.filters.borrow_mut().look_again();
        let lines: Vec<_> = self.devices.values_mut().filter_map(|device| device.reload(&self.shared)).collect();
        let wrong: BTreeSet<Id> = self.wrong.keys().copied().collect();
        self.follow(wrong);
        self.say_unread();
        lines.iter().chain(&self.unread).map(|line| plain(line) + "\n").collect()
    }

    fn answer(&mut self) {
        for asked in self.control.questions() {
            let answered = asked.and_then(|asked| {
                let answer = self.answer_to(&asked.question);
                asked.answer(&answer)
            });
            if let Err(error) = answered {
                self.log.caused(&format_args!("a question isn't answered: {error}"));
                sleep(PAUSE);
            }
        }
    }

    fn answer_to(&mut self, question: &str) -> String {
        match question {
            "stats" => stats::text(&told::stats(&self.shared, self.devices.values())),
            "json" => stats::json(&told::stats(&self.shared, self.devices.values())),
            "reload" => match self.reload() {
                nothing if nothing.is_empty() => "no filter has changed\n".to_owned(),
                lines => lines,
            },
            _ => "the questions are stats, json and reload\n".to_owned(),
        }
    }

    /// Whether to go on.
    fn take_signals(&mut self) -> bool {
        while let Some(signal) = self.signals.next() {
            match signal {
                SIGHUP => drop(self.reload()),
                _ => return false,
            }
        }
        true
    }
}

/// Whether Xen's modules are there, before anything is given up.
fn look_at_modules(own: u16, log: &Log) -> io::Result<()> {
    if !Grants::open(own)?.shares() {
        log.line("Xen knows no pages of this process by references (the module xen-gntalloc): packets cost more");
    }
    if Path::new(node::BACKENDS).join("drivers/vif").exists() {
        log.line("the kernel's xen-netback is loaded: devices that it is bound to are left to it");
    }
    Ok(())
}

fn id(domain: &str, device: &str) -> Option<Id> {
    let domain = keys::number(domain).and_then(|domain| u16::try_from(domain).ok())?;
    Some(Id { domain, number: keys::number(device)? })
}

/// Whose key a path is. `None`: no device's alone.
fn device_of(path: &str) -> Option<Id> {
    let (_, below) = path.split_once("backend/vif/")?;
    let mut words = below.split('/');
    id(words.next()?, words.next()?)
}

fn device_of_token(token: &str) -> Option<Id> {
    let mut words = token.strip_prefix("front ")?.split(' ');
    id(words.next()?, words.next()?)
}

#[cfg(test)]
mod tests {
    use super::*;

    #[test]
    fn paths_and_tokens_name_a_device() {
        let device = Id { domain: 3, number: 1 };
        assert_eq!(device_of("backend/vif/3/1/state"), Some(device));
        assert_eq!(device_of("/local/domain/0/backend/vif/3/1"), Some(device));
        assert_eq!(device_of_token(&device.token()), Some(device));
        for path in ["backend/vif", "backend/vif/3", "backend/vif/x/1", "backend/vif/70000/1", "backend/vbd/3/1", ""] {
            assert_eq!(device_of(path), None, "{path}");
        }
        for token in ["back", "front", "front 3", "front 3 x", "front -1 0"] {
            assert_eq!(device_of_token(token), None);
        }
    }
}
