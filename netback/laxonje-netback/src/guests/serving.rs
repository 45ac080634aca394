//! The process of a guest: it takes the main process's orders, and serves the guest's devices by threads. It has no capability.
use super::messages::{Cause, Connect, Order, Report, MOST_MESSAGE, WORDS_PART};
use crate::filters::{loaded, relisted};
use crate::keys::QueueKeys;
use crate::log::{self, Log, Logs};
use crate::options::Options;
use crate::os::{
    end_by_faults, keep_capabilities, limit_memory, look_for_memory, restrict_to_guest, set_name, set_priority, wait, Keeps, Signals,
    Socket, Tap, Wanted, FROM_USERS,
};
use crate::serve::{self, make_queue, queue_bytes, Ended, Handle, Place, Reports, SharedCounters, Told, Way, Worker, XenGuest};
use crate::stats::Totals;
use crate::xen::{Events, Grants};
use laxonje::{LoadError, Program};
use std::collections::BTreeMap;
use std::io::{self, Read};
use std::os::unix::io::{AsRawFd, OwnedFd};
use std::os::unix::net::UnixStream;
use std::sync::atomic::{AtomicUsize, Ordering};
use std::sync::mpsc::{channel, Receiver};
use std::sync::{Arc, Once};
use std::time::{Duration, Instant};

/// A queue's thread answers between two turns.
const PATIENCE: Duration = Duration::from_secs(1);
/// A longer text of settings is cut off: `Program::from_settings` refuses it then.
const MOST_TEXT: usize = (1 << 20) + 1;
/// The memory that is to be left beside queues: to verify another filter, and for messages.
const SPARE_BYTES: usize = 8 << 20;
const MEGABYTE: u64 = 1 << 20;

struct Serving {
    domain: u16,
    way: Way,
    main: Arc<Socket>,
    grants: Result<Grants, String>,
    reports: Reports,
    reported: Receiver<serve::Report>,
    woken: UnixStream,
    text: Vec<u8>,
    programs: BTreeMap<u64, Program>,
    devices: BTreeMap<u32, Served>,
    logs: Logs,
    log: Log,
}

/// A device that is connected.
#[derive(Default)]
struct Served {
    queues: Vec<Handle>,
    totals: Vec<Arc<Totals>>,
    counters: SharedCounters,
}

/// Serves a guest's devices until the main process closes its end. `own`: the number of this domain.
pub fn serve_guest(domain: u16, own: u16, options: &Options) -> io::Result<()> {
    let _from_users = Signals::block(&FROM_USERS)?;
    end_by_faults();
    set_name("laxonje-guest")?;
    limit_memory(u64::from(options.memory) * MEGABYTE)?;
    let main = Arc::new(Socket::of_input()?);
    send_lines(Arc::clone(&main));
    let log = Log::of("guest");
    if let Err(error) = set_priority(options.nice) {
        log.line(&format!("the priority of queues isn't {}: {error}", options.nice));
    }
    let grants = Grants::open(own).map_err(|error| format!("/dev/xen/gntdev: {error}"));
    let (to, reported) = channel();
    let (wake, woken) = UnixStream::pair()?;
    wake.set_nonblocking(true)?;
    woken.set_nonblocking(true)?;
    // one that takes all memory is ended before others, which the service manager may have protected; an error: it wasn't
    let _ = std::fs::write("/proc/self/oom_score_adj", "0");
    if options.restricted {
        keep_capabilities(Keeps::Nothing)?;
        restrict_to_guest()?;
    }
    let reports = Reports { to, wake: Arc::new(wake), restricted: options.restricted };
    let (text, programs, devices, logs) = (Vec::new(), BTreeMap::new(), BTreeMap::new(), Logs::default());
    let mut serving = Serving { domain, way: options.way, main, grants, reports, reported, woken, text, programs, devices, logs, log };
    while serving.round()? {}
    Ok(())
}

/// Lines go to the main process, which writes them. One that it has no room for is left out.
fn send_lines(main: Arc<Socket>) {
    log::send_to(Box::new(move |about, text| {
        let line = Report::Line { device: about.parse().ok(), text: text.to_owned() };
        let _ = main.send_at_once(&line.encode());
    }));
}

impl Serving {
    /// Returns whether to go on.
    fn round(&mut self) -> io::Result<bool> {
        let mut wanted = [Wanted::of(self.main.fd()), Wanted::of(self.woken.as_raw_fd())];
        wait(&mut wanted, None)?;
        if wanted[1].ready {
            self.report_ends()?;
        }
        if !wanted[0].ready {
            return Ok(true);
        }
        let mut room = [0; MOST_MESSAGE];
        match self.main.take_with(&mut room) {
            Ok(Some((length, descriptors))) => {
                let order = Order::decode(&room[..length]).ok_or_else(|| io::Error::from(io::ErrorKind::InvalidData))?;
                self.obey(order, descriptors).map(|()| true)
            }
            Ok(None) => Ok(true),
            Err(error) if error.kind() == io::ErrorKind::UnexpectedEof => Ok(false),
            Err(error) => Err(error),
        }
    }

    fn obey(&mut self, order: Order, descriptors: Vec<OwnedFd>) -> io::Result<()> {
        match order {
            Order::Text(part) => self.text.extend(part.iter().take(MOST_TEXT.saturating_sub(self.text.len()))),
            Order::Program { number, lists_of } => self.verify(number, lists_of),
            Order::Forget { number } => drop(self.programs.remove(&number)),
            Order::Connect(connect) => {
                let (device, connection) = (connect.device, connect.connection);
                let report = match self.connect(&connect, descriptors) {
                    Ok(()) => Report::Connected { device, connection },
                    Err(why) => Report::Failed { device, connection, why },
                };
                self.main.send(&report.encode())?;
            }
            Order::Replace { device, number } => self.replace(device, number),
            Order::Tell { device, question } => self.tell(device, question)?,
            Order::Disconnect { device, question } => self.disconnect(device, question)?,
        }
        Ok(())
    }

    /// The main process has verified the text too. A program that differs in its lists alone isn't verified.
    fn verify(&mut self, number: u64, lists_of: u64) {
        let text = std::mem::take(&mut self.text);
        let known = self.programs.get(&lists_of).and_then(|program| relisted(program, &text));
        match known.map_or_else(|| self.verified(&text, lists_of), Ok) {
            Ok(program) => drop(self.programs.insert(number, program)),
            Err(error) => self.log.line(&format!("a filter isn't accepted: {error}")),
        }
    }

    fn verified(&self, text: &[u8], lists_of: u64) -> Result<Program, LoadError> {
        if lists_of != 0 {
            self.log.line("a filter of which the lists alone are others is verified anew");
        }
        loaded(text)
    }

    fn connect(&mut self, connect: &Connect, descriptors: Vec<OwnedFd>) -> Result<(), String> {
        let (program, count) = (self.programs.get(&connect.program).ok_or("its filter isn't accepted")?, connect.queues.len());
        look_for_memory(SPARE_BYTES + count * queue_bytes(program)).map_err(|error| format!("{count} queues: {error}: see --memory"))?;
        let (stalled, log) = (Arc::new(AtomicUsize::new(0)), self.logs.of(connect.device));
        let mut descriptors = descriptors.into_iter();
        let mut workers = Vec::new();
        for (number, keys) in (0..).zip(&connect.queues) {
            let (tap, events) = descriptors.next().zip(descriptors.next()).ok_or("too few descriptors")?;
            let totals = Arc::new(Totals::default());
            let guest = self.guest(keys, connect.fresh, Arc::clone(&totals), &log)?;
            let events = Events::of(events, keys.event).map_err(|error| format!("its event channel: {error}"))?;
            let mut queue = make_queue(program, &guest, self.domain, connect.ifindex, number).map_err(|error| error.to_string())?;
            queue.offer(connect.offers).and_then(|()| queue.accept(connect.accepts)).map_err(|error| error.to_string())?;
            let place = Place { domain: self.domain, device: connect.device, queue: number, connection: connect.connection };
            let (stalled, log) = (Arc::clone(&stalled), log.clone());
            let (notifies, scatters) = (connect.notifies, connect.scatters);
            let (tap, counters) = (Tap::of(tap), SharedCounters::default());
            workers.push(Worker { place, guest, events, queue, counters, tap, totals, stalled, log, notifies, scatters });
        }
        let counters = SharedCounters::of(program, workers.len());
        workers.iter_mut().for_each(|worker| worker.share(counters.clone()));
        self.start(connect.device, workers, counters)
    }

    /// Maps a queue's rings.
    fn guest(&self, keys: &QueueKeys, fresh: bool, totals: Arc<Totals>, log: &Log) -> Result<XenGuest<Grants>, String> {
        static NO_PAGES: Once = Once::new();
        let grants = self.grants.clone()?;
        let (shares, counted) = (grants.shares(), Arc::clone(&totals));
        let guest = XenGuest::connect(self.domain, keys, fresh, self.way, grants, totals).map_err(|error| error.to_string())?;
        if self.way == Way::Copy && shares && counted.shared_pages.load(Ordering::Relaxed) == 0 {
            NO_PAGES.call_once(|| log.line("no more pages that Xen knows by references (the limit= of xen-gntalloc): packets cost more"));
        }
        Ok(guest)
    }

    fn start(&mut self, device: u32, workers: Vec<Worker>, counters: SharedCounters) -> Result<(), String> {
        let (mut served, mut started) = (Served { counters, ..Served::default() }, Ok(()));
        for worker in workers {
            let totals = Arc::clone(&worker.totals);
            match worker.start(self.reports.clone()) {
                Ok(queue) => {
                    served.queues.push(queue);
                    served.totals.push(totals);
                }
                Err(error) => started = Err(error.to_string()),
            }
        }
        match started {
            Ok(()) => drop(self.devices.insert(device, served)),
            Err(_) => drop(served.queues.into_iter().map(Handle::stop).collect::<Vec<_>>()),
        }
        started
    }

    fn replace(&mut self, device: u32, number: u64) {
        let (program, served) = match (self.programs.get(&number), self.devices.get_mut(&device)) {
            (Some(program), Some(served)) => (program, served),
            _ => return,
        };
        served.counters.replace(program, served.queues.len());
        for queue in &mut served.queues {
            match program.try_clone() {
                Ok(program) => drop(queue.order(serve::Order::Replace(program, served.counters.clone()))),
                Err(error) => self.log.line(&format!("the filter stays: {error}")),
            }
        }
    }

    fn tell(&mut self, device: u32, question: u64) -> io::Result<()> {
        let served = match self.devices.get_mut(&device) {
            Some(served) => served,
            None => return self.main.send(&Report::Done { device, question }.encode()),
        };
        let ask = |queue: &mut Handle| {
            let (to, told) = channel();
            queue.order(serve::Order::Tell(to)).then_some(told)
        };
        let asked: Vec<_> = served.queues.iter_mut().map(ask).collect();
        let until = Instant::now() + PATIENCE;
        let wait = |told: Receiver<Told>| told.recv_timeout(until.saturating_duration_since(Instant::now())).ok();
        let mut told: Vec<_> = asked.into_iter().map(|asked| asked.and_then(wait)).collect();
        served.counters.add_to(&mut told);
        send_counts(&self.main, (device, question), served, &told)
    }

    fn disconnect(&mut self, device: u32, question: u64) -> io::Result<()> {
        let mut served = match self.devices.remove(&device) {
            Some(served) => served,
            None => return self.main.send(&Report::Done { device, question }.encode()),
        };
        let stop = |queue: Handle| Some(Told { counters: queue.stop(), rings: None });
        let mut told: Vec<_> = std::mem::take(&mut served.queues).into_iter().map(stop).collect();
        served.counters.add_to(&mut told);
        for totals in &served.totals {
            Totals::set(&totals.shared_pages, 0);
        }
        send_counts(&self.main, (device, question), &served, &told)
    }

    /// Threads that have ended by themselves.
    fn report_ends(&mut self) -> io::Result<()> {
        let _ = self.woken.read(&mut [0; 64]);
        while let Ok(serve::Report { place, why }) = self.reported.try_recv() {
            let cause = match why {
                Ended::Halted(cause) => Cause::Halted(cause.0),
                Ended::Failed(error) => Cause::Failed(error.to_string()),
                Ended::Panicked(fault) => Cause::Panicked { line: fault.line, stands: fault.stands },
                Ended::Stopped => continue,
            };
            let Place { device, connection, queue, .. } = place;
            self.main.send(&Report::Ended { device, connection, queue, cause }.encode())?;
        }
        Ok(())
    }
}

/// Sends what the queues of a device have counted. Parts without a counter above 0 are left out.
fn send_counts(main: &Socket, (device, question): (u32, u64), served: &Served, told: &[Option<Told>]) -> io::Result<()> {
    for ((queue, totals), told) in (0..).zip(&served.totals).zip(told) {
        let rings = told.as_ref().and_then(|told| told.rings);
        main.send(&Report::Counted { device, question, queue, counts: Box::new(totals.counts()), rings }.encode())?;
        let counters = told.as_ref().map_or(&[][..], |told| &told.counters);
        for (part, words) in counters.chunks(WORDS_PART).enumerate().filter(|(_, words)| words.iter().any(|word| *word > 0)) {
            let from = (part * WORDS_PART) as u32;
            main.send(&Report::Counters { device, question, queue, from, words: words.to_vec() }.encode())?;
        }
    }
    main.send(&Report::Done { device, question }.encode())
}
