//! The main process's side of a guest's process: what was said to it, and what it says, of which nothing is trusted.
use super::messages::{Connect, Order, Report, MOST_MESSAGE, TEXT_PART, WORDS_PART};
use crate::filters::Filter;
use crate::log::{Limit, Log};
use crate::os::{wait, Socket, Wanted};
use crate::stats::{Counts, Rings};
use std::collections::{BTreeMap, BTreeSet, VecDeque};
use std::io;
use std::os::unix::io::RawFd;
use std::time::{Duration, Instant};

/// The most messages that nobody asked for at once, and then one in this time. A process that says more is ended.
const REPORTS: u32 = 1000;
const REPORTS_EACH: Duration = Duration::from_millis(10);
/// The most lines for the log at once, and then one in this time. More are left out.
const LINES: u32 = 50;
const LINES_EACH: Duration = Duration::from_secs(1);
/// The most messages before other events have their turn.
const AT_ONCE: usize = 64;
/// The most other messages before an answer.
const MOST_KEPT: usize = 256;

/// A question about a device, and the shape of the answer.
#[derive(Clone, Copy, Debug, PartialEq, Eq)]
pub struct Asked {
    pub device: u32,
    pub queues: usize,
    /// The number of its filter's counters.
    pub counters: usize,
}

/// The answer about a queue.
#[derive(Clone, Debug, PartialEq, Eq)]
pub struct QueueTold {
    pub counts: Counts,
    pub rings: Option<Rings>,
    pub counters: Vec<u64>,
}

/// A guest's process.
#[derive(Debug)]
pub struct Process {
    /// Its number among all that were started.
    pub number: u64,
    socket: Option<Socket>,
    /// It is to end, or has closed its end: it is given no more orders.
    pub is_doomed: bool,
    /// The filters that it has verified, and which of them a device has.
    known: BTreeSet<u64>,
    used: BTreeMap<u32, u64>,
    /// The number of the last question, and of the last about each device.
    questions: u64,
    last: BTreeMap<u32, u64>,
    kept: VecDeque<Report>,
    reports: Limit,
    lines: Limit,
    log: Log,
}

fn invalid(why: &str) -> io::Error {
    io::Error::new(io::ErrorKind::InvalidData, why)
}

impl Process {
    pub fn new(number: u64, domain: u16, socket: Socket) -> Process {
        Process {
            number,
            socket: Some(socket),
            is_doomed: false,
            known: BTreeSet::new(),
            used: BTreeMap::new(),
            questions: 0,
            last: BTreeMap::new(),
            kept: VecDeque::new(),
            reports: Limit::new(REPORTS, REPORTS_EACH),
            lines: Limit::new(LINES, LINES_EACH),
            log: Log::of(&format!("domain {domain}")),
        }
    }

    /// Returns the descriptor of its messages. `None`: none come any longer.
    pub fn fd(&self) -> Option<RawFd> {
        self.socket.as_ref().map(Socket::fd)
    }

    /// Closes this end, so that it ends.
    pub fn close(&mut self) {
        self.is_doomed = true;
        self.socket = None;
    }

    /// Says that it is to be ended, and why.
    pub fn doom(&mut self, why: &str) {
        self.log.caused(&format_args!("its process is ended: {why}"));
        self.close();
    }

    fn socket(&self) -> io::Result<&Socket> {
        self.socket.as_ref().ok_or_else(|| io::Error::from(io::ErrorKind::NotConnected))
    }

    pub fn order(&self, order: &Order) -> io::Result<()> {
        self.socket()?.send(&order.encode())
    }

    /// Has it serve a device; descriptors are those that `Order::Connect` says.
    pub fn connect(&mut self, filter: &Filter, connect: Connect, descriptors: &[RawFd]) -> io::Result<()> {
        self.give(filter)?;
        self.use_only(connect.device, filter.number)?;
        self.socket()?.send_with(&Order::Connect(connect).encode(), descriptors)
    }

    pub fn replace(&mut self, device: u32, filter: &Filter) -> io::Result<()> {
        self.give(filter)?;
        self.order(&Order::Replace { device, number: filter.number })?;
        self.use_only(device, filter.number)
    }

    /// Has it verify a filter that it doesn't know yet, or take the lists alone if it knows the one that differs in these.
    fn give(&mut self, filter: &Filter) -> io::Result<()> {
        if self.known.insert(filter.number) {
            for part in filter.text.chunks(TEXT_PART) {
                self.order(&Order::Text(part.to_vec()))?;
            }
            let lists_of = if self.known.contains(&filter.lists_of) { filter.lists_of } else { 0 };
            self.order(&Order::Program { number: filter.number, lists_of })?;
        }
        Ok(())
    }

    /// From now on a device has this filter; those that no device has are forgotten.
    fn use_only(&mut self, device: u32, number: u64) -> io::Result<()> {
        self.used.insert(device, number);
        let used: BTreeSet<u64> = self.used.values().copied().collect();
        for number in self.known.difference(&used) {
            self.order(&Order::Forget { number: *number })?;
        }
        self.known = used;
        Ok(())
    }

    /// Asks what a device has counted: `answer` has the answer.
    pub fn ask(&mut self, device: u32) -> io::Result<()> {
        let question = self.question(device);
        self.order(&Order::Tell { device, question })
    }

    /// Has it end a device's threads. The filter is forgotten with the next that another device gets.
    pub fn disconnect(&mut self, device: u32) -> io::Result<()> {
        self.used.remove(&device);
        let question = self.question(device);
        self.order(&Order::Disconnect { device, question })
    }

    fn question(&mut self, device: u32) -> u64 {
        self.questions += 1;
        self.last.insert(device, self.questions);
        self.questions
    }

    /// Takes its messages that nobody asked for. An error: it has to end, and why.
    pub fn reports(&mut self) -> (Vec<Report>, io::Result<()>) {
        let mut came: Vec<_> = self.kept.drain(..).collect();
        let taken = self.take_some(&mut came);
        (came.into_iter().filter_map(|report| self.allowed(report)).collect(), taken)
    }

    fn take_some(&mut self, came: &mut Vec<Report>) -> io::Result<()> {
        for _ in 0..AT_ONCE {
            match self.take()? {
                Some(report) => came.push(report),
                None => return Ok(()),
            }
            self.reports.allows().ok_or_else(|| invalid("it says too much"))?;
        }
        Ok(())
    }

    /// Returns whether a message was left for later.
    pub fn has_kept(&self) -> bool {
        !self.kept.is_empty()
    }

    /// A line is left out if there are too many.
    fn allowed(&mut self, report: Report) -> Option<Report> {
        match report {
            Report::Line { device, text } => self.lines.allows().map(|skipped| Report::Line { device, text: text + &skipped }),
            other => Some(other),
        }
    }

    fn take(&self) -> io::Result<Option<Report>> {
        let mut room = [0; MOST_MESSAGE];
        let length = match self.socket()?.take(&mut room)? {
            Some(length) => length,
            None => return Ok(None),
        };
        Report::decode(&room[..length]).map(Some).ok_or_else(|| invalid("it says what is no message"))
    }

    /// Waits for its answer to the last question about a device. What else it says is kept, but late answers aren't.
    pub fn answer(&mut self, asked: Asked, until: Instant) -> io::Result<Vec<QueueTold>> {
        let nothing = QueueTold { counts: Counts::default(), rings: None, counters: vec![0; asked.counters] };
        let mut told = vec![nothing; asked.queues];
        let parts = asked.queues * (2 + asked.counters / WORDS_PART);
        let question = self.last.get(&asked.device).copied().unwrap_or(0);
        for _ in 0..parts + MOST_KEPT {
            let report = self.await_report(until)?;
            match asked.add(question, report, &mut told) {
                Added::All => return Ok(told),
                Added::Part => {}
                Added::Other(report) => self.kept.push_back(report),
            }
            if self.kept.len() > MOST_KEPT {
                break;
            }
        }
        Err(invalid("it says too much"))
    }

    fn await_report(&mut self, until: Instant) -> io::Result<Report> {
        loop {
            if let Some(report) = self.take()? {
                return Ok(report);
            }
            let left = until.saturating_duration_since(Instant::now());
            if left == Duration::ZERO {
                return Err(io::Error::new(io::ErrorKind::TimedOut, "it doesn't answer"));
            }
            wait(&mut [Wanted::of(self.socket()?.fd())], Some(left))?;
        }
    }
}

/// A report, as seen by whoever waits for an answer.
enum Added {
    All,
    Part,
    Other(Report),
}

impl Asked {
    /// Takes a part of the answer to a question. What is about a queue or a counter that isn't there is left.
    fn add(&self, question: u64, report: Report, told: &mut [QueueTold]) -> Added {
        match report {
            Report::Counted { device, question: of, queue, counts, rings } => {
                let told = told.get_mut(queue as usize).filter(|_| (device, of) == (self.device, question));
                if let Some(told) = told {
                    (told.counts, told.rings) = (*counts, rings);
                }
                Added::Part
            }
            Report::Counters { device, question: of, queue, from, words } => {
                let told = told.get_mut(queue as usize).filter(|_| (device, of) == (self.device, question));
                let start = from as usize;
                let room = told.and_then(|told| told.counters.get_mut(start..start.checked_add(words.len())?));
                if let Some(room) = room {
                    room.copy_from_slice(&words);
                }
                Added::Part
            }
            Report::Done { device, question: of } if (device, of) == (self.device, question) => Added::All,
            Report::Done { .. } => Added::Part,
            other => Added::Other(other),
        }
    }
}

#[cfg(test)]
mod tests {
    use super::*;
    use crate::stats::COUNTS;
    use laxonje::{Accepts, Offers};

    const ASKED: Asked = Asked { device: 3, queues: 2, counters: 4 };

    fn pair() -> (Process, Socket) {
        let (near, far) = Socket::pair().unwrap();
        (Process::new(1, 7, near), far)
    }

    fn soon() -> Instant {
        Instant::now() + Duration::from_secs(20)
    }

    fn says(far: &Socket, reports: &[Report]) {
        reports.iter().for_each(|report| far.send(&report.encode()).unwrap());
    }

    fn counters(question: u64, queue: u32, from: u32, count: usize) -> Report {
        Report::Counters { device: 3, question, queue, from, words: vec![9; count] }
    }

    #[test]
    fn an_answer_has_the_queues_and_counters_that_there_are_whatever_is_said() {
        let (mut process, far) = pair();
        let counted = |queue| Report::Counted { device: 3, question: 2, queue, counts: Box::new(Counts([u64::MAX; COUNTS])), rings: None };
        let line = Report::Line { device: None, text: "a line".to_owned() };
        let done = |device, question| Report::Done { device, question };
        process.ask(3).and_then(|()| process.ask(3)).unwrap();
        let lies = [counters(2, 2, 0, 1), counters(2, 0, 4, 1), counters(2, 0, 3, 2), counters(2, 0, u32::MAX, 1), counted(u32::MAX)];
        says(&far, &lies);
        says(&far, &[counters(1, 0, 0, 4), counters(2, 1, 2, 2), line.clone(), counted(1)]);
        says(&far, &[done(3, 1), done(4, 2), done(3, 2)]);
        let told = process.answer(ASKED, soon()).unwrap();
        assert_eq!((&told[0].counters, &told[1].counters), (&vec![0; 4], &vec![0, 0, 9, 9]));
        assert_eq!((told[0].counts, told[1].counts), (Counts::default(), Counts([u64::MAX; COUNTS])));
        assert!(process.has_kept());
        assert_eq!(process.reports().0, [line]);
    }

    #[test]
    fn what_is_no_message_too_long_or_the_end_ends_the_process() {
        for message in [&[99][..], &[0; 3], &[0; MOST_MESSAGE + 1], &[]] {
            let (mut process, far) = pair();
            far.send(message).unwrap();
            assert!(process.reports().1.is_err(), "{}", message.len());
        }
        let (mut process, far) = pair();
        drop(far);
        // a program that another test starts may have a copy for a moment
        let has_ended = (0..2000).any(|_| {
            std::thread::sleep(Duration::from_millis(10));
            process.reports().1.is_err()
        });
        assert!(has_ended && process.answer(ASKED, soon()).is_err());
    }

    #[test]
    fn one_that_does_not_answer_is_not_waited_for() {
        let (mut process, _far) = pair();
        let began = Instant::now();
        let error = process.answer(ASKED, began + Duration::from_millis(50)).unwrap_err();
        assert_eq!(error.kind(), io::ErrorKind::TimedOut);
        assert!(began.elapsed() >= Duration::from_millis(50));
    }

    #[test]
    fn one_that_says_too_much_is_ended_and_its_lines_are_few() {
        let (mut process, far) = pair();
        let line = Report::Line { device: Some(3), text: "x".to_owned() };
        let (mut lines, began) = (0, Instant::now());
        let ended = (0..10_000).find_map(|_| {
            far.send(&line.encode()).unwrap();
            let (came, taken) = process.reports();
            lines += came.len() as u128;
            taken.err()
        });
        assert_eq!(ended.map(|error| error.to_string()).as_deref(), Some("it says too much"));
        let meanwhile = began.elapsed().as_millis() / LINES_EACH.as_millis();
        assert!((50..=51 + meanwhile).contains(&lines), "{lines}");
        let (mut process, far) = pair();
        let flood = std::thread::spawn(move || while far.send(&line.encode()).is_ok() {});
        assert_eq!(process.answer(ASKED, soon()).unwrap_err().to_string(), "it says too much");
        process.close();
        flood.join().unwrap();
    }

    #[test]
    fn a_filter_is_given_once_and_forgotten_when_no_device_has_it() {
        let (mut process, far) = pair();
        let filter = |number, lists_of| {
            let text = include_bytes!("../../../../examples/count-protocols/settings.toml").to_vec();
            let program = laxonje::Program::from_settings(&text).unwrap();
            Filter { path: "f.toml".into(), program, text, number, lists_of, offers: Offers::ALL }
        };
        let connect = |device| Connect {
            device,
            connection: 1,
            ifindex: 1,
            program: 0,
            fresh: true,
            notifies: true,
            scatters: true,
            offers: Offers::ALL,
            accepts: Accepts::ALL,
            queues: Vec::new(),
        };
        let (first, second) = (filter(1, 0), filter(2, 1));
        let said = || {
            let mut room = [0; MOST_MESSAGE];
            let orders = std::iter::from_fn(|| far.take(&mut room).unwrap().map(|length| Order::decode(&room[..length]).unwrap()));
            orders.filter(|order| !matches!(order, Order::Text(_))).collect::<Vec<_>>()
        };
        process.connect(&first, connect(0), &[]).unwrap();
        process.connect(&first, connect(1), &[]).unwrap();
        assert_eq!(said(), [Order::Program { number: 1, lists_of: 0 }, Order::Connect(connect(0)), Order::Connect(connect(1))]);
        process.replace(0, &second).unwrap();
        assert_eq!(said(), [Order::Program { number: 2, lists_of: 1 }, Order::Replace { device: 0, number: 2 }]);
        process.replace(1, &second).unwrap();
        assert_eq!(said(), [Order::Replace { device: 1, number: 2 }, Order::Forget { number: 1 }]);
        process.replace(1, &first).unwrap();
        assert_eq!(said(), [Order::Program { number: 1, lists_of: 0 }, Order::Replace { device: 1, number: 1 }]);
        // the one whose lists it would have isn't there any longer
        process.replace(0, &filter(4, 3)).unwrap();
        assert_eq!(said()[0], Order::Program { number: 4, lists_of: 0 });
    }
}
