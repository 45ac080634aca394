//! A process for each guest. The main process has XenStore, TAPs and CAP_NET_ADMIN, and never touches a packet. The process of a guest has
//! neither: it gets an end of a pair of sockets, and with each device the descriptors of its TAP and event channels.
mod codec;
mod messages;
mod process;
mod serving;
mod starter;

pub use messages::{Cause, Connect, Report};
pub use process::{Asked, QueueTold};
pub use serving::serve_guest;
pub use starter::start_guests;

use self::messages::{Exit, Wish, MOST_MESSAGE};
use self::process::Process;
use self::starter::{NAME, OWN_PROGRAM};
use crate::filters::Filter;
use crate::os::{wait, Socket, Wanted};
use std::collections::BTreeMap;
use std::fs::File;
use std::io;
use std::os::unix::io::RawFd;
use std::os::unix::process::CommandExt;
use std::path::Path;
use std::process::{Command, Stdio};
use std::time::{Duration, Instant};

/// How long a process that was killed may take to end.
const ENDS: Duration = Duration::from_secs(5);

/// The processes of all guests.
pub struct Guests {
    starter: Socket,
    /// The number of the process that was started last.
    count: u64,
    running: BTreeMap<u16, Process>,
    /// Ends that nobody has been told of yet.
    ended: Vec<News>,
}

/// News of a guest's process, the one with this number.
#[derive(Clone, Debug, PartialEq, Eq)]
pub enum News {
    Said { domain: u16, process: u64, report: Report },
    Ended { domain: u16, process: u64, how: String },
}

impl Guests {
    /// Starts the starter. `words` are options of each guest's process. All keep `lock` open as long as they live.
    pub fn open(words: &[String], lock: &File) -> io::Result<Guests> {
        Guests::of_program(Path::new(OWN_PROGRAM), words, lock)
    }

    fn of_program(program: &Path, words: &[String], lock: &File) -> io::Result<Guests> {
        let (starter, far) = Socket::pair()?;
        let mut command = Command::new(program);
        command.arg0(NAME).arg("start-guests").args(words);
        command.stdin(Stdio::from(far.into_descriptor())).stdout(Stdio::from(lock.try_clone()?)).spawn()?;
        Ok(Guests { starter, count: 0, running: BTreeMap::new(), ended: Vec::new() })
    }

    /// Returns the descriptors by which something may come in.
    pub fn fds(&self) -> impl Iterator<Item = RawFd> + '_ {
        [self.starter.fd()].into_iter().chain(self.running.values().filter_map(Process::fd))
    }

    /// Returns whether news waits that no descriptor shows.
    pub fn has_kept(&self) -> bool {
        !self.ended.is_empty() || self.running.values().any(Process::has_kept)
    }

    /// Takes the news of those that are ready. An error: the starter has ended.
    pub fn news(&mut self, is_ready: impl Fn(RawFd) -> bool) -> io::Result<Vec<News>> {
        let mut news = Vec::new();
        let has_news = |process: &Process| process.has_kept() || process.fd().map_or(false, &is_ready);
        let domains: Vec<u16> = self.running.iter().filter(|(_, process)| has_news(process)).map(|(domain, _)| *domain).collect();
        for domain in domains {
            let (process, (reports, taken)) = match self.running.get_mut(&domain) {
                Some(process) => (process.number, process.reports()),
                None => continue,
            };
            news.extend(reports.into_iter().map(|report| News::Said { domain, process, report }));
            if let Err(error) = taken {
                let why = Some(error.to_string()).filter(|_| error.kind() != io::ErrorKind::UnexpectedEof);
                self.end(domain, why.as_deref())?;
            }
        }
        self.take_exits()?;
        news.append(&mut self.ended);
        Ok(news)
    }

    fn take_exits(&mut self) -> io::Result<()> {
        let mut room = [0; MOST_MESSAGE];
        while let Some(length) = self.starter.take(&mut room)? {
            let Exit { number: process, how } = Exit::decode(&room[..length]).ok_or_else(|| io::Error::from(io::ErrorKind::InvalidData))?;
            let domain = self.running.iter().find(|one| one.1.number == process).map(|one| *one.0);
            if let Some(domain) = domain {
                self.running.remove(&domain);
                self.ended.push(News::Ended { domain, process, how });
            }
        }
        Ok(())
    }

    /// Has the starter kill a guest's process. `why` is logged, if it isn't that it has ended by itself.
    fn end(&mut self, domain: u16, why: Option<&str>) -> io::Result<()> {
        if let Some(process) = self.running.get_mut(&domain) {
            match why {
                Some(why) => process.doom(why),
                None => process.close(),
            }
            self.starter.send(&Wish::Kill { number: process.number }.encode())?;
        }
        Ok(())
    }

    /// Ends a guest's process that doesn't do what it is to.
    pub fn give_up(&mut self, domain: u16, why: &str) {
        let _ = self.end(domain, Some(why));
        let _ = self.await_exit(domain);
    }

    /// Waits for the end of a guest's process that is to end, if there is one: its TAPs, event channels and rings are free then.
    pub fn make_way(&mut self, domain: u16) -> io::Result<()> {
        match self.running.get(&domain) {
            Some(process) if process.is_doomed => self.await_exit(domain),
            _ => Ok(()),
        }
    }

    fn await_exit(&mut self, domain: u16) -> io::Result<()> {
        let until = Instant::now() + ENDS;
        while self.running.contains_key(&domain) {
            let left = until.saturating_duration_since(Instant::now());
            if left == Duration::ZERO {
                return Err(io::Error::new(io::ErrorKind::TimedOut, "the process before it doesn't end"));
            }
            wait(&mut [Wanted::of(self.starter.fd())], Some(left))?;
            self.take_exits()?;
        }
        Ok(())
    }

    /// The guest's process, which is started if there is none.
    fn process(&mut self, domain: u16) -> io::Result<&mut Process> {
        self.make_way(domain)?;
        if !self.running.contains_key(&domain) {
            let process = self.start(domain)?;
            self.running.insert(domain, process);
        }
        self.running.get_mut(&domain).ok_or_else(|| io::Error::from(io::ErrorKind::NotFound))
    }

    fn start(&mut self, domain: u16) -> io::Result<Process> {
        let (near, far) = Socket::pair()?;
        self.count += 1;
        self.starter.send_with(&Wish::Start { number: self.count, domain }.encode(), &[far.fd()])?;
        Ok(Process::new(self.count, domain, near))
    }

    /// Has a guest's process serve a device. Returns the number of the process.
    pub fn connect(&mut self, domain: u16, filter: &Filter, connect: Connect, descriptors: &[RawFd]) -> io::Result<u64> {
        let process = self.process(domain)?;
        let ordered = process.connect(filter, connect, descriptors);
        let number = process.number;
        self.if_ordered(domain, ordered).map(|()| number)
    }

    /// Another filter for a device.
    pub fn replace(&mut self, domain: u16, device: u32, filter: &Filter) -> io::Result<()> {
        let ordered = self.process(domain)?.replace(device, filter);
        self.if_ordered(domain, ordered)
    }

    /// A process that takes no orders is ended.
    fn if_ordered(&mut self, domain: u16, ordered: io::Result<()>) -> io::Result<()> {
        ordered.map_err(|error| {
            let _ = self.end(domain, Some(&format!("it takes no orders: {error}")));
            error
        })
    }

    /// Asks what a device has counted: `told` has the answer.
    pub fn ask(&mut self, domain: u16, device: u32) {
        if let Some(process) = self.running.get_mut(&domain) {
            let _ = process.ask(device);
        }
    }

    /// The answer to `ask`. `None`: it doesn't come in time.
    pub fn told(&mut self, domain: u16, asked: Asked, until: Instant) -> Option<Vec<QueueTold>> {
        self.running.get_mut(&domain)?.answer(asked, until).ok()
    }

    /// Ends a device's threads, and returns what they have counted. A process that doesn't do it in time is ended.
    pub fn disconnect(&mut self, domain: u16, asked: Asked, until: Instant) -> Option<Vec<QueueTold>> {
        let _ = self.make_way(domain);
        let process = self.running.get_mut(&domain)?;
        match process.disconnect(asked.device).and_then(|()| process.answer(asked, until)) {
            Ok(told) => Some(told),
            Err(error) => {
                self.give_up(domain, &error.to_string());
                None
            }
        }
    }

    /// The guest has no device any longer: its process ends.
    pub fn release(&mut self, domain: u16) {
        let _ = self.end(domain, None);
    }
}

#[cfg(test)]
mod tests;
