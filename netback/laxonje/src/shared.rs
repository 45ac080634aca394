//! Counters that queues share.
use crate::handle::SharedHandle;
use crate::program::{nanoseconds, MapSize, Program, CLOCK_MAP};
use crate::queue::Queue;
use alloc::string::String;
use alloc::vec::Vec;
use core::fmt;
use core::time::Duration;
use laxonje_sys as sys;

/// The most queues that share counters.
pub const MOST_SHARES: usize = sys::LAXONJE_SHARES;

/// A program's counters, which queues on any threads share: all operations of their programs are one history, in which none is lost.
pub struct Counters {
    handle: SharedHandle,
    maps: Vec<MapSize>,
    names: Vec<String>,
    /// The map that the program reads the time from, if it asks for it, and what was added there so far.
    clock: Option<u32>,
    time: u64,
}

/// There is no such counter.
#[derive(Clone, Copy, Debug, PartialEq, Eq)]
pub struct NoCounter;

impl fmt::Display for NoCounter {
    fn fmt(&self, to: &mut fmt::Formatter<'_>) -> fmt::Result {
        to.write_str("there is no such counter")
    }
}

#[cfg(feature = "std")]
impl std::error::Error for NoCounter {}

/// Why a queue doesn't share counters, or there are none to share.
#[derive(Clone, Copy, Debug, PartialEq, Eq)]
#[non_exhaustive]
pub enum ShareError {
    /// Memory ran out.
    Memory,
    /// As many queues as they were made for have shared them; or they are for no queue, or for more than [`MOST_SHARES`].
    Seats,
    /// The queue shares counters already.
    Already,
    /// The maps of the queue's program have other sizes.
    Maps,
    /// As [`Turn::Abandoned`](crate::Turn::Abandoned).
    Abandoned,
    /// A cause that this version doesn't know.
    Unknown(u32),
}

impl ShareError {
    pub(crate) fn of(answer: u32) -> Result<(), ShareError> {
        Err(match answer {
            sys::LAXONJE_SHARES_NOW => return Ok(()),
            sys::LAXONJE_SHARES_MEMORY => ShareError::Memory,
            sys::LAXONJE_SHARES_SEATS => ShareError::Seats,
            sys::LAXONJE_SHARES_ALREADY => ShareError::Already,
            sys::LAXONJE_SHARES_MAPS => ShareError::Maps,
            sys::LAXONJE_SHARES_BUSY => ShareError::Abandoned,
            cause => ShareError::Unknown(cause),
        })
    }
}

impl fmt::Display for ShareError {
    fn fmt(&self, to: &mut fmt::Formatter<'_>) -> fmt::Result {
        match self {
            ShareError::Memory => to.write_str("memory ran out"),
            ShareError::Seats => to.write_str("as many queues as may share the counters have shared them"),
            ShareError::Already => to.write_str("the queue shares counters already"),
            ShareError::Maps => to.write_str("the maps of the queue's program have other sizes"),
            ShareError::Abandoned => to.write_str("a turn was begun and didn't come to its end"),
            ShareError::Unknown(cause) => write!(to, "cause {cause}"),
        }
    }
}

#[cfg(feature = "std")]
impl std::error::Error for ShareError {}

impl Counters {
    /// Counters of a program's maps, all 0, that so many queues may share: at most [`MOST_SHARES`].
    pub fn new(program: &Program, queues: usize) -> Result<Counters, ShareError> {
        let mut handle = SharedHandle::none();
        ShareError::of(handle.make(&program.handle, queues))?;
        let (maps, names) = (program.maps().to_vec(), program.map_names().to_vec());
        Ok(Counters { handle, maps, names, clock: program.map_named(CLOCK_MAP), time: 0 })
    }

    /// A counter, by one atomic load, while queues on other threads go on: 0 if there is no such counter.
    pub fn at(&mut self, map: u32, entry: u32, counter: u32) -> u64 {
        self.handle.at(map, entry, counter)
    }

    /// Adds to a counter, by one atomic addition, while queues on other threads go on.
    pub fn add(&mut self, map: u32, entry: u32, counter: u32, amount: u64) -> Result<(), NoCounter> {
        match self.handle.add(map, entry, counter, amount) {
            sys::LAXONJE_ADDED => Ok(()),
            _ => Err(NoCounter),
        }
    }

    /// The time that programs get by these counters, if they ask for it: that of the latest call, and 0 before the first. It doesn't go back.
    pub fn set_time(&mut self, time: Duration) {
        let now = nanoseconds(time);
        let later = self.clock.zip(now.checked_sub(self.time));
        if later.map_or(false, |(map, by)| self.add(map, 0, 0, by).is_ok()) {
            self.time = now;
        }
    }

    /// All of them, in the places that [`Program::place`] says, each by a load of its own.
    pub fn all(&mut self) -> Vec<u64> {
        let Counters { handle, maps, .. } = self;
        let places = (0..).zip(maps.iter()).flat_map(|(map, size)| {
            let (entries, counters) = (size.entries, size.counters);
            (0..entries).flat_map(move |entry| (0..counters).map(move |counter| (map, entry, counter)))
        });
        places.map(|(map, entry, counter)| handle.at(map, entry, counter)).collect()
    }

    /// Whether a queue keeps them under another program, as [`Queue::replace`] has it: its maps have the same names and sizes.
    pub fn fit(&self, program: &Program) -> bool {
        program.maps() == self.maps && program.map_names() == self.names
    }

    /// Has a queue share these counters from its next turn on. What its own counters have stays there.
    pub fn share(&mut self, queue: &mut Queue) -> Result<(), ShareError> {
        queue.share_by(&mut self.handle)
    }
}

impl fmt::Debug for Counters {
    fn fmt(&self, to: &mut fmt::Formatter<'_>) -> fmt::Result {
        to.debug_struct("Counters").finish_non_exhaustive()
    }
}
