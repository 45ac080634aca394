//! Programs: accepted once, run on packets in place.
use crate::causes::{Cause, Fault, ObjectCause};
use crate::handle::{self, advice, version, ProgramHandle};
use alloc::string::String;
use alloc::vec;
use alloc::vec::Vec;
use core::fmt;
use core::ops::Range;
use core::time::Duration;
use laxonje_sys as sys;

/// The most bytes of a packet.
pub const MOST_BYTES: usize = sys::LAXONJE_PACKET;

/// The name of the map whose first counter a program reads as the time, as `tools/settings-from-c` has calls for it.
pub const CLOCK_MAP: &str = "bpf_ktime_get_ns";

/// The name of the map that a program has if it is to run in one queue at a time, as `tools/settings-from-c` has locks.
const ONE_QUEUE_MAP: &str = "bpf_spin_lock";

/// The size of an array map: entries, and counters of 64 bits of each.
#[derive(Clone, Copy, Debug, PartialEq, Eq)]
pub struct MapSize {
    /// 1 to 1,024; of settings with `wide`, up to 65,536.
    pub entries: u32,
    /// 1 to 8.
    pub counters: u32,
}

/// Why there is no program.
#[derive(Clone, Copy, Debug, PartialEq, Eq)]
#[non_exhaustive]
pub enum LoadError {
    /// The verifier refuses it: V`cause` at the 8-byte slot `slot`.
    Refused {
        /// The number after the V.
        cause: Cause,
        /// The slot of the refused instruction.
        slot: u32,
    },
    /// The map of this number is the first out of its limits, or the fifth.
    Map(u32),
    /// The settings text has the fault L`0`.
    Settings(Fault),
    /// The object has no such program.
    Object {
        /// Why.
        cause: ObjectCause,
        /// Where: a section, a symbol, a relocation or a type of the object, or a map, as the cause says.
        at: u32,
    },
    /// Memory ran out.
    Memory,
}

impl LoadError {
    /// What to write instead of what is refused; empty if there is nothing to say.
    pub fn advice(&self) -> String {
        match self {
            LoadError::Refused { cause, .. } => advice(cause.0),
            _ => String::new(),
        }
    }
}

impl fmt::Display for LoadError {
    fn fmt(&self, to: &mut fmt::Formatter<'_>) -> fmt::Result {
        match self {
            LoadError::Refused { cause, slot } => write!(to, "V{} at slot {slot}: {cause}", cause.0),
            LoadError::Map(number) => write!(to, "map {number} is out of its limits"),
            LoadError::Settings(fault) => write!(to, "L{}: {fault}", fault.0),
            LoadError::Object { cause, at } => write!(to, "O{} at {at}: {cause}", cause.0),
            LoadError::Memory => to.write_str("memory ran out"),
        }
    }
}

#[cfg(feature = "std")]
impl std::error::Error for LoadError {}

/// The library is of another version than this crate.
#[derive(Clone, Copy, Debug, PartialEq, Eq)]
pub struct VersionError {
    /// The version of the linked library.
    pub library: u32,
}

impl fmt::Display for VersionError {
    fn fmt(&self, to: &mut fmt::Formatter<'_>) -> fmt::Result {
        write!(to, "liblaxonje has version {}, and this program was made for version {}", self.library, sys::LAXONJE_VERSION)
    }
}

#[cfg(feature = "std")]
impl std::error::Error for VersionError {}

/// Whether the linked library is of the version that this crate is made for. Call it once, before anything else, if the library is
/// a shared object.
pub fn check_version() -> Result<(), VersionError> {
    match version() {
        sys::LAXONJE_VERSION => Ok(()),
        library => Err(VersionError { library }),
    }
}

/// Whether the library was built by `tools/build-host`, which builds what it proved. An unproved build is for trials alone.
pub fn proved() -> bool {
    handle::proved() == 1
}

/// How the library was built, for a log: its release, its commit and its kit, and whether it was proved.
pub fn build() -> &'static str {
    handle::build()
}

/// Whether a program is accepted with its maps, and if so how many instructions it has. Nothing of it is kept.
pub fn check(program: &[u8], maps: &[MapSize]) -> Result<u32, LoadError> {
    accepted(handle::check(program, &sizes(maps)))
}

/// The number of instructions of an accepted program.
fn accepted(verdict: sys::laxonje_verdict) -> Result<u32, LoadError> {
    match (verdict.kind, verdict.cause) {
        (sys::LAXONJE_ACCEPTED, _) => Ok(verdict.at),
        (sys::LAXONJE_REFUSED, sys::LAXONJE_V_MEMORY)
        | (sys::LAXONJE_SETTINGS, sys::LAXONJE_L_MEMORY)
        | (sys::LAXONJE_OBJECT, sys::LAXONJE_O_MEMORY) => Err(LoadError::Memory),
        (sys::LAXONJE_OBJECT, cause) => Err(LoadError::Object { cause: ObjectCause(cause), at: verdict.at }),
        (sys::LAXONJE_REFUSED, cause) => Err(LoadError::Refused { cause: Cause(cause), slot: verdict.at }),
        (sys::LAXONJE_MAP, _) => Err(LoadError::Map(verdict.at)),
        (_, fault) => Err(LoadError::Settings(Fault(fault))),
    }
}

/// A time as programs get it.
pub(crate) fn nanoseconds(time: Duration) -> u64 {
    u64::try_from(time.as_nanos()).unwrap_or(u64::MAX)
}

fn sizes(maps: &[MapSize]) -> Vec<sys::laxonje_map> {
    maps.iter().map(|map| sys::laxonje_map { entries: map.entries, counters: map.counters }).collect()
}

/// What a program wants done with a packet.
#[derive(Clone, Copy, Debug, PartialEq, Eq)]
#[non_exhaustive]
pub enum Action {
    /// The program failed; the packet is dropped.
    Aborted,
    /// The packet is dropped.
    Drop,
    /// The packet is forwarded.
    Pass,
    /// The packet goes back to where it came from.
    Tx,
}

impl Action {
    /// What the number that a program returns stands for.
    pub fn of(number: u32) -> Action {
        match number {
            sys::LAXONJE_DROP => Action::Drop,
            sys::LAXONJE_PASS => Action::Pass,
            sys::LAXONJE_TX => Action::Tx,
            _ => Action::Aborted,
        }
    }
}

/// How a run ended.
#[derive(Clone, Copy, Debug, PartialEq, Eq)]
#[non_exhaustive]
pub struct Run {
    /// What the program returned.
    pub number: u32,
    /// What that stands for.
    pub action: Action,
    /// How many instructions it did.
    pub instructions: u32,
}

impl Run {
    /// `None`: it wasn't run.
    fn of(result: sys::laxonje_result) -> Option<Run> {
        let run = Run { number: result.number, action: Action::of(result.number), instructions: result.instructions };
        (run.instructions > 0).then_some(run)
    }
}

/// A packet of a batch: which of its bytes.
#[derive(Clone, Copy, Debug, Default, PartialEq, Eq)]
#[repr(transparent)]
pub struct Packet(sys::laxonje_packet);

impl From<Range<usize>> for Packet {
    fn from(bytes: Range<usize>) -> Packet {
        Packet(sys::laxonje_packet { start: bytes.start, length: bytes.end.saturating_sub(bytes.start) })
    }
}

/// Room for what became of a packet of a batch.
#[derive(Clone, Copy, Debug, Default, PartialEq, Eq)]
#[repr(transparent)]
pub struct Outcome(sys::laxonje_result);

impl Outcome {
    /// How its run ended. `None`: it wasn't run, as before a batch.
    pub fn run(self) -> Option<Run> {
        Run::of(self.0)
    }
}

/// An accepted program with its maps. Threads may share one, as by an `Arc`: each call by a `&` waits until no other thread is in one.
pub struct Program {
    pub(crate) handle: ProgramHandle,
    maps: Vec<MapSize>,
    names: Vec<String>,
    instructions: u32,
}

impl Program {
    /// Accepts a program with its maps.
    pub fn load(program: &[u8], maps: &[MapSize]) -> Result<Program, LoadError> {
        Program::made(|handle| handle.load(program, &sizes(maps)))
    }

    /// Accepts the program of a settings text.
    pub fn from_settings(text: &[u8]) -> Result<Program, LoadError> {
        Program::made(|handle| handle.load_settings(text))
    }

    /// Accepts the program that the function of this name is in an object, as clang makes one for BPF with `-g`, with the maps that it refers
    /// to. A hash or a prefix trie has no row.
    pub fn from_object(object: &[u8], function: &str) -> Result<Program, LoadError> {
        Program::made(|handle| handle.load_object(object, function.as_bytes()))
    }

    /// The same program once more, for another thread: nothing is verified or copied.
    pub fn try_clone(&self) -> Result<Program, LoadError> {
        Program::made(|handle| handle.again(&self.handle))
    }

    fn made(make: impl FnOnce(&mut ProgramHandle) -> sys::laxonje_verdict) -> Result<Program, LoadError> {
        let mut handle = ProgramHandle::none();
        let instructions = accepted(make(&mut handle))?;
        let maps: Vec<_> = handle.maps().iter().map(|map| MapSize { entries: map.entries, counters: map.counters }).collect();
        let names = (0..maps.len() as u32).map(|number| handle.map_name(number)).collect();
        Ok(Program { handle, maps, names, instructions })
    }

    /// How many instructions it has.
    pub fn instructions(&self) -> u32 {
        self.instructions
    }

    /// The sizes of its maps, by their numbers. A program may go on with the counters of another that has the same, and the same names.
    pub fn maps(&self) -> &[MapSize] {
        &self.maps
    }

    /// The names of its maps, by their numbers, as its settings have them; each is empty if the program was loaded without settings.
    pub fn map_names(&self) -> &[String] {
        &self.names
    }

    /// The number of the map with this name.
    pub fn map_named(&self, name: &str) -> Option<u32> {
        u32::try_from(self.handle.map_named(name.as_bytes())).ok()
    }

    /// As many zeros as it has counters.
    pub fn new_counters(&self) -> Vec<u64> {
        vec![0; self.handle.counters()]
    }

    /// Which of these words a counter is, each number from 0.
    pub fn place(&self, map: u32, entry: u32, counter: u32) -> Option<usize> {
        Some(self.handle.place(map, entry, counter)).filter(|place| *place != sys::LAXONJE_NOWHERE)
    }

    /// Which of these words is the time that it reads, in nanoseconds, if it asks for it: a host writes it there before runs. A queue is given it
    /// by [`Queue::set_time`](crate::Queue::set_time), and queues that share counters by [`Counters::set_time`](crate::Counters::set_time).
    pub fn clock(&self) -> Option<usize> {
        self.place(self.map_named(CLOCK_MAP)?, 0, 0)
    }

    /// Whether it wants to run in one queue at a time, of those that share its counters: what it does with these is one step then.
    pub fn runs_alone(&self) -> bool {
        self.map_named(ONE_QUEUE_MAP).is_some()
    }

    /// Runs it on a packet where it lies. `None`, and nothing has changed, if there are fewer counters than it has, or more than
    /// [`MOST_BYTES`].
    pub fn run(&mut self, counters: &mut [u64], packet: &mut [u8], ifindex: u32, queue: u32) -> Option<Run> {
        Run::of(self.handle.run(counters, packet, ifindex, queue))
    }

    /// Runs it on the packets of a batch, one after another where they lie in `bytes`; they may share some. Each gets an outcome in its place of
    /// `outcomes`, and the answer is how many there are: the fewer of packets and outcomes. A packet that doesn't lie in the bytes, or that
    /// [`Program::run`] wouldn't run, isn't run; the others are.
    pub fn run_batch(
        &mut self, counters: &mut [u64], bytes: &mut [u8], packets: &[Packet], outcomes: &mut [Outcome], ifindex: u32, queue: u32,
    ) -> usize {
        self.handle.run_batch(counters, bytes, packets, outcomes, ifindex, queue)
    }
}

impl fmt::Debug for Program {
    fn fmt(&self, to: &mut fmt::Formatter<'_>) -> fmt::Result {
        to.debug_struct("Program").field("instructions", &self.instructions).field("maps", &self.maps).finish()
    }
}
