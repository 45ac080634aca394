//! What became of the packets of a turn, and which grants it read.
use crate::causes::{Halt, Refusal};
use crate::outcome::{Flags, Grant, Stopped, Turn, TurnRun};
use crate::program::Action;
use crate::segments::Segments;
use laxonje_sys as sys;

/// The most packets of a turn.
pub const MOST_TURNS: usize = sys::LAXONJE_TURNS;

/// The lent words for slots, which stand before those of the packets of a turn of several.
const SLOT_WORDS: usize = sys::LAXONJE_TURNS_WORDS - MOST_TURNS * sys::LAXONJE_PAGE_WORDS;

/// An outcome that the header doesn't have: the queue was abandoned.
const ABANDONED: u32 = u32::MAX;

/// The results of the last turn of [`Queue::turns`](crate::Queue::turns).
#[derive(Default)]
pub(crate) struct Turned {
    pub count: usize,
    /// Each of its packets has a place of its own in the library: the turn was of several.
    pub several: bool,
    pub results: [sys::laxonje_turned; MOST_TURNS],
}

impl Turned {
    /// Of one packet.
    pub fn set_one(&mut self, result: sys::laxonje_turned) {
        self.results[0] = result;
        (self.count, self.several) = (1, false);
    }

    /// Of none, since the queue makes no more accesses.
    pub fn set_stopped(&mut self, why: Stopped) {
        let (outcome, cause) = match why {
            Stopped::Halted(halt) => (sys::LAXONJE_TURN_HALTED, halt.0),
            Stopped::Abandoned => (ABANDONED, 0),
        };
        self.set_one(sys::laxonje_turned { outcome, cause, ..sys::laxonje_turned::default() });
    }

    pub fn get(&self, number: usize) -> Option<&sys::laxonje_turned> {
        self.results[..self.count].get(number)
    }

    /// Why the queue has halted, if it has with the last of them.
    pub fn halt(&self) -> Option<Halt> {
        let last = self.get(self.count.checked_sub(1)?)?;
        (last.outcome == sys::LAXONJE_TURN_HALTED).then_some(Halt(last.cause))
    }
}

impl Turn {
    pub(crate) fn of(result: &sys::laxonje_turned) -> Turn {
        match result.outcome {
            sys::LAXONJE_TURN_IDLE => Turn::Idle,
            sys::LAXONJE_TURN_RAN => Turn::Ran(TurnRun::of(result)),
            sys::LAXONJE_TURN_REFUSED => Turn::Refused(Refusal(result.cause)),
            sys::LAXONJE_TURN_HALTED => Turn::Halted(Halt(result.cause)),
            _ => Turn::Abandoned,
        }
    }
}

impl TurnRun {
    fn of(result: &sys::laxonje_turned) -> TurnRun {
        let (number, operations, slots, flags) = (result.number, result.ops, result.slots, Flags(result.flags));
        let segments = Segments::of(result.segment_type.into(), || result.segment_size.into());
        TurnRun { number, action: Action::of(number), operations, slots, flags, segments }
    }
}

/// The last grant entry that was read for each packet of the last turn, or for the last delivery.
#[derive(Default)]
pub(crate) struct Grants {
    /// Those from here on are none.
    count: usize,
    /// Which was read last.
    last: usize,
    each: [Option<Grant>; MOST_TURNS],
}

impl Grants {
    pub fn clear(&mut self) {
        self.each[..self.count].fill(None);
        (self.count, self.last) = (0, 0);
    }

    /// Notes an entry that was read into the lent words from `lent` on.
    pub fn note(&mut self, lent: usize, grant: Grant) {
        let number = (lent.saturating_sub(SLOT_WORDS) / sys::LAXONJE_PAGE_WORDS) % MOST_TURNS;
        self.each[number] = Some(grant);
        self.last = number;
        self.count = self.count.max(number + 1);
    }

    pub fn last(&self) -> Option<Grant> {
        self.each[self.last]
    }

    pub fn of(&self, number: usize) -> Option<Grant> {
        *self.each.get(number)?
    }
}
