//! What turns, deliveries and waits come to.
use crate::causes::{Halt, Refusal};
use crate::guest::Entry;
use crate::offload::Offload;
use crate::program::Action;
use crate::segments::Segments;
use crate::setup::MakeError;
use core::fmt;
use laxonje_sys as sys;

/// Why a queue goes on with the program that it had.
#[derive(Clone, Copy, Debug, PartialEq, Eq)]
#[non_exhaustive]
pub enum ReplaceError {
    /// The queue has halted: its guest has to connect anew.
    Halted(Halt),
    /// As [`Turn::Abandoned`].
    Abandoned,
    /// No queue was made with the new program.
    Make(MakeError),
}

impl ReplaceError {
    pub(crate) fn of(why: Stopped) -> ReplaceError {
        match why {
            Stopped::Halted(halt) => ReplaceError::Halted(halt),
            Stopped::Abandoned => ReplaceError::Abandoned,
        }
    }
}

impl fmt::Display for ReplaceError {
    fn fmt(&self, to: &mut fmt::Formatter<'_>) -> fmt::Result {
        match self {
            ReplaceError::Halted(halt) => Stopped::Halted(*halt).fmt(to),
            ReplaceError::Abandoned => Stopped::Abandoned.fmt(to),
            ReplaceError::Make(cause) => cause.fmt(to),
        }
    }
}

#[cfg(feature = "std")]
impl std::error::Error for ReplaceError {}

/// An entry of the grant table that was read, and what was read: for a log.
#[derive(Clone, Copy, Debug, PartialEq, Eq)]
#[non_exhaustive]
pub struct Grant {
    /// Which it is: its reference, and where it lies.
    pub entry: Entry,
    /// Its two words.
    pub words: [u32; 2],
}

/// Why a queue makes no more accesses.
#[derive(Clone, Copy, Debug, PartialEq, Eq)]
#[non_exhaustive]
pub enum Stopped {
    /// It has halted: its guest has to connect anew.
    Halted(Halt),
    /// As [`Turn::Abandoned`].
    Abandoned,
}

impl fmt::Display for Stopped {
    fn fmt(&self, to: &mut fmt::Formatter<'_>) -> fmt::Result {
        match self {
            Stopped::Halted(halt) => write!(to, "the queue has halted: {halt}"),
            Stopped::Abandoned => to.write_str("a turn was begun and didn't come to its end"),
        }
    }
}

#[cfg(feature = "std")]
impl std::error::Error for Stopped {}

/// The flags of a packet's first slot.
#[derive(Clone, Copy, Debug, Default, PartialEq, Eq)]
pub struct Flags(pub(crate) u32);

impl Flags {
    /// The TCP or UDP checksum is blank: whoever forwards the packet fills it in.
    pub fn checksum_blank(self) -> bool {
        self.0 & sys::LAXONJE_FLAG_CSUM_BLANK != 0
    }

    /// The packet's data was validated against its checksum.
    pub fn data_validated(self) -> bool {
        self.0 & sys::LAXONJE_FLAG_DATA_VALIDATED != 0
    }

    /// The packet goes on in a further slot.
    pub fn more_data(self) -> bool {
        self.0 & sys::LAXONJE_FLAG_MORE_DATA != 0
    }

    /// An extra info follows the slot.
    pub fn extra_info(self) -> bool {
        self.0 & sys::LAXONJE_FLAG_EXTRA_INFO != 0
    }
}

/// The program's run of a turn.
#[derive(Clone, Copy, Debug, PartialEq, Eq)]
#[non_exhaustive]
pub struct TurnRun {
    /// What the program returned.
    pub number: u32,
    /// What that stands for. [`Action::Tx`]: the packet went back to the guest.
    pub action: Action,
    /// How many loads and adds of counters it did.
    pub operations: u32,
    /// How many slots the packet took.
    pub slots: u32,
    /// The flags of its first slot.
    pub flags: Flags,
    /// The segments that it is to make, if its guest leaves that to the host: [`Queue::offer`](crate::Queue::offer).
    pub segments: Option<Segments>,
}

impl TurnRun {
    /// What the packet leaves to another guest, if it is passed on as it is.
    pub fn offload(&self) -> Offload {
        match self.segments {
            Some(segments) => Offload::Segments(segments),
            None if self.flags.checksum_blank() => Offload::Checksum,
            None if self.flags.data_validated() => Offload::Validated,
            None => Offload::Nothing,
        }
    }
}

/// What a turn came to.
#[derive(Clone, Copy, Debug, PartialEq, Eq)]
#[non_exhaustive]
pub enum Turn {
    /// The ring had no request: wait for the guest's event.
    Idle,
    /// The program ran on a packet.
    Ran(TurnRun),
    /// A packet was refused, and the guest was told.
    Refused(Refusal),
    /// The guest broke the protocol. The queue makes no more accesses.
    Halted(Halt),
    /// A turn, a delivery or a wait before this one was begun and didn't come to its end: the [`Guest`](crate::Guest) panicked. The queue makes no more
    /// accesses, and its guest has to connect anew: a slot may have its response already, and the guest not know of it.
    Abandoned,
}

impl Turn {
    pub(crate) fn stopped(why: Stopped) -> Turn {
        match why {
            Stopped::Halted(halt) => Turn::Halted(halt),
            Stopped::Abandoned => Turn::Abandoned,
        }
    }
}

/// What became of a packet that was delivered.
#[derive(Clone, Copy, Debug, PartialEq, Eq)]
#[non_exhaustive]
pub enum Delivery {
    /// It lies in the buffers of these rx slots.
    Sent {
        /// How many slots: one per page, and one more if the packet is to be segmented.
        slots: u32,
    },
    /// The guest posted fewer rx slots than the packet takes: [`Queue::wait_for`](crate::Queue::wait_for).
    FewSlots,
    /// An rx slot's grant failed its check, and the guest was told.
    Refused {
        /// How many slots were answered.
        slots: u32,
    },
    /// As of a turn.
    Halted(Halt),
    /// As of a turn.
    Abandoned,
}

impl Delivery {
    pub(crate) fn stopped(why: Stopped) -> Delivery {
        match why {
            Stopped::Halted(halt) => Delivery::Halted(halt),
            Stopped::Abandoned => Delivery::Abandoned,
        }
    }
}

/// What a wait for rx slots came to.
#[derive(Clone, Copy, Debug, PartialEq, Eq)]
#[non_exhaustive]
pub enum Awaited {
    /// They are there by now: deliver at once.
    Posted,
    /// The guest's push that makes up the number owes a notice.
    Waiting,
    /// As of a turn.
    Halted(Halt),
    /// As of a turn.
    Abandoned,
}

impl Awaited {
    pub(crate) fn stopped(why: Stopped) -> Awaited {
        match why {
            Stopped::Halted(halt) => Awaited::Halted(halt),
            Stopped::Abandoned => Awaited::Abandoned,
        }
    }
}

/// Why a packet isn't delivered, and not waited for.
#[derive(Clone, Copy, Debug, PartialEq, Eq)]
#[non_exhaustive]
pub enum DeliverError {
    /// It has fewer than 14 bytes, or more than [`MOST_BYTES`](crate::MOST_BYTES).
    Length,
    /// The guest doesn't take what the packet leaves to it ([`Queue::accept`](crate::Queue::accept)), or the packet's segments have no bytes or
    /// more than it.
    NotAccepted,
    /// Its segments are of no kind that this version knows, or have more than [`MOST_BYTES`](crate::MOST_BYTES).
    Unknown,
}

impl DeliverError {
    /// `None`: something is under way.
    pub(crate) fn of(taken: u32) -> Option<DeliverError> {
        match taken {
            sys::LAXONJE_TAKEN_NO_FRAME => Some(DeliverError::Length),
            sys::LAXONJE_TAKEN_NOT_ACCEPTED => Some(DeliverError::NotAccepted),
            sys::LAXONJE_TAKEN_UNKNOWN => Some(DeliverError::Unknown),
            _ => None,
        }
    }
}

impl fmt::Display for DeliverError {
    fn fmt(&self, to: &mut fmt::Formatter<'_>) -> fmt::Result {
        to.write_str(match self {
            DeliverError::Length => "no frame of 14 to 65,535 bytes",
            DeliverError::NotAccepted => "the guest doesn't take what the packet leaves to it",
            DeliverError::Unknown => "what the packet leaves has no name",
        })
    }
}

#[cfg(feature = "std")]
impl std::error::Error for DeliverError {}
