//! What a queue is made of.
use alloc::vec::Vec;
use core::fmt;
use laxonje_sys as sys;

/// The most frames of a grant table.
pub const TABLE_FRAMES: usize = sys::LAXONJE_EXTENT_TABLE_FRAMES;

/// A run of frames, one after another, which one domain owns.
#[derive(Clone, Copy, Debug, PartialEq, Eq)]
pub struct Extent {
    /// How many frames.
    pub frames: u32,
    /// Whose they are.
    pub domain: u16,
}

/// The next index of each ring.
#[derive(Clone, Copy, Debug, Default, PartialEq, Eq)]
pub struct Indices {
    /// That of the tx ring.
    pub tx: u32,
    /// That of the rx ring.
    pub rx: u32,
}

impl Extent {
    /// The extents of frames whose owners are in a list.
    pub fn of_owners(owners: &[u16]) -> Vec<Extent> {
        let mut found: Vec<Extent> = Vec::new();
        for domain in owners.iter().copied() {
            match found.last_mut() {
                Some(last) if last.domain == domain && last.frames < u32::MAX => last.frames += 1,
                _ => found.push(Extent { frames: 1, domain }),
            }
        }
        found
    }
}

/// What a queue is made of. A later version may have more: end it with `..Setup::default()`.
#[derive(Clone, Copy, Debug, Default)]
pub struct Setup<'a> {
    /// The owners of all frames, from frame 0 on.
    pub frames: &'a [Extent],
    /// The frames of the guest's grant table: 1 to [`TABLE_FRAMES`].
    pub table: &'a [u32],
    /// The frame of the tx ring's page.
    pub tx: u32,
    /// The frame of the rx ring's page.
    pub rx: u32,
    /// The guest's domain.
    pub frontend: u16,
    /// The host's own domain.
    pub backend: u16,
    /// The port that a notice names.
    pub port: u32,
    /// What the program is told of the interface.
    pub ifindex: u32,
    /// What the program is told of the queue.
    pub queue: u32,
    /// Zeros for new rings; else the indices where a queue of these rings stood.
    pub at: Indices,
}

/// Why no queue was made.
#[derive(Clone, Copy, Debug, PartialEq, Eq)]
#[non_exhaustive]
pub enum MakeError {
    /// Memory ran out.
    Memory,
    /// Too many frames.
    Frames,
    /// The table isn't 1 to [`TABLE_FRAMES`] of the guest's frames.
    Table,
    /// A ring's frame isn't the guest's, is the other ring's, or is one of the table's.
    Ring,
    /// The guest's domain is the host's own.
    Domain,
    /// A cause that this version doesn't know.
    Unknown(u32),
}

impl MakeError {
    pub(crate) fn of(made: u32) -> Option<MakeError> {
        Some(match made {
            sys::LAXONJE_MADE => return None,
            sys::LAXONJE_MADE_MEMORY => MakeError::Memory,
            sys::LAXONJE_MADE_FRAMES => MakeError::Frames,
            sys::LAXONJE_MADE_TABLE => MakeError::Table,
            sys::LAXONJE_MADE_RING => MakeError::Ring,
            sys::LAXONJE_MADE_DOMAIN => MakeError::Domain,
            cause => MakeError::Unknown(cause),
        })
    }
}

impl fmt::Display for MakeError {
    fn fmt(&self, to: &mut fmt::Formatter<'_>) -> fmt::Result {
        match self {
            MakeError::Memory => to.write_str("memory ran out"),
            MakeError::Frames => to.write_str("too many frames"),
            MakeError::Table => write!(to, "the grant table isn't 1 to {TABLE_FRAMES} of the guest's frames"),
            MakeError::Ring => to.write_str("a ring's frame isn't the guest's, is the other ring's, or is one of the table's"),
            MakeError::Domain => to.write_str("the guest's domain is the host's own"),
            MakeError::Unknown(cause) => write!(to, "cause {cause}"),
        }
    }
}

#[cfg(feature = "std")]
impl std::error::Error for MakeError {}
