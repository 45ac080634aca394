//! Packets that a guest leaves to its host to segment.
use core::fmt;
use laxonje_sys as sys;

/// What a queue's guest may leave to the host. Without an offer a packet with an extra info is refused.
#[derive(Clone, Copy, Debug, Default, PartialEq, Eq)]
pub struct Offers {
    /// TCP over IPv4 that is to be segmented: the backend's key `feature-gso-tcpv4`.
    pub tcpv4: bool,
    /// TCP over IPv6 that is to be segmented: the backend's key `feature-gso-tcpv6`.
    pub tcpv6: bool,
}

impl Offers {
    /// All that this version knows.
    pub const ALL: Offers = Offers { tcpv4: true, tcpv6: true };

    pub(crate) fn bits(self) -> u32 {
        bits_of(&[(self.tcpv4, sys::LAXONJE_OFFER_GSO_TCPV4), (self.tcpv6, sys::LAXONJE_OFFER_GSO_TCPV6)])
    }
}

/// The bits that are set.
pub(crate) fn bits_of(bits: &[(bool, u32)]) -> u32 {
    bits.iter().filter(|(is_set, _)| *is_set).map(|(_, bit)| bit).sum()
}

/// Why a queue makes the offers that it made, or its guest takes what it took.
#[derive(Clone, Copy, Debug, PartialEq, Eq)]
#[non_exhaustive]
pub enum OfferError {
    /// As [`Turn::Abandoned`](crate::Turn::Abandoned).
    Abandoned,
    /// A cause that this version doesn't know.
    Unknown(u32),
}

impl OfferError {
    pub(crate) fn of(answer: u32) -> Result<(), OfferError> {
        Err(match answer {
            sys::LAXONJE_OFFERED => return Ok(()),
            sys::LAXONJE_OFFERED_BUSY => OfferError::Abandoned,
            cause => OfferError::Unknown(cause),
        })
    }
}

impl fmt::Display for OfferError {
    fn fmt(&self, to: &mut fmt::Formatter<'_>) -> fmt::Result {
        match self {
            OfferError::Abandoned => to.write_str("a turn was begun and didn't come to its end"),
            OfferError::Unknown(cause) => write!(to, "cause {cause}"),
        }
    }
}

#[cfg(feature = "std")]
impl std::error::Error for OfferError {}

/// What segments are of.
#[derive(Clone, Copy, Debug, PartialEq, Eq)]
#[non_exhaustive]
pub enum SegmentKind {
    /// TCP over IPv4.
    Tcpv4,
    /// TCP over IPv6.
    Tcpv6,
    /// A kind that this version doesn't know, and doesn't offer.
    Unknown(u32),
}

/// The segments that a packet is to make. Whether the packet is one of that kind isn't looked at: the bytes of one that comes are the guest's.
#[derive(Clone, Copy, Debug, PartialEq, Eq)]
pub struct Segments {
    /// What they are of.
    pub kind: SegmentKind,
    /// The most bytes of payload in each: 536 up to the packet's length of a packet that comes.
    pub size: u32,
}

impl Segments {
    pub(crate) fn of(kind: u32, size: impl FnOnce() -> u32) -> Option<Segments> {
        let kind = match kind {
            sys::LAXONJE_SEGMENTS_NONE => return None,
            sys::LAXONJE_SEGMENTS_TCPV4 => SegmentKind::Tcpv4,
            sys::LAXONJE_SEGMENTS_TCPV6 => SegmentKind::Tcpv6,
            other => SegmentKind::Unknown(other),
        };
        Some(Segments { kind, size: size() })
    }
}
