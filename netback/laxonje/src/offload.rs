//! Packets that leave something to the guest that they are delivered to.
use crate::segments::{bits_of, SegmentKind, Segments};
use laxonje_sys as sys;

/// What a guest says in XenStore that it takes. Without it a packet that leaves something isn't delivered.
#[derive(Clone, Copy, Debug, Default, PartialEq, Eq)]
pub struct Accepts {
    /// TCP over IPv4 that is to be segmented: the frontend's key `feature-gso-tcpv4` is 1.
    pub tcpv4: bool,
    /// TCP over IPv6 that is to be segmented: its key `feature-gso-tcpv6` is 1.
    pub tcpv6: bool,
    /// Blank checksums: its key `feature-no-csum-offload` isn't 1, and its key `feature-ipv6-csum-offload` is 1.
    pub checksum: bool,
}

impl Accepts {
    /// All that this version knows.
    pub const ALL: Accepts = Accepts { tcpv4: true, tcpv6: true, checksum: true };

    pub(crate) fn bits(self) -> u32 {
        bits_of(&[
            (self.tcpv4, sys::LAXONJE_ACCEPT_GSO_TCPV4),
            (self.tcpv6, sys::LAXONJE_ACCEPT_GSO_TCPV6),
            (self.checksum, sys::LAXONJE_ACCEPT_CSUM_BLANK),
        ])
    }
}

/// What a packet leaves to the guest that it is delivered to.
#[derive(Clone, Copy, Debug, Default, PartialEq, Eq)]
#[non_exhaustive]
pub enum Offload {
    /// Nothing.
    #[default]
    Nothing,
    /// Nothing, and its checksum was found right.
    Validated,
    /// Its TCP or UDP checksum, whose field holds the folded sum of the pseudo header.
    Checksum,
    /// The same, and to make these segments of it, of 1 byte up to the packet's length.
    Segments(Segments),
}

impl Offload {
    /// Its number, and the size of a segment.
    pub(crate) fn numbers(self) -> (u32, u32) {
        match self {
            Offload::Nothing => (sys::LAXONJE_OFFLOAD_NONE, 0),
            Offload::Validated => (sys::LAXONJE_OFFLOAD_VALIDATED, 0),
            Offload::Checksum => (sys::LAXONJE_OFFLOAD_CSUM_BLANK, 0),
            Offload::Segments(Segments { kind, size }) => (kind_number(kind), size),
        }
    }

    /// How many rx slots a packet takes beside those of its pages.
    pub(crate) fn extras(self) -> u32 {
        u32::from(matches!(self, Offload::Segments(_)))
    }
}

fn kind_number(kind: SegmentKind) -> u32 {
    match kind {
        SegmentKind::Tcpv4 => sys::LAXONJE_OFFLOAD_TCPV4,
        SegmentKind::Tcpv6 => sys::LAXONJE_OFFLOAD_TCPV6,
        SegmentKind::Unknown(_) => u32::MAX, // no offload's
    }
}
