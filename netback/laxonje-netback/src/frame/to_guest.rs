//! What the kernel leaves undone of a packet for the guest, by the header that a TAP device puts before it.
//!
//! Linux's netfront isn't told where a blank checksum is. It looks for that of a TCP or UDP packet of IP, which no VLAN tag stands before, and drops
//! any other packet that is said to have one. So what the kernel leaves elsewhere is done here.
use super::{carried, checksum_place, folded, sum_of_all, Blank, GSO_ECN, GSO_TCPV4, GSO_TCPV6, IPV4, IPV6, NEEDS_CHECKSUM, TCP_CHECKSUM};
use crate::os::HEADER_BYTES;
use laxonje::{Offload, SegmentKind, Segments};

const GSO_NONE: u8 = 0;
/// VIRTIO_NET_HDR_F_DATA_VALID.
const DATA_VALID: u8 = 2;
/// A UDP checksum of 0 says that there is none (RFC 768).
const NO_ZERO: u16 = 0xffff;

/// What a header says (`struct virtio_net_hdr`).
#[derive(Clone, Copy, Debug)]
pub struct Told {
    flags: u8,
    pub kind: u8,
    pub size: u16,
    pub blank: Blank,
}

impl Told {
    pub fn of(header: &[u8; HEADER_BYTES]) -> Told {
        let number = |at: usize| u16::from_le_bytes([header[at], header[at + 1]]);
        let start = usize::from(number(6));
        Told { flags: header[0], kind: header[1], size: number(4), blank: Blank { start, place: start + usize::from(number(8)) } }
    }

    pub fn is_blank(&self) -> bool {
        self.flags & NEEDS_CHECKSUM != 0
    }
}

/// What is left to the guest of a frame that came behind a header that says this; a checksum that can't be left to it is filled in. `None`:
/// the header doesn't fit the frame, or says what no guest takes.
pub fn offload(told: Told, frame: &mut [u8]) -> Option<Offload> {
    match told.kind & !GSO_ECN {
        GSO_NONE if told.kind & GSO_ECN != 0 => None,
        GSO_NONE if told.is_blank() => blank(frame, told.blank),
        GSO_NONE if told.flags & DATA_VALID != 0 => Some(Offload::Validated),
        GSO_NONE => Some(Offload::Nothing),
        GSO_TCPV4 => segmented(frame, &told, SegmentKind::Tcpv4),
        GSO_TCPV6 => segmented(frame, &told, SegmentKind::Tcpv6),
        _ => None,
    }
}

/// Where netfront looks for the checksum of a frame. `None`: it finds none.
fn found(frame: &[u8]) -> Option<(u16, Blank)> {
    let (network, carried) = carried(frame)?;
    let field = checksum_place(carried.protocol)?;
    let is_plain = super::short(frame, super::ETHERNET - 2) == Some(network);
    is_plain.then_some((network, Blank { start: carried.start, place: carried.start + field }))
}

/// A frame with a blank checksum: netfront's, or one that is filled in.
fn blank(frame: &mut [u8], at: Blank) -> Option<Offload> {
    let fits = at.start <= frame.len() && at.place + 2 <= frame.len() && at.place >= at.start;
    match found(frame) {
        _ if !fits => None,
        Some((_, place)) if place == at => Some(Offload::Checksum),
        _ => {
            fill(frame, at);
            Some(Offload::Nothing)
        }
    }
}

/// Fills in a checksum, whose field has the sum of its pseudo header.
fn fill(frame: &mut [u8], at: Blank) {
    let checksum = match !folded(sum_of_all(&frame[at.start..])) {
        0 => NO_ZERO,
        checksum => checksum,
    };
    frame[at.place..at.place + 2].copy_from_slice(&checksum.to_be_bytes());
}

/// A TCP packet of this kind that the guest is to make segments of.
fn segmented(frame: &[u8], told: &Told, kind: SegmentKind) -> Option<Offload> {
    let network = if kind == SegmentKind::Tcpv4 { IPV4 } else { IPV6 };
    let (found, at) = found(frame)?;
    let fits = told.is_blank() && found == network && at == told.blank && at.place - at.start == TCP_CHECKSUM;
    let sized = (1..=frame.len()).contains(&usize::from(told.size));
    (fits && sized).then_some(Offload::Segments(Segments { kind, size: told.size.into() }))
}

#[cfg(test)]
mod tests;
