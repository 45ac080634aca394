//! Frames whose TCP or UDP checksum is blank, or that are to be segmented, as the kernel wants them. Each length of a frame is the guest's, and
//! is looked at: the kernel gets no header that doesn't fit the frame.
pub mod segments;
pub mod to_guest;

use crate::os::HEADER_BYTES;
use laxonje::{SegmentKind, Segments};

/// Where a checksum that isn't filled in stands: both from the frame's first byte on.
#[derive(Debug, Clone, Copy, PartialEq, Eq)]
pub struct Blank {
    /// The first byte that the checksum is over: that of the TCP or UDP header.
    pub start: usize,
    /// The checksum's own place.
    pub place: usize,
}

/// How the kernel is to segment a frame.
#[derive(Debug, Clone, Copy, PartialEq, Eq)]
pub struct Cut {
    /// VIRTIO_NET_HDR_GSO_*.
    kind: u8,
    /// The bytes of the frame's headers, which each segment has.
    headers: usize,
    /// The most bytes of payload of a segment.
    size: u16,
}

/// What of a frame is left to the kernel.
#[derive(Debug, Clone, Copy, PartialEq, Eq)]
pub enum Left {
    Nothing,
    Checksum(Blank),
    /// The checksum too, of each segment.
    Segments(Blank, Cut),
}

const ETHERNET: usize = 14;
const TAG: usize = 4;
const MOST_TAGS: usize = 2;
const IPV4: u16 = 0x0800;
const IPV6: u16 = 0x86dd;
const VLAN: [u16; 2] = [0x8100, 0x88a8];
const TCP: u8 = 6;
const UDP: u8 = 17;
/// The shortest header of IPv4.
const IPV4_HEADER: usize = 20;
const EXTENSIONS: [u8; 3] = [0, 43, 60]; // hop by hop, routing, destination options
const MOST_EXTENSIONS: usize = 8;
/// More fragments, and the offset.
const FRAGMENT: u16 = 0x3fff;
/// VIRTIO_NET_HDR_F_NEEDS_CSUM, VIRTIO_NET_HDR_GSO_TCPV4, VIRTIO_NET_HDR_GSO_TCPV6 and VIRTIO_NET_HDR_GSO_ECN.
const NEEDS_CHECKSUM: u8 = 1;
const GSO_TCPV4: u8 = 1;
const GSO_TCPV6: u8 = 4;
const GSO_ECN: u8 = 0x80;
/// The places of the checksums of TCP and UDP, their shortest headers, and the flag that stays with the first segment (RFC 3168).
const TCP_CHECKSUM: usize = 16;
const UDP_CHECKSUM: usize = 6;
const TCP_HEADER: usize = 20;
const UDP_HEADER: usize = 8;
const CWR: u8 = 0x80;
/// The most bytes of headers that each segment may repeat: Ethernet with two tags, 256 of IP, as Linux reads them, and the longest of TCP.
const MOST_HEADERS: usize = ETHERNET + MOST_TAGS * TAG + 256 + 60;

/// What an IP header says of what it carries.
struct Carried {
    protocol: u8,
    start: usize,
    end: usize,
    /// The sum of the pseudo header's addresses.
    addresses: u32,
}

fn byte(frame: &[u8], at: usize) -> Option<u8> {
    frame.get(at).copied()
}

fn short(frame: &[u8], at: usize) -> Option<u16> {
    Some(u16::from_be_bytes([byte(frame, at)?, byte(frame, at + 1)?]))
}

/// The sum of an even number of bytes as big-endian shorts.
fn sum(bytes: &[u8]) -> u32 {
    bytes.chunks_exact(2).map(|two| u32::from(u16::from_be_bytes([two[0], two[1]]))).sum()
}

/// The sum of any number of bytes: behind the last of an odd number comes a zero.
fn sum_of_all(bytes: &[u8]) -> u32 {
    sum(bytes) + bytes.chunks_exact(2).remainder().first().map_or(0, |last| u32::from(*last) << 8)
}

fn folded(mut sum: u32) -> u16 {
    while sum > 0xffff {
        sum = (sum & 0xffff) + (sum >> 16);
    }
    sum as u16
}

/// The type and the start of what Ethernet carries, after up to two VLAN tags.
fn network(frame: &[u8]) -> Option<(u16, usize)> {
    let mut at = ETHERNET;
    for _ in 0..=MOST_TAGS {
        match short(frame, at - 2)? {
            kind if VLAN.contains(&kind) => at += TAG,
            kind => return Some((kind, at)),
        }
    }
    None
}

fn in_ipv4(frame: &[u8], at: usize) -> Option<Carried> {
    let fixed: &[u8; IPV4_HEADER] = frame.get(at..at + IPV4_HEADER)?.try_into().ok()?;
    let header = usize::from(fixed[0] & 15) * 4;
    let fragment = u16::from_be_bytes([fixed[6], fixed[7]]) & FRAGMENT;
    let end = at + usize::from(u16::from_be_bytes([fixed[2], fixed[3]]));
    let whole = header >= IPV4_HEADER && fragment == 0;
    whole.then_some(Carried { protocol: fixed[9], start: at + header, end, addresses: sum(&fixed[12..]) })
}

fn in_ipv6(frame: &[u8], at: usize) -> Option<Carried> {
    let addresses = sum(frame.get(at + 8..at + 40)?);
    let end = at + 40 + usize::from(short(frame, at + 4)?);
    let (mut protocol, mut start) = (byte(frame, at + 6)?, at + 40);
    for _ in 0..MOST_EXTENSIONS {
        if !EXTENSIONS.contains(&protocol) {
            return Some(Carried { protocol, start, end, addresses });
        }
        protocol = byte(frame, start)?;
        start += 8 * (1 + usize::from(byte(frame, start + 1)?));
    }
    None
}

/// The type of a frame's network packet, and what that carries.
fn carried(frame: &[u8]) -> Option<(u16, Carried)> {
    Some(match network(frame)? {
        (IPV4, at) => (IPV4, in_ipv4(frame, at)?),
        (IPV6, at) => (IPV6, in_ipv6(frame, at)?),
        _ => return None,
    })
}

/// Where in the header of a protocol its checksum is. `None`: it is neither TCP nor UDP.
fn checksum_place(protocol: u8) -> Option<usize> {
    match protocol {
        TCP => Some(TCP_CHECKSUM),
        UDP => Some(UDP_CHECKSUM),
        _ => None,
    }
}

/// What is left to the kernel of a frame whose checksum is blank, if it is, and of which these segments are to be made, if they are; blank fields are
/// set to the sum of the pseudo header. `None`: it isn't what its guest says, and nothing can be filled in.
pub fn left(frame: &mut [u8], is_blank: bool, segments: Option<Segments>) -> Option<Left> {
    match segments {
        Some(segments) => segmented(frame, segments),
        None if is_blank => prepare(frame).map(Left::Checksum),
        None => Some(Left::Nothing),
    }
}

/// A frame that is to be segmented, whose checksum is blank then, whatever its guest says, as Linux's netback has it. If it has no more payload than a
/// segment, bytes behind its IP packet, or more headers than segments may repeat, it goes as it is. `None`: it is no whole TCP packet of that kind.
fn segmented(frame: &mut [u8], segments: Segments) -> Option<Left> {
    let (network, Carried { protocol, start, end, .. }) = carried(frame)?;
    let kind = match (network, protocol, segments.kind) {
        (IPV4, TCP, SegmentKind::Tcpv4) => GSO_TCPV4,
        (IPV6, TCP, SegmentKind::Tcpv6) => GSO_TCPV6,
        _ => return None,
    };
    let length = usize::from(byte(frame, start + 12)? >> 4) * 4;
    let ecn = if byte(frame, start + 13)? & CWR == 0 { 0 } else { GSO_ECN };
    let (headers, size) = (start + length, u16::try_from(segments.size).ok()?);
    if length < TCP_HEADER || headers > end {
        return None;
    }
    let blank = prepare(frame)?;
    let is_cut = end == frame.len() && headers <= MOST_HEADERS && end - headers > usize::from(size) && size > 0;
    Some(match is_cut {
        true => Left::Segments(blank, Cut { kind: kind | ecn, headers, size }),
        false => Left::Checksum(blank),
    })
}

/// Where a frame's blank checksum is; its field is set to the sum of the pseudo header. `None`: it is no whole TCP or UDP
/// packet of IP, and nothing can be filled in.
fn prepare(frame: &mut [u8]) -> Option<Blank> {
    let (_, carried) = carried(frame)?;
    let place = carried.start + checksum_place(carried.protocol)?;
    let shortest = if carried.protocol == TCP { TCP_HEADER } else { UDP_HEADER };
    let length = carried.end.checked_sub(carried.start).filter(|length| *length >= shortest && carried.end <= frame.len())?;
    let pseudo = folded(carried.addresses + u32::from(carried.protocol) + length as u32);
    frame[place..place + 2].copy_from_slice(&pseudo.to_be_bytes());
    Some(Blank { start: carried.start, place })
}

/// The header of a frame for a TAP device (`struct virtio_net_hdr`).
pub fn header(left: Left) -> [u8; HEADER_BYTES] {
    let mut header = [0; HEADER_BYTES];
    let (blank, cut) = match left {
        Left::Nothing => return header,
        Left::Checksum(blank) => (blank, None),
        Left::Segments(blank, cut) => (blank, Some(cut)),
    };
    let mut put = |at: usize, number: usize| header[at..at + 2].copy_from_slice(&(number as u16).to_le_bytes());
    put(6, blank.start);
    put(8, blank.place - blank.start);
    if let Some(Cut { headers, size, .. }) = cut {
        put(2, headers);
        put(4, usize::from(size));
    }
    header[0] = NEEDS_CHECKSUM;
    header[1] = cut.map_or(0, |cut| cut.kind);
    header
}

#[cfg(test)]
mod tests;
