//! Segments that are made here: of TCP behind a VLAN tag, which the kernel leaves to a TAP device, and no netfront takes.
use super::to_guest::Told;
use super::{
    carried, folded, network, short, sum, sum_of_all, ETHERNET, GSO_ECN, GSO_TCPV4, GSO_TCPV6, IPV4, IPV6, TCP, TCP_CHECKSUM, TCP_HEADER,
};

const IPV6_BYTES: usize = 40;
/// The flags of TCP that the last segment alone has, and that which the first alone has (RFC 9293, RFC 3168).
const FIN_AND_PSH: u8 = 0x09;
const CWR: u8 = 0x80;

/// A TCP packet, and how it is cut.
pub struct Cut<'frame> {
    frame: &'frame [u8],
    network: u16,
    /// Where the IP header is, the TCP header, and the payload.
    ip: usize,
    tcp: usize,
    payload: usize,
    end: usize,
    size: usize,
    /// The sum of the pseudo header but for the length.
    pseudo: u32,
}

impl<'frame> Cut<'frame> {
    /// How a frame that came behind this header is cut. `None`: it isn't whole TCP behind a tag, or has another kind of segments.
    pub fn of(told: &Told, frame: &'frame [u8]) -> Option<Cut<'frame>> {
        let ((network, ip), (_, carried)) = (network(frame)?, carried(frame)?);
        let kind = if network == IPV4 { GSO_TCPV4 } else { GSO_TCPV6 };
        let tcp = carried.start;
        let payload = tcp + usize::from(frame.get(tcp + 12)? >> 4) * 4;
        let is_tcp = carried.protocol == TCP && told.is_blank() && told.kind & !GSO_ECN == kind && told.blank.start == tcp;
        let is_whole = payload >= tcp + TCP_HEADER
            && payload < carried.end
            && carried.end <= frame.len()
            && short(frame, ETHERNET - 2) != Some(network);
        let pseudo = carried.addresses + u32::from(TCP);
        let size = usize::from(told.size);
        (is_tcp && is_whole && size > 0).then_some(Cut { frame, network, ip, tcp, payload, end: carried.end, size, pseudo })
    }

    /// The bytes of the longest segment.
    pub fn longest(&self) -> usize {
        self.payload + self.size.min(self.end - self.payload)
    }

    /// Makes the segment whose payload begins there, and returns how long it is and where the next begins. `None`: there is none.
    pub fn make(&self, from: usize, into: &mut [u8]) -> Option<(usize, usize)> {
        let from = from.max(self.payload);
        let to = self.end.min(from + self.size);
        if from >= self.end {
            return None;
        }
        let length = self.payload + to - from;
        let segment = &mut into[..length];
        segment[..self.payload].copy_from_slice(&self.frame[..self.payload]);
        segment[self.payload..].copy_from_slice(&self.frame[from..to]);
        self.set_ip(segment, (from - self.payload) / self.size);
        self.set_tcp(segment, from, to);
        Some((length, to))
    }

    fn set_ip(&self, segment: &mut [u8], number: usize) {
        let length = segment.len() - self.ip;
        let mut put = |at: usize, number: usize| segment[self.ip + at..self.ip + at + 2].copy_from_slice(&(number as u16).to_be_bytes());
        if self.network == IPV6 {
            return put(4, length - IPV6_BYTES);
        }
        put(2, length);
        put(4, usize::from(short(self.frame, self.ip + 4).unwrap_or(0)) + number);
        put(10, 0);
        let checksum = !folded(sum(&segment[self.ip..self.tcp]));
        segment[self.ip + 10..self.ip + 12].copy_from_slice(&checksum.to_be_bytes());
    }

    fn set_tcp(&self, segment: &mut [u8], from: usize, to: usize) {
        let tcp = &mut segment[self.tcp..];
        let sequence = u32::from_be_bytes([tcp[4], tcp[5], tcp[6], tcp[7]]).wrapping_add((from - self.payload) as u32);
        tcp[4..8].copy_from_slice(&sequence.to_be_bytes());
        tcp[13] &= !(if to < self.end { FIN_AND_PSH } else { 0 } | if from > self.payload { CWR } else { 0 });
        tcp[TCP_CHECKSUM..TCP_CHECKSUM + 2].fill(0);
        let checksum = !folded(self.pseudo + tcp.len() as u32 + sum_of_all(tcp));
        tcp[TCP_CHECKSUM..TCP_CHECKSUM + 2].copy_from_slice(&checksum.to_be_bytes());
    }
}

#[cfg(test)]
mod tests;
