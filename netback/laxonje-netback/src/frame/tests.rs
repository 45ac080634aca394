//! Frames, right and wrong, and what the kernel is told of them.
use super::*;
use crate::os::{Interface, TapKind};

/// A frame of IPv4 with `length` bytes after its header.
pub fn ipv4(protocol: u8, length: usize) -> Vec<u8> {
    let mut frame = vec![0; 34 + length];
    frame[12..14].copy_from_slice(&[0x08, 0x00]);
    frame[14] = 0x45;
    frame[16..18].copy_from_slice(&(20 + length as u16).to_be_bytes());
    frame[23] = protocol;
    frame[26..34].copy_from_slice(&[10, 0, 0, 1, 10, 0, 0, 2]);
    frame
}

pub fn ipv6(protocol: u8, payload: &[u8]) -> Vec<u8> {
    let mut frame = vec![0; 54];
    frame[12..14].copy_from_slice(&[0x86, 0xdd]);
    frame[14] = 0x60;
    frame[18..20].copy_from_slice(&(payload.len() as u16).to_be_bytes());
    frame[20] = protocol;
    frame[22..54].copy_from_slice(&[0xfe; 32]);
    frame.extend_from_slice(payload);
    frame
}

/// RFC 1071, done by what the kernel would do: the sum from `start` on, inverted.
pub fn filled(frame: &[u8], blank: Blank, end: usize) -> u16 {
    let mut covered = frame[blank.start..end].to_vec();
    covered.resize((covered.len() + 1) / 2 * 2, 0);
    !folded(sum(&covered))
}

#[test]
fn udp_of_ipv4_has_the_sum_of_its_pseudo_header() {
    let mut frame = ipv4(UDP, 12);
    frame[34..46].copy_from_slice(&[0x12, 0x34, 0x00, 0x07, 0x00, 0x0c, 0xab, 0xcd, b'a', b'b', b'c', b'd']);
    assert_eq!(prepare(&mut frame), Some(Blank { start: 34, place: 40 }));
    // 0a00 + 0001 + 0a00 + 0002 + 0011 + 000c = 1420
    assert_eq!(frame[40..42], [0x14, 0x20]);
    // 1234 + 0007 + 000c + 1420 + 6162 + 6364 = eb2d, inverted
    assert_eq!(filled(&frame, Blank { start: 34, place: 40 }, 46), 0x14d2);
}

#[test]
fn tcp_has_its_place_in_ipv4_ipv6_and_behind_tags() {
    assert_eq!(prepare(&mut ipv4(TCP, 20)), Some(Blank { start: 34, place: 50 }));
    assert_eq!(prepare(&mut ipv6(TCP, &[0; 20])), Some(Blank { start: 54, place: 70 }));
    let mut tagged = ipv4(TCP, 20);
    tagged.splice(12..12, [0x81, 0, 0, 5]);
    assert_eq!(prepare(&mut tagged.clone()), Some(Blank { start: 38, place: 54 }));
    tagged.splice(12..12, [0x88, 0xa8, 0, 5]);
    assert_eq!(prepare(&mut tagged.clone()), Some(Blank { start: 42, place: 58 }));
    tagged.splice(12..12, [0x88, 0xa8, 0, 5]);
    assert_eq!(prepare(&mut tagged), None);
    let options = [&[UDP, 0, 0, 0, 0, 0, 0, 0][..], &[0; 8]].concat();
    assert_eq!(prepare(&mut ipv6(60, &options)), Some(Blank { start: 62, place: 68 }));
    // 16 shorts of fefe, protocol 17, length 8: fefe * 16 + 25 = fefe0 - ..., folded
    let mut frame = ipv6(UDP, &[0; 8]);
    prepare(&mut frame);
    assert_eq!(frame[60..62], [0xf0, 0x08]);
}

#[test]
fn options_of_ipv4_come_before() {
    let mut frame = ipv4(TCP, 28);
    frame[14] = 0x47;
    assert_eq!(prepare(&mut frame), Some(Blank { start: 42, place: 58 }));
}

#[test]
fn what_is_no_whole_tcp_or_udp_packet_has_no_place() {
    let changed = |at: usize, value: u8| {
        let mut frame = ipv4(TCP, 20);
        frame[at] = value;
        prepare(&mut frame)
    };
    assert!(changed(23, UDP).is_some());
    for (at, value) in [(13, 6), (14, 0x44), (14, 0x4f), (17, 41), (17, 39), (20, 0x20), (21, 1), (23, 1)] {
        assert_eq!(changed(at, value), None, "{at} {value}");
    }
}

#[test]
fn a_frame_of_any_length_is_only_looked_at_where_it_is() {
    for frame in [ipv4(TCP, 20), ipv4(UDP, 8), ipv6(60, &[60; 64]), ipv6(TCP, &[0; 20])] {
        for length in 0..frame.len() {
            assert_eq!(prepare(&mut frame[..length].to_vec()), None);
        }
    }
    let mut seed = 1u32;
    for round in 0..20_000 {
        let bytes = (0..round % 120).map(|_| {
            seed = seed.wrapping_mul(1_664_525).wrapping_add(1_013_904_223);
            [0x08, 0x00, 0x86, 0xdd, 0x45, (seed >> 20) as u8][(seed >> 9) as usize % 6]
        });
        let mut frame: Vec<u8> = bytes.collect();
        if let Some(Blank { start, place }) = prepare(&mut frame) {
            assert!(start < place && place + 2 <= frame.len());
        }
    }
}

#[test]
fn the_header_says_where() {
    assert_eq!(header(Left::Nothing), [0; 10]);
    let blank = Blank { start: 34, place: 50 };
    assert_eq!(header(Left::Checksum(blank)), [1, 0, 0, 0, 0, 0, 34, 0, 16, 0]);
    let cut = Cut { kind: GSO_TCPV4, headers: 66, size: 1448 };
    assert_eq!(header(Left::Segments(blank, cut)), [1, 1, 66, 0, 0xa8, 0x05, 34, 0, 16, 0]);
}

/// A TCP packet with a header of 20 bytes and so much payload.
fn tcp(payload: usize) -> Vec<u8> {
    let mut packet = vec![0; 20 + payload];
    packet[12] = 0x50;
    packet
}

fn with_tcp(mut frame: Vec<u8>, payload: usize) -> Vec<u8> {
    let start = frame.len() - 20 - payload;
    frame[start..].copy_from_slice(&tcp(payload));
    frame
}

pub fn tcp4(payload: usize) -> Vec<u8> {
    with_tcp(ipv4(TCP, 20 + payload), payload)
}

pub fn tcp6(payload: usize) -> Vec<u8> {
    ipv6(TCP, &tcp(payload))
}

/// An IPv6 packet whose TCP comes behind extension headers, each of 8 bytes and these eights more.
pub fn behind_extensions(kinds: &[u8], eights: u8, payload: usize) -> Vec<u8> {
    let next = kinds[1..].iter().copied().chain([TCP]);
    let headers = next.flat_map(|next| [&[next, eights][..], &vec![0; 6 + 8 * usize::from(eights)]].concat());
    ipv6(kinds[0], &headers.chain(tcp(payload)).collect::<Vec<u8>>())
}

pub fn tagged(frame: &[u8], tags: usize) -> Vec<u8> {
    [&frame[..12], &[0x81, 0, 0, 5].repeat(tags), &frame[12..]].concat()
}

/// What the kernel is told of these segments: the kind, the headers, the size, and where the checksum is.
fn cut(mut frame: Vec<u8>, kind: SegmentKind, size: u32) -> Option<[u16; 5]> {
    let left = left(&mut frame, true, Some(Segments { kind, size }))?;
    let header = header(left);
    let number = |at| u16::from_le_bytes([header[at], header[at + 1]]);
    Some([u16::from(header[1]), number(2), number(4), number(6), number(8)])
}

#[test]
fn segments_are_told_of_whole_tcp_packets_of_their_kind() {
    use SegmentKind::{Tcpv4, Tcpv6};
    let mut options = tcp4(3000);
    options[46] = 0x80; // a TCP header of 32 bytes
    let mut reduced = tcp4(3000);
    reduced[47] = CWR;
    let mut ip_options = tcp4(3012);
    ip_options.copy_within(34..54, 46);
    ip_options[14] = 0x48;
    let long = |eights| behind_extensions(&[60], eights, 3000);
    let rows = [
        (tcp4(3000), Tcpv4, 1448, Some([1, 54, 1448, 34, 16])),
        (tcp6(3000), Tcpv6, 1428, Some([4, 74, 1428, 54, 16])),
        (options, Tcpv4, 1448, Some([1, 66, 1448, 34, 16])),
        (reduced, Tcpv4, 1448, Some([0x81, 54, 1448, 34, 16])),
        (ip_options, Tcpv4, 1448, Some([1, 66, 1448, 46, 16])),
        (tagged(&tcp4(3000), 1), Tcpv4, 1448, Some([1, 58, 1448, 38, 16])),
        (tagged(&tcp6(3000), 2), Tcpv6, 1428, Some([4, 82, 1428, 62, 16])),
        (behind_extensions(&[0, 43, 60], 0, 3000), Tcpv6, 1428, Some([4, 98, 1428, 78, 16])),
        (tcp4(65_481), Tcpv4, 536, Some([1, 54, 536, 34, 16])),
        // as they are: what is one segment, and what repeats more headers than segments may
        (tcp4(1448), Tcpv4, 1448, Some([0, 0, 0, 34, 16])),
        (tcp4(0), Tcpv4, 536, Some([0, 0, 0, 34, 16])),
        (tcp4(3000), Tcpv4, 0, Some([0, 0, 0, 34, 16])),
        (tcp4(3000), Tcpv4, 65_535, Some([0, 0, 0, 34, 16])),
        (long(31), Tcpv6, 1428, Some([4, 330, 1428, 310, 16])),
        (long(33), Tcpv6, 1428, Some([0, 0, 0, 326, 16])),
        // none of that kind
        (tcp4(3000), Tcpv6, 1448, None),
        (tcp6(3000), Tcpv4, 1428, None),
        (tcp4(3000), SegmentKind::Unknown(3), 1448, None),
        (tcp4(3000), Tcpv4, 65_536, None),
        (ipv4(UDP, 3000), Tcpv4, 1448, None),
        (ipv4(1, 3000), Tcpv4, 1448, None),
        (tagged(&tcp4(3000), 3), Tcpv4, 1448, None),
        (behind_extensions(&[44], 0, 3000), Tcpv6, 1428, None),
        (behind_extensions(&[51], 0, 3000), Tcpv6, 1428, None),
        (vec![0; 3000], Tcpv4, 1448, None),
    ];
    for (number, (frame, kind, size, wanted)) in rows.into_iter().enumerate() {
        assert_eq!(cut(frame, kind, size), wanted, "row {number}");
    }
}

#[test]
fn segments_of_headers_that_lie_are_not_told() {
    let changed = |changes: &[(usize, u8)]| {
        let mut frame = tcp4(3000);
        changes.iter().for_each(|(at, value)| frame[*at] = *value);
        cut(frame, SegmentKind::Tcpv4, 536)
    };
    assert!(changed(&[]).map_or(false, |told| told[0] == GSO_TCPV4.into()));
    // the version's half of the first byte isn't looked at; lengths of the IP header, of the packet, fragments, the length of TCP's header
    for changes in
        [&[(14, 0x44)][..], &[(14, 0x40)], &[(16, 0xff)], &[(16, 0), (17, 39)], &[(20, 0x20)], &[(21, 1)], &[(46, 0x40)], &[(46, 0)]]
    {
        assert_eq!(changed(changes), None, "{changes:?}");
    }
    // an IP packet that ends before its frame does: what is behind it would be payload
    assert_eq!(changed(&[(17, 0)]), Some([0, 0, 0, 34, 16]));
    // a packet that is no longer than its header of TCP
    assert_eq!((changed(&[(16, 0), (17, 60), (46, 0xb0)]), changed(&[(16, 0), (17, 60), (46, 0xa0)])), (None, Some([0, 0, 0, 34, 16])));
}

#[test]
fn a_whole_checksum_of_what_is_segmented_is_made_anew() {
    let (mut blank, mut whole) = (tcp4(3000), tcp4(3000));
    (whole[50], whole[51]) = (0x12, 0x34);
    let segments = Some(Segments { kind: SegmentKind::Tcpv4, size: 1448 });
    assert_eq!(left(&mut blank, true, segments), left(&mut whole, false, segments));
    assert_eq!(blank, whole);
    assert_eq!((left(&mut whole, false, None), whole[50..52] == blank[50..52]), (Some(Left::Nothing), true));
}

/// What Linux demands of a header (virtio_net_hdr_to_skb), and what more this module promises.
fn fits(header: [u8; HEADER_BYTES], frame: &[u8]) -> bool {
    let number = |at| usize::from(u16::from_le_bytes([header[at], header[at + 1]]));
    let (kind, headers, size, start, offset) = (header[1], number(2), number(4), number(6), number(8));
    match (header[0], kind & !GSO_ECN) {
        (0, 0) => header == [0; HEADER_BYTES],
        (NEEDS_CHECKSUM, 0) => start + offset + 2 <= frame.len(),
        (NEEDS_CHECKSUM, GSO_TCPV4 | GSO_TCPV6) => {
            let is_tcp = offset == TCP_CHECKSUM && start + TCP_HEADER <= headers && headers < frame.len();
            is_tcp && headers <= MOST_HEADERS && (1..0xffff).contains(&size) && frame.len() - headers > size
        }
        _ => false,
    }
}

/// Frames that are nearly TCP, of a guest that wants segments of them, and what is left of each to the kernel.
fn each_of(count: usize, mut each: impl FnMut(Option<Left>, &[u8])) {
    let mut seed = 1u32;
    let mut any = |most: u32| {
        seed = seed.wrapping_mul(1_664_525).wrapping_add(1_013_904_223);
        (seed >> 8) % most
    };
    for _ in 0..count {
        let frames = [tcp4(1000), tcp6(1000), tagged(&tcp4(900), 1), behind_extensions(&[0, 60], 3, 700)];
        let mut frame = frames[any(4) as usize].clone();
        for _ in 0..any(4) {
            let at = 12 + any(80) as usize;
            frame[at] = any(256) as u8;
        }
        frame.truncate(if any(3) == 0 { 14 + any(1100) as usize } else { frame.len() });
        let kind = [SegmentKind::Tcpv4, SegmentKind::Tcpv6][any(2) as usize];
        let segments = Segments { kind, size: if any(4) == 0 { any(70_000) } else { 536 } };
        let left = left(&mut frame, any(2) == 0, Some(segments));
        each(left, &frame);
    }
}

#[test]
fn whatever_a_frame_is_its_header_fits() {
    let (mut cut, mut none) = (0, 0);
    each_of(60_000, |left, frame| {
        assert!(left.map_or(true, |left| fits(header(left), frame)), "{left:?}");
        cut += usize::from(matches!(left, Some(Left::Segments(..))));
        none += usize::from(left.is_none());
    });
    assert!(cut > 5_000 && none > 5_000, "{cut} {none}");
}

#[test]
fn the_kernel_takes_each_header() {
    let interface = Interface::new(&format!("lxh{}", std::process::id())).unwrap();
    let mut tap = match interface.open_tap(TapKind::One) {
        Ok(tap) => tap,
        Err(_) => return, // this user may not make TAP devices
    };
    interface.set_up().unwrap();
    let mut taken = |header: [u8; HEADER_BYTES], frame: &[u8]| {
        let packet = [&header[..], frame].concat();
        tap.exchange([&packet[..]].into_iter(), std::iter::empty()) == [Some(packet.len())]
    };
    each_of(2_000, |left, frame| assert!(left.map_or(true, |left| taken(header(left), frame)), "{left:?} {frame:x?}"));
    // one that it doesn't take: its checksum is behind the frame
    assert!(!taken([NEEDS_CHECKSUM, 0, 0, 0, 0, 0, 60, 0, 16, 0], &[0; 60]));
}
