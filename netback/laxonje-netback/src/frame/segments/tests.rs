//! Segments that are made here, as Linux makes them.
use super::super::tests::{tagged, tcp4, tcp6};
use super::super::to_guest::{offload, Told};
use super::*;

/// What a TAP device says of TCP behind so many tags.
fn told(kind: u8, size: u16, start: u16) -> Told {
    let ([low, high], [first, second]) = (size.to_le_bytes(), start.to_le_bytes());
    Told::of(&[1, kind, 0, 0, low, high, first, second, 16, 0])
}

fn made(told: Told, frame: &[u8]) -> Option<Vec<Vec<u8>>> {
    let cut = Cut::of(&told, frame)?;
    let (mut from, mut segments) = (0, Vec::new());
    loop {
        let mut room = vec![0; cut.longest()];
        match cut.make(from, &mut room) {
            Some((length, next)) => {
                room.truncate(length);
                segments.push(room);
                from = next;
            }
            None => return Some(segments),
        }
    }
}

fn numbered(mut frame: Vec<u8>, payload: usize) -> Vec<u8> {
    let start = frame.len() - payload;
    frame[start..].iter_mut().zip(0u32..).for_each(|(byte, number)| *byte = (number % 251) as u8);
    frame[start - 16..start - 12].copy_from_slice(&0xffff_fff0u32.to_be_bytes());
    frame[start - 7] = 0xff;
    frame
}

#[test]
fn tcp_behind_a_tag_is_cut() {
    for (frame, kind, tags, size) in [
        (tcp4(3000), GSO_TCPV4, 1, 1448),
        (tcp4(3001), GSO_TCPV4 | GSO_ECN, 2, 1000),
        (tcp6(3001), GSO_TCPV6, 1, 1428),
        (tcp6(100), GSO_TCPV6, 2, 1),
    ] {
        let payload = frame.len() - if kind == GSO_TCPV6 { 74 } else { 54 };
        let frame = numbered(tagged(&frame, tags), payload);
        let headers = frame.len() - payload;
        let told = told(kind, size, (headers - 20) as u16);
        assert_eq!(offload(told, &mut frame.clone()), None);
        let segments = made(told, &frame).unwrap();
        let size = usize::from(size);
        assert_eq!(segments.len(), (payload + size - 1) / size);
        // together they are the packet's payload, and each is whole: its headers' lengths, its numbers, its flags, its checksums
        assert!(segments.iter().flat_map(|segment| &segment[headers..]).copied().collect::<Vec<_>>() == frame[headers..]);
        for (number, segment) in segments.iter().enumerate() {
            let (network, ip) = network(segment).unwrap();
            let (_, carried) = carried(segment).unwrap();
            assert_eq!((carried.end, segment.len() <= headers + size), (segment.len(), true));
            let tcp = &segment[carried.start..];
            assert_eq!(u32::from_be_bytes([tcp[4], tcp[5], tcp[6], tcp[7]]), 0xffff_fff0u32.wrapping_add((number * size) as u32));
            let (first, last) = (number == 0, number + 1 == segments.len());
            assert_eq!(tcp[13], 0x76 | if first { CWR } else { 0 } | if last { FIN_AND_PSH } else { 0 });
            assert_eq!(folded(carried.addresses + u32::from(TCP) + tcp.len() as u32 + sum_of_all(tcp)), 0xffff);
            if network == IPV4 {
                assert_eq!((folded(sum(&segment[ip..ip + 20])), short(segment, ip + 4)), (0xffff, Some(number as u16)));
            }
        }
    }
}

#[test]
fn what_is_left_to_the_guest_or_is_none_is_not_cut() {
    let one_tag = tagged(&tcp4(3000), 1);
    let plain = told(GSO_TCPV4, 1448, 34);
    assert!(made(told(GSO_TCPV4, 1448, 38), &one_tag).is_some());
    let rows = [
        (plain, tcp4(3000)),
        (plain, one_tag.clone()),
        (told(GSO_TCPV6, 1448, 38), one_tag.clone()),
        (told(GSO_TCPV4, 0, 38), one_tag.clone()),
        (told(5, 1448, 38), one_tag.clone()),
        (told(GSO_TCPV4, 1448, 42), tagged(&tcp4(3000), 3)),
        (told(GSO_TCPV4, 1448, 38), one_tag[..2000].to_vec()),
        (told(GSO_TCPV4, 1448, 38), one_tag[..40].to_vec()),
        (told(GSO_TCPV4, 1448, 38), tagged(&tcp4(0), 1)),
    ];
    for (number, (told, frame)) in rows.into_iter().enumerate() {
        assert!(made(told, &frame).is_none(), "row {number}");
    }
}
