//! What Linux's TAP devices say of a frame, and what they don't, and what the guest is told then.
use super::super::tests::{behind_extensions, filled, ipv4, ipv6, tagged, tcp4, tcp6};
use super::super::{prepare, UDP};
use super::*;
use crate::os::{Interface, TapKind};
use laxonje::Accepts;

const ECN_ALONE: u8 = GSO_ECN;
const UDP_SEGMENTS: u8 = 5; // VIRTIO_NET_HDR_GSO_UDP_L4
const UDP_FRAGMENTS: u8 = 3; // VIRTIO_NET_HDR_GSO_UDP

fn header(flags: u8, kind: u8, size: u16, start: u16, offset: u16) -> [u8; HEADER_BYTES] {
    let mut header = [flags, kind, 0, 0, 0, 0, 0, 0, 0, 0];
    for (at, number) in [(2, 66), (4, size), (6, start), (8, offset)] {
        header[at..at + 2].copy_from_slice(&number.to_le_bytes());
    }
    header
}

fn tcpv4(size: u32) -> Option<Offload> {
    Some(Offload::Segments(Segments { kind: SegmentKind::Tcpv4, size }))
}

fn tcpv6(size: u32) -> Option<Offload> {
    Some(Offload::Segments(Segments { kind: SegmentKind::Tcpv6, size }))
}

#[test]
fn a_guest_is_told_what_its_header_says() {
    let udp4 = ipv4(UDP, 12);
    let rows = [
        (header(0, 0, 0, 0, 0), tcp4(100), Some(Offload::Nothing)),
        // the other fields count only with a flag or a kind
        (header(0, 0, 7, 9000, 9000), tcp4(100), Some(Offload::Nothing)),
        (header(DATA_VALID, 0, 0, 0, 0), tcp4(100), Some(Offload::Validated)),
        (header(NEEDS_CHECKSUM, 0, 0, 34, 16), tcp4(100), Some(Offload::Checksum)),
        (header(NEEDS_CHECKSUM | DATA_VALID, 0, 0, 34, 16), tcp4(100), Some(Offload::Checksum)),
        (header(NEEDS_CHECKSUM, 0, 0, 54, 16), tcp6(100), Some(Offload::Checksum)),
        (header(NEEDS_CHECKSUM, 0, 0, 34, 6), udp4.clone(), Some(Offload::Checksum)),
        (header(NEEDS_CHECKSUM, 0, 0, 78, 16), behind_extensions(&[0, 43, 60], 0, 100), Some(Offload::Checksum)),
        (header(NEEDS_CHECKSUM, GSO_TCPV4, 1448, 34, 16), tcp4(3000), tcpv4(1448)),
        (header(NEEDS_CHECKSUM, GSO_TCPV4 | GSO_ECN, 1448, 34, 16), tcp4(3000), tcpv4(1448)),
        (header(NEEDS_CHECKSUM, GSO_TCPV6, 1428, 54, 16), tcp6(3000), tcpv6(1428)),
        (header(NEEDS_CHECKSUM, GSO_TCPV4, 1, 34, 16), tcp4(65_481), tcpv4(1)),
        (header(NEEDS_CHECKSUM, GSO_TCPV4, 3054, 34, 16), tcp4(3000), tcpv4(3054)),
        // sizes of no bytes, and of more than the packet
        (header(NEEDS_CHECKSUM, GSO_TCPV4, 0, 34, 16), tcp4(3000), None),
        (header(NEEDS_CHECKSUM, GSO_TCPV4, 3055, 34, 16), tcp4(3000), None),
        // another version, another protocol, another place, and a checksum that isn't blank
        (header(NEEDS_CHECKSUM, GSO_TCPV4, 1448, 54, 16), tcp6(3000), None),
        (header(NEEDS_CHECKSUM, GSO_TCPV6, 1448, 34, 16), tcp4(3000), None),
        (header(NEEDS_CHECKSUM, GSO_TCPV4, 536, 34, 6), ipv4(UDP, 3000), None),
        (header(NEEDS_CHECKSUM, GSO_TCPV4, 1448, 34, 6), tcp4(3000), None),
        (header(NEEDS_CHECKSUM, GSO_TCPV4, 1448, 38, 16), tcp4(3000), None),
        (header(0, GSO_TCPV4, 1448, 34, 16), tcp4(3000), None),
        (header(DATA_VALID, GSO_TCPV4, 1448, 34, 16), tcp4(3000), None),
        // kinds that no guest takes, or that nobody has
        (header(NEEDS_CHECKSUM, UDP_FRAGMENTS, 536, 34, 6), ipv4(UDP, 3000), None),
        (header(NEEDS_CHECKSUM, UDP_SEGMENTS, 536, 34, 6), ipv4(UDP, 3000), None),
        (header(NEEDS_CHECKSUM, ECN_ALONE, 0, 34, 16), tcp4(3000), None),
        (header(NEEDS_CHECKSUM, 0x7f, 0, 34, 16), tcp4(3000), None),
        // a checksum that isn't in the frame
        (header(NEEDS_CHECKSUM, 0, 0, 34, 119), tcp4(100), None),
        (header(NEEDS_CHECKSUM, 0, 0, 155, 0), tcp4(100), None),
        (header(NEEDS_CHECKSUM, 0, 0, 65_535, 65_535), tcp4(100), None),
    ];
    for (number, (header, mut frame, wanted)) in rows.into_iter().enumerate() {
        let before = frame.clone();
        assert_eq!(offload(Told::of(&header), &mut frame), wanted, "row {number}");
        assert!(frame == before, "row {number}: what is left to the guest isn't changed");
    }
}

#[test]
fn a_checksum_that_a_guest_does_not_look_for_is_filled_in() {
    let mut one_tag = tagged(&tcp4(101), 1);
    one_tag[60..].iter_mut().zip(1..).for_each(|(byte, number)| *byte = number);
    let frames = [one_tag, tagged(&tcp6(100), 2), tagged(&ipv4(UDP, 9), 1)];
    for frame in frames {
        let mut blank = frame.clone();
        let Blank { start, place } = prepare(&mut blank).unwrap();
        let wanted = filled(&blank, Blank { start, place }, blank.len());
        let header = header(NEEDS_CHECKSUM, 0, 0, start as u16, (place - start) as u16);
        assert_eq!(offload(Told::of(&header), &mut blank), Some(Offload::Nothing));
        assert_eq!(blank[place..place + 2], wanted.to_be_bytes());
    }
    // of GRE, of which netfront knows nothing: any place in the frame
    let mut other = ipv4(47, 40);
    other[36..38].copy_from_slice(&[0x12, 0x34]);
    assert_eq!(offload(Told::of(&header(NEEDS_CHECKSUM, 0, 0, 34, 2)), &mut other), Some(Offload::Nothing));
    assert_eq!(other[36..38], (!0x1234u16).to_be_bytes());
    // a sum of all ones isn't written as 0, which says that there is none
    let mut ones = ipv4(47, 40);
    ones[36..38].copy_from_slice(&[0xff, 0xff]);
    assert_eq!(offload(Told::of(&header(NEEDS_CHECKSUM, 0, 0, 34, 2)), &mut ones), Some(Offload::Nothing));
    assert_eq!(ones[36..38], [0xff, 0xff]);
}

#[test]
fn whatever_a_header_says_its_frame_is_only_looked_at_where_it_is() {
    let mut seed = 1u32;
    let mut any = |most: u32| {
        seed = seed.wrapping_mul(1_664_525).wrapping_add(1_013_904_223);
        (seed >> 8) % most
    };
    let (mut taken, mut none) = (0, 0);
    for _ in 0..60_000 {
        let frames = [tcp4(1000), tcp6(1000), tagged(&tcp4(900), 1), ipv4(UDP, 700), ipv6(60, &[60; 64])];
        let mut frame = frames[any(5) as usize].clone();
        frame.truncate(if any(2) == 0 { 14 + any(1100) as usize } else { frame.len() });
        let at = 12 + any(60) as usize;
        if let Some(byte) = frame.get_mut(at).filter(|_| any(2) == 0) {
            *byte = any(256) as u8;
        }
        let numbers = [34, 54, 38, 16, 6, any(1200) as u16, any(65_536) as u16];
        let mut number = || numbers[any(7) as usize];
        let (size, start, offset) = (number(), number(), number());
        let header = header(any(4) as u8, [0, 1, 4, 0x81, 0x84, any(256) as u8][any(6) as usize], size, start, offset);
        let length = frame.len();
        match offload(Told::of(&header), &mut frame) {
            Some(Offload::Segments(Segments { size, .. })) => assert!((1..=length as u32).contains(&size)),
            Some(_) => taken += 1,
            None => none += 1,
        }
        assert_eq!(frame.len(), length);
    }
    assert!(taken > 5_000 && none > 5_000, "{taken} {none}");
}

#[test]
fn the_kernel_leaves_what_a_guest_takes() {
    let interface = Interface::new(&format!("lxo{}", std::process::id())).unwrap();
    let tap = match interface.open_tap(TapKind::One) {
        Ok(tap) => tap,
        Err(_) => return, // this user may not make TAP devices
    };
    let checksum = Accepts { checksum: true, ..Accepts::default() };
    for accepts in [Accepts::ALL, Accepts::default(), checksum, Accepts { tcpv6: true, ..checksum }] {
        tap.leave(accepts).unwrap();
    }
    assert!(tap.leave(Accepts { tcpv4: true, ..Accepts::default() }).is_err(), "segments without a blank checksum");
}
