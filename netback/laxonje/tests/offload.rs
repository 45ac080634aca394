//! Packets that a guest leaves to be segmented, and packets that leave that, or a checksum, to a guest.
#[allow(dead_code)]
mod memory;

use laxonje::{
    Accepts, Awaited, DeliverError, Delivery, Indices, Offers, Offload, Program, Queue, Refusal, SegmentKind, Segments, Turn, TurnRun,
};
use memory::{answers, udp, Memory, DATA, RING, RX, TX};

const OKAY: i16 = 0;
const ERROR: i16 = -1;
const NULL: i16 = 1;
const BLANK: u32 = 1;
const VALIDATED: u32 = 2;
const MORE: u32 = 4;
const EXTRA: u32 = 8;
// of an rx response the first two are the other way round
const RX_VALIDATED: u32 = 1;
const RX_BLANK: u32 = 2;

fn ran(turn: Turn) -> TurnRun {
    match turn {
        Turn::Ran(run) => run,
        other => panic!("{other:?}"),
    }
}

/// A packet of 2,000 bytes in three slots, the second of which is an extra of these words.
fn send_to_segment(guest: &Memory, index: u32, extra: [u32; 2]) {
    let (first, second) = (guest.grant(0, false), guest.grant(1, false));
    guest.fill(0, &udp(2000));
    guest.send(index, first, BLANK | MORE | EXTRA, 2000);
    (0..).zip(extra).for_each(|(word, value)| guest.set(TX, RING + 3 * (index as usize + 1) + word, value));
    guest.send(index + 2, second, 0, 900);
}

/// The words of a GSO extra (netif.h).
fn gso(size: u32, kind: u32) -> [u32; 2] {
    [1 | size << 16, kind]
}

#[test]
fn a_packet_is_to_be_segmented_if_that_was_offered() {
    let (program, mut guest) = (answers(2), Memory::new());
    let mut queue = guest.queue(&program, Indices::default());
    let mut index = 0;
    let mut turn = |queue: &mut Queue, extra| {
        send_to_segment(&guest, index, extra);
        index += 3;
        queue.turn(&mut guest)
    };
    let refused = Turn::Refused(Refusal::EXTRA);
    assert_eq!(turn(&mut queue, gso(1448, 1)), refused);
    assert_eq!(queue.offer(Offers { tcpv4: true, tcpv6: false }), Ok(()));
    let run = ran(turn(&mut queue, gso(1448, 1)));
    let segments = Some(Segments { kind: SegmentKind::Tcpv4, size: 1448 });
    assert_eq!((run.slots, run.segments, queue.segments()), (3, segments, segments));
    assert_eq!(turn(&mut queue, gso(1448, 2)), refused);
    assert_eq!(queue.segments(), None);
    // another program makes the same offers
    queue.replace(&answers(1)).unwrap();
    assert_eq!(ran(turn(&mut queue, gso(536, 1))).segments, Some(Segments { kind: SegmentKind::Tcpv4, size: 536 }));
    assert_eq!(turn(&mut queue, gso(1448, 2)), refused);
    assert_eq!(queue.offer(Offers::ALL), Ok(()));
    assert_eq!(ran(turn(&mut queue, gso(2000, 2))).segments, Some(Segments { kind: SegmentKind::Tcpv6, size: 2000 }));
    for extra in [gso(535, 1), gso(0, 1), gso(1, 1), gso(2001, 1), gso(1448, 0), gso(1448, 3), gso(1448, 255), [2, 0], [4, 1]] {
        assert_eq!(turn(&mut queue, extra), refused, "{extra:?}");
    }
    assert_eq!(queue.offer(Offers::default()), Ok(()));
    assert_eq!(turn(&mut queue, gso(1448, 1)), refused);
}

#[test]
fn an_extra_is_answered_with_null() {
    let (program, mut guest) = (answers(2), Memory::new());
    let mut queue = guest.queue(&program, Indices::default());
    queue.offer(Offers::ALL).unwrap();
    send_to_segment(&guest, 0, gso(1448, 1));
    ran(queue.turn(&mut guest));
    assert_eq!([0, 1, 2].map(|index| guest.sent(index)), [(100, OKAY), (0, NULL), (102, OKAY)]);
    let mut packet = vec![0; 2000];
    assert_eq!(queue.packet(&mut packet), 2000);
}

/// The two words of the rx ring's entry at an index.
fn entry_words(guest: &Memory, index: usize) -> [u32; 2] {
    [0, 1].map(|word| guest.get(RX, RING + 2 * index + word))
}

fn segments(kind: SegmentKind, size: u32) -> Offload {
    Offload::Segments(Segments { kind, size })
}

fn tcpv4(size: u32) -> Offload {
    segments(SegmentKind::Tcpv4, size)
}

/// A guest that takes so much, and a queue of it, for which it has posted so many buffers.
fn posted(program: &Program, accepts: Accepts, count: u32) -> (Memory, Queue) {
    let guest = Memory::new();
    let mut queue = guest.queue(program, Indices::default());
    queue.accept(accepts).unwrap();
    for index in 0..count {
        guest.post(index, guest.grant(index as usize % 8, true));
    }
    (guest, queue)
}

#[test]
fn a_guest_is_told_what_a_packet_leaves_to_it() {
    let program = answers(2);
    for (offload, flags) in [
        (Offload::Nothing, 0),
        (Offload::Validated, RX_VALIDATED),
        (Offload::Checksum, RX_BLANK | RX_VALIDATED),
        (tcpv4(1448), RX_BLANK | RX_VALIDATED | EXTRA),
    ] {
        let (mut guest, mut queue) = posted(&program, Accepts::ALL, 17);
        let packet = udp(4096);
        let slots = if flags & EXTRA == 0 { 1 } else { 2 };
        assert_eq!(queue.deliver_as(&packet, offload, &mut guest), Ok(Delivery::Sent { slots }), "{offload:?}");
        assert_eq!(guest.received(0), (200, 0, flags, 4096), "{offload:?}");
        assert_eq!(queue.indices(), Ok(Indices { tx: 0, rx: slots }));
        // the next one leaves nothing
        assert_eq!(queue.deliver(&packet, &mut guest), Ok(Delivery::Sent { slots: 1 }));
        assert_eq!(guest.received(slots), (200 + slots, 0, 0, 4096));
    }
}

#[test]
fn an_extra_lies_behind_the_first_slot() {
    let program = answers(2);
    for (kind, number) in [(SegmentKind::Tcpv4, 1), (SegmentKind::Tcpv6, 2)] {
        let (mut guest, mut queue) = posted(&program, Accepts::ALL, 17);
        let packet = udp(10_000);
        assert_eq!(queue.deliver_as(&packet, segments(kind, 1448), &mut guest), Ok(Delivery::Sent { slots: 4 }));
        assert_eq!(guest.received(0), (200, 0, RX_BLANK | RX_VALIDATED | MORE | EXTRA, 4096));
        assert_eq!(entry_words(&guest, 1), gso(1448, number));
        assert_eq!((guest.received(2), guest.received(3)), ((202, 0, MORE, 4096), (203, 0, 0, 1808)));
        // its pages are those of the other slots' grants
        for (page, from) in [(0, 0), (2, 4096), (3, 8192)] {
            assert_eq!(guest.get(DATA + page, 5).to_le_bytes(), packet[from + 20..from + 24]);
        }
        assert_eq!(guest.get(DATA + 1, 5), 0);
    }
}

#[test]
fn the_extras_grant_is_not_looked_at() {
    let program = answers(2);
    let (mut guest, mut queue) = posted(&program, Accepts::ALL, 1);
    guest.post(1, 9999);
    guest.post(2, guest.grant(2, true));
    assert_eq!(queue.deliver_as(&udp(5000), tcpv4(1000), &mut guest), Ok(Delivery::Sent { slots: 3 }));
    guest.post(3, guest.grant(3, true));
    guest.post(4, 9999);
    guest.post(5, 9999);
    assert_eq!(queue.deliver_as(&udp(5000), tcpv4(1000), &mut guest), Ok(Delivery::Refused { slots: 3 }));
    assert_eq!([3, 4, 5].map(|index| guest.received(index)), [3, 4, 5].map(|index| (200 + index, 0, 0, ERROR)));
}

#[test]
fn a_packet_that_the_guest_does_not_take_is_not_delivered() {
    let program = answers(2);
    let (mut guest, mut queue) = posted(&program, Accepts::default(), 17);
    let left = [Offload::Checksum, tcpv4(1448), segments(SegmentKind::Tcpv6, 1448)];
    let takes = [
        (Accepts::default(), [false; 3]),
        (Accepts { checksum: true, ..Accepts::default() }, [true, false, false]),
        (Accepts { tcpv4: true, ..Accepts::default() }, [false, true, false]),
        (Accepts { tcpv6: true, ..Accepts::default() }, [false, false, true]),
        (Accepts::ALL, [true; 3]),
    ];
    for (accepts, wanted) in takes {
        queue.accept(accepts).unwrap();
        for (offload, is_taken) in left.into_iter().zip(wanted) {
            let before = queue.indices();
            let delivery = queue.deliver_as(&udp(2000), offload, &mut guest);
            assert_eq!(delivery.is_ok(), is_taken, "{accepts:?} {offload:?}");
            assert!(is_taken || (delivery, queue.indices()) == (Err(DeliverError::NotAccepted), before));
        }
    }
    for size in [0, 2001, 65535] {
        assert_eq!(queue.deliver_as(&udp(2000), tcpv4(size), &mut guest), Err(DeliverError::NotAccepted), "{size}");
    }
    for offload in [tcpv4(65536), tcpv4(u32::MAX), segments(SegmentKind::Unknown(1), 1448)] {
        assert_eq!(queue.deliver_as(&udp(2000), offload, &mut guest), Err(DeliverError::Unknown), "{offload:?}");
    }
    for size in [1, 2000] {
        assert_eq!(queue.deliver_as(&udp(2000), tcpv4(size), &mut guest), Ok(Delivery::Sent { slots: 2 }), "{size}");
    }
    assert_eq!(queue.deliver_as(&[0; 13], tcpv4(5), &mut guest), Err(DeliverError::Length));
}

#[test]
fn another_programs_queue_knows_what_the_guest_takes() {
    let program = answers(2);
    let (mut guest, mut queue) = posted(&program, Accepts { tcpv6: true, ..Accepts::default() }, 17);
    queue.replace(&answers(1)).unwrap();
    let tcpv6 = segments(SegmentKind::Tcpv6, 1448);
    assert_eq!(queue.deliver_as(&udp(2000), tcpv6, &mut guest), Ok(Delivery::Sent { slots: 2 }));
    assert_eq!(queue.deliver_as(&udp(2000), tcpv4(1448), &mut guest), Err(DeliverError::NotAccepted));
}

#[test]
fn a_wait_is_for_the_extras_slot_too() {
    let program = answers(2);
    let (mut guest, mut queue) = posted(&program, Accepts::ALL, 1);
    let packet = udp(4096);
    assert_eq!(queue.wait_for(packet.len(), &mut guest), Ok(Awaited::Posted));
    assert_eq!(queue.deliver_as(&packet, tcpv4(1448), &mut guest), Ok(Delivery::FewSlots));
    assert_eq!(queue.wait_for_as(packet.len(), Offload::Checksum, &mut guest), Ok(Awaited::Posted));
    assert_eq!(queue.wait_for_as(packet.len(), tcpv4(1448), &mut guest), Ok(Awaited::Waiting));
    guest.post(1, 0);
    assert_eq!(queue.wait_for_as(packet.len(), tcpv4(1448), &mut guest), Ok(Awaited::Posted));
    assert_eq!(queue.deliver_as(&packet, tcpv4(1448), &mut guest), Ok(Delivery::Sent { slots: 2 }));
}

#[test]
fn what_one_guest_left_another_is_left() {
    let (program, mut from) = (answers(2), Memory::new());
    let mut sender = from.queue(&program, Indices::default());
    sender.offer(Offers::ALL).unwrap();
    send_to_segment(&from, 0, gso(1448, 2));
    let run = ran(sender.turn(&mut from));
    assert_eq!(run.offload(), segments(SegmentKind::Tcpv6, 1448));
    let mut packet = vec![0; 2000];
    sender.packet(&mut packet);
    let (mut to, mut receiver) = posted(&program, Accepts::ALL, 2);
    assert_eq!(receiver.deliver_as(&packet, run.offload(), &mut to), Ok(Delivery::Sent { slots: 2 }));
    assert_eq!(entry_words(&to, 1), gso(1448, 2));
    for (index, flags, offload) in [(3, BLANK | VALIDATED, Offload::Checksum), (4, VALIDATED, Offload::Validated), (5, 0, Offload::Nothing)]
    {
        from.send(index, from.grant(0, false), flags, 60);
        assert_eq!(ran(sender.turn(&mut from)).offload(), offload);
    }
}
