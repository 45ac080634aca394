//! Deliveries: what is copied to the guest before them, what the guest changes meanwhile, and what is left to it.
use super::*;
use crate::os::HEADER_BYTES;
use laxonje::{Awaited, DeliverError, Offload};

/// Where the buffers of these tests are.
const BUFFERS: u32 = 100;
const SLOTS_POSTED: u32 = 17;

#[test]
fn packets_are_put_into_posted_buffers_in_one_call() {
    let mut bench = Bench::new(Way::Copy, 2);
    (30..34).for_each(|reference| bench.memory.grant(reference, true));
    (0..4).for_each(|index| bench.memory.post(index, 30 + index));
    let mut arena = arena(&[60, 5000, 61, 5000]);
    assert_eq!(bench.guest.put(&arena).unwrap(), 3);
    assert_eq!(bench.memory.said(), ["30>0+60 31>0+4096 32>0+904 33>0+64"]);
    for slots in [1, 2, 1] {
        assert_eq!(bench.deliver(&arena), Delivery::Sent { slots });
        arena.leave();
    }
    assert_eq!(bench.deliver(&arena), Delivery::FewSlots);
    assert!(bench.memory.said().is_empty());
    assert_eq!(bench.memory.page(32)[225].load(SeqCst), 0x5a5a_5a5a);
    assert_eq!(bench.memory.page(33)[15].load(SeqCst), 0x5a);
    assert_eq!((bench.memory.status(RX, 0), bench.memory.status(RX, 2)), (60, 904));
}

#[test]
fn a_buffer_that_the_guest_changes_gets_its_packet_too() {
    let mut bench = Bench::new(Way::Copy, 2);
    (30..33).for_each(|reference| bench.memory.grant(reference, true));
    bench.memory.post(0, 30);
    let arena = arena(&[60]);
    assert_eq!(bench.guest.put(&arena).unwrap(), 1);
    bench.memory.post(0, 31);
    assert_eq!(bench.deliver(&arena), Delivery::Sent { slots: 1 });
    // asked for by a word of zeros, then written before the response is shown
    assert_eq!(bench.memory.said(), ["30>0+60", "31>0+4", "31>0+60"]);
    assert_eq!(bench.memory.page(31)[0].load(SeqCst), 0x5a5a_5a5a);
}

#[test]
fn buffers_that_the_guest_exchanges_get_what_the_queue_writes() {
    let mut bench = Bench::new(Way::Copy, 2);
    (30..32).for_each(|reference| bench.memory.grant(reference, true));
    (0..2).for_each(|index| bench.memory.post(index, 30 + index));
    let mut arena = Arena::new();
    arena.put(&[&[1; 4096][..], &[2; 60]].concat());
    bench.guest.put(&arena).unwrap();
    let packet = arena.first().unwrap();
    let mut guest = Delivering { guest: &mut bench.guest, arena: &arena, packet };
    let mut slots = [0; 4];
    guest.read(RX_RING, SLOTS, &mut slots[..2]);
    guest.read(RX_RING, SLOTS + RX_SLOT, &mut slots[2..]);
    // as if the slots had been read as 31, then 30
    for reference in [31, 30] {
        assert_ne!(guest.entry(&Entry { reference, frame: 0, word: 0, writes: true })[0], 0);
    }
    guest.write(GRANTED, 0, &[0x0101_0101; 1024]);
    guest.write(GRANTED + 1, 0, &[0x0202_0202; 15]);
    guest.over();
    let bytes = |reference, word: usize| bench.memory.page(reference)[word].load(SeqCst).to_le_bytes()[0];
    assert_eq!((bytes(31, 0), bytes(31, 1023), bytes(30, 0), bytes(30, 14)), (1, 1, 2, 2));
    assert_eq!(bench.count(|totals| &totals.strange), 0);
}

#[test]
fn a_buffer_that_is_for_reading_alone_is_refused() {
    let mut bench = Bench::new(Way::Copy, 2);
    bench.memory.grant(30, false);
    bench.memory.post(0, 30);
    let arena = arena(&[60]);
    bench.guest.put(&arena).unwrap();
    assert_eq!(bench.deliver(&arena), Delivery::Refused { slots: 1 });
    assert_eq!((bench.memory.status(RX, 0), bench.count(|totals| &totals.refused_grants)), (-1, 1));
}

/// What a TAP device has of TCP that is to be segmented: its header, and a packet of so many bytes (if_tun.h, RFC 791, RFC 8200, RFC 9293).
pub fn to_segment(kind: SegmentKind, size: u16, length: usize) -> ([u8; HEADER_BYTES], Vec<u8>) {
    let mut frame: Vec<u8> = (0..length).map(|byte| (byte * 7 + byte / 256) as u8).collect();
    let (number, start) = if kind == SegmentKind::Tcpv4 { (1, 34) } else { (4, 54) };
    match kind {
        SegmentKind::Tcpv4 => {
            (frame[12], frame[13], frame[14], frame[23]) = (8, 0, 0x45, 6);
            (frame[20], frame[21]) = (0, 0);
        }
        _ => (frame[12], frame[13], frame[14], frame[20]) = (0x86, 0xdd, 0x60, 6),
    }
    let [low, high] = size.to_le_bytes();
    ([1, number, 0, 0, low, high, start, 0, 16, 0], frame)
}

impl Bench {
    /// A guest that takes this, and has posted so many buffers.
    fn posted(way: Way, accepts: Accepts, count: u32) -> Bench {
        let mut bench = Bench::new(way, 2);
        bench.queue.accept(accepts).unwrap();
        (0..count).for_each(|index| bench.post(index));
        bench
    }

    fn post(&self, index: u32) {
        self.memory.grant(BUFFERS + index, true);
        self.memory.post(index, BUFFERS + index);
    }

    /// The two words of an rx slot.
    fn rx_words(&self, index: u32) -> [u32; 2] {
        let at = SLOTS + RX_SLOT * index as usize;
        [at, at + 1].map(|word| self.memory.page(RX)[word].load(SeqCst))
    }

    /// What a guest reads of a packet, from the slot at this index on, as Linux's netfront does: its bytes, the first slot's flags, and the extra.
    fn received(&self, first: u32) -> (Vec<u8>, u32, Option<[u32; 2]>) {
        let (mut index, mut bytes, mut extra) = (first, Vec::new(), None);
        loop {
            let [id, word] = self.rx_words(index);
            assert_eq!(id & 0xffff, index, "the slot's own id");
            let (flags, status) = (word & 0xffff, (word >> 16) as usize);
            bytes.extend_from_slice(&bytes_of(&self.memory.page(BUFFERS + index))[..status]);
            if index == first && flags & EXTRA != 0 {
                extra = Some(self.rx_words(index + 1));
                index += 1;
            }
            if flags & MORE == 0 {
                return (bytes, self.rx_words(first)[1] & 0xffff, extra);
            }
            index += 1;
        }
    }
}

#[test]
fn a_guest_reads_what_the_tap_had_with_its_segments() {
    for way in [Way::Copy, Way::Map] {
        for (kind, number) in [(SegmentKind::Tcpv4, 1), (SegmentKind::Tcpv6, 2)] {
            for length in [90, 4095, 4096, 4097, 8192, 10_001, 65_535] {
                let mut bench = Bench::posted(way, Accepts::ALL, SLOTS_POSTED);
                let (header, frame) = to_segment(kind, 89, length);
                let mut arena = Arena::new();
                assert!(arena.put_behind(header, &frame));
                assert_eq!(bench.guest.put(&arena).unwrap(), 1);
                let slots = (length as u32 + 4095) / 4096 + 1;
                assert_eq!(bench.deliver(&arena), Delivery::Sent { slots }, "{way:?} {kind:?} {length}");
                let (bytes, flags, extra) = bench.received(0);
                assert!(bytes == frame, "{way:?} {kind:?} {length}");
                // blank, validated, an extra, and more data if there is more than a page
                assert_eq!((flags, extra), (11 | if length > 4096 { MORE } else { 0 }, Some([gso(89), number])));
                assert_eq!((bench.count(|totals| &totals.asked_pages), bench.count(|totals| &totals.strange)), (0, 0));
            }
        }
    }
}

#[test]
fn a_blank_or_validated_checksum_is_said() {
    let (_, frame) = to_segment(SegmentKind::Tcpv4, 0, 5000);
    for (header, wanted) in [([1, 0, 0, 0, 0, 0, 34, 0, 16, 0], 3), ([2, 0, 0, 0, 0, 0, 0, 0, 0, 0], 1), ([0; HEADER_BYTES], 0)] {
        let mut bench = Bench::posted(Way::Copy, Accepts { checksum: true, ..Accepts::default() }, 2);
        let mut arena = Arena::new();
        assert!(arena.put_behind(header, &frame));
        bench.guest.put(&arena).unwrap();
        assert_eq!(bench.deliver(&arena), Delivery::Sent { slots: 2 });
        assert_eq!(bench.received(0), (frame.clone(), wanted | MORE, None));
    }
}

#[test]
fn a_guest_gets_what_it_takes() {
    let takes = [
        (Accepts::default(), [true, true, false, false, false]),
        (Accepts { checksum: true, ..Accepts::default() }, [true, true, true, false, false]),
        (Accepts { tcpv4: true, tcpv6: false, checksum: true }, [true, true, true, true, false]),
        (Accepts { tcpv4: false, tcpv6: true, checksum: true }, [true, true, true, false, true]),
        (Accepts::ALL, [true; 5]),
    ];
    let (first, second) = (to_segment(SegmentKind::Tcpv4, 1448, 9000), to_segment(SegmentKind::Tcpv6, 1428, 9000));
    let headers = [[0; HEADER_BYTES], [2, 0, 0, 0, 0, 0, 0, 0, 0, 0], [1, 0, 0, 0, 0, 0, 34, 0, 16, 0]];
    let plain = headers.map(|header| (header, first.1.clone()));
    let packets: Vec<_> = plain.into_iter().chain([first, second]).collect();
    for (accepts, wanted) in takes {
        let mut bench = Bench::posted(Way::Copy, accepts, SLOTS_POSTED);
        for ((header, frame), is_taken) in packets.iter().zip(wanted) {
            let (mut arena, rx) = (Arena::new(), bench.guest.rx.done);
            assert!(arena.put_behind(*header, frame));
            bench.guest.put(&arena).unwrap();
            let packet = arena.first().unwrap();
            let mut delivering = Delivering { guest: &mut bench.guest, arena: &arena, packet };
            let delivery = bench.queue.deliver_as(frame, packet.offload, &mut delivering);
            match is_taken {
                true => assert_eq!((delivery.is_ok(), &bench.received(rx).0), (true, frame), "{accepts:?} {header:?}"),
                false => assert_eq!((delivery, bench.guest.rx.done), (Err(DeliverError::NotAccepted), rx), "{accepts:?} {header:?}"),
            }
            bench.guest.forget();
        }
    }
}

#[test]
fn what_waits_for_an_earlier_connection_is_not_delivered_to_one_that_takes_less() {
    let (header, frame) = to_segment(SegmentKind::Tcpv4, 1448, 9000);
    let mut arena = Arena::new();
    assert!(arena.put_behind(header, &frame));
    let mut bench = Bench::posted(Way::Copy, Accepts::ALL, SLOTS_POSTED);
    bench.guest.put(&arena).unwrap();
    assert_eq!(bench.deliver(&arena), Delivery::Sent { slots: 4 });
    // the guest's next connection says nothing of segments
    let mut next = Bench::posted(Way::Copy, Accepts { checksum: true, ..Accepts::default() }, SLOTS_POSTED);
    next.guest.put(&arena).unwrap();
    let packet = arena.first().unwrap();
    let delivery = next.queue.deliver_as(&frame, packet.offload, &mut Delivering { guest: &mut next.guest, arena: &arena, packet });
    assert_eq!((delivery, next.rx_words(0), next.guest.rx.done), (Err(DeliverError::NotAccepted), [0, BUFFERS], 0));
    next.guest.forget();
    // and the packets behind it are delivered
    arena.leave();
    arena.put(&frame);
    next.guest.put(&arena).unwrap();
    assert_eq!((next.deliver(&arena), next.received(0).0), (Delivery::Sent { slots: 3 }, frame));
}

#[test]
fn too_few_slots_are_waited_for() {
    let mut bench = Bench::posted(Way::Copy, Accepts::ALL, SLOTS_POSTED - 1);
    let (header, frame) = to_segment(SegmentKind::Tcpv6, 1428, 65_535);
    let mut arena = Arena::new();
    assert!(arena.put_behind(header, &frame));
    assert_eq!((bench.guest.put(&arena).unwrap(), bench.memory.said().len()), (0, 0));
    assert_eq!(bench.deliver(&arena), Delivery::FewSlots);
    let offload = arena.first().unwrap().offload;
    assert_eq!(bench.queue.wait_for_as(frame.len(), offload, &mut bench.guest), Ok(Awaited::Waiting));
    assert_eq!(bench.queue.wait_for_as(frame.len(), Offload::Checksum, &mut bench.guest), Ok(Awaited::Posted));
    bench.post(SLOTS_POSTED - 1);
    assert_eq!(bench.queue.wait_for_as(frame.len(), offload, &mut bench.guest), Ok(Awaited::Posted));
    assert_eq!(bench.guest.put(&arena).unwrap(), 1);
    assert_eq!(bench.deliver(&arena), Delivery::Sent { slots: SLOTS_POSTED });
    assert!(bench.received(0).0 == frame);
}

#[test]
fn of_the_longest_packets_two_are_copied_at_once() {
    let mut bench = Bench::posted(Way::Copy, Accepts::ALL, 3 * SLOTS_POSTED);
    let (header, frame) = to_segment(SegmentKind::Tcpv4, 1448, 65_535);
    let mut arena = Arena::new();
    (0..3).for_each(|_| assert!(arena.put_behind(header, &frame)));
    assert_eq!(bench.guest.put(&arena).unwrap(), 2);
    for number in 0..3 {
        assert_eq!(bench.deliver(&arena), Delivery::Sent { slots: SLOTS_POSTED });
        assert!(bench.received(number * SLOTS_POSTED).0 == frame);
        arena.leave();
    }
    assert_eq!((bench.count(|totals| &totals.copied_pages), bench.count(|totals| &totals.asked_pages)), (32, 16));
}

#[test]
fn a_grant_that_is_refused_in_the_midst_refuses_the_packet() {
    let (header, frame) = to_segment(SegmentKind::Tcpv4, 1448, 9000);
    // the extra's slot may have any reference: no packet's page is there
    for (refused, slots) in [(0, Some(1)), (1, None), (2, Some(3)), (3, Some(4))] {
        for way in [Way::Copy, Way::Map] {
            let mut bench = Bench::posted(way, Accepts::ALL, 4);
            bench.memory.end(BUFFERS + refused);
            let mut arena = Arena::new();
            assert!(arena.put_behind(header, &frame));
            bench.guest.put(&arena).unwrap();
            let delivery = bench.deliver(&arena);
            match slots {
                Some(slots) => {
                    assert_eq!(delivery, Delivery::Refused { slots }, "{way:?} {refused}");
                    assert!((0..slots).all(|index| bench.rx_words(index) == [index, 0xffff_0000]));
                }
                None => assert!(delivery == Delivery::Sent { slots: 4 } && bench.rx_words(1) == [gso(1448), 1], "{way:?} {refused}"),
            }
            assert_eq!(bench.count(|totals| &totals.strange), 0);
        }
    }
}

#[test]
fn slots_that_the_guest_changes_get_their_pages_too() {
    let mut bench = Bench::posted(Way::Copy, Accepts::ALL, 4);
    let (header, frame) = to_segment(SegmentKind::Tcpv4, 1448, 9000);
    let mut arena = Arena::new();
    assert!(arena.put_behind(header, &frame));
    bench.guest.put(&arena).unwrap();
    // after the copies the slot of the second page names another buffer, and that of the extra one that isn't granted
    bench.memory.grant(BUFFERS + 50, true);
    let slot = |index: usize| SLOTS + RX_SLOT * index + 1;
    bench.memory.page(RX)[slot(2)].store(BUFFERS + 50, SeqCst);
    bench.memory.page(RX)[slot(1)].store(77, SeqCst);
    assert_eq!(bench.deliver(&arena), Delivery::Sent { slots: 4 });
    assert!(bytes_of(&bench.memory.page(BUFFERS + 50))[..] == frame[4096..8192]);
    assert_eq!((bench.count(|totals| &totals.asked_pages), bench.count(|totals| &totals.strange)), (1, 0));
}

#[test]
fn a_packet_behind_one_that_was_refused_has_its_own_bytes() {
    let (header, long) = to_segment(SegmentKind::Tcpv4, 1448, 9000);
    for way in [Way::Copy, Way::Map] {
        // the slot that is refused, and what comes behind: one page, or more than the refused packet
        for (refused, length) in [(0, 60), (2, 60), (0, 16_000), (2, 16_000), (3, 5000)] {
            let mut bench = Bench::posted(way, Accepts::ALL, 9);
            bench.memory.end(BUFFERS + refused);
            let behind: Vec<u8> = (0..length).map(|byte| (byte * 13 + byte / 256) as u8).collect();
            let mut arena = Arena::new();
            assert!(arena.put_behind(header, &long) && arena.put_behind([0; HEADER_BYTES], &behind));
            bench.guest.put(&arena).unwrap();
            assert_eq!(bench.deliver(&arena), Delivery::Refused { slots: refused + 1 }, "{way:?} {refused}");
            arena.leave();
            let pages = (length as u32 + 4095) / 4096;
            assert_eq!(bench.deliver(&arena), Delivery::Sent { slots: pages }, "{way:?} {refused} {length}");
            assert!(bench.received(refused + 1).0 == behind, "{way:?} {refused} {length}");
            assert_eq!(bench.count(|totals| &totals.strange), 0);
        }
    }
}

#[test]
fn a_packet_behind_one_that_the_guest_does_not_take_has_its_own_bytes() {
    let (header, long) = to_segment(SegmentKind::Tcpv4, 1448, 9000);
    let mut bench = Bench::posted(Way::Copy, Accepts::default(), 9);
    let mut arena = Arena::new();
    assert!(arena.put_behind(header, &long) && arena.put_behind([0; HEADER_BYTES], &[9; 5000]));
    assert_eq!(bench.guest.put(&arena).unwrap(), 2);
    let packet = arena.first().unwrap();
    let delivery = bench.queue.deliver_as(&long, packet.offload, &mut Delivering { guest: &mut bench.guest, arena: &arena, packet });
    assert_eq!(delivery, Err(DeliverError::NotAccepted));
    arena.leave();
    assert_eq!(bench.deliver(&arena), Delivery::Sent { slots: 2 });
    assert!(bench.received(0).0 == [9; 5000]);
}

#[test]
fn tcp_behind_a_tag_comes_in_segments() {
    let (mut header, mut frame) = to_segment(SegmentKind::Tcpv4, 1400, 65_000);
    let [high, low] = (65_000u16 - 14).to_be_bytes();
    (frame[16], frame[17], frame[46]) = (high, low, 0x50);
    frame.splice(12..12, [0x81, 0, 0, 5]);
    header[6] += 4;
    let mut arena = Arena::new();
    let payload = frame.len() - 58;
    let count = (payload + 1399) / 1400;
    // of seven such packets the segments have room, and the eighth is dropped
    for number in 1..=8 {
        assert_eq!(arena.put_behind(header, &frame), number < 8, "{number}");
        assert_eq!(arena.packets().count(), number.min(7) * count);
    }
    let mut bench = Bench::posted(Way::Copy, Accepts::default(), count as u32);
    assert_eq!(bench.guest.put(&arena).unwrap(), count);
    let mut came = Vec::new();
    for index in 0..count as u32 {
        assert_eq!(bench.deliver(&arena), Delivery::Sent { slots: 1 });
        arena.leave();
        let (bytes, flags, extra) = bench.received(index);
        assert_eq!((flags, extra, bytes[..12] == frame[..12]), (0, None, true));
        came.extend_from_slice(&bytes[58..]);
    }
    assert!(came == frame[58..]);
    assert_eq!(bench.count(|totals| &totals.asked_pages), 0);
}
