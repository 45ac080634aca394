//! Turns: what is copied before them, and what the guest changes meanwhile.
use super::super::ahead::{Comes, EXTRA_INFO, MORE_DATA};
use super::*;

#[test]
fn shown_packets_are_copied_in_one_call() {
    let mut bench = Bench::new(Way::Copy, 2);
    bench.memory.grant_bytes(20, 0);
    bench.memory.grant_bytes(21, 100);
    bench.memory.send(0, 20, 10, 0, 60);
    bench.memory.send(1, 21, 0, MORE, 80);
    bench.memory.send(2, 20, 4090, 0, 6);
    assert_eq!(bench.guest.fetch().unwrap(), 3);
    // whole words: the first slot's size is the whole packet's
    assert_eq!(bench.memory.said(), ["20<8+64 21<0+80 20<4088+8"]);
    assert_eq!(bench.action(), Action::Pass);
    assert_eq!(bench.packet()[..3], [10, 11, 12]);
    assert_eq!(bench.action(), Action::Pass);
    let packet = bench.packet();
    assert_eq!((packet.len(), packet[0], packet[73], packet[74], packet[79]), (80, 100, 173, 250, 255));
    assert!(bench.is_done(3));
    assert_eq!(bench.turn(), Turn::Idle);
    assert!(bench.memory.said().is_empty());
    assert!(bench.guest.take_notice() && !bench.guest.take_notice());
    assert_eq!((bench.count(|totals| &totals.copied_pages), bench.count(|totals| &totals.asked_pages)), (3, 0));
}

#[test]
fn whole_packets_are_copied_as_far_as_there_is_room() {
    let mut bench = Bench::new(Way::Copy, 2);
    bench.memory.grant_bytes(20, 0);
    let slots: u32 = 12; // three packets of that many pages, and room for 32 pages
    for index in 0..3 * slots {
        let (first, last) = (index % slots == 0, index % slots == slots - 1);
        bench.memory.send(index, 20, 0, if last { 0 } else { MORE }, if first { slots * 4096 } else { 4096 });
    }
    assert_eq!(bench.guest.fetch().unwrap(), 2 * slots);
    assert_eq!((bench.action(), bench.action()), (Action::Pass, Action::Pass));
    assert!(bench.is_done(2 * slots));
    bench.guest.forget();
    assert_eq!(bench.guest.fetch().unwrap(), 3 * slots);
    assert_eq!((bench.action(), bench.packet().len()), (Action::Pass, 4096 * slots as usize));
    assert_eq!((bench.count(|totals| &totals.copied_pages), bench.count(|totals| &totals.asked_pages)), (36, 0));
    // a packet that doesn't end
    bench.guest.forget();
    bench.memory.send(3 * slots, 20, 0, MORE, 60);
    assert_eq!((bench.guest.fetch().unwrap(), bench.count(|totals| &totals.copied_pages)), (3 * slots + 1, 36));
}

#[test]
fn guesses_step_over_extras() {
    let mut bench = Bench::new(Way::Copy, 2);
    (20..23).for_each(|reference| bench.memory.grant_bytes(reference, 0));
    // two packets to segment, of a slot of data and of three, one after another, and one that has no extra
    bench.memory.send(0, 20, 0, EXTRA, 1000);
    bench.memory.extra(1, gso(600), 1);
    bench.memory.send(2, 20, 0, MORE | EXTRA, 3000);
    bench.memory.extra(3, gso(1448), 2);
    bench.memory.send(4, 21, 0, MORE, 1000);
    bench.memory.send(5, 22, 0, 0, 1000);
    bench.memory.send(6, 22, 0, 0, 60);
    assert_eq!(bench.guest.fetch().unwrap(), 7);
    assert_eq!(bench.memory.said(), ["20<0+1000 20<0+3000 21<0+1000 22<0+1000 22<0+60"]);
    let mut segments = || match bench.turn() {
        Turn::Ran(run) => (run.slots, run.segments),
        other => panic!("{other:?}"),
    };
    assert_eq!(segments(), (2, Some(Segments { kind: SegmentKind::Tcpv4, size: 600 })));
    assert_eq!(segments(), (4, Some(Segments { kind: SegmentKind::Tcpv6, size: 1448 })));
    assert_eq!(segments(), (1, None));
    assert!(bench.is_done(7));
    assert_eq!((bench.memory.status(TX, 1), bench.memory.status(TX, 2)), (1, 0));
    assert_eq!((bench.count(|totals| &totals.copied_pages), bench.count(|totals| &totals.asked_pages)), (5, 0));
}

#[test]
fn what_comes_next_is_what_the_slots_before_say() {
    let (data, first, second) = (Comes::Data, Comes::First, 1);
    let extra = |then_data| Comes::Extra { then_data };
    let rows = [
        (first, 0, second, first),
        (first, MORE_EXTRAS, MORE_DATA, data),
        (first, 0, EXTRA_INFO, extra(false)),
        (first, 0, EXTRA_INFO | MORE_DATA, extra(true)),
        (data, 0, 0, first),
        (data, 0, MORE_DATA | EXTRA_INFO, data),
        (data, 0, EXTRA_INFO, first),
        (extra(true), 1, 1, data),
        (extra(false), 1, 1, first),
        (extra(true), 1 | MORE_EXTRAS, 1, extra(true)),
        (extra(false), 1 | MORE_EXTRAS, MORE_DATA, extra(false)),
        (extra(false), 1, MORE_DATA | EXTRA_INFO, first),
    ];
    for (comes, first, second, next) in rows {
        assert_eq!(comes.behind(first, second), next, "{comes:?} {first:x} {second:x}");
    }
}

#[test]
fn extras_that_lie_are_refused_or_halt() {
    for way in [Way::Copy, Way::Map] {
        let mut bench = Bench::new(way, 2);
        bench.memory.grant_bytes(20, 0);
        let mut index = 0;
        // an extra of no offered kind, of a size that none may have, of another type; two of them
        let lies = [(gso(535), 1), (gso(0), 1), (gso(1), 2), (gso(1001), 1), (gso(600), 0), (gso(600), 3), (gso(600), 255), (2, 0), (4, 1)];
        for (first, second) in lies {
            bench.memory.send(index, 20, 0, EXTRA, 1000);
            bench.memory.extra(index + 1, first, second);
            index += 2;
            bench.guest.fetch().unwrap();
            assert_eq!(bench.turn(), Turn::Refused(Refusal::EXTRA), "{first:x} {second:x}");
            assert!(bench.is_done(index));
        }
        bench.memory.send(index, 20, 0, EXTRA, 1000);
        bench.memory.extra(index + 1, gso(600) | MORE_EXTRAS, 1);
        bench.memory.extra(index + 2, gso(600), 1);
        bench.guest.fetch().unwrap();
        assert_eq!(bench.turn(), Turn::Refused(Refusal::EXTRA));
        // more than a packet may have, or of no type
        bench.memory.send(index + 3, 20, 0, EXTRA, 1000);
        bench.memory.extra(index + 4, 0, 1);
        bench.guest.fetch().unwrap();
        assert!(matches!(bench.turn(), Turn::Halted(_)));
        assert_eq!(bench.count(|totals| &totals.strange), 0);
    }
}

#[test]
fn a_slot_that_the_guest_changes_is_asked_for_anew() {
    let mut bench = Bench::new(Way::Copy, 2);
    bench.memory.grant_bytes(20, 0);
    bench.memory.grant_bytes(21, 100);
    bench.memory.send(0, 20, 0, 0, 60);
    bench.guest.fetch().unwrap();
    bench.memory.send(0, 21, 0, 0, 60);
    assert_eq!((bench.action(), bench.packet()[0]), (Action::Pass, 100));
    assert_eq!(bench.memory.said(), ["20<0+60", "21<0+4096"]);
    // the same page, further bytes of it
    bench.memory.send(1, 21, 0, 0, 60);
    bench.guest.fetch().unwrap();
    bench.memory.send(1, 21, 2000, 0, 60);
    assert_eq!((bench.action(), bench.packet()[0]), (Action::Pass, (2000 + 100) as u8));
    assert_eq!(bench.memory.said(), ["21<0+60", "21<0+4096"]);
    // nothing that was copied before is taken for what comes later
    bench.memory.send(2, 20, 0, 0, 60);
    bench.guest.fetch().unwrap();
    bench.guest.forget();
    fill(&bench.memory.page(20), &[9; 4096]);
    assert_eq!((bench.action(), bench.packet()[0]), (Action::Pass, 9));
}

#[test]
fn what_xen_refuses_the_queue_refuses() {
    let mut bench = Bench::new(Way::Copy, 2);
    bench.memory.send(0, 77, 0, 0, 60);
    bench.guest.fetch().unwrap();
    assert_eq!(bench.turn(), Turn::Refused(Refusal(4)));
    assert_eq!((bench.memory.status(TX, 0), bench.count(|totals| &totals.refused_grants)), (-1, 1));
    assert_eq!(bench.refused_of(0), ": Xen refuses reference 77, of the packet at index 0");
    // a reference past the made-up table isn't asked for
    bench.memory.grant_bytes(40_000, 0);
    bench.memory.send(1, 40_000, 0, 0, 60);
    assert_eq!(bench.turn(), Turn::Refused(Refusal(4)));
    assert_eq!((bench.count(|totals| &totals.strange), bench.refused_of(0).as_str()), (0, ""));
}

#[test]
fn a_grant_that_ends_while_it_is_used_is_counted() {
    let mut bench = Bench::new(Way::Copy, 2);
    bench.memory.grant_bytes(20, 0);
    bench.memory.send(0, 20, 0, 0, 60);
    bench.guest.fetch().unwrap();
    bench.memory.end(20);
    bench.memory.send(0, 20, 2000, 0, 60);
    assert_eq!((bench.action(), bench.packet()[0]), (Action::Pass, 0));
    assert_eq!(bench.count(|totals| &totals.ended_grants), 1);
}

#[test]
fn fragments_of_one_page_have_each_its_own_copy() {
    let mut bench = Bench::new(Way::Copy, 2);
    bench.memory.grant_bytes(20, 0);
    bench.memory.send(0, 20, 100, MORE, 60);
    bench.memory.send(1, 20, 8, 0, 30);
    bench.guest.fetch().unwrap();
    assert_eq!(bench.action(), Action::Pass);
    let packet = bench.packet();
    assert_eq!((packet[0], packet[29], packet[30], packet[59]), (100, 129, 8, 37));
    assert_eq!(bench.count(|totals| &totals.asked_pages), 0);
}

#[test]
fn several_packets_have_each_its_own_pages() {
    for way in [Way::Copy, Way::Map] {
        let mut bench = Bench::new(way, 2);
        (20..24).for_each(|reference| bench.memory.grant_bytes(reference, 10 * (reference - 20) as u8));
        bench.memory.send(0, 20, 0, 0, 60);
        bench.memory.send(1, 21, 0, MORE, 80);
        bench.memory.send(2, 22, 4090, 0, 6);
        bench.memory.send(3, 77, 0, 0, 60);
        bench.memory.send(4, 23, 4, 0, 60);
        let end = bench.guest.fetch().unwrap();
        let turns = bench.turns(bench.guest.left_before(end));
        assert!(matches!(turns[..], [Turn::Ran(_), Turn::Ran(_), Turn::Refused(Refusal::GRANT), Turn::Ran(_)]), "{turns:?}");
        let packets: Vec<_> = (0..4).map(|number| bench.packet_of(number)).collect();
        assert_eq!(packets.iter().map(Vec::len).collect::<Vec<_>>(), [60, 80, 0, 60]);
        assert_eq!((packets[0][0], packets[1][0], packets[1][74], packets[3][0]), (0, 10, 14, 34));
        assert_eq!(bench.refused_of(2), ": Xen refuses reference 77, of the packet at index 3");
        assert_eq!((bench.refused_of(0), bench.refused_of(3), bench.refused_of(4)), Default::default());
        assert_eq!((0..5).map(|number| bench.queue.slots_of(number)).collect::<Vec<_>>(), [1, 2, 1, 1, 0]);
        assert_eq!((bench.turns(16), bench.packet_of(0)), (vec![], vec![]));
        assert_eq!((bench.count(|totals| &totals.strange), bench.count(|totals| &totals.ended_grants)), (0, 0));
    }
}

#[test]
fn pages_that_are_read_outlive_a_packet_that_is_sent_back() {
    for way in [Way::Copy, Way::Map] {
        let mut bench = Bench::new(way, 3);
        // the second packet's slots are read while the first is sent back
        for (index, flags, size) in [(0, 0, 60), (1, MORE, 100), (2, MORE, 20), (3, 0, 30)] {
            bench.memory.grant_bytes(20 + index, 50 * index as u8);
            bench.memory.send(index, 20 + index, 0, flags, size);
        }
        for index in 0..2 {
            bench.memory.grant(30 + index, true);
            bench.memory.post(index, 30 + index);
        }
        // most is 2: slots 2 and 3 aren't read ahead
        bench.guest.fetch().unwrap();
        assert!(matches!(bench.turns(2)[..], [Turn::Ran(_), Turn::Ran(_)]));
        assert_eq!((bench.memory.status(RX, 0), bench.memory.status(RX, 1)), (60, 100));
        let bytes = bytes_of(&bench.memory.page(31));
        assert_eq!((bytes[0], bytes[49], bytes[50], bytes[70], bytes[99]), (50, 99, 100, 150, 179));
        assert_eq!((bench.count(|totals| &totals.strange), bench.count(|totals| &totals.ended_grants)), (0, 0));
    }
}
