//! What is counted of a packet that passed or was delivered.
use super::arena::Packet;
use crate::frame::Left;
use crate::stats::Totals;
use laxonje::{Flags, Offload, Segments};

/// Counts a packet that was delivered, and what is left to the guest of it.
pub fn note_delivered(totals: &Totals, packet: Packet) {
    Totals::add(&totals.delivered, 1);
    Totals::add(&totals.delivered_bytes, packet.length as u64);
    match packet.offload {
        Offload::Segments(_) => Totals::add(&totals.delivered_segmented, 1),
        Offload::Checksum => Totals::add(&totals.delivered_blank, 1),
        _ => {}
    }
}

/// Counts what a packet that passed, with these flags and segments, leaves to the kernel. `None`: it is dropped.
pub fn note_left(totals: &Totals, flags: Flags, segments: Option<Segments>, left: Option<Left>) {
    if flags.checksum_blank() {
        Totals::add(&totals.blank_checksums, 1);
    }
    match (left, segments) {
        (Some(Left::Segments(..)), _) => Totals::add(&totals.segmented, 1),
        (Some(_), _) => {}
        (None, Some(_)) => Totals::add(&totals.unsegmented, 1),
        (None, None) => Totals::add(&totals.blank_dropped, 1),
    }
}

#[cfg(test)]
mod tests {
    use super::*;
    use laxonje::SegmentKind;
    use std::sync::atomic::Ordering::Relaxed;

    #[test]
    fn a_packet_that_is_dropped_after_it_passed_is_counted_by_what_it_was_to_leave() {
        let segments = Some(Segments { kind: SegmentKind::Tcpv4, size: 1448 });
        for (segments, left, counts) in [(None, Some(Left::Nothing), [0, 0]), (segments, None, [1, 0]), (None, None, [0, 1])] {
            let totals = Totals::default();
            note_left(&totals, Flags::default(), segments, left);
            assert_eq!([&totals.unsegmented, &totals.blank_dropped].map(|count| count.load(Relaxed)), counts);
            assert_eq!((totals.segmented.load(Relaxed), totals.blank_checksums.load(Relaxed)), (0, 0));
        }
    }
}
