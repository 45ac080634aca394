//! What guests may do to this host.
use super::*;
use laxonje::{Extent, Refusal};
use memory::{load, store};

fn device() -> (Device, Front) {
    let ((notices, told), (events, _)) = (channel(), channel());
    let front = Front { pages: pages().unwrap(), number: 0, events, notices: told };
    front.connect();
    let program = Program::load(&[0xb7, 0, 0, 0, 2, 0, 0, 0, 0x95, 0, 0, 0, 0, 0, 0, 0], &[]).unwrap();
    (Device::new(&program, Memory { pages: front.pages.clone(), notices }, 1).unwrap(), front)
}

/// Sends 60 bytes by a reference.
fn send(front: &Front, index: u32, reference: u32) {
    let slot = 16 + 3 * index as usize;
    store(&front.pages, TX, slot, reference);
    store(&front.pages, TX, slot + 2, 60 << 16);
    store(&front.pages, TX, 0, index + 1);
}

#[test]
fn regions_and_holes_are_extents() {
    let run = |frames, domain| Extent { frames, domain };
    assert_eq!(extents(&pages().unwrap(), 3), [run(8, 3), run(56, 0x7ff4), run(32, 3)]);
    // a region that begins or ends inside a page has that page for nobody
    let odd = GuestMemoryMmap::from_ranges(&[(GuestAddress(0x1800), 0x2000), (GuestAddress(0x3800), 0x1800)]).unwrap();
    assert_eq!(extents(&odd, 3), [run(2, 0x7ff4), run(1, 3), run(1, 0x7ff4), run(1, 3)]);
}

#[test]
fn a_grant_of_no_page_is_refused_and_never_read() {
    let (mut device, front) = device();
    for (index, frame) in [8, 63, 96, 97, u32::MAX, u32::MAX / 4096].into_iter().enumerate() {
        store(&front.pages, TABLE, 2 * 100, 1);
        store(&front.pages, TABLE, 2 * 100 + 1, frame);
        send(&front, index as u32, 100);
        assert_eq!(device.queue.turn(&mut device.memory), Turn::Refused(Refusal::GRANT), "frame {frame}");
    }
    send(&front, 6, 8);
    assert!(matches!(device.queue.turn(&mut device.memory), Turn::Ran(_)));
}

#[test]
fn a_producer_that_no_guest_can_have_ends_the_queue() {
    let (mut device, front) = device();
    store(&front.pages, TX, 0, 257);
    assert!(device.serve().is_err());
    assert_eq!(load(&front.pages, TX, 2), 0);
}
