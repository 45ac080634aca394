//! What is written is read, and what lies is refused.
use super::*;

fn orders() -> Vec<Order> {
    let keys = |number| QueueKeys { tx: number, rx: number + 1, event: number + 2 };
    let connect = Connect {
        device: 1,
        connection: 1 << 40,
        ifindex: 7,
        program: 9,
        fresh: true,
        notifies: false,
        scatters: true,
        offers: Offers { tcpv4: true, tcpv6: false },
        accepts: Accepts { tcpv4: false, tcpv6: true, checksum: true },
        queues: vec![keys(8), keys(300)],
    };
    vec![
        Order::Text(b"program".to_vec()),
        Order::Program { number: 1, lists_of: 2 },
        Order::Forget { number: 1 },
        Order::Connect(connect),
        Order::Replace { device: 3, number: 2 },
        Order::Tell { device: 3, question: 1 << 60 },
        Order::Disconnect { device: u32::MAX, question: 0 },
    ]
}

fn reports() -> Vec<Report> {
    let (device, connection, question) = (3, 1 << 33, 1 << 34);
    let ended = |cause| Report::Ended { device, connection, queue: 1, cause };
    let rings = Some(Rings { tx: (1, 2), rx: (3, u32::MAX) });
    vec![
        Report::Connected { device, connection },
        Report::Failed { device, connection, why: "why".to_owned() },
        ended(Cause::Halted(1)),
        ended(Cause::Failed("why".to_owned())),
        ended(Cause::Panicked { line: "line".to_owned(), stands: true }),
        Report::Counted { device, question, queue: 1, counts: Box::new(Counts([u64::MAX; COUNTS])), rings },
        Report::Counted { device, question, queue: 1, counts: Box::default(), rings: None },
        Report::Counters { device, question, queue: 0, from: 2048, words: vec![0, u64::MAX] },
        Report::Done { device, question },
        Report::Line { device: None, text: "line".to_owned() },
        Report::Line { device: Some(0), text: String::new() },
    ]
}

#[test]
fn what_is_written_is_read() {
    for order in orders() {
        assert_eq!(Order::decode(&order.encode()), Some(order));
    }
    for report in reports() {
        assert_eq!(Report::decode(&report.encode()), Some(report));
    }
    for wish in [Wish::Start { number: 1, domain: 0x7fef }, Wish::Kill { number: u64::MAX }] {
        assert_eq!(Wish::decode(&wish.encode()), Some(wish));
    }
    let exit = Exit { number: 7, how: "signal: 9".to_owned() };
    assert_eq!(Exit::decode(&exit.encode()), Some(exit));
    let long = Report::Line { device: None, text: "x".repeat(9999) };
    assert!(matches!(Report::decode(&long.encode()), Some(Report::Line { text, .. }) if text.len() == MOST_LINE));
}

#[test]
fn the_largest_messages_fit() {
    let (device, connection, queue) = (0, 0, 0);
    let counters = Report::Counters { device, question: 0, queue, from: 0, words: vec![0; WORDS_PART] };
    let keys = QueueKeys { tx: 0, rx: 0, event: 0 };
    let queues = vec![keys; MOST_QUEUES];
    let (fresh, notifies, scatters, offers, accepts) = (true, true, false, Offers::ALL, Accepts::default());
    let connect = Connect { device, connection, ifindex: 0, program: 0, fresh, notifies, scatters, offers, accepts, queues };
    for message in [counters.encode(), Order::Connect(connect).encode(), Order::Text(vec![0; TEXT_PART]).encode()] {
        assert!(message.len() <= MOST_MESSAGE, "{}", message.len());
    }
}

#[test]
fn what_is_cut_off_or_has_more_is_refused() {
    for message in reports().iter().map(Report::encode) {
        for length in 0..message.len() {
            assert_eq!(Report::decode(&message[..length]), None);
        }
        assert_eq!(Report::decode(&[&message[..], &[0]].concat()), None);
    }
    for message in orders().iter().map(Order::encode) {
        assert!((0..message.len()).all(|length| Order::decode(&message[..length]).is_none()));
        assert_eq!(Order::decode(&[&message[..], &[0]].concat()), None);
    }
}

#[test]
fn lengths_that_lie_are_refused_before_anything_is_kept() {
    let head = [&[4][..], &[0; 20]].concat();
    for count in [WORDS_PART as u32 + 1, u32::MAX] {
        assert_eq!(Report::decode(&[&head[..], &count.to_le_bytes(), &[0; 64]].concat()), None);
    }
    for count in [COUNTS as u64 - 1, COUNTS as u64 + 1, u64::from(u32::MAX)] {
        let message = [&[3][..], &[0; 16], &(count as u32).to_le_bytes(), &[0; 8 * (COUNTS + 1) + 17]].concat();
        assert_eq!(Report::decode(&message), None);
    }
}

/// The same numbers in each run.
struct Any(u64);

impl Any {
    fn next(&mut self) -> u8 {
        self.0 = self.0.wrapping_mul(6_364_136_223_846_793_005).wrapping_add(1_442_695_040_888_963_407);
        (self.0 >> 56) as u8
    }
}

#[test]
fn any_bytes_are_refused_or_are_what_is_written_for_what_was_read() {
    let mut any = Any(1);
    let mut read = 0;
    for _ in 0..100_000 {
        let mut message: Vec<u8> = (0..any.next() % 48).map(|_| if any.next() < 128 { 0 } else { any.next() }).collect();
        if let Some(kind) = message.first_mut() {
            *kind %= 8;
        }
        if let Some(report) = Report::decode(&message) {
            read += 1;
            assert!(Report::decode(&report.encode()) == Some(report));
        }
    }
    assert!(read > 100, "{read}");
}
