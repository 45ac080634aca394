//! What a guest's frontend wrote into XenStore. Nothing of it is trusted.
use laxonje::{Accepts, Offers};
use std::fmt;

const GSO_TCPV4: &str = "feature-gso-tcpv4";
const GSO_TCPV6: &str = "feature-gso-tcpv6";
const NO_CHECKSUM: &str = "feature-no-csum-offload";
const CHECKSUM_IPV6: &str = "feature-ipv6-csum-offload";
const SCATTERS: &str = "feature-sg";
const NOTIFIES: &str = "feature-rx-notify";

/// The states of a device (`xenbus.h`).
#[derive(Clone, Copy, Debug, PartialEq, Eq)]
pub enum State {
    Initialising = 1,
    InitWait = 2,
    Initialised = 3,
    Connected = 4,
    Closing = 5,
    Closed = 6,
}

impl State {
    /// What a key says. `None`: nothing, or no state that a device has.
    pub fn of(text: Option<&str>) -> Option<State> {
        Some(match text? {
            "1" => State::Initialising,
            "2" => State::InitWait,
            "3" => State::Initialised,
            "4" => State::Connected,
            "5" => State::Closing,
            "6" => State::Closed,
            _ => return None,
        })
    }

    pub fn name(self) -> &'static str {
        match self {
            State::Initialising => "initialising",
            State::InitWait => "waiting",
            State::Initialised => "initialised",
            State::Connected => "connected",
            State::Closing => "closing",
            State::Closed => "closed",
        }
    }
}

impl fmt::Display for State {
    fn fmt(&self, to: &mut fmt::Formatter<'_>) -> fmt::Result {
        (*self as u32).fmt(to)
    }
}

/// The rings and the event channel of a queue.
#[derive(Clone, Copy, Debug, PartialEq, Eq)]
pub struct QueueKeys {
    pub tx: u32,
    pub rx: u32,
    pub event: u32,
}

/// What a frontend that is connected says of itself.
#[derive(Clone, Debug, PartialEq, Eq)]
pub struct FrontKeys {
    pub queues: Vec<QueueKeys>,
    /// It sends a notice for buffers that it posts.
    pub notifies: bool,
    /// It takes packets of more than a page.
    pub scatters: bool,
    /// What of a packet may be left to it.
    pub accepts: Accepts,
}

/// Why a frontend isn't served.
#[derive(Clone, Debug, PartialEq, Eq)]
pub enum KeyError {
    /// A key isn't there, or is no number of 32 bits.
    NoNumber(String),
    /// `request-rx-copy` isn't 1.
    NoCopy,
    /// How many queues it wants, and how many are offered.
    Queues(u32, u32),
    /// Both rings of a queue are one page.
    OneRing,
}

impl fmt::Display for KeyError {
    fn fmt(&self, to: &mut fmt::Formatter<'_>) -> fmt::Result {
        match self {
            KeyError::NoNumber(key) => write!(to, "its key {key} isn't there or is no number"),
            KeyError::NoCopy => to.write_str("its key request-rx-copy isn't 1: it wants pages flipped"),
            KeyError::Queues(wanted, offered) => write!(to, "it wants {wanted} queues of the {offered} that are offered"),
            KeyError::OneRing => to.write_str("both rings of a queue are one page"),
        }
    }
}

/// A number in a key of XenStore: digits alone.
pub fn number(text: &str) -> Option<u32> {
    let digits = !text.is_empty() && text.bytes().all(|byte| byte.is_ascii_digit());
    if digits {
        text.parse().ok()
    } else {
        None
    }
}

fn wanted(read: &impl Fn(&str) -> Option<String>, key: &str) -> Result<u32, KeyError> {
    read(key).as_deref().and_then(number).ok_or_else(|| KeyError::NoNumber(key.to_owned()))
}

fn flag(read: &impl Fn(&str) -> Option<String>, key: &str) -> bool {
    read(key).as_deref().and_then(number) == Some(1)
}

fn queue(read: &impl Fn(&str) -> Option<String>, folder: &str) -> Result<QueueKeys, KeyError> {
    let key = |name: &str| wanted(read, &format!("{folder}{name}"));
    let keys = QueueKeys { tx: key("tx-ring-ref")?, rx: key("rx-ring-ref")?, event: key("event-channel")? };
    match keys.tx == keys.rx {
        true => Err(KeyError::OneRing),
        false => Ok(keys),
    }
}

/// The keys that say what a guest may leave to this domain, and whether it may.
pub fn offers_said(offers: Offers) -> [(&'static str, &'static str); 2] {
    [(GSO_TCPV4, offers.tcpv4), (GSO_TCPV6, offers.tcpv6)].map(|(key, is_made)| (key, if is_made { "1" } else { "0" }))
}

/// The offers that a backend's keys make.
pub fn offers(read: impl Fn(&str) -> Option<String>) -> Offers {
    Offers { tcpv4: flag(&read, GSO_TCPV4), tcpv6: flag(&read, GSO_TCPV6) }
}

/// What of a packet may be left to a frontend. One that takes no blank checksum, or no packet of more than a page, takes no segments, as
/// Linux has it.
fn accepts(read: impl Fn(&str) -> Option<String>) -> Accepts {
    let takes_ipv4 = read(NO_CHECKSUM).map_or(true, |text| number(&text) == Some(0));
    let checksum = takes_ipv4 && flag(&read, CHECKSUM_IPV6);
    let segments = |key| checksum && flag(&read, SCATTERS) && flag(&read, key);
    Accepts { tcpv4: segments(GSO_TCPV4), tcpv6: segments(GSO_TCPV6), checksum }
}

/// The keys of a frontend that is offered that many queues.
pub fn front(read: impl Fn(&str) -> Option<String>, offered: u32) -> Result<FrontKeys, KeyError> {
    if !flag(&read, "request-rx-copy") {
        return Err(KeyError::NoCopy);
    }
    let count = match read("multi-queue-num-queues") {
        None => 1,
        Some(_) => wanted(&read, "multi-queue-num-queues")?,
    };
    if count == 0 || count > offered {
        return Err(KeyError::Queues(count, offered));
    }
    let folder = |number: u32| if count == 1 { String::new() } else { format!("queue-{number}/") };
    let queues: Result<_, _> = (0..count).map(|number| queue(&read, &folder(number))).collect();
    Ok(FrontKeys { queues: queues?, notifies: flag(&read, NOTIFIES), scatters: flag(&read, SCATTERS), accepts: accepts(read) })
}

/// What comes next for a device.
#[derive(Clone, Copy, Debug, PartialEq, Eq)]
pub enum Step {
    /// Nothing.
    Stay,
    /// Say what is offered, and wait for the frontend.
    Offer,
    /// Serve the frontend.
    Connect,
    /// Serve a frontend that was connected to an earlier process.
    Resume,
    /// Stop serving, and say so: the frontend is closing.
    Close,
    /// The frontend has closed.
    Closed,
    /// The device goes.
    Leave,
}

/// What comes next for a device. `ours` is the state that was written last by this process, `stored` the key's, `front` the frontend's,
/// which has none if the guest is gone.
pub fn next(ours: Option<State>, stored: Option<State>, front: Option<State>, online: bool) -> Step {
    use State::*;
    match (ours, front) {
        (None, Some(Connected)) if stored == Some(Connected) => Step::Resume,
        (None, _) if !online => Step::Leave,
        (None, _) => Step::Offer,
        // also of a frontend that begins anew without having closed: a crashed kernel's successor, or states that passed unseen
        (Some(Connected | Closing | Closed), Some(Initialising)) if online => Step::Offer,
        (Some(InitWait), Some(Connected)) => Step::Connect,
        (Some(InitWait | Connected), Some(Closing)) => Step::Close,
        (Some(Closed), Some(Closed)) if !online => Step::Leave,
        (Some(Closed), None) => Step::Leave,
        (Some(Closed), _) => Step::Stay,
        (Some(Connected | Closing), Some(Initialising | Closed) | None) => Step::Closed,
        (Some(InitWait), Some(Closed)) if !online => Step::Closed,
        (Some(InitWait), None) => Step::Closed,
        _ => Step::Stay,
    }
}

#[cfg(test)]
mod tests {
    use super::*;
    use std::collections::HashMap;

    fn keys<'a>(of: &'a [(&'a str, &'a str)]) -> impl Fn(&str) -> Option<String> + 'a {
        let map: HashMap<&str, &str> = of.iter().copied().collect();
        move |key| map.get(key).map(|value| (*value).to_owned())
    }

    const ONE: [(&str, &str); 6] = [
        ("request-rx-copy", "1"),
        ("tx-ring-ref", "8"),
        ("rx-ring-ref", "9"),
        ("event-channel", "3"),
        ("feature-rx-notify", "1"),
        ("feature-sg", "1"),
    ];

    #[test]
    fn one_queue_has_its_keys_in_the_folder() {
        let front_keys = front(keys(&ONE), 4).unwrap();
        let queues = vec![QueueKeys { tx: 8, rx: 9, event: 3 }];
        assert_eq!(front_keys, FrontKeys { queues, notifies: true, scatters: true, accepts: Accepts::default() });
        let told = [&ONE[..], &[("multi-queue-num-queues", "1")]].concat();
        assert_eq!(front(keys(&told), 1).unwrap(), front_keys);
    }

    #[test]
    fn several_queues_have_folders() {
        let two = [
            ("request-rx-copy", "1"),
            ("multi-queue-num-queues", "2"),
            ("queue-0/tx-ring-ref", "1"),
            ("queue-0/rx-ring-ref", "2"),
            ("queue-0/event-channel", "3"),
            ("queue-1/tx-ring-ref", "4"),
            ("queue-1/rx-ring-ref", "5"),
            ("queue-1/event-channel", "6"),
        ];
        let front_keys = front(keys(&two), 2).unwrap();
        assert_eq!(front_keys.queues, [QueueKeys { tx: 1, rx: 2, event: 3 }, QueueKeys { tx: 4, rx: 5, event: 6 }]);
        assert!(!front_keys.notifies && !front_keys.scatters && front_keys.accepts == Accepts::default());
        assert_eq!(front(keys(&two), 1), Err(KeyError::Queues(2, 1)));
        assert_eq!(front(keys(&two[..7]), 2), Err(KeyError::NoNumber("queue-1/event-channel".to_owned())));
    }

    #[test]
    fn keys_that_lie_are_refused() {
        let with = |key: &'static str, value: &'static str| {
            let mut changed: Vec<_> = ONE.iter().copied().filter(|one| one.0 != key).collect();
            changed.push((key, value));
            front(keys(&changed), 4).unwrap_err()
        };
        assert_eq!(with("request-rx-copy", "0"), KeyError::NoCopy);
        assert_eq!(with("request-rx-copy", "x"), KeyError::NoCopy);
        assert_eq!(with("rx-ring-ref", "8"), KeyError::OneRing);
        for wrong in ["", "-1", "+1", " 1", "1 ", "4294967296", "0x10", "1\0", "99999999999999999999", "\u{661}"] {
            assert_eq!(with("tx-ring-ref", wrong), KeyError::NoNumber("tx-ring-ref".to_owned()));
            assert_eq!(with("multi-queue-num-queues", wrong), KeyError::NoNumber("multi-queue-num-queues".to_owned()));
        }
        assert_eq!(with("multi-queue-num-queues", "0"), KeyError::Queues(0, 4));
        assert_eq!(with("multi-queue-num-queues", "4294967295"), KeyError::Queues(u32::MAX, 4));
        assert_eq!(front(keys(&[]), 4), Err(KeyError::NoCopy));
    }

    #[test]
    fn offers_are_what_was_said() {
        for offers in [Offers::default(), Offers { tcpv4: true, tcpv6: false }, Offers { tcpv4: false, tcpv6: true }, Offers::ALL] {
            assert_eq!(super::offers(keys(&offers_said(offers))), offers);
        }
        // a process before this may have said nothing
        assert_eq!(offers(keys(&[("feature-sg", "1")])), Offers::default());
    }

    #[test]
    fn a_frontend_takes_what_its_keys_say() {
        const ALL: [(&str, &str); 4] = [(SCATTERS, "1"), (CHECKSUM_IPV6, "1"), (GSO_TCPV4, "1"), (GSO_TCPV6, "1")];
        let with = |key: &'static str, value: &'static str| {
            let mut changed: Vec<_> = ALL.iter().copied().filter(|one| one.0 != key).collect();
            changed.push((key, value));
            accepts(keys(&changed))
        };
        let segments = |tcpv4, tcpv6| Accepts { tcpv4, tcpv6, checksum: true };
        let rows = [
            ("other", "1", Accepts::ALL),
            (NO_CHECKSUM, "0", Accepts::ALL),
            (GSO_TCPV4, "0", segments(false, true)),
            (GSO_TCPV6, "", segments(true, false)),
            (SCATTERS, "0", segments(false, false)),
            // a blank checksum is of any version, and segments have one
            (CHECKSUM_IPV6, "0", Accepts::default()),
            (CHECKSUM_IPV6, "2", Accepts::default()),
            (NO_CHECKSUM, "1", Accepts::default()),
            (NO_CHECKSUM, "2", Accepts::default()),
            (NO_CHECKSUM, "x", Accepts::default()),
        ];
        for (key, value, wanted) in rows {
            assert_eq!(with(key, value), wanted, "{key} {value}");
        }
        assert_eq!(accepts(keys(&ALL[..3])), segments(true, false));
        assert_eq!(accepts(keys(&[])), Accepts::default());
    }

    #[test]
    fn a_device_comes_and_goes() {
        use State::*;
        let rows = [
            // a new device, and one that a process before this served
            (None, Some(Initialising), Some(Initialising), true, Step::Offer),
            (None, Some(Connected), Some(Connected), true, Step::Resume),
            (None, Some(Closed), Some(Closed), false, Step::Leave),
            (None, Some(Connected), Some(Closed), true, Step::Offer),
            // connect
            (Some(InitWait), Some(InitWait), Some(Initialising), true, Step::Stay),
            (Some(InitWait), Some(InitWait), Some(Connected), true, Step::Connect),
            (Some(Connected), Some(Connected), Some(Connected), true, Step::Stay),
            // the driver is unbound and bound
            (Some(Connected), Some(Connected), Some(Closing), true, Step::Close),
            (Some(Closing), Some(Closing), Some(Closed), true, Step::Closed),
            (Some(Closed), Some(Closed), Some(Closed), true, Step::Stay),
            (Some(Closed), Some(Closed), Some(Initialising), true, Step::Offer),
            // the guest dies, or the toolstack takes the device away
            (Some(Connected), Some(Connected), None, true, Step::Closed),
            (Some(Connected), Some(Closing), Some(Closed), false, Step::Closed),
            (Some(Closed), Some(Closed), Some(Closed), false, Step::Leave),
            (Some(Closed), Some(Closed), None, false, Step::Leave),
            (Some(Closed), Some(Closed), None, true, Step::Leave),
            (Some(InitWait), Some(InitWait), None, true, Step::Closed),
            (Some(InitWait), Some(InitWait), Some(Closed), false, Step::Closed),
            (Some(InitWait), Some(InitWait), Some(Closed), true, Step::Stay),
            (Some(Closing), Some(Closing), None, true, Step::Closed),
            // a frontend that says anything
            (Some(Connected), Some(Connected), Some(Initialising), true, Step::Offer),
            (Some(Closing), Some(Closing), Some(Initialising), true, Step::Offer),
            (Some(Connected), Some(Closing), Some(Initialising), false, Step::Closed),
            (Some(Closed), Some(Closed), Some(Initialising), false, Step::Stay),
            (Some(Closing), Some(Closing), Some(Connected), true, Step::Stay),
            (Some(Closed), Some(Closed), Some(Connected), true, Step::Stay),
            (Some(Connected), Some(Connected), Some(Initialised), true, Step::Stay),
            (Some(Closed), Some(Closed), Some(Initialised), true, Step::Stay),
        ];
        for (ours, stored, front, online, step) in rows {
            assert_eq!(next(ours, stored, front, online), step, "{ours:?} {stored:?} {front:?} {online}");
        }
    }

    #[test]
    fn states_are_those_of_xenbus() {
        for number in 1..=6 {
            assert_eq!(State::of(Some(&number.to_string())).unwrap().to_string(), number.to_string());
        }
        for other in [None, Some(""), Some("0"), Some("7"), Some("04"), Some("4 ")] {
            assert_eq!(State::of(other), None);
        }
    }
}
