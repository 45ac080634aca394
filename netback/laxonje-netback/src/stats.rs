//! What is counted of a queue, and how it is told: as text, and as JSON.
use crate::log::plain;
use laxonje::{Halt, MapSize, Program, Refusal, CLOCK_MAP};
use std::fmt::Write;
use std::sync::atomic::{AtomicU64, Ordering::Relaxed};

const CAUSES: usize = 8;

macro_rules! totals {
    ($($(#[$what:meta])* $name:ident,)*) => {
        /// What a queue's thread counts. It alone writes; any thread reads.
        #[derive(Debug, Default)]
        pub struct Totals {
            $($(#[$what])* pub $name: AtomicU64,)*
            /// Packets of the guest's that were refused, and halts, by their causes.
            pub refused: [AtomicU64; CAUSES],
            pub halted: [AtomicU64; CAUSES],
        }

        /// The names of the numbers, in their order. Those by causes come behind them.
        const NAMES: &[&str] = &[$(stringify!($name),)*];

        impl Totals {
            fn numbers(&self) -> impl Iterator<Item = &AtomicU64> {
                [$(&self.$name,)*].into_iter().chain(&self.refused).chain(&self.halted)
            }
        }
    };
}

totals! {
    /// Packets of the guest's that passed, and their bytes.
    passed,
    passed_bytes,
    /// Packets that the filter dropped, that it failed on, and that it sent back.
    dropped,
    aborted,
    sent_back,
    /// Packets whose checksum was blank, and those of them that are no TCP or UDP packet: they are dropped.
    blank_checksums,
    blank_dropped,
    /// Packets that the kernel makes TCP segments of, and packets that it was to and that are no whole TCP packet: they are dropped.
    segmented,
    unsegmented,
    /// Packets that passed and that the TAP device didn't take.
    lost,
    /// Packets to the guest that were delivered, and their bytes.
    delivered,
    delivered_bytes,
    /// Those of them that the guest is to make segments of, and others whose checksum is blank.
    delivered_segmented,
    delivered_blank,
    /// Packets that the TAP device had with a header that doesn't fit, or that its guest doesn't take: they are dropped.
    unfit,
    /// Packets to the guest whose buffers Xen or the queue refused, and how often it had too few.
    undelivered,
    waits,
    /// Pages that were copied in batches, and those that were asked for one by one.
    copied_pages,
    asked_pages,
    /// Pages of this process that Xen copies to and from by references. 0: by addresses, which costs more.
    shared_pages,
    /// Grants that Xen refused, and those that ended while they were used.
    refused_grants,
    ended_grants,
    /// Notices to the guest and from it.
    notices,
    events,
    /// Packets to the guest that were dropped because it posted no buffers for 10 s.
    expired,
    /// Ends of a queue's thread by a fault of this program: 0.
    faults,
    /// Accesses that the queue was never granted: 0.
    strange,
}

/// The count of numbers of a queue.
pub const COUNTS: usize = NAMES.len() + 2 * CAUSES;

/// Adds numbers, each modulo 2^64.
pub fn add(sums: &mut [u64], numbers: &[u64]) {
    for (sum, number) in sums.iter_mut().zip(numbers) {
        *sum = sum.wrapping_add(*number);
    }
}

/// The numbers of one queue at a time, or the sums of several.
#[derive(Clone, Copy, Debug, PartialEq, Eq)]
pub struct Counts(pub [u64; COUNTS]);

impl Default for Counts {
    fn default() -> Counts {
        Counts([0; COUNTS])
    }
}

impl Counts {
    /// Adds others, each modulo 2^64: the process of a guest may say any.
    pub fn add(&mut self, others: &Counts) {
        add(&mut self.0, &others.0);
    }

    /// A fault of this program that ended the process.
    pub fn add_fault(&mut self) {
        if let Some(place) = NAMES.iter().position(|name| *name == "faults") {
            self.0[place] = self.0[place].wrapping_add(1);
        }
    }

    /// Each number with its name.
    fn named(&self) -> Vec<(&'static str, u64)> {
        NAMES.iter().copied().zip(self.0).collect()
    }

    /// The numbers by causes that aren't 0, of refusals and of halts.
    fn causes(&self) -> [Vec<(u32, u64)>; 2] {
        let of = |first: usize| (0..).zip(self.0[first..first + CAUSES].iter().copied()).filter(|one| one.1 > 0).collect();
        [of(NAMES.len()), of(NAMES.len() + CAUSES)]
    }
}

/// Where a queue's rings stand: up to which index the guest shows requests, and up to which they are answered.
#[derive(Clone, Copy, Debug, Default, PartialEq, Eq)]
pub struct Rings {
    pub tx: (u32, u32),
    pub rx: (u32, u32),
}

impl Totals {
    pub fn add(to: &AtomicU64, number: u64) {
        to.store(to.load(Relaxed).wrapping_add(number), Relaxed);
    }

    pub fn counts(&self) -> Counts {
        let mut counts = Counts::default();
        for (count, number) in counts.0.iter_mut().zip(self.numbers()) {
            *count = number.load(Relaxed);
        }
        counts
    }

    pub fn set(to: &AtomicU64, number: usize) {
        to.store(number as u64, Relaxed);
    }

    pub fn refuse(&self, refusal: Refusal) {
        Totals::add(&self.refused[refusal.0 as usize % CAUSES], 1);
    }

    pub fn halt(&self, halt: Halt) {
        Totals::add(&self.halted[halt.0 as usize % CAUSES], 1);
    }
}

/// A filter's map with the counters that aren't 0: entry, counter, value.
#[derive(Clone, Debug, PartialEq, Eq)]
pub struct MapCounts {
    pub name: String,
    pub entries: u32,
    pub counters: u32,
    pub values: Vec<(u32, u32, u64)>,
}

impl MapCounts {
    /// The maps of a program with these of its counters, but for that of the time, which nothing counts.
    pub fn of(program: &Program, counters: &[u64]) -> Vec<MapCounts> {
        let value = |map: u32, entry: u32, counter: u32| {
            let place = program.place(map, entry, counter)?;
            counters.get(place).filter(|value| **value > 0).map(|value| (entry, counter, *value))
        };
        let counts = |map: u32, entries: u32, each: u32| {
            (0..entries).flat_map(|entry| (0..each).filter_map(move |counter| value(map, entry, counter))).collect()
        };
        let one = |(map, (size, name)): (u32, (&MapSize, &String))| {
            let MapSize { entries, counters } = *size;
            MapCounts { name: name.clone(), entries, counters, values: counts(map, entries, counters) }
        };
        let maps = (0..).zip(program.maps().iter().zip(program.map_names()));
        maps.filter(|(_, (_, name))| *name != CLOCK_MAP).map(one).collect()
    }
}

/// All that is told of a device.
#[derive(Clone, Debug, Default, PartialEq, Eq)]
pub struct DeviceStats {
    pub domain: u16,
    pub device: u32,
    pub guest: String,
    pub interface: String,
    pub state: String,
    pub filter: String,
    pub queues: usize,
    /// Of each queue. `None`: its thread doesn't answer.
    pub rings: Vec<Option<Rings>>,
    pub totals: Vec<(&'static str, u64)>,
    pub refused: Vec<(u32, u64)>,
    pub halted: Vec<(u32, u64)>,
    pub maps: Vec<MapCounts>,
}

impl DeviceStats {
    /// Tells the sums of its queues.
    pub fn tell(&mut self, counts: &Counts) {
        self.totals = counts.named();
        [self.refused, self.halted] = counts.causes();
    }
}

/// The devices as lines of text. A name is part of one line, whoever chose it.
pub fn text(devices: &[DeviceStats]) -> String {
    let mut out = String::new();
    for device in devices {
        let DeviceStats { domain, device: number, interface, state, queues, .. } = device;
        let (guest, filter) = (plain(&device.guest), plain(&device.filter));
        let _ = writeln!(out, "{interface}: domain {domain} ({guest}) device {number}, {state}, queues {queues}, filter {filter}");
        for (name, value) in &device.totals {
            let _ = writeln!(out, "  {} {value}", name.replace('_', "-"));
        }
        for (number, rings) in device.rings.iter().enumerate() {
            let _ = match rings {
                Some(Rings { tx, rx }) => writeln!(out, "  rings {number} tx {} {} rx {} {}", tx.0, tx.1, rx.0, rx.1),
                None => writeln!(out, "  rings {number} unknown: its thread doesn't answer"),
            };
        }
        for (cause, count) in &device.refused {
            let _ = writeln!(out, "  refused {cause} {count} ({})", Refusal(*cause));
        }
        for (cause, count) in &device.halted {
            let _ = writeln!(out, "  halted {cause} {count} ({})", Halt(*cause));
        }
        for map in &device.maps {
            let name = plain(&map.name);
            for (entry, counter, value) in &map.values {
                let _ = writeln!(out, "  counter {name} {entry} {counter} {value}");
            }
        }
    }
    out
}

fn quoted(text: &str) -> String {
    let mut out = String::from("\"");
    for character in text.chars() {
        match character {
            '"' | '\\' => out.extend(['\\', character]),
            control if u32::from(control) < 32 => {
                let _ = write!(out, "\\u{:04x}", u32::from(control));
            }
            other => out.push(other),
        }
    }
    out + "\""
}

fn list(of: impl Iterator<Item = String>) -> String {
    format!("[{}]", of.collect::<Vec<_>>().join(","))
}

fn object(of: impl Iterator<Item = (String, String)>) -> String {
    let members: Vec<_> = of.map(|(name, value)| format!("{}:{value}", quoted(&name))).collect();
    format!("{{{}}}", members.join(","))
}

fn numbers(of: &[(u32, u64)]) -> String {
    object(of.iter().map(|(cause, count)| (cause.to_string(), count.to_string())))
}

fn map_json(map: &MapCounts) -> String {
    let values = list(map.values.iter().map(|(entry, counter, value)| format!("[{entry},{counter},{value}]")));
    format!("{{\"name\":{},\"entries\":{},\"counters\":{},\"values\":{values}}}", quoted(&map.name), map.entries, map.counters)
}

fn rings_json(rings: &Option<Rings>) -> String {
    rings.map_or("null".to_owned(), |Rings { tx, rx }| format!("{{\"tx\":[{},{}],\"rx\":[{},{}]}}", tx.0, tx.1, rx.0, rx.1))
}

fn device_json(device: &DeviceStats) -> String {
    let named = [("guest", &device.guest), ("interface", &device.interface), ("state", &device.state), ("filter", &device.filter)];
    let texts = named.iter().map(|(name, value)| ((*name).to_owned(), quoted(value)));
    let totals = object(device.totals.iter().map(|(name, value)| ((*name).to_owned(), value.to_string())));
    let members = [
        ("domain", device.domain.to_string()),
        ("device", device.device.to_string()),
        ("queues", device.queues.to_string()),
        ("rings", list(device.rings.iter().map(rings_json))),
        ("totals", totals),
        ("refused", numbers(&device.refused)),
        ("halted", numbers(&device.halted)),
        ("maps", list(device.maps.iter().map(map_json))),
    ];
    object(texts.chain(members.into_iter().map(|(name, value)| (name.to_owned(), value))))
}

/// The devices as JSON: `{"vifs":[..]}` and a line feed.
pub fn json(devices: &[DeviceStats]) -> String {
    format!("{{\"vifs\":{}}}\n", list(devices.iter().map(device_json)))
}

#[cfg(test)]
mod tests {
    use super::*;

    fn device() -> DeviceStats {
        let (first, second) = (Totals::default(), Totals::default());
        Totals::add(&first.passed, 3);
        Totals::add(&second.passed, 4);
        first.refuse(Refusal(4));
        second.refuse(Refusal(4));
        second.halt(Halt(1));
        let map = MapCounts { name: "a \"b\"\n".to_owned(), entries: 256, counters: 1, values: vec![(17, 0, 9)] };
        let mut device =
            DeviceStats { domain: 3, device: 1, guest: "web".to_owned(), interface: "vif3.1".to_owned(), ..DeviceStats::default() };
        (device.state, device.filter, device.queues, device.maps) = ("connected".to_owned(), "f.toml".to_owned(), 2, vec![map]);
        device.rings = vec![Some(Rings { tx: (7, 6), rx: (9, 4) }), None];
        let mut counts = first.counts();
        counts.add(&second.counts());
        device.tell(&counts);
        device
    }

    #[test]
    fn sums_are_modulo_2_to_64() {
        let mut counts = Counts([u64::MAX; COUNTS]);
        counts.add(&Counts([2; COUNTS]));
        assert_eq!(counts, Counts([1; COUNTS]));
        counts.add_fault();
        assert_eq!(counts.named().into_iter().filter(|one| one.1 == 2).collect::<Vec<_>>(), [("faults", 2)]);
    }

    #[test]
    fn queues_are_added_up_as_text() {
        let text = text(&[device()]);
        assert!(text.starts_with("vif3.1: domain 3 (web) device 1, connected, queues 2, filter f.toml\n  passed 7\n  passed-bytes 0\n"));
        assert!(
            text.contains("  refused 4 2 (a slot's grant failed its check)\n  halted 1 1 (the tx producer is more than a ring ahead)\n")
        );
        assert!(text.contains("  rings 0 tx 7 6 rx 9 4\n  rings 1 unknown"));
        assert!(text.ends_with("\n  counter a \"b\"? 17 0 9\n"));
    }

    #[test]
    fn a_name_is_no_line_of_another_device() {
        let lie = "x 0 0 1\nvif9.0: domain 9 (other) device 0, connected, queues 1, filter none\n  passed 77\n  counter y".to_owned();
        let mut device = device();
        (device.maps[0].name, device.guest, device.filter) = (lie.clone(), lie.clone(), lie);
        let text = text(&[device]);
        assert!(!text.contains("\nvif9.0: ") && !text.contains("\n  passed 77"), "{text}");
    }

    #[test]
    fn json_has_its_texts_quoted() {
        let json = json(&[device()]);
        assert!(json.starts_with(
            "{\"vifs\":[{\"guest\":\"web\",\"interface\":\"vif3.1\",\"state\":\"connected\",\"filter\":\"f.toml\",\"domain\":3"
        ));
        assert!(json.contains("\"rings\":[{\"tx\":[7,6],\"rx\":[9,4]},null],"));
        assert!(json.contains("\"totals\":{\"passed\":7,\"passed_bytes\":0,"));
        assert!(json.contains("\"refused\":{\"4\":2},\"halted\":{\"1\":1}"));
        let map = "\"maps\":[{\"name\":\"a \\\"b\\\"\\u000a\",\"entries\":256,\"counters\":1,\"values\":[[17,0,9]]}]";
        assert!(json.ends_with(&format!("{map}}}]}}\n")), "{json}");
        assert_eq!(super::json(&[]), "{\"vifs\":[]}\n");
    }
}
