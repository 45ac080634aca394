//! What is told of a device.
use super::served::ANSWERS;
use super::{Device, Shared};
use crate::guests::QueueTold;
use crate::keys::State;
use crate::stats::{add, DeviceStats, MapCounts};
use std::time::Instant;

/// Asks all devices what they count before it waits for any.
pub fn stats<'all>(shared: &Shared, devices: impl Iterator<Item = &'all Device> + Clone) -> Vec<DeviceStats> {
    devices.clone().for_each(|device| device.ask(shared));
    let until = Instant::now() + ANSWERS;
    devices.map(|device| device.stats(shared, until)).collect()
}

impl Device {
    fn ask(&self, shared: &Shared) {
        if self.served.is_some() {
            shared.guests.borrow_mut().ask(self.id.domain, self.id.number);
        }
    }

    /// What its queues tell. Of a process that doesn't answer in time nothing is told.
    fn told(&self, shared: &Shared, until: Instant) -> Vec<QueueTold> {
        let asked = self.served.as_ref().map(|served| self.asked(served));
        asked.and_then(|asked| shared.guests.borrow_mut().told(self.id.domain, asked, until)).unwrap_or_default()
    }

    fn stats(&self, shared: &Shared, until: Instant) -> DeviceStats {
        let told = self.told(shared, until);
        let queues = self.served.as_ref().map_or(0, |served| served.queues);
        let (mut counts, mut counters) = (self.counts, self.counted.clone());
        for queue in &told {
            counts.add(&queue.counts);
            add(&mut counters, &queue.counters);
        }
        let mut stats = DeviceStats {
            domain: self.id.domain,
            device: self.id.number,
            guest: self.guest.name.clone(),
            interface: self.port.interface.name().to_owned(),
            state: self.state.map_or("new", State::name).to_owned(),
            filter: self.filter.path.display().to_string(),
            queues,
            rings: (0..queues).map(|number| told.get(number).and_then(|queue| queue.rings)).collect(),
            maps: MapCounts::of(&self.filter.program, &counters),
            ..DeviceStats::default()
        };
        stats.tell(&counts);
        stats
    }
}
