//! A guest that posts no buffers. As Linux's netback does: what waits for it is dropped after 10 s, so that it doesn't get old packets when it
//! comes back, and after 60 s its interface has no carrier.
use std::time::{Duration, Instant};

const DRAIN_EACH: Duration = Duration::from_secs(10);
const CARRIER_FOR: Duration = Duration::from_secs(60);

/// What is to be done for packets that wait for buffers.
#[derive(Clone, Copy, Debug, PartialEq, Eq)]
pub enum Due {
    Nothing,
    /// Drop what waits.
    Drain,
    /// Drop what waits, and take the carrier away.
    CarrierOff,
}

/// Since when a queue's guest has too few buffers.
#[derive(Debug, Default)]
pub struct Stall {
    since: Option<Instant>,
    drained: Option<Instant>,
    is_off: bool,
}

impl Stall {
    /// The guest has too few buffers.
    pub fn begin(&mut self, now: Instant) {
        self.since.get_or_insert(now);
    }

    /// A packet was delivered. Returns whether the carrier was away.
    pub fn end(&mut self) -> bool {
        let was_off = self.is_off;
        if self.since.is_some() {
            *self = Stall::default();
        }
        was_off
    }

    /// How long until something is due. `None`: for ever.
    pub fn left(&self, now: Instant) -> Option<Duration> {
        let next = self.drained.or(self.since)? + DRAIN_EACH;
        Some(next.saturating_duration_since(now))
    }

    /// What is due. After that it isn't.
    pub fn take_due(&mut self, now: Instant) -> Due {
        let since = match self.since {
            Some(since) if self.left(now) == Some(Duration::ZERO) => since,
            _ => return Due::Nothing,
        };
        self.drained = Some(now);
        if self.is_off || now.duration_since(since) < CARRIER_FOR {
            return Due::Drain;
        }
        self.is_off = true;
        Due::CarrierOff
    }
}

#[cfg(test)]
mod tests {
    use super::*;

    #[test]
    fn packets_are_dropped_each_ten_seconds_and_the_carrier_once_after_sixty() {
        let (mut stall, start) = (Stall::default(), Instant::now());
        let after = |seconds| start + Duration::from_secs(seconds);
        assert_eq!((stall.take_due(after(100)), stall.left(start), stall.end()), (Due::Nothing, None, false));
        stall.begin(start);
        stall.begin(after(9));
        assert_eq!((stall.take_due(after(9)), stall.left(after(9))), (Due::Nothing, Some(Duration::from_secs(1))));
        let due: Vec<_> = (1..=8).map(|tens| stall.take_due(after(10 * tens))).collect();
        assert_eq!((&due[..5], due[5], &due[6..]), (&[Due::Drain; 5][..], Due::CarrierOff, &[Due::Drain; 2][..]));
        assert_eq!((stall.take_due(after(81)), stall.left(after(81))), (Due::Nothing, Some(Duration::from_secs(9))));
        assert!(stall.end() && !stall.end());
        assert_eq!(stall.left(after(90)), None);
    }
}
