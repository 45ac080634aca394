//! Rests of a queue's thread, for programs of this domain that receive what passed.
//!
//! The thread goes before other programs (`--nice`), and a guest that sends without a pause keeps it busy. On one processor a program that
//! receives would hardly run, and the buffer of its socket would overflow. Here the thread lets it catch up; the guest's ring
//! fills meanwhile, so that the guest waits too.
use crate::os::thread_time;
use std::iter::repeat_with;
use std::thread;
use std::time::{Duration, Instant};

/// A rest comes after that many packets, whatever became of them: the buffer of a socket takes some 270 short ones, if it has the usual size.
const PACKETS: usize = 256;
const NAP: Duration = Duration::from_micros(20);
/// A nap that took so long: others had the processor, and may want it still.
const LONG_NAP: Duration = Duration::from_micros(200);
const MOST_NAPS: usize = 4;
/// After a flood the thread rests until the time is that many times what it worked: a flood has a tenth of a processor at most.
const TIMES_OF_A_FLOOD: u32 = 10;
const LONGEST_REST: Duration = Duration::from_millis(40);

/// What a rest is for.
#[derive(Clone, Copy, Debug, PartialEq, Eq)]
enum Due {
    /// Programs that receive what passed catch up.
    Others,
    /// More than half of the packets were dropped or refused: nobody waits for those, and other guests' are to go first.
    Flood,
}

/// How many packets there were since the last rest, and how many of them were dropped or refused.
#[derive(Debug, Default)]
pub struct Rests {
    packets: usize,
    dropped: usize,
    /// When the last rest ended, if that was after a flood.
    flooded: Option<Times>,
}

/// A time by the clock, and by the processor's time that this thread has had.
#[derive(Clone, Copy, Debug)]
struct Times {
    clock: Instant,
    own: Duration,
}

impl Times {
    fn now() -> Times {
        Times { clock: Instant::now(), own: thread_time() }
    }

    /// How long to rest after a flood since then.
    fn rest(self) -> Duration {
        let now = Times::now();
        rest_of(now.own.saturating_sub(self.own), now.clock.saturating_duration_since(self.clock))
    }
}

impl Rests {
    pub fn note_packet(&mut self) {
        self.packets += 1;
    }

    /// A packet that was dropped or refused.
    pub fn note_dropped(&mut self) {
        self.packets += 1;
        self.dropped += 1;
    }

    /// Rests, if there were enough packets: until nobody else takes the processor, or for the most naps; after a flood for longer.
    pub fn rest(&mut self) {
        match self.take_due() {
            None => {}
            Some(Due::Others) => {
                self.flooded = None;
                repeat_with(nap).take(MOST_NAPS).find(|took| *took < LONG_NAP);
            }
            Some(Due::Flood) => {
                thread::sleep(self.flooded.map_or(NAP, Times::rest));
                self.flooded = Some(Times::now());
            }
        }
    }

    /// What a rest is for, if one is due. After that it isn't.
    fn take_due(&mut self) -> Option<Due> {
        if self.packets < PACKETS {
            return None;
        }
        let (packets, dropped) = (std::mem::take(&mut self.packets), std::mem::take(&mut self.dropped));
        Some(if dropped > packets / 2 { Due::Flood } else { Due::Others })
    }
}

/// How long to rest after a flood for which the thread worked so long, in so much time.
fn rest_of(worked: Duration, passed: Duration) -> Duration {
    (worked * TIMES_OF_A_FLOOD).saturating_sub(passed).clamp(NAP, LONGEST_REST)
}

/// How long it took.
fn nap() -> Duration {
    let began = Instant::now();
    thread::sleep(NAP);
    began.elapsed()
}

#[cfg(test)]
mod tests {
    use super::*;

    #[test]
    fn a_rest_is_due_once_a_ring_of_packets_has_passed() {
        let mut rests = Rests::default();
        for _ in 0..2 {
            (1..PACKETS).for_each(|_| rests.note_packet());
            assert_eq!(rests.take_due(), None);
            rests.note_packet();
            assert_eq!((rests.take_due(), rests.take_due()), (Some(Due::Others), None));
        }
        assert!(nap() >= NAP);
    }

    #[test]
    fn more_than_half_of_dropped_packets_are_a_flood() {
        for (dropped, due) in [(PACKETS / 2, Due::Others), (PACKETS / 2 + 1, Due::Flood), (PACKETS, Due::Flood)] {
            let mut rests = Rests::default();
            (0..dropped).for_each(|_| rests.note_dropped());
            (dropped..PACKETS).for_each(|_| rests.note_packet());
            assert_eq!((rests.take_due(), rests.take_due()), (Some(due), None), "{dropped}");
        }
    }

    #[test]
    fn a_flood_has_a_tenth_of_a_processor() {
        let micros = Duration::from_micros;
        let rows = [(250, 250, 2250), (250, 1000, 1500), (250, 2500, 20), (250, 1_000_000, 20), (0, 0, 20), (30_000, 30_000, 40_000)];
        for (worked, passed, rest) in rows {
            assert_eq!(rest_of(micros(worked), micros(passed)), micros(rest), "{worked} {passed}");
        }
    }

    #[test]
    fn a_flood_is_forgotten_once_others_have_packets() {
        let mut rests = Rests::default();
        for is_flood in [true, true, false] {
            let note = if is_flood { Rests::note_dropped } else { Rests::note_packet };
            (0..PACKETS).for_each(|_| note(&mut rests));
            rests.rest();
            assert_eq!((rests.flooded.is_some(), rests.packets, rests.dropped), (is_flood, 0, 0));
        }
    }

    #[test]
    fn the_thread_has_a_time_of_its_own() {
        let before = thread_time();
        thread::sleep(Duration::from_millis(30));
        let slept = thread_time();
        assert!(slept >= before && slept - before < Duration::from_millis(30));
        assert!((0..1_000_000).any(|_| thread_time() > slept));
    }
}
