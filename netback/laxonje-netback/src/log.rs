//! Lines for the log, on standard error: one each, and of those that a guest can cause only a few a minute for each device.
use std::collections::BTreeMap;
use std::fmt;
use std::io::Write;
use std::sync::{Arc, Mutex, PoisonError};
use std::time::{Duration, Instant};

/// How many lines at once; then one in this time.
const BURST: u32 = 5;
const EACH: Duration = Duration::from_secs(10);

/// Takes whom a line is about, and its text.
pub type Sink = Box<dyn Fn(&str, &str) + Send>;

/// A text in one line: what isn't plain text in it is replaced.
pub fn plain(text: &str) -> String {
    text.chars().map(|one| if one.is_control() { '?' } else { one }).collect()
}

/// Where lines go. `None`: to standard error.
static SINK: Mutex<Option<Sink>> = Mutex::new(None);

/// From now on lines go there.
pub fn send_to(sink: Sink) {
    *SINK.lock().unwrap_or_else(PoisonError::into_inner) = Some(sink);
}

/// Writes lines of one device. Its clones write of the same device, and have one limit for what the guest can cause.
#[derive(Clone, Debug)]
pub struct Log {
    about: String,
    caused: Arc<Mutex<Limit>>,
}

impl Log {
    pub fn of(about: &str) -> Log {
        Log { about: about.to_owned(), caused: Arc::default() }
    }

    /// Writes a line. What isn't plain text in it, which a guest may have written, is replaced.
    pub fn line(&self, text: &str) {
        let plain: String = plain(text).chars().take(500).collect();
        match &*SINK.lock().unwrap_or_else(PoisonError::into_inner) {
            Some(sink) => sink(&self.about, &plain),
            None => drop(writeln!(std::io::stderr(), "laxonje-netback: {}: {plain}", self.about)),
        }
    }

    /// Writes a line that a guest can cause, if one may be written.
    pub fn caused(&self, what: &dyn fmt::Display) {
        if let Some(skipped) = self.allows() {
            self.line(&format!("{what}{skipped}"));
        }
    }

    fn allows(&self) -> Option<String> {
        self.caused.lock().unwrap_or_else(PoisonError::into_inner).allows()
    }
}

/// The logs of a guest's devices, by their numbers: a device has one limit, however often it connects.
#[derive(Debug, Default)]
pub struct Logs(BTreeMap<u32, Log>);

impl Logs {
    pub fn of(&mut self, device: u32) -> Log {
        self.0.entry(device).or_insert_with(|| Log::of(&device.to_string())).clone()
    }
}

/// How often something may be: a burst, then now and then.
#[derive(Debug)]
pub struct Limit {
    most: u32,
    each: Duration,
    left: u32,
    since: Instant,
    skipped: u64,
}

impl Default for Limit {
    fn default() -> Limit {
        Limit::new(BURST, EACH)
    }
}

impl Limit {
    /// That many at once, and then one in this time.
    pub fn new(most: u32, each: Duration) -> Limit {
        Limit { most, each, left: most, since: Instant::now(), skipped: 0 }
    }

    /// The text to append to a line that may be written now: how many weren't.
    pub fn allows(&mut self) -> Option<String> {
        self.allows_at(Instant::now())
    }

    fn allows_at(&mut self, now: Instant) -> Option<String> {
        let times = (now.duration_since(self.since).as_millis() / self.each.as_millis()).min(u128::from(self.most)) as u32;
        if times > 0 {
            self.left = (self.left + times).min(self.most);
            self.since = now;
        }
        if self.left == 0 {
            self.skipped += 1;
            return None;
        }
        self.left -= 1;
        match std::mem::take(&mut self.skipped) {
            0 => Some(String::new()),
            skipped => Some(format!(" ({skipped} lines like this weren't written)")),
        }
    }
}

#[cfg(test)]
mod tests {
    use super::*;

    #[test]
    fn the_threads_and_connections_of_a_device_have_one_limit() {
        let device = Log::of("vif1.0");
        let allowed = (0..31).flat_map(|_| [device.clone(), device.clone()]).filter(|thread| thread.allows().is_some()).count();
        assert_eq!((allowed, device.allows(), Log::of("vif2.0").allows().as_deref()), (5, None, Some("")));
    }

    #[test]
    fn a_device_that_connects_again_has_the_same_limit() {
        let mut logs = Logs::default();
        let allowed = (0..31).filter(|_| logs.of(3).allows().is_some()).count();
        assert_eq!((allowed, logs.of(4).allows().is_some()), (5, true));
    }

    #[test]
    fn after_a_burst_a_line_comes_now_and_then() {
        let (mut limit, start) = (Limit::default(), Instant::now());
        let allowed = (0..1000).filter(|_| limit.allows_at(start).is_some()).count();
        assert_eq!(allowed, 5);
        let later = start + Duration::from_secs(11);
        assert_eq!(limit.allows_at(later).as_deref(), Some(" (995 lines like this weren't written)"));
        assert_eq!(limit.allows_at(later), None);
        let much_later = later + Duration::from_secs(3600);
        assert_eq!((0..1000).filter(|_| limit.allows_at(much_later).is_some()).count(), 5);
    }
}
