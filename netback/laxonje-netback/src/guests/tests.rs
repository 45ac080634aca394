//! Processes of guests as they are started, on a machine without Xen: such a process refuses each device, and says why. On one with Xen
//! nothing is tried, since domains of these numbers may be there.
use super::*;
use crate::keys::QueueKeys;
use crate::os::lock;
use crate::stats::Counts;
use laxonje::{Accepts, Offers};
use std::collections::VecDeque;
use std::path::PathBuf;
use std::sync::{Mutex, MutexGuard, PoisonError};
use std::thread::sleep;

const LONG: Duration = Duration::from_secs(120);
const SHORT: Duration = Duration::from_millis(5);

/// Tests look at which processes there are, one test at a time.
static ALONE: Mutex<()> = Mutex::new(());

struct Bench {
    guests: Option<Guests>,
    starter: u32,
    came: VecDeque<News>,
    path: PathBuf,
    _alone: MutexGuard<'static, ()>,
}

/// The program itself: cargo builds it for the tests that run it by its words.
fn program() -> PathBuf {
    let own = std::env::current_exe().unwrap();
    let program = own.parent().and_then(Path::parent).unwrap().join("laxonje-netback");
    assert!(program.exists(), "cargo test without --bin builds {}", program.display());
    program
}

fn bench() -> Option<Bench> {
    bench_by("0 --grants copy --nice 0")
}

fn bench_by(words: &str) -> Option<Bench> {
    let alone = ALONE.lock().unwrap_or_else(PoisonError::into_inner);
    if Path::new("/dev/xen/gntdev").exists() {
        return None;
    }
    let path = std::env::temp_dir().join(format!("laxonje-guests-{}.lock", std::process::id()));
    let held = lock(&path, LONG).unwrap();
    let words: Vec<_> = words.split(' ').map(str::to_owned).collect();
    let guests = Guests::of_program(&program(), &words, &held).unwrap();
    let starter = until_some(|| of_words(std::process::id(), "start-guests").pop());
    Some(Bench { guests: Some(guests), starter, came: VecDeque::new(), path, _alone: alone })
}

/// All its processes end with it.
impl Drop for Bench {
    fn drop(&mut self) {
        self.guests = None;
        until_some(|| lock(&self.path, SHORT).ok());
        let _ = std::fs::remove_file(&self.path);
    }
}

fn until_some<Found>(look: impl FnMut() -> Option<Found>) -> Found {
    let until = Instant::now() + LONG;
    let looks = std::iter::repeat_with(look).take_while(|_| Instant::now() < until);
    let mut found = looks.inspect(|found| sleep(if found.is_none() { SHORT } else { Duration::ZERO }));
    found.find_map(|found| found).expect("nothing comes")
}

/// The processes whose parent this is, with their words. Those that have ended have none.
fn children(of: u32) -> Vec<(u32, String)> {
    let parent = |id: u32| -> Option<u32> {
        let text = std::fs::read_to_string(format!("/proc/{id}/stat")).ok()?;
        text.rsplit(") ").next()?.split(' ').nth(1)?.parse().ok()
    };
    let words = |id: u32| Some((id, std::fs::read_to_string(format!("/proc/{id}/cmdline")).ok()?.replace('\0', " ")));
    let all = std::fs::read_dir("/proc").unwrap().filter_map(|entry| entry.ok()?.file_name().to_str()?.parse().ok());
    all.filter(|id| parent(*id) == Some(of)).filter_map(words).filter(|(_, words)| !words.is_empty()).collect()
}

fn of_words(parent: u32, wanted: &str) -> Vec<u32> {
    children(parent).into_iter().filter(|(_, words)| words.contains(wanted)).map(|(id, _)| id).collect()
}

fn status(of: u32, key: &str) -> String {
    let text = std::fs::read_to_string(format!("/proc/{of}/status")).unwrap();
    text.lines().find_map(|line| line.strip_prefix(key)?.strip_prefix(":\t")).unwrap_or("").to_owned()
}

fn descriptors(of: u32) -> Vec<String> {
    let all = std::fs::read_dir(format!("/proc/{of}/fd")).unwrap();
    all.filter_map(|entry| Some(std::fs::read_link(entry.ok()?.path()).ok()?.display().to_string())).collect()
}

fn send(signal: &str, to: u32) {
    assert!(Command::new("sh").arg("-c").arg(format!("kill -{signal} {to}")).status().unwrap().success());
}

fn filter(text: &[u8]) -> Filter {
    let count = include_bytes!("../../../../examples/count-protocols/settings.toml");
    Filter {
        path: "f.toml".into(),
        program: laxonje::Program::from_settings(count).unwrap(),
        text: text.to_vec(),
        number: text.len() as u64,
        lists_of: 0,
        offers: Offers::ALL,
    }
}

fn asked(device: u32) -> Asked {
    Asked { device, queues: 1, counters: 256 }
}

impl Bench {
    fn guests(&mut self) -> &mut Guests {
        self.guests.as_mut().unwrap()
    }

    /// Has the domain's process serve a device by this filter; descriptors are any. Returns the number of the process.
    fn connect_by(&mut self, domain: u16, device: u32, filter: &Filter) -> u64 {
        self.connect_queues(domain, device, filter, 1)
    }

    fn connect_queues(&mut self, domain: u16, device: u32, filter: &Filter, count: usize) -> u64 {
        let (first, second) = Socket::pair().unwrap();
        let queues = vec![QueueKeys { tx: 8, rx: 9, event: 3 }; count];
        let (program, offers, accepts) = (filter.number, filter.offers, Accepts::ALL);
        let (fresh, notifies, scatters) = (true, true, true);
        let connect = Connect { device, connection: 1, ifindex: 1, program, fresh, notifies, scatters, offers, accepts, queues };
        self.guests().connect(domain, filter, connect, &[first.fd(), second.fd()]).unwrap()
    }

    fn connect(&mut self, domain: u16, device: u32) -> u64 {
        self.connect_by(domain, device, &filter(include_bytes!("../../../../examples/count-protocols/settings.toml")))
    }

    /// What comes next that is no line.
    fn next(&mut self) -> News {
        let is_line = |one: &News| matches!(one, News::Said { report: Report::Line { .. }, .. });
        until_some(|| {
            let news = self.guests().news(|_| true).unwrap();
            self.came.extend(news.into_iter().filter(|one| !is_line(one)));
            self.came.pop_front()
        })
    }

    /// The next is that a device isn't served. Returns why.
    fn refused(&mut self, of: u16) -> String {
        match self.next() {
            News::Said { domain, report: Report::Failed { why, .. }, .. } if domain == of => why,
            other => panic!("{other:?}"),
        }
    }

    /// The next is that a process has ended. Returns how.
    fn ended(&mut self, of: u64) -> String {
        match self.next() {
            News::Ended { process, how, .. } if process == of => how,
            other => panic!("{other:?}"),
        }
    }

    /// The process of a guest, by the machine's number.
    fn process(&self, domain: u16) -> u32 {
        until_some(|| of_words(self.starter, &format!("serve-guest {domain} ")).pop())
    }
}

#[test]
fn one_that_is_killed_is_told_and_hurts_no_other() {
    let mut bench = match bench() {
        Some(bench) => bench,
        None => return,
    };
    let (first, second) = (bench.connect(1, 0), bench.connect(2, 0));
    let mut refused = [bench.next(), bench.next()].map(|one| format!("{one:?}"));
    refused.sort();
    assert!(
        refused[0].contains("domain: 1") && refused[1].contains("domain: 2") && refused[1].contains("/dev/xen/gntdev: "),
        "{refused:?}"
    );
    send("KILL", bench.process(1));
    assert_eq!(bench.ended(first), "signal: 9 (SIGKILL)");
    assert_eq!((bench.connect(2, 1), bench.refused(2).is_empty()), (second, false));
    // a device that it doesn't serve has counted nothing, and this is said at once
    let (until, nothing) = (Instant::now() + LONG, QueueTold { counts: Counts::default(), rings: None, counters: vec![0; 256] });
    assert_eq!(bench.guests().disconnect(2, asked(0), until), Some(vec![nothing]));
    assert!(bench.connect(1, 0) > second && !bench.refused(1).is_empty());
    send("SEGV", bench.process(1));
    assert!(bench.ended(3).starts_with("signal: 11 (SIGSEGV)"));
}

#[test]
fn signals_of_users_are_the_main_processs_alone() {
    let mut bench = match bench() {
        Some(bench) => bench,
        None => return,
    };
    let number = bench.connect(1, 0);
    bench.refused(1);
    for signal in ["TERM", "INT", "HUP"] {
        send(signal, bench.process(1));
        send(signal, bench.starter);
    }
    assert_eq!((bench.connect(1, 0), bench.refused(1).is_empty()), (number, false));
}

#[test]
fn one_has_no_capability_a_list_of_system_calls_and_few_descriptors() {
    let mut bench = match bench() {
        Some(bench) => bench,
        None => return,
    };
    bench.connect(1, 0);
    bench.refused(1);
    let process = bench.process(1);
    let said = ["CapInh", "CapPrm", "CapEff", "CapAmb", "NoNewPrivs", "Seccomp", "Threads"].map(|key| status(process, key));
    let nothing = "0000000000000000";
    assert_eq!(said, [nothing, nothing, nothing, nothing, "1", "2", "1"]);
    if status(std::process::id(), "CapEff") == status(std::process::id(), "CapBnd") {
        assert_eq!([process, bench.starter].map(|one| status(one, "CapBnd")), [nothing; 2]);
    }
    // its socket twice, the lock, nowhere, signals, and a pair of its own: what came with the device that it refused is closed
    let mut open = descriptors(process);
    open.retain(|name| !name.starts_with("socket:") && !name.contains("signalfd"));
    open.sort();
    assert_eq!((descriptors(process).len(), open), (7, vec!["/dev/null".to_owned(), bench.path.display().to_string()]));
}

#[test]
fn memory_that_runs_out_is_told_and_the_process_goes_on() {
    let mut bench = match bench_by("0 --grants copy --nice 0 --memory 64") {
        Some(bench) => bench,
        None => return,
    };
    let filter = filter(include_bytes!("../../../../examples/count-protocols/settings.toml"));
    let number = bench.connect_queues(1, 0, &filter, 12);
    assert_eq!(bench.refused(1), "12 queues: Cannot allocate memory (os error 12): see --memory");
    let limits = std::fs::read_to_string(format!("/proc/{}/limits", bench.process(1))).unwrap();
    let limit = limits.lines().find_map(|line| line.strip_prefix("Max address space ")).unwrap().split_whitespace();
    assert_eq!(limit.collect::<Vec<_>>(), ["67108864", "67108864", "bytes"]);
    assert_eq!(bench.connect_queues(1, 0, &filter, 4), number);
    let refused = bench.refused(1);
    assert!(refused.contains("/dev/xen/gntdev: "), "{refused}");
}

#[test]
fn one_that_does_not_answer_is_killed_and_the_next_waits_for_its_end() {
    let mut bench = match bench() {
        Some(bench) => bench,
        None => return,
    };
    let number = bench.connect(1, 0);
    bench.refused(1);
    send("STOP", bench.process(1));
    let soon = Instant::now() + Duration::from_millis(50);
    bench.guests().ask(1, 0);
    assert_eq!(bench.guests().told(1, asked(0), soon), None);
    assert_eq!(bench.guests().disconnect(1, asked(0), soon), None);
    let next = bench.connect(1, 0);
    let came = [bench.next(), bench.next()];
    let is_end = |one: &News| matches!(one, News::Ended { process, .. } if *process == number);
    assert!(next > number && came.iter().any(is_end), "{came:?}");
}

#[test]
fn a_filter_that_its_own_verifier_refuses_serves_no_device() {
    let mut bench = match bench() {
        Some(bench) => bench,
        None => return,
    };
    bench.connect_by(1, 0, &filter(b"program = []"));
    assert_eq!(bench.refused(1), "its filter isn't accepted");
}

#[test]
fn two_hundred_starts_leave_no_process_descriptor_or_thread() {
    let mut bench = match bench() {
        Some(bench) => bench,
        None => return,
    };
    let own = || descriptors(std::process::id()).len();
    bench.connect(1, 0);
    bench.refused(1);
    let before = own();
    for domain in 2..202 {
        let number = bench.connect(domain, 0);
        bench.refused(domain);
        bench.guests().release(domain);
        bench.ended(number);
    }
    // the standard three, its socket, the lock, and signals twice, once what it handed to the last process is closed
    until_some(|| Some(()).filter(|()| descriptors(bench.starter).len() == 7));
    assert_eq!(status(bench.starter, "Threads"), "1");
    assert_eq!(children(bench.starter).len(), 1);
    assert_eq!(bench.guests().fds().count(), 2);
    // other tests have descriptors meanwhile
    until_some(|| Some(()).filter(|()| own() < before + 100));
}

#[test]
fn all_end_with_the_main_process() {
    let mut bench = match bench() {
        Some(bench) => bench,
        None => return,
    };
    for domain in 1..4 {
        bench.connect(domain, 0);
        bench.refused(domain);
    }
    let all: Vec<u32> = children(bench.starter).into_iter().map(|one| one.0).collect();
    assert_eq!(all.len(), 3);
    // stopped, one can't see that its main process has ended
    send("STOP", all[0]);
    drop(bench);
    let alive = |id: &u32| std::fs::read_to_string(format!("/proc/{id}/cmdline")).map_or(false, |words| words.contains("serve-guest"));
    until_some(|| Some(()).filter(|()| !all.iter().any(alive)));
}
