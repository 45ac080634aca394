//! The words of the command line.
use crate::serve::Way;
use std::path::PathBuf;
use std::thread::available_parallelism;
use std::time::Duration;

pub const HELP: &str = "\
usage: laxonje-netback [OPTION..]           serve the network devices of guests
       laxonje-netback stats [--json] [--socket PATH]
       laxonje-netback reload [--socket PATH]
       laxonje-netback check FILE           say whether a settings file is accepted
       laxonje-netback --help | --version

  --filters FOLDER   where settings files are: GUEST.DEVICE.toml, GUEST.toml, default.toml (/etc/laxonje)
  --domain ID        serve this guest alone
  --queues N         offer N queues to each device, 1 to 64, and no more than its guest has processors (those of this domain, at most 4)
  --bridge NAME      a bridge for devices that the toolstack gives neither a script nor a bridge
  --grants copy|map  how pages are had of Xen (copy)
  --watch SECONDS    look every SECONDS whether a settings file has changed (only on SIGHUP and reload)
  --memory MEGABYTES what the process of a guest may take, 32 to 65536 (256)
  --nice N           at what priority packets are moved, -20 to 19 (-10)
  --with-emulated    serve devices whose guest has an emulated card too, which goes around the filter
  --socket PATH      where stats and reload are answered (/run/laxonje-netback.sock)
  --unrestricted     keep capabilities and system calls: to look for a fault
";

const MOST_QUEUES: u32 = 64;
/// The last number of a domain before those that Xen keeps for itself.
const MOST_DOMAIN: u32 = 0x7fef;
/// As many queues as Linux's netback offers.
const USUAL_QUEUES: u32 = 4;
/// Whoever receives a packet mustn't take the processor after each of them.
const USUAL_NICE: i32 = -10;
/// Megabytes for the process of a guest: enough for some forty queues, of 6 MB each.
const USUAL_MEMORY: u32 = 256;
/// What it has without a queue, and what is left over beside the queues.
const LEAST_MEMORY: u32 = 32;
const MOST_MEMORY: u32 = 65_536;

/// What is to be done.
#[derive(Debug, PartialEq, Eq)]
pub enum Command {
    Serve(Options),
    Ask {
        question: &'static str,
        socket: PathBuf,
    },
    Check(PathBuf),
    /// Start the processes of guests, each with these words. The main process says so.
    StartGuests {
        words: Vec<String>,
        restricted: bool,
    },
    /// Serve a guest: its domain, and this one. The process that starts those of guests says so.
    ServeGuest {
        domain: u16,
        own: u16,
        options: Options,
    },
    Help,
    Version,
}

#[derive(Clone, Debug, PartialEq, Eq)]
pub struct Options {
    pub filters: PathBuf,
    pub domain: Option<u16>,
    pub queues: u32,
    pub bridge: Option<String>,
    pub way: Way,
    pub watch: Option<Duration>,
    pub nice: i32,
    /// The most megabytes of the process of a guest.
    pub memory: u32,
    pub socket: PathBuf,
    pub with_emulated: bool,
    pub restricted: bool,
}

impl Default for Options {
    fn default() -> Options {
        Options {
            filters: PathBuf::from("/etc/laxonje"),
            domain: None,
            queues: available_parallelism().map_or(1, |processors| USUAL_QUEUES.min(processors.get() as u32)),
            bridge: None,
            way: Way::Copy,
            watch: None,
            nice: USUAL_NICE,
            memory: USUAL_MEMORY,
            socket: PathBuf::from("/run/laxonje-netback.sock"),
            with_emulated: false,
            restricted: true,
        }
    }
}

impl Options {
    /// The file that the processes of one start hold locked.
    pub fn lock(&self) -> PathBuf {
        self.socket.with_extension("lock")
    }

    /// The words behind `start-guests`, and behind `serve-guest` and the guest's number. `own`: the number of this domain.
    pub fn words_of_guests(&self, own: u16) -> Vec<String> {
        let grants = match self.way {
            Way::Copy => "copy",
            Way::Map => "map",
        };
        let (own, nice, memory) = (own.to_string(), self.nice.to_string(), self.memory.to_string());
        let words = [own.as_str(), "--grants", grants, "--nice", nice.as_str(), "--memory", memory.as_str()].map(str::to_owned);
        let unrestricted = (!self.restricted).then(|| "--unrestricted".to_owned());
        words.into_iter().chain(unrestricted).collect()
    }
}

/// What the words say, or what is wrong with them.
pub fn command(words: &[String]) -> Result<Command, String> {
    let (first, rest) = match words.split_first() {
        Some((first, rest)) => (first.as_str(), rest),
        None => return Ok(Command::Serve(Options::default())),
    };
    match first {
        "--help" | "-h" => Ok(Command::Help),
        "--version" | "-V" => Ok(Command::Version),
        "stats" => ask("stats", "json", rest),
        "reload" => ask("reload", "", rest),
        "check" => match rest {
            [file] => Ok(Command::Check(PathBuf::from(file))),
            _ => Err("check takes one file".to_owned()),
        },
        "start-guests" => serve(rest.get(1..).unwrap_or_default())
            .map(|options| Command::StartGuests { words: rest.to_vec(), restricted: options.restricted }),
        "serve-guest" => serve_guest(rest),
        _ => serve(words).map(Command::Serve),
    }
}

fn serve_guest(words: &[String]) -> Result<Command, String> {
    let domain = |at: usize| number("serve-guest", words.get(at), 0, MOST_DOMAIN).map(|domain| domain as u16);
    Ok(Command::ServeGuest { domain: domain(0)?, own: domain(1)?, options: serve(words.get(2..).unwrap_or_default())? })
}

/// `json` is the question with --json, if there is one.
fn ask(plain: &'static str, json: &'static str, words: &[String]) -> Result<Command, String> {
    let (mut question, mut socket) = (plain, Options::default().socket);
    let mut words = words.iter();
    while let Some(word) = words.next() {
        match word.as_str() {
            "--json" if !json.is_empty() => question = json,
            "--socket" => socket = PathBuf::from(value(word, words.next())?),
            other => return Err(format!("{plain} doesn't take {other}")),
        }
    }
    Ok(Command::Ask { question, socket })
}

fn value<'word>(option: &str, word: Option<&'word String>) -> Result<&'word str, String> {
    word.map(String::as_str).ok_or_else(|| format!("{option} takes a value"))
}

fn number(option: &str, word: Option<&String>, least: u32, most: u32) -> Result<u32, String> {
    let word = value(option, word)?;
    let fits = word.parse().ok().filter(|number| (least..=most).contains(number));
    fits.ok_or_else(|| format!("{option} takes a number from {least} to {most}, and not {word}"))
}

fn serve(words: &[String]) -> Result<Options, String> {
    let mut options = Options::default();
    let mut words = words.iter();
    while let Some(word) = words.next() {
        match word.as_str() {
            "--filters" => options.filters = PathBuf::from(value(word, words.next())?),
            "--domain" => options.domain = Some(number(word, words.next(), 0, MOST_DOMAIN)? as u16),
            "--queues" => options.queues = number(word, words.next(), 1, MOST_QUEUES)?,
            "--bridge" => options.bridge = Some(value(word, words.next())?.to_owned()),
            "--watch" => options.watch = Some(Duration::from_secs(number(word, words.next(), 1, 86400)?.into())),
            "--memory" => options.memory = number(word, words.next(), LEAST_MEMORY, MOST_MEMORY)?,
            "--nice" => options.nice = nice(value(word, words.next())?)?,
            "--socket" => options.socket = PathBuf::from(value(word, words.next())?),
            "--grants" => options.way = way(value(word, words.next())?)?,
            "--with-emulated" => options.with_emulated = true,
            "--unrestricted" => options.restricted = false,
            other => return Err(format!("there is no option {other}: --help says which there are")),
        }
    }
    Ok(options)
}

fn nice(word: &str) -> Result<i32, String> {
    let fits = word.parse().ok().filter(|number| (-20..20).contains(number));
    fits.ok_or_else(|| format!("--nice takes a number from -20 to 19, and not {word}"))
}

fn way(word: &str) -> Result<Way, String> {
    match word {
        "copy" => Ok(Way::Copy),
        "map" => Ok(Way::Map),
        other => Err(format!("--grants takes copy or map, and not {other}")),
    }
}

#[cfg(test)]
mod tests {
    use super::*;

    fn of(words: &str) -> Result<Command, String> {
        command(&words.split_whitespace().map(str::to_owned).collect::<Vec<_>>())
    }

    #[test]
    fn words_are_options() {
        assert_eq!(of(""), Ok(Command::Serve(Options::default())));
        let all =
            "--filters /f --domain 7 --queues 4 --bridge br0 --grants map --watch 2 --nice 5 --memory 64 --socket /s --with-emulated --unrestricted";
        let options = Options {
            filters: "/f".into(),
            domain: Some(7),
            queues: 4,
            bridge: Some("br0".to_owned()),
            way: Way::Map,
            watch: Some(Duration::from_secs(2)),
            nice: 5,
            memory: 64,
            socket: "/s".into(),
            with_emulated: true,
            restricted: false,
        };
        assert_eq!(of(all), Ok(Command::Serve(options)));
        assert_eq!(of("stats --json --socket /s"), Ok(Command::Ask { question: "json", socket: "/s".into() }));
        assert_eq!(of("reload"), Ok(Command::Ask { question: "reload", socket: "/run/laxonje-netback.sock".into() }));
        assert_eq!((of("--help"), of("--version")), (Ok(Command::Help), Ok(Command::Version)));
        assert_eq!(of("check a.toml"), Ok(Command::Check("a.toml".into())));
    }

    #[test]
    fn the_processes_of_guests_get_what_they_need_to_know() {
        for (words, restricted) in [("--grants map --nice 5 --memory 64 --unrestricted", false), ("--nice -20", true)] {
            let options = match of(words) {
                Ok(Command::Serve(options)) => options,
                other => panic!("{other:?}"),
            };
            let words = options.words_of_guests(7);
            let start = Command::StartGuests { words: words.clone(), restricted };
            assert_eq!(of(&format!("start-guests {}", words.join(" "))), Ok(start));
            assert_eq!(
                of(&format!("serve-guest 3 {}", words.join(" "))),
                Ok(Command::ServeGuest {
                    domain: 3,
                    own: 7,
                    options: Options { way: options.way, nice: options.nice, memory: options.memory, restricted, ..Options::default() }
                })
            );
        }
        for words in ["serve-guest", "serve-guest 3", "serve-guest 32752 0", "serve-guest x 0", "serve-guest 3 0 --x"] {
            assert!(of(words).is_err(), "{words}");
        }
        assert_eq!(Options::default().lock(), PathBuf::from("/run/laxonje-netback.lock"));
    }

    #[test]
    fn as_many_queues_as_processors_up_to_four() {
        let processors = available_parallelism().unwrap().get() as u32;
        assert_eq!(Options::default().queues, processors.min(4));
    }

    #[test]
    fn wrong_words_get_one_line() {
        for words in [
            "x",
            "--filters",
            "--domain x",
            "--domain 32752",
            "--queues 0",
            "--queues 65",
            "--grants x",
            "--watch 0",
            "--memory 31",
            "--memory 65537",
            "--nice 20",
            "--nice x",
            "check",
            "reload --json",
            "stats x",
        ] {
            let line = of(words).unwrap_err();
            assert!(!line.is_empty() && !line.contains('\n'), "{words}");
        }
    }

    #[test]
    fn the_help_has_each_option() {
        let options =
            "--filters --domain --queues --bridge --grants --watch --nice --memory --socket --with-emulated --unrestricted --json";
        assert!(options.split(' ').all(|option| HELP.contains(option)));
    }
}
