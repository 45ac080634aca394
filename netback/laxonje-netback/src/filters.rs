//! Filters: which settings file a device has, and the program of it.
use crate::ffi::O_NONBLOCK;
use crate::lists::{self, ListError};
use crate::settings::{begins_above_0, Settings};
use laxonje::{LoadError, Offers, Program};
use std::collections::BTreeMap;
use std::error::Error;
use std::fmt;
use std::fs::OpenOptions;
use std::io::{self, Read};
use std::os::unix::fs::OpenOptionsExt;
use std::path::{Path, PathBuf};
use std::rc::Rc;

/// The most bytes that a settings text has.
const MOST_TEXT: u64 = 1 << 20;
/// The causes for which there is no file: ENOENT, ENOTDIR and ENAMETOOLONG.
const NOT_THERE: [i32; 3] = [2, 20, 36];
/// What the toolstack appends to the name of a guest that comes from another host, until it is here.
const INCOMING: &str = "--incoming";

/// A program with its file, its text, and a number that no other filter of this process has.
#[derive(Debug)]
pub struct Filter {
    pub path: PathBuf,
    pub program: Program,
    pub text: Vec<u8>,
    pub number: u64,
    /// The number of the filter whose program it has, with lists of its own. 0: it was verified itself.
    pub lists_of: u64,
    /// What a guest that has it is offered.
    pub offers: Offers,
}

/// Why a file gives no filter.
#[derive(Debug)]
pub enum FilterError {
    Read(PathBuf, io::Error),
    Load(PathBuf, LoadError),
    List(PathBuf, ListError),
    /// Its counters are to begin with other numbers than 0, which those of queues don't.
    Begins(PathBuf),
    /// None of these is there.
    None(Vec<PathBuf>),
}

impl fmt::Display for FilterError {
    fn fmt(&self, to: &mut fmt::Formatter<'_>) -> fmt::Result {
        match self {
            FilterError::Read(path, error) => write!(to, "{}: {error}", path.display()),
            FilterError::Load(path, error) => {
                write!(to, "{}: {error}", path.display())?;
                let advice = error.advice();
                if advice.is_empty() {
                    Ok(())
                } else {
                    write!(to, "; {advice}")
                }
            }
            FilterError::List(path, error) => write!(to, "{}: {error}", path.display()),
            FilterError::Begins(path) => {
                write!(to, "{}: it gives counters numbers to begin with (values), and here they begin with 0", path.display())
            }
            FilterError::None(paths) => {
                let names: Vec<_> = paths.iter().map(|path| path.display().to_string()).collect();
                write!(to, "there is no filter: none of {}", names.join(", "))
            }
        }
    }
}

impl Error for FilterError {}

impl Filter {
    pub fn load(path: &Path) -> Result<Filter, FilterError> {
        let text = whole(path)?;
        Filter::of(path, text, 0).map_err(|error| FilterError::Load(path.to_owned(), error))
    }

    fn of(path: &Path, text: Vec<u8>, number: u64) -> Result<Filter, LoadError> {
        let (program, offers) = (loaded(&text)?, Settings::of(&text).offers);
        Ok(Filter { path: path.to_owned(), program, text, number, lists_of: 0, offers })
    }

    /// The same program with the lists of another text, which differs in rows alone: it isn't verified again.
    fn relisted(&self, text: &[u8], number: u64) -> Option<Filter> {
        let rest = |text| lists::without_rows(&String::from_utf8_lossy(text));
        if rest(&self.text) != rest(text) {
            return None;
        }
        let program = relisted(&self.program, text)?;
        Some(Filter { path: self.path.clone(), program, text: text.to_vec(), number, lists_of: self.number, offers: self.offers })
    }

    /// Whether another filter's counters go on as this one's: its maps have the same names and sizes, in the same order.
    pub fn counts_as(&self, other: &Filter) -> bool {
        self.program.map_names() == other.program.map_names() && self.program.maps() == other.program.maps()
    }
}

/// The program of a settings text, which may have this program's own key.
pub fn loaded(text: &[u8]) -> Result<Program, LoadError> {
    Program::from_settings(&Settings::of(text).text)
}

/// The same program with the lists of another text.
pub fn relisted(program: &Program, text: &[u8]) -> Option<Program> {
    let mut own = program.try_clone().ok()?;
    own.relist(&Settings::of(text).text).ok()?;
    Some(own)
}

/// The filters of all devices. A text is verified once in this process, however many devices have it and however often it is looked at, and once
/// in the process of each guest.
#[derive(Debug, Default)]
pub struct Filters {
    known: BTreeMap<PathBuf, Known>,
    next: u64,
    /// By settings file the list files that are of none of its maps.
    unread: BTreeMap<PathBuf, Vec<PathBuf>>,
}

/// The last text of a file that was accepted, and one since then that wasn't.
#[derive(Debug, Default)]
struct Known {
    accepted: Option<Rc<Filter>>,
    refused: Option<(Vec<u8>, LoadError)>,
}

impl Known {
    fn of(&self, text: &[u8]) -> Option<Result<Rc<Filter>, LoadError>> {
        let accepted = self.accepted.as_ref().filter(|filter| filter.text == text);
        let refused = self.refused.as_ref().filter(|(refused, _)| refused == text);
        accepted.map(|filter| Ok(Rc::clone(filter))).or_else(|| refused.map(|(_, error)| Err(*error)))
    }
}

impl Filters {
    /// The filter of the first place that is there: the same one as before, if its text is the same.
    pub fn find(&mut self, places: Vec<PathBuf>) -> Result<Rc<Filter>, FilterError> {
        let path = match places.iter().find(|path| is_there(path)) {
            Some(path) => path,
            None => return Err(FilterError::None(places)),
        };
        let text = whole(path)?;
        self.unread.insert(path.clone(), unread_lists(path, &text));
        let known = self.known.get(path).and_then(|known| known.of(&text));
        let filter = known.unwrap_or_else(|| self.learn(path, text));
        filter.map_err(|error| FilterError::Load(path.clone(), error))
    }

    /// All files are looked at again: what was said of list files holds no longer.
    pub fn look_again(&mut self) {
        self.unread.clear();
    }

    /// What there is to say of list files that nothing reads, a line each.
    pub fn unread(&self) -> Vec<String> {
        self.unread.iter().flat_map(|(settings, files)| files.iter().map(|file| unread_line(settings, file))).collect()
    }

    fn learn(&mut self, path: &Path, text: Vec<u8>) -> Result<Rc<Filter>, LoadError> {
        self.next += 1;
        let known = self.known.entry(path.to_owned()).or_default();
        let relisted = known.accepted.as_ref().and_then(|before| before.relisted(&text, self.next));
        let filter = relisted.map_or_else(|| Filter::of(path, text.clone(), self.next), Ok).map(Rc::new);
        match &filter {
            Ok(filter) => *known = Known { accepted: Some(Rc::clone(filter)), refused: None },
            Err(error) => known.refused = Some((text, *error)),
        }
        filter
    }
}

/// The text of a settings file, with the rows of the list files beside it.
fn whole(path: &Path) -> Result<Vec<u8>, FilterError> {
    let text = read(path, MOST_TEXT).map_err(|error| FilterError::Read(path.to_owned(), error))?;
    let plain = match std::str::from_utf8(&text) {
        Ok(plain) => plain,
        Err(_) => return Ok(text), // which is refused
    };
    if begins_above_0(plain) {
        return Err(FilterError::Begins(path.to_owned()));
    }
    let mut all = Vec::new();
    for name in lists::names(plain) {
        if let Some(place) = lists::place(path, &name).filter(|place| is_there(place)) {
            let lines = read(&place, lists::MOST_TEXT).map_err(|error| FilterError::Read(place.clone(), error))?;
            let rows = lists::rows(plain, &name, &String::from_utf8_lossy(&lines));
            all.push((name, rows.map_err(|error| FilterError::List(place, error))?));
        }
    }
    Ok(lists::with_rows(plain, &all).into_bytes())
}

/// The list files beside a settings file that are of none of its maps: their names may be misspelt.
pub fn unread_lists(path: &Path, text: &[u8]) -> Vec<PathBuf> {
    lists::unread(path, &lists::names(&String::from_utf8_lossy(text)))
}

pub fn unread_line(settings: &Path, file: &Path) -> String {
    format!("{} isn't read: {} has no map of that name", file.display(), settings.display())
}

/// Whether there is a file, or a link to one: one that leads nowhere is refused when it is read, as is one that can't be looked at.
fn is_there(path: &Path) -> bool {
    path.symlink_metadata().map_or_else(|error| !error.raw_os_error().map_or(false, |cause| NOT_THERE.contains(&cause)), |_| true)
}

/// Reads a regular file: to wait for who writes a fifo would keep all devices waiting. A text of more bytes is cut, and is refused then.
fn read(path: &Path, most: u64) -> io::Result<Vec<u8>> {
    let file = OpenOptions::new().read(true).custom_flags(O_NONBLOCK).open(path)?;
    if !file.metadata()?.is_file() {
        return Err(io::Error::new(io::ErrorKind::InvalidInput, "no regular file"));
    }
    let mut text = Vec::new();
    file.take(most + 1).read_to_end(&mut text)?;
    Ok(text)
}

/// Which guest a device is of, for its filter's file.
#[derive(Clone, Debug, Default, PartialEq, Eq)]
pub struct Guest {
    pub name: String,
    /// The text of its UUID, which stays when it is renamed or comes from another host.
    pub uuid: Option<String>,
}

/// Where a device's filter may be, best first: the key `filter` of its backend's node alone, if it is there; else by the guest's UUID, by its
/// name, each with the device's number and without, and the default.
pub fn places(folder: &Path, key: Option<&str>, guest: &Guest, device: u32) -> Vec<PathBuf> {
    if let Some(key) = key {
        return vec![folder.join(key)];
    }
    let name = guest.name.strip_suffix(INCOMING).unwrap_or(&guest.name);
    let is_plain = |name: &&str| !name.is_empty() && !name.starts_with('.') && !name.contains('/');
    let by = |name: &str| [folder.join(format!("{name}.{device}.toml")), folder.join(format!("{name}.toml"))];
    let of_guest = guest.uuid.as_deref().into_iter().chain([name]).filter(is_plain).flat_map(by);
    of_guest.chain([folder.join("default.toml")]).collect()
}

#[cfg(test)]
mod tests;
