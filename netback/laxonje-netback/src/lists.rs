//! List files: the rows of a filter's lists beside its settings file, one a line as people write them.
use std::collections::{BTreeMap, BTreeSet};
use std::fmt;
use std::net::IpAddr;
use std::ops::Range;
use std::path::{Path, PathBuf};

/// The most bytes of a list file.
pub const MOST_TEXT: u64 = 4 << 20;
/// The length of a prefix in front of its data, in a row.
const LENGTH_BYTES: usize = 4;
/// The bytes of a key whose map doesn't say how many.
const USUAL_BYTES: usize = 4;
/// The most bytes of a key that is written in hex.
const MOST_BYTES: usize = 64;

/// Why a file's lines aren't the rows of its map.
#[derive(Clone, Debug, PartialEq, Eq)]
pub enum ListError {
    /// The file is too long.
    Long,
    /// The file has no byte: whoever writes it may have begun just now, or failed.
    Empty,
    /// The line of this number is no row, and why.
    Line(usize, String),
    /// The settings don't say in lines of their own what the map of this name is, or it has no keys.
    Map(String),
}

impl fmt::Display for ListError {
    fn fmt(&self, to: &mut fmt::Formatter<'_>) -> fmt::Result {
        match self {
            ListError::Long => write!(to, "more than {MOST_TEXT} bytes"),
            ListError::Empty => to.write_str("the file is empty: a list without a row is a line with a comment"),
            ListError::Line(number, why) => write!(to, "line {number}: {why}"),
            ListError::Map(name) => write!(to, "the settings have no list {name} below a line [[map]]"),
        }
    }
}

/// The list file of a map: of FILE.toml and the map NAME it is FILE.NAME.list. `None`: the name is none of a file.
pub fn place(settings: &Path, name: &str) -> Option<PathBuf> {
    let stem = settings.file_stem()?.to_str()?;
    let is_plain = !name.is_empty() && !name.contains(&['/', '\0'][..]);
    is_plain.then(|| settings.with_file_name(format!("{stem}.{name}.list")))
}

/// The list files beside settings that are of none of their maps, which have these names, nor of other settings: of web.0.hosts.list these are
/// web.0.toml, if it is there.
pub fn unread(settings: &Path, names: &BTreeSet<String>) -> Vec<PathBuf> {
    let stem = settings.file_stem().and_then(|stem| stem.to_str()).map(|stem| format!("{stem}.")).unwrap_or_default();
    let entries = settings.parent().and_then(|folder| folder.read_dir().ok()).into_iter().flatten().flatten();
    let is_of_others = |name: &str| {
        let mut parts = name.match_indices('.').map(|(end, _)| settings.with_file_name(format!("{stem}{}.toml", &name[..end])));
        parts.any(|other| other.exists())
    };
    let is_unread = |path: &PathBuf| {
        let file = path.file_name().and_then(|file| file.to_str());
        let name = file.and_then(|file| file.strip_prefix(&stem)?.strip_suffix(".list"));
        name.map_or(false, |name| !names.contains(name) && !is_of_others(name))
    };
    let mut files: Vec<_> = entries.map(|entry| entry.path()).filter(is_unread).collect();
    files.sort();
    files
}

/// What the keys of a list are.
#[derive(Clone, Copy, Debug, PartialEq, Eq)]
enum Kind {
    Exact,
    Prefix,
}

/// A map of a settings text below a line [[map]].
#[derive(Clone, Debug, PartialEq, Eq)]
struct Table {
    name: String,
    kind: Option<Kind>,
    size: usize,
    /// Where its rows are, or are to be.
    rows: Range<usize>,
}

/// A text of one line, without the quotes.
fn unquoted(value: &str) -> Option<&str> {
    value.strip_prefix('"')?.split_once('"').map(|(text, _)| text)
}

impl Table {
    /// Takes a line's key and value.
    fn take(&mut self, key: &str, value: &str) {
        match key {
            "name" => self.name = unquoted(value).unwrap_or_default().to_owned(),
            "key" => {
                self.kind = match unquoted(value) {
                    Some("exact") => Some(Kind::Exact),
                    Some("prefix") => Some(Kind::Prefix),
                    _ => None,
                }
            }
            "size" => self.size = value.split('#').next().and_then(|number| number.trim().parse().ok()).unwrap_or(0),
            _ => {}
        }
    }

    /// The rows of a list file's lines, as settings have them.
    fn rows_of(&self, lines: &str) -> Result<String, ListError> {
        let kind = self.kind.ok_or_else(|| ListError::Map(self.name.clone()))?;
        let (mut rows, mut lines_of) = (String::from("rows = [\n"), BTreeMap::new());
        for (number, line) in (1..).zip(lines.lines()) {
            let word = line.split('#').next().unwrap_or_default().trim();
            if !word.is_empty() {
                let key = Key::of(word).and_then(|key| key.row(kind, self.size)).map_err(|why| ListError::Line(number, why))?;
                rows += &format!("  \"{key}\",\n");
                if let Some(before) = lines_of.insert(key, number) {
                    return Err(ListError::Line(number, format!("it is that of line {before}")));
                }
            }
        }
        Ok(rows + "]")
    }
}

/// The maps of a settings text that stand below a line [[map]]. Others aren't seen.
fn tables(text: &str) -> Vec<Table> {
    let (mut tables, mut is_map, mut at) = (Vec::<Table>::new(), false, 0);
    while at < text.len() {
        let end = text[at..].find('\n').map_or(text.len(), |length| at + length + 1);
        let line = text[at..end].trim();
        if line.starts_with('[') {
            is_map = line == "[[map]]";
            if is_map {
                tables.push(Table { name: String::new(), kind: None, size: USUAL_BYTES, rows: end..end });
            }
        } else if let (Some(table), Some((key, value))) = (tables.last_mut().filter(|_| is_map), line.split_once('=')) {
            if key.trim() == "rows" {
                table.rows = at..text[at..].find(']').map_or(text.len(), |length| at + length + 1);
                at = table.rows.end;
                continue;
            }
            table.take(key.trim(), value.trim());
        }
        at = end;
    }
    tables
}

/// The names of a settings text's maps, however they are written: what stands in quotes behind `name =`.
pub fn names(text: &str) -> BTreeSet<String> {
    let quoted = |rest: &str| {
        let value = rest.trim_start().strip_prefix('=')?.trim_start();
        let quote = value.chars().next().filter(|first| matches!(first, '"' | '\''))?;
        value[1..].split_once(quote).map(|(name, _)| name.to_owned())
    };
    text.split("name").skip(1).filter_map(quoted).collect()
}

/// The rows of a list file's lines for the map of this name, as settings have them.
pub fn rows(text: &str, name: &str, lines: &str) -> Result<String, ListError> {
    if lines.len() as u64 > MOST_TEXT {
        return Err(ListError::Long);
    }
    if lines.is_empty() {
        return Err(ListError::Empty);
    }
    let table = tables(text).into_iter().find(|table| table.name == name);
    table.ok_or_else(|| ListError::Map(name.to_owned()))?.rows_of(lines)
}

/// A settings text in which the maps of these names have these rows.
pub fn with_rows(text: &str, rows: &[(String, String)]) -> String {
    let (mut out, mut done) = (String::with_capacity(text.len()), 0);
    for table in tables(text) {
        if let Some((_, rows)) = rows.iter().find(|(name, _)| *name == table.name) {
            out += &text[done..table.rows.start];
            out += rows;
            out += if table.rows.is_empty() { "\n" } else { "" };
            done = table.rows.end;
        }
    }
    out + &text[done..]
}

/// A settings text without the rows of its maps.
pub fn without_rows(text: &str) -> String {
    let (mut out, mut done) = (String::with_capacity(text.len()), 0);
    for table in tables(text) {
        out += &text[done..table.rows.start];
        done = table.rows.end;
    }
    out + &text[done..]
}

/// A key as people write it: its data, and how many bits of it are a prefix. `None`: it is no prefix.
#[derive(Clone, Debug, PartialEq, Eq)]
struct Key {
    data: Vec<u8>,
    bits: Option<usize>,
}

impl Key {
    fn of(word: &str) -> Result<Key, String> {
        let (word, bits) = match word.split_once('/') {
            Some((address, bits)) => (address, Some(bits)),
            None => (word, None),
        };
        let unread = || format!("{word} is no address");
        let data = match (word.parse(), bits) {
            (Ok(IpAddr::V4(address)), _) => address.octets().to_vec(),
            (Ok(IpAddr::V6(address)), _) => address.octets().to_vec(),
            (Err(_), None) => hex(word).or_else(|| ethernet(word)).ok_or_else(unread)?,
            (Err(_), Some(_)) => return Err(unread()),
        };
        let bits = bits.map(|bits| bits_of(bits, &data)).transpose()?;
        Ok(Key { data, bits })
    }

    /// The key in hex, as a program gives it to a lookup.
    fn row(&self, kind: Kind, size: usize) -> Result<String, String> {
        if self.data.len() != size {
            return Err(format!("it has {} bytes, and the map's keys have {size}", self.data.len()));
        }
        let length = match (kind, self.bits) {
            (Kind::Exact, Some(_)) => return Err("a prefix, and the map has whole keys".to_owned()),
            (Kind::Exact, None) => String::new(),
            (Kind::Prefix, bits) => in_hex(&(bits.unwrap_or(8 * size) as u32).to_le_bytes()[..LENGTH_BYTES]),
        };
        Ok(length + &in_hex(&self.data))
    }
}

/// How many bits a prefix has, none of which is set beyond it.
fn bits_of(word: &str, data: &[u8]) -> Result<usize, String> {
    let is_number = word.len() <= 3 && word.bytes().all(|digit| digit.is_ascii_digit());
    let bits = word.parse().ok().filter(|bits| is_number && *bits <= 8 * data.len()).ok_or_else(|| format!("/{word} is no prefix"))?;
    let is_set = |bit: usize| data[bit / 8] >> (7 - bit % 8) & 1 == 1;
    match (bits..8 * data.len()).find(|bit| is_set(*bit)) {
        Some(bit) => Err(format!("bit {bit} is set, and the prefix has {bits}")),
        None => Ok(bits),
    }
}

fn byte(digits: &str) -> Option<u8> {
    let is_byte = digits.len() == 2 && digits.bytes().all(|digit| digit.is_ascii_hexdigit());
    u8::from_str_radix(digits, 16).ok().filter(|_| is_byte)
}

/// The bytes of `0x0050`, as they lie in memory.
fn hex(word: &str) -> Option<Vec<u8>> {
    let digits = word.strip_prefix("0x").filter(|digits| !digits.is_empty() && digits.len() <= 2 * MOST_BYTES && digits.is_ascii())?;
    (0..digits.len()).step_by(2).map(|at| digits.get(at..at + 2).and_then(byte)).collect()
}

/// The bytes of `02:00:00:00:00:01`.
fn ethernet(word: &str) -> Option<Vec<u8>> {
    let bytes: Vec<u8> = word.split(':').map(byte).collect::<Option<_>>()?;
    (bytes.len() == 6).then_some(bytes)
}

fn in_hex(bytes: &[u8]) -> String {
    bytes.iter().map(|byte| format!("{byte:02x}")).collect()
}

#[cfg(test)]
mod tests;
