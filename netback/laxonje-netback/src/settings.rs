//! The key of a settings text that is this program's own, and no part of what the library reads: `gso`, whether a guest may leave it to this domain
//! to segment its packets. It is the first line that is neither empty nor a comment, so that no other part of the text can look like it.
use laxonje::Offers;
use std::borrow::Cow;

const KEY: &[u8] = b"gso";
/// The key of a map whose counters begin with other numbers than 0.
const BEGINNINGS: &str = "values";

/// A settings text.
#[derive(Debug)]
pub struct Settings<'text> {
    /// What a guest is offered: all, if its text doesn't say `gso = false`.
    pub offers: Offers,
    /// The text for the library, with the same lines.
    pub text: Cow<'text, [u8]>,
}

impl Settings<'_> {
    pub fn of(text: &[u8]) -> Settings<'_> {
        let (start, line) = first_line(text);
        match value(line) {
            Some(is_offered) => {
                let text = [&text[..start], &text[start + line.len()..]].concat();
                Settings { offers: if is_offered { Offers::ALL } else { Offers::default() }, text: Cow::Owned(text) }
            }
            None => Settings { offers: Offers::ALL, text: Cow::Borrowed(text) },
        }
    }
}

/// Whether a text says that counters begin with other numbers than 0 (`values`), as `xdpbox` has it. Here they begin with 0.
pub fn begins_above_0(text: &str) -> bool {
    let is_above_0 =
        |list: &str| list.split(']').next().unwrap_or_default().contains(|digit: char| digit != '0' && digit.is_ascii_hexdigit());
    without_texts(text).split(BEGINNINGS).skip(1).any(|rest| rest.trim_start().strip_prefix('=').map_or(false, is_above_0))
}

/// A text without comments, and without texts in quotes but for those that are the key.
fn without_texts(text: &str) -> String {
    let (mut out, mut rest) = (String::new(), text);
    while let Some(at) = rest.find(&['#', '"', '\''][..]) {
        let (before, quote, behind) = (&rest[..at], &rest[at..at + 1], &rest[at + 1..]);
        let end = if quote == "#" { behind.find('\n').unwrap_or(behind.len()) } else { end_of_text(behind, quote) };
        let is_key = quote != "#" && &behind[..end] == BEGINNINGS;
        out.extend([before, if is_key { BEGINNINGS } else { " " }]);
        rest = behind.get(end + usize::from(quote != "#")..).unwrap_or_default();
    }
    out + rest
}

/// Where a text in these quotes ends, which begins here.
fn end_of_text(text: &str, quote: &str) -> usize {
    let mut is_escaped = false;
    let ends = |(_, one): &(usize, char)| {
        let is_end = !is_escaped && quote.starts_with(*one);
        is_escaped = !is_escaped && *one == '\\' && quote == "\"";
        is_end
    };
    text.char_indices().find(ends).map_or(text.len(), |(at, _)| at)
}

/// The first line that says anything, without its end, and where it starts.
fn first_line(text: &[u8]) -> (usize, &[u8]) {
    let mut start = 0;
    for line in text.split(|byte| *byte == b'\n') {
        if !trimmed(without_comment(line)).is_empty() {
            return (start, line);
        }
        start += line.len() + 1;
    }
    (0, &[])
}

fn without_comment(line: &[u8]) -> &[u8] {
    line.split(|byte| *byte == b'#').next().unwrap_or_default()
}

fn trimmed(text: &[u8]) -> &[u8] {
    let is_text = |byte: &u8| !b" \t\r".contains(byte);
    match (text.iter().position(is_text), text.iter().rposition(is_text)) {
        (Some(first), Some(last)) => &text[first..=last],
        _ => &[],
    }
}

/// The value of the key. `None`: it isn't the key, or has no such value, and the library refuses it.
fn value(line: &[u8]) -> Option<bool> {
    let mut parts = without_comment(line).splitn(2, |byte| *byte == b'=');
    match (trimmed(parts.next()?), trimmed(parts.next()?)) {
        (KEY, b"true") => Some(true),
        (KEY, b"false") => Some(false),
        _ => None,
    }
}

#[cfg(test)]
mod tests {
    use super::*;

    #[test]
    fn counters_that_begin_above_0_are_seen_wherever_it_is_said() {
        let map = |line: &str| format!("program = []\n[[map]]\nname = \"a\"\nentries = 4\n{line}\n");
        for line in [
            "values = [7]",
            "values=[\n  0, # none\n  0x1f,\n]",
            "\"values\" = [0, 1]",
            "  'values'\t= [ 5 ]",
            "counters = 1 # x\nvalues = [9]",
        ] {
            assert!(begins_above_0(&map(line)), "{line}");
        }
        assert!(begins_above_0("map = [{ name = \"a # \\\" b\", entries = 1, values = [2] }]"));
        for line in [
            "",
            "values = []",
            "values = [0, 0]\nentries = 9",
            "# values = [7]",
            "rows = [\"values = [7]\"]",
            "key = 'values' # = [7]",
            "rows = [\"07\"]",
        ] {
            assert!(!begins_above_0(&map(line)), "{line}");
        }
        for text in ["\"", "'", "#", "\"\\", "values", "values =", "\u{e9}\"\u{e9}"] {
            assert!(!begins_above_0(text), "{text}");
        }
    }

    #[test]
    fn the_key_is_the_first_line() {
        let rows: [(&str, Option<&str>, bool); 13] = [
            ("", None, true),
            ("gso = false", Some(""), false),
            ("gso = true", Some(""), true),
            ("gso=false\nprogram = []\n", Some("\nprogram = []\n"), false),
            ("# of C\r\n\n \tgso =\tfalse # a counter of packets\r\nqueues = 1", Some("# of C\r\n\n\nqueues = 1"), false),
            ("program = []\ngso = false\n", None, true),
            ("# gso = false\n", None, true),
            ("gso = 0\n", None, true),
            ("gso = false false\n", None, true),
            ("gso\n", None, true),
            ("GSO = false\n", None, true),
            ("[gso = false\n", None, true),
            ("\"\"\"\ngso = false\n", None, true),
        ];
        for (text, rest, is_offered) in rows {
            let Settings { offers, text: own } = Settings::of(text.as_bytes());
            assert_eq!(own, rest.unwrap_or(text).as_bytes(), "{text}");
            assert_eq!(offers, if is_offered { Offers::ALL } else { Offers::default() }, "{text}");
        }
    }
}
