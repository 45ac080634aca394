use super::*;

const SETTINGS: &str = r#"gso = false
program = [
  "9500000000000000",
]

[[map]]
name = "hosts"
entries = 10
key = "exact"
size = 4
rows = [
  "0a000001",
  "0a000002",
]

[[map]]
name = "networks"
entries = 10
key = "prefix"
size = 16 # of IPv6

[[map]]
name = ".rodata"
key = "constants"
size = 1
rows = ["00"]

[[reloc]]
map = "hosts"
"#;

fn given(lists: &[(&str, &str)]) -> Result<String, ListError> {
    let all: Result<Vec<_>, _> =
        lists.iter().map(|(name, lines)| rows(SETTINGS, name, lines).map(|rows| (String::from(*name), rows))).collect();
    all.map(|all| with_rows(SETTINGS, &all))
}

#[test]
fn a_file_lies_beside_its_settings() {
    let at = |settings: &str, name| place(Path::new(settings), name).map(|path| path.display().to_string());
    assert_eq!(at("/f/web.toml", "hosts").as_deref(), Some("/f/web.hosts.list"));
    assert_eq!(at("/f/web.0.toml", ".rodata").as_deref(), Some("/f/web.0..rodata.list"));
    for name in ["", "../x", "a\0"] {
        assert_eq!(at("/f/web.toml", name), None, "{name}");
    }
}

#[test]
fn rows_take_the_place_of_rows_and_all_else_stays() {
    let made = given(&[("hosts", "10.7.0.1\n\n 10.7.0.2 # the second\r\n")]).unwrap();
    assert_eq!(made, SETTINGS.replace("0a000001", "0a070001").replace("0a000002", "0a070002"));
    let made = given(&[("networks", "2001:db8::/32\n::1\n")]).unwrap();
    let rows = "rows = [\n  \"2000000020010db8000000000000000000000000\",\n  \"8000000000000000000000000000000000000001\",\n]\n";
    assert_eq!(made, SETTINGS.replace("name = \"networks\"", &format!("{rows}name = \"networks\"")));
    let empty = given(&[("hosts", "# none\n"), ("networks", "\n")]).unwrap();
    assert_eq!(empty.matches("rows = [\n]\n").count(), 2);
    assert_eq!(given(&[]).as_deref(), Ok(SETTINGS));
}

#[test]
fn keys_are_read_as_people_write_them() {
    let rows = [
        ("192.0.2.1", Kind::Exact, 4, "c0000201"),
        ("192.0.2.0/24", Kind::Prefix, 4, "18000000c0000200"),
        ("0.0.0.0/0", Kind::Prefix, 4, "0000000000000000"),
        ("192.0.2.1", Kind::Prefix, 4, "20000000c0000201"),
        ("02:00:00:00:00:01", Kind::Exact, 6, "020000000001"),
        ("0x0050", Kind::Exact, 2, "0050"),
        ("2001:DB8::1", Kind::Exact, 16, "20010db8000000000000000000000001"),
    ];
    for (word, kind, size, row) in rows {
        assert_eq!(Key::of(word).and_then(|key| key.row(kind, size)).as_deref(), Ok(row), "{word}");
    }
    for word in
        ["", "x", "192.0.2", "192.0.2.01x", "0x", "0x0", "0x0g", "0x\u{e9}", "02:00:00:00:00", "+2:00:00:00:00:01", "02:00:00:00:00:01/8"]
    {
        assert!(Key::of(word).is_err(), "{word}");
    }
    for word in ["192.0.2.0/33", "192.0.2.0/", "192.0.2.0/+8", "192.0.2.0/0024", "192.0.2.1/24", "::1/64", "192.0.2.0/24/24"] {
        assert!(Key::of(word).is_err(), "{word}");
    }
    assert!(Key::of("192.0.2.0/24").unwrap().row(Kind::Exact, 4).is_err());
    assert!(Key::of("::1").unwrap().row(Kind::Prefix, 4).is_err());
}

#[test]
fn what_is_wrong_is_said_with_its_line() {
    let long = "#".repeat((4 << 20) + 1);
    let said = |name, lines| given(&[(name, lines)]).unwrap_err().to_string();
    assert_eq!(said("hosts", "10.0.0.1\n\nten\n"), "line 3: ten is no address");
    assert_eq!(said("hosts", "10.0.0.0/8\n"), "line 1: a prefix, and the map has whole keys");
    assert_eq!(said("networks", "10.0.0.0/8\n"), "line 1: it has 4 bytes, and the map's keys have 16");
    assert_eq!(said("networks", "2001:db8::/12\n"), "line 1: bit 15 is set, and the prefix has 12");
    assert_eq!(said("hosts", "10.0.0.1\n10.0.0.2\n0x0a000001\n"), "line 3: it is that of line 1");
    assert_eq!(said("hosts", &long), "more than 4194304 bytes");
    for name in [".rodata", "none", "x"] {
        assert_eq!(said(name, "10.0.0.1\n"), format!("the settings have no list {name} below a line [[map]]"));
    }
}

#[test]
fn names_are_found_however_they_are_written() {
    let names = |text: &str| names(text).into_iter().collect::<Vec<_>>();
    assert_eq!(names(SETTINGS), [".rodata", "hosts", "networks"]);
    assert_eq!(names("map = [{ name=\"a\", entries = 1 }, {name = 'b'}]\nname = \"a\"\n# name\nname = 3\nname ="), ["a", "b"]);
}

#[test]
fn any_text_has_an_end() {
    for text in
        ["", "[[map]]", "[[map]]\nrows = [", "[[map]]\nname = \"a\nrows", "map = [{ name = \"a\" }]\n", "[[map]]\nrows = [\n]]\u{e9}"]
    {
        let _ = (rows(text, "a", "10.0.0.1\n"), with_rows(text, &[("a".to_owned(), "rows = []".to_owned())]));
        assert_eq!(with_rows(text, &[]), text);
    }
}
