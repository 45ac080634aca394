use super::*;

const COUNT: &[u8] = include_bytes!("../../../../examples/count-protocols/settings.toml");

fn folder(name: &str) -> PathBuf {
    let folder = std::env::temp_dir().join(format!("laxonje-{name}-{}", std::process::id()));
    std::fs::create_dir_all(&folder).unwrap();
    folder
}

#[test]
fn a_device_has_its_file_that_of_its_guest_or_the_default() {
    let names = |key, guest: &Guest, device| {
        places(Path::new("/f"), key, guest, device).iter().map(|path| path.display().to_string()).collect::<Vec<_>>()
    };
    let named = |name: &str| Guest { name: name.to_owned(), uuid: None };
    assert_eq!(names(None, &named("web"), 1), ["/f/web.1.toml", "/f/web.toml", "/f/default.toml"]);
    assert_eq!(names(Some("/x/y.toml"), &named("web"), 1), ["/x/y.toml"]);
    assert_eq!(names(Some("y.toml"), &named("web"), 1), ["/f/y.toml"]);
    for guest in ["", "../web", "a/b", "..", "--incoming"] {
        assert_eq!(names(None, &named(guest), 0), ["/f/default.toml"], "{guest}");
    }
    // while it comes from another host
    assert_eq!(names(None, &named("web--incoming"), 0), names(None, &named("web"), 0));
    let known = Guest { name: "web".to_owned(), uuid: Some("6f2a".to_owned()) };
    assert_eq!(names(None, &known, 0), ["/f/6f2a.0.toml", "/f/6f2a.toml", "/f/web.0.toml", "/f/web.toml", "/f/default.toml"]);
}

#[test]
fn the_first_that_is_there_is_taken_and_refusals_say_where() {
    let (folder, mut filters) = (folder("filters"), Filters::default());
    let at = |name: &str| folder.join(name);
    let mut find = |names: &[&str]| filters.find(names.iter().map(|name| at(name)).collect());
    let none = find(&["a.toml", "b.toml"]).unwrap_err().to_string();
    assert!(none.starts_with("there is no filter: none of ") && none.ends_with("/b.toml"), "{none}");
    std::fs::write(at("b.toml"), COUNT).unwrap();
    let filter = find(&["a.toml", "b.toml"]).unwrap();
    assert_eq!((filter.path.clone(), filter.program.map_names()), (at("b.toml"), &["protocols".to_owned()][..]));
    std::fs::write(at("a.toml"), "program = [\"9500000000000000\"]").unwrap();
    let refused = find(&["a.toml", "b.toml"]).unwrap_err().to_string();
    assert!(refused.contains("a.toml: V7 at slot 0: a register is read that may be unset; "), "{refused}");
    std::fs::write(at("a.toml"), [b"program = []\n", &b"gso = false\n"[..]].concat()).unwrap();
    assert!(Filter::load(&at("a.toml")).unwrap_err().to_string().contains("L3"));
    std::fs::write(at("a.toml"), String::from_utf8_lossy(COUNT).replace("entries = 256", "entries = 256\nvalues = [0, 7]")).unwrap();
    assert!(find(&["a.toml"]).unwrap_err().to_string().contains("/a.toml: it gives counters numbers to begin with (values)"));
    std::fs::write(at("a.toml"), vec![b'#'; (1 << 20) + 1]).unwrap();
    assert!(Filter::load(&at("a.toml")).unwrap_err().to_string().contains("L1"));
    assert!(Filter::load(&folder).is_err());
    std::fs::remove_dir_all(&folder).unwrap();
}

#[test]
fn a_text_is_verified_once_for_all_devices() {
    let (folder, mut filters) = (folder("once"), Filters::default());
    let path = folder.join("a.toml");
    std::fs::write(&path, COUNT).unwrap();
    let first = filters.find(vec![path.clone()]).unwrap();
    std::fs::write(&path, COUNT).unwrap();
    assert!(Rc::ptr_eq(&first, &filters.find(vec![folder.join("none.toml"), path.clone()]).unwrap()));
    std::fs::write(&path, [COUNT, b"# changed\n"].concat()).unwrap();
    let changed = filters.find(vec![path.clone()]).unwrap();
    assert!(!Rc::ptr_eq(&first, &changed) && first.counts_as(&changed));
    let renamed = String::from_utf8_lossy(COUNT).replace("\"protocols\"", "\"others\"");
    std::fs::write(&path, renamed).unwrap();
    assert!(!changed.counts_as(&filters.find(vec![path]).unwrap()));
    std::fs::remove_dir_all(&folder).unwrap();
}

#[test]
fn a_filter_says_whether_segmentation_is_offered() {
    let (folder, mut filters) = (folder("gso"), Filters::default());
    let path = folder.join("a.toml");
    let mut find = |first: &str| {
        std::fs::write(&path, [first.as_bytes(), COUNT].concat()).unwrap();
        filters.find(vec![path.clone()]).unwrap()
    };
    let (usual, kept, offered) = (find(""), find("gso = false\n"), find("gso = true\n"));
    assert_eq!([&usual, &kept, &offered].map(|filter| filter.offers), [Offers::ALL, Offers::default(), Offers::ALL]);
    assert_eq!(kept.program.instructions(), usual.program.instructions());
    assert!(kept.counts_as(&usual));
    std::fs::remove_dir_all(&folder).unwrap();
}

/// Drops each packet if the key 1, of four bytes, is among these rows.
fn listed(name: &str, rows: &str) -> String {
    let program = r#"program = ["620afcff01000000", "bfa2000000000000", "07020000fcffffff", "1811000000000000", "0000000000000000",
        "8500000001000000", "1500020000000000", "b700000001000000", "9500000000000000", "b700000002000000", "9500000000000000"]"#;
    format!("{program}\n[[map]]\nname = \"{name}\"\nentries = 3\ncounters = 1\nkey = \"exact\"\nsize = 4\nrows = [{rows}]\n")
}

#[test]
fn rows_that_change_are_not_verified() {
    let (folder, mut filters) = (folder("rows"), Filters::default());
    let path = folder.join("a.toml");
    let mut find = |text: String| {
        std::fs::write(&path, text).unwrap();
        filters.find(vec![path.clone()]).unwrap()
    };
    let action = |filter: &Filter| {
        let mut program = filter.program.try_clone().unwrap();
        program.run(&mut [0; 3], &mut [0; 60], 0, 0).unwrap().action
    };
    let first = find(listed("one", "\"02000000\""));
    let second = find(listed("one", "\"02000000\", \"01000000\""));
    assert_eq!((first.lists_of, second.lists_of), (0, first.number));
    assert_eq!((action(&first), action(&second)), (laxonje::Action::Pass, laxonje::Action::Drop));
    assert!(first.counts_as(&second));
    let kept = |rows: &str| format!("gso = false\n{}", listed("one", rows));
    let (fourth, fifth) = (find(kept("")), find(kept("\"01000000\"")));
    assert_eq!((fourth.lists_of, fifth.lists_of, fifth.offers), (0, fourth.number, Offers::default()));
    assert_eq!((action(&fourth), action(&fifth)), (laxonje::Action::Pass, laxonje::Action::Drop));
    let third = find(listed("two", "\"02000000\""));
    assert_eq!((third.lists_of, third.counts_as(&second), action(&third)), (0, false, laxonje::Action::Pass));
    std::fs::remove_dir_all(&folder).unwrap();
}

#[test]
fn a_list_file_beside_the_settings_has_the_rows() {
    let (folder, mut filters) = (folder("list"), Filters::default());
    let (path, list) = (folder.join("web.toml"), folder.join("web.one.list"));
    let write = |text: &str| std::fs::write(&list, text).unwrap();
    std::fs::write(&path, listed("one", "").replace("rows = []", "rows = [\n]")).unwrap();
    let mut find = || filters.find(vec![path.clone()]);
    let action = |filter: &Filter| filter.program.try_clone().unwrap().run(&mut [0; 3], &mut [0; 60], 0, 0).unwrap().action;
    let first = find().unwrap();
    assert_eq!(action(&first), laxonje::Action::Pass);
    write("# addresses\n1.0.0.0\n");
    let second = find().unwrap();
    assert_eq!((action(&second), second.lists_of), (laxonje::Action::Drop, first.number));
    assert!(Rc::ptr_eq(&second, &find().unwrap()));
    write("10.0.0.1\nten\n");
    let refused = find().unwrap_err().to_string();
    assert!(refused.ends_with("/web.one.list: line 2: ten is no address"), "{refused}");
    // as `>` leaves it until what writes it has begun
    write("");
    let refused = find().unwrap_err().to_string();
    assert!(refused.contains("/web.one.list: the file is empty: "), "{refused}");
    write("# none\n");
    assert_eq!(action(&find().unwrap()), laxonje::Action::Pass);
    write("1.0.0.0\n");
    let second = find().unwrap();
    write("1.0.0.0\n2.0.0.0\n3.0.0.0\n4.0.0.0\n");
    let refused = find().unwrap_err().to_string();
    assert!(refused.contains("/web.toml: L4: "), "{refused}");
    std::fs::remove_file(&list).unwrap();
    let last = find().unwrap();
    assert_eq!((action(&last), last.lists_of), (laxonje::Action::Pass, second.number));
    assert_eq!(Filter::load(&path).unwrap().text, std::fs::read(&path).unwrap());
    std::fs::remove_dir_all(&folder).unwrap();
}

#[test]
fn a_list_file_that_nothing_reads_is_named() {
    let (folder, mut filters) = (folder("unread"), Filters::default());
    let write = |name: &str, text: &str| std::fs::write(folder.join(name), text).unwrap();
    let mut unread = |settings: &str| {
        filters.look_again();
        filters.find(vec![folder.join(settings)]).unwrap();
        filters.unread().iter().map(|line| line.replace(&format!("{}/", folder.display()), "")).collect::<Vec<_>>()
    };
    write("web.toml", &listed("one", ""));
    write("web.one.list", "1.0.0.0\n");
    write("other.two.list", "");
    assert_eq!(unread("web.toml"), [""; 0]);
    write("web.on.list", "");
    write("web.0.one.list", "# none\n");
    let line = |file: &str| format!("{file} isn't read: web.toml has no map of that name");
    assert_eq!(unread("web.toml"), [line("web.0.one.list"), line("web.on.list")]);
    // it is that of a device
    write("web.0.toml", &listed("one", ""));
    assert_eq!(unread("web.toml"), [line("web.on.list")]);
    assert_eq!(unread("web.0.toml"), [""; 0]);
    std::fs::remove_dir_all(&folder).unwrap();
}

#[test]
fn a_link_that_leads_nowhere_is_refused() {
    let (folder, mut filters) = (folder("link"), Filters::default());
    let (path, list, usual) = (folder.join("web.toml"), folder.join("web.one.list"), folder.join("default.toml"));
    std::fs::write(&usual, COUNT).unwrap();
    std::fs::write(&path, listed("one", "")).unwrap();
    let mut find = || filters.find(vec![path.clone(), usual.clone()]).map(|filter| filter.path.clone());
    std::os::unix::fs::symlink(folder.join("none"), &list).unwrap();
    let refused = find().unwrap_err().to_string();
    assert!(refused.contains("/web.one.list: No such file"), "{refused}");
    std::fs::write(folder.join("none"), "1.0.0.0\n").unwrap();
    assert_eq!(find().unwrap(), path);
    std::fs::remove_file(&path).unwrap();
    assert_eq!(find().unwrap(), usual);
    std::os::unix::fs::symlink(folder.join("neither"), &path).unwrap();
    let refused = find().unwrap_err().to_string();
    assert!(refused.contains("/web.toml: No such file"), "{refused}");
    let long = vec![folder.join("x".repeat(300)), usual.clone()];
    assert_eq!(filters.find(long).unwrap().path, usual);
    std::fs::remove_dir_all(&folder).unwrap();
}

#[test]
fn what_follows_a_comment_of_rows_is_looked_at() {
    let (folder, mut filters) = (folder("comment"), Filters::default());
    let path = folder.join("a.toml");
    let mut find = |offered: &str| {
        std::fs::write(&path, format!("# rows = [\ngso = {offered}\n{}", listed("one", ""))).unwrap();
        filters.find(vec![path.clone()]).unwrap().offers
    };
    assert_eq!([find("true"), find("false")], [Offers::ALL, Offers::default()]);
    std::fs::remove_dir_all(&folder).unwrap();
}

/// Ends each packet with the action that is a map's one constant.
fn constant(action: &str) -> String {
    let program = r#"program = ["1801000000000038", "0000000000000000", "7110000000000000", "9500000000000000"]"#;
    format!("{program}\n[[map]]\nname = \".rodata\"\nentries = 1\nkey = \"constants\"\nsize = 1\nrows = [\"{action}\"]\n")
}

#[test]
fn constants_that_change_are_not_verified() {
    let (folder, mut filters) = (folder("constants"), Filters::default());
    let path = folder.join("a.toml");
    let mut find = |text: String| {
        std::fs::write(&path, text).unwrap();
        filters.find(vec![path.clone()]).unwrap()
    };
    let (first, second) = (find(constant("01")), find(constant("02")));
    assert_eq!((first.lists_of, second.lists_of), (0, first.number));
    for (filter, action) in [(first, laxonje::Action::Drop), (second, laxonje::Action::Pass)] {
        let mut program = filter.program.try_clone().unwrap();
        assert_eq!(program.run(&mut [0; 1], &mut [0; 60], 0, 0).unwrap().action, action);
    }
    std::fs::remove_dir_all(&folder).unwrap();
}

#[test]
fn what_is_no_regular_file_is_refused_at_once() {
    let folder = folder("fifo");
    let fifo = folder.join("f.toml");
    assert!(std::process::Command::new("mkfifo").arg(&fifo).status().unwrap().success());
    for path in [&fifo, &folder, Path::new("/dev/zero")] {
        let refused = Filter::load(path).unwrap_err().to_string();
        assert!(refused.ends_with(": no regular file"), "{refused}");
    }
    std::fs::remove_dir_all(&folder).unwrap();
}
