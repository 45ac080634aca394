//! `src/lib.rs` as C that only compiles beside the header it is of: build.rs and tests/header.rs include this file.

/// C's name of a type of the declarations.
fn c_type(rust: &str) -> String {
    if let Some(to) = rust.strip_prefix("*const ") {
        return format!("const {} *", c_type(to));
    }
    if let Some(to) = rust.strip_prefix("*mut ") {
        return format!("{} *", c_type(to));
    }
    match rust {
        "u8" | "u16" | "u32" | "u64" => format!("uint{}_t", &rust[1..]),
        "i32" => "int32_t".to_owned(),
        "usize" => "size_t".to_owned(),
        "c_char" => "char".to_owned(),
        "()" => "void".to_owned(),
        name => format!("struct {name}"),
    }
}

/// The text between two marks, and what follows it.
fn between<'a>(text: &'a str, first: &str, last: &str) -> Option<(&'a str, &'a str)> {
    let begun = &text[text.find(first)? + first.len()..];
    let end = begun.find(last)?;
    Some((&begun[..end], &begun[end + last.len()..]))
}

/// Each `pub const NAME: TYPE = VALUE;`, by name and value.
pub fn constants(rust: &str) -> Vec<(&str, &str)> {
    let lines = rust.lines().filter_map(|line| line.strip_prefix("pub const ")?.strip_suffix(';')?.split_once(": "));
    lines.filter_map(|(name, rest)| Some((name, rest.split_once(" = ")?.1))).collect()
}

/// Each struct that crosses, by name and body.
pub fn structs(rust: &str) -> Vec<(&str, &str)> {
    let mut found = Vec::new();
    let mut rest = rust;
    while let Some((head, after)) = between(rest, "\npub struct ", " {\n") {
        let (body, tail) = after.split_once("\n}").unwrap_or((after, ""));
        found.push((head, body));
        rest = tail;
    }
    found
}

/// The fields of a struct's body, by name and type. What is private to the library has none.
pub fn fields(body: &str) -> Vec<(&str, &str)> {
    body.lines().filter_map(|line| line.trim().strip_prefix("pub ")?.strip_suffix(',')?.split_once(": ")).collect()
}

/// The other names of a struct's words: the struct, a name, and the field that has the word.
pub fn views(rust: &str) -> Vec<(&str, &str, &str)> {
    let mut found = Vec::new();
    let mut rest = rust;
    while let Some((name, after)) = between(rest, "\nimpl ", " {\n") {
        let (body, tail) = after.split_once("\n}").unwrap_or((after, ""));
        let each = body.split("    pub const fn ").skip(1);
        found.extend(each.filter_map(|it| Some((name, it.split_once('(')?.0, between(it, "self.", "\n")?.0))));
        rest = tail;
    }
    found
}

/// Each call: its name, the types of its parameters, and its answer's type.
pub fn calls(rust: &str) -> Vec<(&str, Vec<&str>, &str)> {
    let mut found = Vec::new();
    let mut rest = rust;
    while let Some((call, tail)) = between(rest, "    pub fn ", ";\n") {
        if let Some((name, (parameters, answer))) = call.split_once('(').and_then(|(name, it)| Some((name, it.split_once(')')?))) {
            let types = parameters.split(',').filter_map(|it| Some(it.trim().split_once(": ")?.1)).collect();
            found.push((name, types, answer.strip_prefix(" -> ").unwrap_or("()")));
        }
        rest = tail;
    }
    found
}

fn constant_check((name, value): (&str, &str)) -> String {
    let value = value.replace("usize::MAX", "SIZE_MAX");
    format!("_Static_assert(({name}) == ({value}), \"{name} isn't {value}\");\n")
}

/// The declaration of a field in C.
fn c_field((name, rust): (&str, &str)) -> String {
    match rust.strip_prefix('[').and_then(|it| it.strip_suffix(']')?.split_once("; ")) {
        Some((each, count)) => format!("{} {name}[{count}]", c_type(each)),
        None => format!("{} {name}", c_type(rust)),
    }
}

/// A struct of the same fields, which has to be laid out as the header's.
fn struct_check((name, body): (&str, &str)) -> String {
    let own = fields(body);
    if own.is_empty() {
        return String::new();
    }
    let declared: String = own.iter().map(|it| format!("\t{};\n", c_field(*it))).collect();
    let mut text =
        format!("struct rust_{name} {{\n{declared}}};\n_Static_assert(sizeof(struct {name}) == sizeof(struct rust_{name}), \"{name}\");\n");
    for (field, _) in own {
        let (c, rust) = (format!("((struct {name} *)0)->{field}"), format!("((struct rust_{name} *)0)->{field}"));
        text += &format!(
            "_Static_assert(offsetof(struct {name}, {field}) == offsetof(struct rust_{name}, {field}) && \
             __builtin_types_compatible_p(__typeof__({c}), __typeof__({rust})), \"{name}.{field}\");\n"
        );
    }
    text
}

/// Another name of a word: it has to be of the same word in the header.
fn view_check((name, view, field): (&str, &str, &str)) -> String {
    format!("_Static_assert(offsetof(struct {name}, {view}) == offsetof(struct {name}, {field}), \"{name}.{view}\");\n")
}

/// A prototype once more: the compiler stops if it is another.
fn call_check((name, parameters, answer): (&str, Vec<&str>, &str)) -> String {
    let types: Vec<_> = parameters.into_iter().map(c_type).collect();
    let inside = if types.is_empty() { "void".to_owned() } else { types.join(", ") };
    format!("{} {name}({inside});\n", c_type(answer))
}

/// All that the declarations say, in C.
pub fn checks(rust: &str) -> String {
    let mut text = "#include <stddef.h>\n#include <laxonje.h>\n".to_owned();
    text.extend(constants(rust).into_iter().map(constant_check));
    text.extend(structs(rust).into_iter().map(struct_check));
    text.extend(views(rust).into_iter().map(view_check));
    text.extend(calls(rust).into_iter().map(call_check));
    text
}
