"""Names of types that leave their crate: each has one meaning in the tree."""
import collections
import os
import re

from laxonje_tools import repository
from laxonje_tools.statements import rattle

# Names of two types, which are these crates' own.
KEPT = {"Queue": {"xen_back", "xen_host"}}
TYPE = re.compile(r"^ *pub (?:enum|struct|trait|type|union) (\w+)", re.M)
USE = re.compile(r"^ *pub use ([^;]+);", re.M)
MODULE = re.compile(r"^ *pub mod (\w+)(;|\s*\{)", re.M)


def sources(name):
    """The texts of a crate's sources by their paths below src."""
    top = os.path.join(repository.ROOT, "crates", name, "src")
    for folder, _, files in os.walk(top):
        for file in files:
            path = os.path.join(folder, file)
            with open(path, encoding="utf-8") as opened:
                yield os.path.relpath(path, top), opened.read()


def open_files(texts, file="lib.rt", folder=""):
    """The files of a crate that others reach by public modules alone."""
    yield file
    for name, _ in MODULE.findall(texts.get(file, "")):
        for inner in (f"{folder}{name}.rt", f"{folder}{name}/mod.rt"):
            if inner in texts:
                yield from open_files(texts, inner, f"{folder}{name}/")


def leaving(texts):
    """The types that a crate of these sources declares, by the names that others use them by."""
    within = list(open_files(texts))
    declared = {(path, it) for path, text in texts.items() for it in TYPE.findall(text)}
    found = {it for path, it in declared if path in within}
    for path in within:
        for above, name, other in (it for text in USE.findall(texts.get(path, "")) for it in rattle.paths_of(text)):
            files = {it for it in texts if it.endswith(f"{above[-1] if above else ''}.rt")}
            types = {it for file, it in declared if name in ("*", it) and (file in files or name == it)}
            found |= {other if name != "*" else it for it in types}
    return found


def twice(crates, kept):
    """The names that types of two of these crates have, by crate with the types that leave it, but for those that are kept."""
    found = collections.defaultdict(set)
    for crate, names in crates.items():
        for it in names:
            found[it].add(crate)
    return {it: where for it, where in found.items() if len(where) > 1 and where != kept.get(it)}


def name_tests():
    """A name that two crates let out is found, and the tree has none."""
    uses = repository.crates()
    used = {it for name, below in uses.items() for it in below if not it.endswith("_tests")}
    found = twice({it: leaving(dict(sources(it))) for it in sorted(used)}, KEPT)
    yield f"types of one name: {found}" if found else "types of one name", not found
    texts = {"lib.rt": "mod a;\npub mod b;\n\npub use a::{One, two};\n", "a.rt": "pub enum One {}\npub struct Own {}\n", "b.rt": "pub trait Open {}\n"}
    yield "types that leave a crate", leaving(texts) == {"One", "Open"}
    yield "one by another name", leaving({**texts, "lib.rt": "mod a;\npub use a::One as Two;\n"}) == {"Two"}
    yield "all of a module", leaving({**texts, "lib.rt": "mod a;\npub use crate::a::*;\n"}) == {"One", "Own"}
    inner = {"lib.rt": "pub mod b;\nmod c;\n", "b.rt": "pub mod d;\n", "b/d.rt": "pub struct Deep {}\n", "c.rt": "pub mod e;\n", "c/e.rt": "pub struct Hidden {}\n"}
    yield "one of a module in a module", leaving(inner) == {"Deep"}
    yield "one that a module hands on", leaving({**inner, "b.rt": "mod d;\npub use d::{Deep};\n"}) == {"Deep"}
    yield "a name of two types", twice({"a": {"One", "Own"}, "b": {"One"}}, {}) == {"One": {"a", "b"}}
    yield "a name that is kept", not twice({"a": {"One"}, "b": {"One"}}, {"One": {"a", "b"}})
