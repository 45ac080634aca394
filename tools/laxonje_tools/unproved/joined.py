"""Crates of tests as one crate, each a module of it: what they test is read and compiled once."""
import os
import pathlib
import re
import shutil
import subprocess

from laxonje_tools.repository import lines_of

NAME = "all_tests"
ROOTS = ("src/lib.rt", "src/main.rt")
CRATE = re.compile(r"\bcrate::")
ATTRIBUTE = re.compile(r"^#!\[.*\]\n", re.MULTILINE)


def first_of(folder):
    """The first file of a crate."""
    return next(folder / it for it in ROOTS if (folder / it).is_file())


def within(text, name, names):
    """A source of the crate `name` as a module of the one that has these crates."""
    text = CRATE.sub(f"crate::{name}::", ATTRIBUTE.sub("", text))
    for other in names:
        text = re.sub(rf"(?<![\w:`]){other}::", f"crate::{other}::", text)
    return text


def add_module(folder, name, names, to):
    """Writes the sources of a crate as those of a module."""
    first = first_of(folder)
    for path in sorted((folder / "src").rglob("*.rt")):
        at = to / (f"{name}.rt" if path == first else name) / ("" if path == first else path.relative_to(folder / "src"))
        at.parent.mkdir(parents=True, exist_ok=True)
        at.write_text(within(path.read_text(encoding="utf-8"), name, names), encoding="utf-8")


def join(root, names, room):
    """Makes a checkout in `room` whose crate NAME has these crates of `root` as its modules, beside the crates that they use."""
    uses = lines_of((root / "crates.txt").read_text(encoding="utf-8"))
    used = [it for it in uses if it not in names and any(it in uses[name] for name in names)]
    others = sorted({it for name in names for it in uses[name]} - set(uses))
    for name in used:
        for part in ("src", "specs"):
            if (root / "crates" / name / part).is_dir():
                shutil.copytree(root / "crates" / name / part, room / "crates" / name / part)
    source = room / "crates" / NAME / "src"
    source.mkdir(parents=True)
    (source / "lib.rt").write_text("#![tactic(auto)]\n\n" + "".join(f"mod {name};\n" for name in names), encoding="utf-8")
    for name in names:
        add_module(root / "crates" / name, name, names, source)
    lines = [f"{name}: {' '.join(uses[name])}" for name in used] + [f"{NAME}: {' '.join([*reversed(used), *others])}"]
    (room / "crates.txt").write_text("\n".join(lines) + "\n", encoding="utf-8")
    # rt looks for the top of a repository
    subprocess.run(["git", "init", "-q", os.fspath(room)], check=True)


def listed(program_says):
    """The names of the tests that a program lists."""
    return [line.removesuffix(": test") for line in program_says.splitlines() if line.endswith(": test")]
