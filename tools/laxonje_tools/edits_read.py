"""Whether the prover can read wrong bodies: it reads the sources of all crates at once, with edits made in them, and proves nothing.

No library has to be proved for that: each is passed as source to a crate that uses them all. That crate has a fault of its own, a value
that is let go: so the prover ends once names, types and what is let go are found right. What is borrowed it would look at later, which
takes ten times as long. Edits are read together, those of one function too, if each old text still stands once. Those to which a fault
points are read each alone, and the others again."""
import dataclasses
import os
import re
import shutil

from laxonje_tools import repository, wrong_bodies

# The crate that uses the libraries that are read, or that a program uses with its own; and its fault.
TOP = "all_crates"
TOP_TEXT = "#![tactic(auto)]\n\nstruct Token {\n    number: u32,\n}\n\nfn ends(token: Token) {}\n"
IS_READ = re.compile(rf"^(?:\./)?crates/{TOP}/src/lib\.rt:.*: error\[linear-value-let-go\]", re.M)


@dataclasses.dataclass(frozen=True)
class Fault:
    """What the prover can't read: the file, the text of the line, and why; no file where it names none."""

    file: str
    line: str
    why: str

    def is_of(self, edit):
        """Whether it lies in a line that an edit wrote."""
        return any(it.new.strip() and it.new in self.line for it in edit.changes if place(edit.crate, it.file) == self.file)


class Sources:
    """The sources of crates and of those below them in a room, where edits are made in them."""

    def __init__(self, names, room, rtlib):
        uses = repository.crates()
        self.room, self.rtlib = room, rtlib
        self.names = sorted(set().union(*(below(it, uses) for it in names)))
        for name in self.names:
            for part in ("src", "specs"):
                inside = os.path.join(repository.ROOT, "crates", name, part)
                if os.path.isdir(inside):
                    shutil.copytree(inside, os.path.join(room, "crates", name, part))
        os.makedirs(os.path.join(room, "crates", TOP, "src"))
        self.write(place(TOP, "src/lib.rt"), TOP_TEXT)
        self.write("crates.txt", "\n".join(self.rows()) + "\n")

    def rows(self):
        """Lines as in crates.txt; a static library is one for others here."""
        lines = wrong_bodies.text_of(repository.ROOT, "crates.txt").split("\n")
        used = {line.split()[0].rstrip(":"): line.partition(":")[2] for line in lines if ":" in line and line[0] != "#"}
        return [f"{name}:{used[name]}" for name in self.names] + [f"{TOP}:"]

    def is_program(self, name):
        return os.path.exists(os.path.join(self.room, place(name, "src/main.rt")))

    def write(self, file, text):
        with open(os.path.join(self.room, file), "w", encoding="utf-8") as opened:
            opened.write(text)

    def texts(self, edits):
        """The texts of the files that edits change, by crate and file, as they stand."""
        files = {(it.crate, file) for it in edits for file in it.files}
        return {at: wrong_bodies.text_of(os.path.join(repository.ROOT, "crates", at[0]), at[1]) for at in files}

    def read(self, edits):
        """What the prover can't read with these edits."""
        as_they_stand = self.texts(edits)
        made = {place(*at): text for at, text in with_edits(as_they_stand, edits).items()}
        for file, text in made.items():
            self.write(file, text)
        said = self.said(sorted({it.crate for it in edits}))
        for at, text in as_they_stand.items():
            self.write(place(*at), text)
        found = [it for it in faults(said, made) if it.file != place(TOP, "src/lib.rt")]
        return found or ([] if IS_READ.search(said) else [Fault("", "", said[-300:])])

    def said(self, names):
        """What the prover says of a program, or of these libraries, and of those below."""
        crates = {it.name: it for it in self.rtlib.crates_below(self.room)}
        crate = crates[names[0] if self.is_program(names[0]) else TOP]
        crate.deps = [crates[it] for it in names] if crate.name == TOP else [*crate.deps, crates[TOP]]
        words = crate.words(["--jobs", "1", "--only", ""], keeps=False, as_source=True)
        roots = ("src/lib.rt", "src/main.rt")
        words = [place(crate.name, it) if it in roots else it.replace(f"={self.room}/", "=") for it in words]
        return wrong_bodies.ran([*self.rtlib.guarded(), self.rtlib.RATTLE, "check", *words], self.room).said


def below(name, uses):
    return {name}.union(*(below(it, uses) for it in uses[name]))


def place(crate, file):
    """Where a file of a crate stands in the room."""
    return os.path.join("crates", crate, file)


def faults(said, texts):
    """What the prover can't read, by what it said and the texts that were changed."""
    found = []
    for file, line, error, why in wrong_bodies.TOLD.findall(re.sub(r": error\[([\w-]+)\]: ", r": error: \1: ", said)):
        lines = texts.get(file, "").split("\n")
        if error:
            found.append(Fault(file, lines[int(line) - 1] if int(line) <= len(lines) else "", why))
    return found


def with_edits(texts, edits):
    """These texts, by crate and file, with edits made; Unreadable if an old text doesn't stand once."""
    texts = dict(texts)
    for edit in edits:
        own = {file: texts[edit.crate, file] for file in edit.files}
        texts.update({(edit.crate, file): text for file, text in wrong_bodies.changed(own, edit.changes).items()})
    return texts


def rounds(edits, sources):
    """The edits, parted so that those of each part can be made at once; those of a program by themselves."""
    found = []
    for edit in edits:
        top = edit.crate if sources.is_program(edit.crate) else TOP
        for texts, others in (part for root, *part in found if root == top):
            try:
                made = with_edits({**sources.texts([edit]), **texts}, [edit])
            except wrong_bodies.Unreadable:
                continue
            texts.update(made)
            others.append(edit)
            break
        else:
            found.append((top, with_edits(sources.texts([edit]), [edit]), [edit]))
    return [others for _, _, others in found]


def unread(edits, sources):
    """Each edit that can't be made or read, with why."""
    made = []
    for edit in edits:
        try:
            with_edits(sources.texts([edit]), [edit])
            made.append(edit)
        except (OSError, wrong_bodies.Unreadable) as why:
            yield edit, str(why)
    waiting = rounds(made, sources)
    while waiting:
        tried = waiting.pop(0)
        found = sources.read(tried)
        if found and len(tried) == 1:
            yield tried[0], found[0].why
        elif found:
            waiting += parted(tried, found)


def parted(edits, found):
    """Each edit alone to whose lines a fault points, or to whose files, and the others together; if none does, each alone."""
    blamed = [it for it in edits if any(fault.is_of(it) for fault in found)]
    files = {it.file for it in found}
    blamed = blamed or [it for it in edits if files & {place(it.crate, file) for file in it.files}] or edits
    others = [it for it in edits if it not in blamed]
    return [[it] for it in blamed] + ([others] if others else [])
