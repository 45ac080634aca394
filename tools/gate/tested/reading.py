"""Wrong bodies that the prover reads and doesn't try, with a prover that says what its sources tell it to."""
import pathlib
import tempfile

from laxonje_tools import edits_read, repository, wrong_bodies

TOKEN = "fn ends(token: Token) {}"
LOW = "fn first() {\n    one\n}\n\nfn second() {\n    two\n}\n"
BESIDE = "fn third() {\n    four\n}\n"
HIGH = "fn main(rt: HostRuntime) {\n    three\n}\n"


class Crate:
    """Stands for the kit's crate."""

    def __init__(self, name):
        self.name, self.deps = name, []

    def words(self, flags, keeps, as_source):
        assert as_source and not keeps
        return ["src/main.rt" if self.name == "high" else "src/lib.rt", *(it.name for it in self.deps), *flags]


class Kit:
    """Stands for the kit, whose prover can't read a file that has `unread`, nor one that has `half` and `whole`."""

    RATTLE = "rattle"

    def __init__(self):
        self.reads = []

    def crates_below(self, room):
        names = (pathlib.Path(room) / "crates.txt").read_text().split("\n")
        return [Crate(line.partition(":")[0]) for line in names if line]

    def guarded(self):
        return []

    def ran(self, words, room):
        self.reads.append(" ".join(words[3:-4]) or words[2])
        said = []
        for path in sorted(pathlib.Path(room).glob("crates/*/src/*.rt")):
            lines = path.read_text().split("\n")
            faults = [at for at, line in enumerate(lines, 1) if "unread" in line]
            faults += [6] if any("half" in it for it in lines) and any("whole" in it for it in lines) else []
            said += [f"{path.relative_to(room)}:{at}:5: error[unknown-name]: cannot find it" for at in faults]
        top = edits_read.place(edits_read.TOP, "src/lib.rt")
        said += [f"{top}:7:9: error[linear-value-let-go]: `token` is let go"] if TOKEN in (pathlib.Path(room) / top).read_text() else []
        return wrong_bodies.Checked("\n".join(said), 2, 0.0, 0.0)


class Tree:
    """A repository of two libraries and a program, whose edits are read."""

    def __init__(self, folder):
        self.folder = folder
        for file, text in (("low/src/lib.rt", LOW), ("beside/src/lib.rt", BESIDE), ("high/src/main.rt", HIGH)):
            path = folder / "crates" / file
            path.parent.mkdir(parents=True)
            path.write_text(text)
        (folder / "crates.txt").write_text("# A line a crate.\nlow: std\nbeside staticlib: std\nhigh may_wait=1: low std\n")

    def edit(self, old, new, crate="low", file="src/lib.rt"):
        return wrong_bodies.Edit(f"{old} {new}", [wrong_bodies.Change(file, old, new)], [], crate=crate)

    def unread(self, *edits):
        """The edits that can't be read, and which crates were read for that."""
        kit = Kit()
        was = repository.ROOT, wrong_bodies.ran
        repository.ROOT, wrong_bodies.ran = str(self.folder), kit.ran
        try:
            with tempfile.TemporaryDirectory() as room:
                sources = edits_read.Sources({it.crate for it in edits}, room, kit)
                found = [it.path for it, _ in edits_read.unread(edits, sources)]
                kept = (pathlib.Path(room) / "crates/low/src/lib.rt").read_text() == LOW
        finally:
            repository.ROOT, wrong_bodies.ran = was
        return (found, kit.reads) if kept else None


def read_tests():
    """Edits that are read together, and each alone where these can't be."""
    low, high, together = "low", edits_read.TOP, "beside low"
    with tempfile.TemporaryDirectory() as folder:
        tree = Tree(pathlib.Path(folder))
        one, two, beside = tree.edit("one", "1"), tree.edit("two", "2"), tree.edit("four", "4", "beside")
        program = tree.edit("three", "3", "high", "src/main.rt")
        bad = tree.edit("two", "unread")
        yield "edits of a crate are read at once", tree.unread(one, two) == ([], [low])
        yield "those of two libraries", tree.unread(one, beside, two) == ([], [together])
        yield "those of a program by themselves", tree.unread(one, program, two) == ([], [low, high])
        yield "two edits of one text", tree.unread(one, tree.edit("one", "4")) == ([], [low, low])
        yield "an edit that can't be read", tree.unread(bad) == (["two unread"], [low])
        yield "the same beside others", tree.unread(one, beside, bad) == (["two unread"], [together, low, together])
        halves = tree.edit("one", "half"), tree.edit("two", "whole")
        yield "edits that can be read, but not together", tree.unread(*halves) == ([], [low] * 3)
        yield "a text that isn't there", tree.unread(tree.edit("five", "5"), one) == (["five 5"], [low])
