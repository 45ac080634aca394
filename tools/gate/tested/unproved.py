"""The tests of crates that the gate doesn't prove: which crates these are, and what their programs come to."""
import pathlib
import tempfile

from laxonje_tools import repository
from laxonje_tools.unproved import joined
from tested.common import script

LINES = "# A line a crate.\nlow:\n\n# programs\ntop: low\n\n# tests\nlow_tests may_wait=1: low\nlow_bench: low\n\n# rows\nrows: low\n"
# A program of tests, of which one passes, one fails, one ends before it says so, and one is ended by a signal.
PROGRAM = """#!/bin/sh
case $1 in
    --list) printf 'low_tests::tests::%s: test\\n' passes fails stops dies ;;
    low_tests::tests::passes) printf '\\ntest result: ok\\n' ;;
    low_tests::tests::fails) echo 'left 1, right 2'; exit 101 ;;
    low_tests::tests::stops) echo 'nothing more' ;;
    low_tests::tests::dies) kill -9 $$ ;;
esac
"""
SOURCE = "#![tactic(auto)]\nuse crate::bench::ONE;\nuse low::two;\nuse more_tests::bench::TWO;\n"
JOINED = "use crate::low_tests::bench::ONE;\nuse low::two;\nuse crate::more_tests::bench::TWO;\n"


def a_checkout(folder):
    """A checkout with a library, its tests, rows that are compared and programs."""
    (folder / "crates.txt").write_text(LINES)
    for name in ("low", "top", "low_tests", "rows", "low_bench"):
        source = folder / "crates" / name / "src" / ("lib.rt" if name in ("low", "low_tests") else "main.rt")
        source.parent.mkdir(parents=True)
        source.write_text("#![tactic(auto)]\n\n#[cfg(test)]\nmod tests;\n")
    (folder / "crates/low_tests/src/tests.rt").write_text("#[test]\nfn passes() {}\n" * 4)


def crate_tests():
    """tools/gate/crate-tests over a checkout and a program of its own."""
    tool = script("gate/crate-tests")
    with tempfile.TemporaryDirectory() as room:
        folder = pathlib.Path(room)
        a_checkout(folder)
        yield "the crates of tests", repository.crates_of_tests(folder) == ["low_tests", "low_bench"]
        yield "the tests of a source", tool.count_of(folder / "crates/low_tests") == 4
        program = folder / "program"
        program.write_text(PROGRAM)
        program.chmod(0o755)
        failed, passed = tool.run_tests(str(program), {"low_tests": 4}, 2)
        names = [line.split(":")[4] for line in failed]
        yield "what passes and what fails", (names, passed) == (["fails", "stops", "dies"], 1)
        failed, passed = tool.run_tests(str(program), {"low_tests": 5}, 1)
        yield "a test that isn't listed", failed[-1] == "low_tests: 4 tests are listed, and the sources have 5" and passed == 1
        program.write_text("#!/bin/sh\ncat\n")
        bench = folder / "crates/low_bench"
        for name, text in (("stdin", "done 1\n"), ("stdout", "done 1\n")):
            (bench / name).write_text(text)
        yield "a program that prints what it has to", tool.run_program(str(program), bench) == ([], 1)
        (bench / "stdout").write_text("done 2\n")
        yield "one that prints something else", tool.run_program(str(program), bench) == (["low_bench: status 0: done 1"], 0)
        (folder / "crates/low_tests/src/tests.rt").write_text("fn passes() {}\n")
        yield "a crate without tests", tool.tests_of(folder, ["low_tests", "low_bench"], 1) == (["low_tests: it has no tests"], 0)
        yield from joined_tests(folder)
        tool.leave_out(folder)
        left = LINES.replace("low_tests may_wait=1: low\nlow_bench: low\n", "")
        yield "what is left out", (folder / "crates.txt").read_text() == left
        yield "the folders too", sorted(it.name for it in (folder / "crates").iterdir()) == ["low", "rows", "top"]


def joined_tests(folder):
    """Crates of tests as modules of one."""
    yield "a source as a module", joined.within(SOURCE, "low_tests", ["low_tests", "more_tests"]) == JOINED
    room = folder / "joined"
    room.mkdir()
    joined.join(folder, ["low_tests"], room)
    source = room / "crates" / joined.NAME / "src"
    files = sorted(str(it.relative_to(source)) for it in source.rglob("*.rt"))
    yield "its files", files == ["lib.rt", "low_tests.rt", "low_tests/tests.rt"]
    yield "the crate of all", (source / "lib.rt").read_text() == "#![tactic(auto)]\n\nmod low_tests;\n"
    yield "what it uses", (room / "crates.txt").read_text() == f"low: \n{joined.NAME}: low\n" and (room / "crates/low/src/lib.rt").is_file()
