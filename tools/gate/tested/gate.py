"""The gate, and what says how far a proof is."""
import os
import pathlib
import re
import shutil
import subprocess
import tempfile

from tested.common import ROOT, RT, TOOLS, said, script

CI = """== low
fn low::first: proved
rt: low proved
rt: high is kept: an earlier run on this machine proved the same files over the same libraries
fn top::first: no proof
rt: top NOT PROVED
2 passed, 1 failed (low, high)
"""
# What the gate's parts call.
PARTS = re.findall(r"^(?:part|one|starts) .*?tools/([\w/-]+)", (ROOT / ".ci/run").read_text(), re.MULTILINE)

SHARED = ("progress", "proving", "others-enter", "laxonje_tools.py")


class Gate:
    """A repository of three crates with the gate of this one, whose parts are stubs."""

    def __init__(self, folder):
        self.folder = pathlib.Path(folder, "repository")
        self.beside = pathlib.Path(folder, "bin")
        self.beside.mkdir()
        for name in (".ci/run", "tools/commit", "tools/laxonje_tools/repository.py", *(f"tools/parts/{it}" for it in SHARED)):
            (self.folder / name).parent.mkdir(parents=True, exist_ok=True)
            shutil.copy(ROOT / name, self.folder / name)
        for name in PARTS:
            self.part(name, f"echo '{name}: a line'\necho '3 passed, 0 failed'")
        self.part("parts/link-aligned", 'echo program > "$2"')
        self.part("build-host", 'mkdir "$1" && echo archive > "$1/liblaxonje.a"')
        (self.folder / "crates.txt").write_text("low:\nhigh: low\ntop: high low\n\n# tests\ntop_tests: top\n")
        (self.folder / ".gitignore").write_text("out/\n")
        subprocess.run(["git", "init", "-q", self.folder], check=True)
        (self.beside / "rt").write_text(RT)
        (self.beside / "rt").chmod(0o755)
        self.kit(CI.replace("1 failed", "0 failed").replace("NOT PROVED", "proved"), 0)

    def part(self, name, text):
        path = self.folder / "tools" / name
        path.parent.mkdir(exist_ok=True)
        path.write_text(f"#!/bin/sh\n{text}\n")
        path.chmod(0o755)

    def kit(self, text, status):
        (self.beside / "ci").write_text(text)
        (self.beside / "status").write_text(str(status))

    def run(self, *words, tool=".ci/run", **settings):
        env = {**os.environ, "PATH": f"{self.beside}:{os.environ['PATH']}", "RT_JOBS": "1", **settings}
        return said([self.folder / tool, *words], env=env, cwd="/")


def gate_tests():
    """The gate over stubs: what it counts, prints and keeps, and what stops it at once."""
    with tempfile.TemporaryDirectory() as folder:
        os.chmod(folder, 0o755)
        gate = Gate(folder)
        status, text, _ = gate.run()
        parts = len(re.findall(r"^(?:part|one) ", (ROOT / ".ci/run").read_text(), re.MULTILINE))
        wholes = len(re.findall(r"^one ", (ROOT / ".ci/run").read_text(), re.MULTILINE))
        counted = 2 + 3 * (parts - wholes - 1) + wholes
        yield "the last line counts all", text.splitlines()[-1] == f"{counted} passed, 0 failed" and status == 0
        yield "each part is announced", re.findall(r"^== part (\d+) of", text, re.MULTILINE) == [str(it + 1) for it in range(parts)]
        yield "each crate is counted", [f"[{it}/3" in text for it in (1, 2, 3)] == [True] * 3 and "[2/3, 0 s] high, kept" in text
        yield "each line is printed if there is no terminal", "fn low::first: proved" in text and "more-edits: a line" in text
        kept = (gate.folder / "out/gate.log").read_text()
        yield "each line is kept", all(line in kept for line in ("fn low::first: proved", "test-pcap: a line", text.splitlines()[-1]))
        proved = gate.folder / "out/proved"
        yield "what was proved is kept", (proved / "xdpbox").is_file() and (proved / "host/liblaxonje.a").is_file()
        gate.kit(CI, 1)
        status, text, _ = gate.run()
        yield "what isn't proved isn't kept", not proved.exists()
        is_told = "[3/3, 0 s] top: NOT PROVED" in text and text.splitlines()[-1].endswith(", 1 failed")
        yield "a crate that isn't proved", status == 1 and is_told
        gate.kit("rt: stopped\n", 2)
        yield "an rt that counts nothing", gate.run()[0] == 1
        gate.kit("2 passed, 0 failed\n", 1)
        yield "an rt that fails and counts no failure", gate.run()[1].splitlines()[-1].endswith(", 1 failed")
        gate.kit("2 passed, 0 failed\n", 0)
        gate.part("gate/test-pcap", "echo 'libpcap: laxonje-pcap is left out'; echo '0 passed, 0 failed'")
        yield "a part that is left out", gate.run()[1].splitlines()[-1].endswith(", 0 failed")
        gate.part("gate/test-pcap", "echo '0 passed, 0 failed'")
        yield "a part that tries nothing", gate.run()[1].splitlines()[-1].endswith(", 1 failed")
        gate.part("gate/test-pcap", "echo '3 passed, 0 failed'")
        gate.part("xen-guest", "echo 'a guest: a line'; echo '3 passed, 0 failed'; exit 1")
        status, text, _ = gate.run()
        yield "a part beside others that fails", status == 1 and "a guest: a line\n" in text and text.splitlines()[-1].endswith(", 1 failed")
        gate.part("xen-guest", "echo '3 passed, 0 failed'")
        gate.part("gate/inlined", "echo 'inlined: it is not'; exit 1")
        status, text, _ = gate.run()
        yield "a part that fails as a whole", status == 1 and "inlined: it is not\nthe interpreter is inlined, and its loop aligned: FAILED" in text
        yield "another kit", gate.run(KIT="rattle-kit-12") == (2, "", "a kit rattle-kit-13 has to be installed, and not rattle-kit-12\n")
        closed = pathlib.Path(folder, "closed/in")
        closed.mkdir(parents=True)
        closed.parent.chmod(0o700)
        if os.getuid() == 0:
            status, text, error = gate.run(TMPDIR=str(closed))
            yield "a TMPDIR that others can't enter", (status, text) == (2, "") and f"can't enter {closed.parent}:" in error
        yield "a compiler that isn't there", gate.run(CXX="no-such-compiler") == (2, "", "no-such-compiler has to be installed\n")


BUILT = """fn low::first: proved
crate low: modules loaded=1 checked=2
logic=proved functions=1
crate high: modules loaded=1 checked=2
logic=proved functions=1
action PASS
"""


def proving_tests():
    """An rt that proves one crate and those below it, and one that fails."""
    with tempfile.TemporaryDirectory() as folder:
        gate = Gate(folder)
        (gate.folder / "crates/high").mkdir(parents=True)
        gate.kit(BUILT, 0)
        status, text, error = gate.run("high", "run", "--", "check", tool="tools/parts/proving")
        head, *lines = text.splitlines()
        yield "what is to be done", head.startswith("proves high and what it stands on, 2 crates in all: minutes ") and head.endswith("out/proving-high.log")
        yield "each crate once it is done", (status, error, lines) == (0, "", ["[1/2, 0 s] low", "[2/2, 0 s] high"])
        yield "all lines", (gate.folder / "out/proving-high.log").read_text() == "rt run -- check\n" + BUILT
        gate.kit("fn high::first: no proof\n", 1)
        status, text, error = gate.run("high", "lib", tool="tools/parts/proving")
        yield "an rt that fails", status == 1 and error.startswith("rt lib: status 1. ")
        yield "the end of what it said", error.endswith("\nrt lib\nfn high::first: no proof\n")
        yield "no such crate", gate.run("none", "lib", tool="tools/parts/proving") == (2, "", "there is no crate none\n")


def progress_tests():
    """What is read of an rt's lines, and what is guessed."""
    progress = script("parts/progress")
    now = [0]
    counted = progress.Counted({"low": 100, "high": 300, "top": 600}, lambda: now[0])
    yield "a line of no crate", counted.read("fn low::first: proved\n") is None
    now[0] = 60
    yield "a crate that rt ci proved", counted.read("rt: low proved\n") == "[1/3, 1 min, about 9 min left] low"
    yield "its tests", counted.read("rt: low: its tests are proved\n") is None
    yield "the same crate again", counted.read("rt: low proved\n") is None
    now[0] = 240
    yield "a crate that rt lib built", counted.read("crate high: modules loaded=1 checked=2\n") == "[2/3, 4 min, about 6 min left] high"
    yield "the last crate", counted.read("rt: top NOT PROVED\n") == "[3/3, 4 min] top: NOT PROVED"
    counted = progress.Counted({"low": 100, "high": 300, "top": 600}, lambda: now[0])
    now[0] = 300
    yield "a crate that is kept", counted.read("rt: high is kept: an earlier run\n") == "[1/3, 1 min] high, kept"
    yield "what it says of the time", counted.read("rt: low proved\n") == "[2/3, 1 min, about 6 min left] low"
    yield "a crate and those below it", progress.below("b", {"a": [], "b": ["a"], "c": ["b"]}) == {"a", "b"}
    with tempfile.TemporaryDirectory() as folder:
        words = [TOOLS / "parts/progress", "--crates", "none", f"{folder}/log"]
        given = "one\nFAILED two\nrt: waiting for another\n3 passed, 1 failed\nlast\n"
        text = said(words, stdin=None, input=given)[1]
        yield "what a person has to see", text == "FAILED two\nrt: waiting for another\n3 passed, 1 failed\n"
        yield "all lines", said([*words[:1], "--all", *words[1:]], stdin=None, input=given)[1] == given[: -len("last\n")]
        yield "the file", pathlib.Path(folder, "log").read_text() == 2 * given


def netback_tests():
    """The tests of the hosts in Rust over a cargo that counts three tests: what ends before it counts has failed."""
    with tempfile.TemporaryDirectory() as folder:
        top, beside = pathlib.Path(folder, "repository"), pathlib.Path(folder, "bin")
        for path in (top / "tools", top / "netback", beside):
            path.mkdir(parents=True)
        shutil.copy(TOOLS / "build-netback", top / "tools")
        (top / "liblaxonje.a").write_text("")

        def answers(path, text):
            path.write_text(f"#!/bin/sh\n{text}\n")
            path.chmod(0o755)

        def tested(tests, outside):
            for name, text in (("cargo", tests), ("rustc", "exit 1")):
                answers(beside / name, text)
            answers(top / "netback/outside", outside)
            env = {**os.environ, "PATH": f"{beside}:{os.environ['PATH']}", "CC": "cat", "LAXONJE_DIR": str(top)}  # a compiler reads its input
            status, text, _ = said([top / "tools/build-netback", "--test", top / "out"], env=env)
            return status, text.splitlines()[-1]

        counted, two = "echo 'test result: ok. 3 passed; 0 failed; 0 ignored'", "echo '2 passed, 0 failed'"
        yield "hosts in Rust", tested(counted, two) == (0, "5 passed, 0 failed")
        yield "hosts in Rust that end before they are counted", tested(counted, "echo 'no room' >&2; exit 1") == (1, "3 passed, 1 failed")
        yield "hosts in Rust of which one fails", tested(counted, "echo '2 passed, 1 failed'; exit 1") == (1, "5 passed, 1 failed")
        yield "a cargo that counts nothing", tested("exit 101", two) == (101, "2 passed, 1 failed")
