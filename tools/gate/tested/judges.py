"""Judges of pages: what a proof counts, sentences, and a file that is missing."""
import pathlib
import re
import shutil
import subprocess
import tempfile

from laxonje_tools.statements import headlines, lost, pages, rows, statement
from laxonje_tools.statements import tests as made_up
from laxonje_tools.statements.tree import Node, Tree
from tested.common import ROOT, script


# How many words README, SECURITY and docs/*.md may have, as `wc -w` counts them.
MOST_WORDS = 37_000


def sentence_tests():
    """Sentences with too many words, and pages."""
    found = script("dev/long-sentences").long_sentences
    words = "word " * 36
    yield "a sentence that is too long", len(list(found(f"Short. {words.strip()}.\n\n- An item.\n"))) == 1
    yield "a line of an item with four blanks before it", len(list(found(f"- An item\n    {words}.\n"))) == 1
    yield "code with four blanks before it", not list(found(f"Text.\n\n    {words}\n    {words}\n\nText.\n"))
    yield "two sentences, a list and code", not list(found(f"{'word ' * 20}. {'Word ' * 20}.\n- {'word ' * 20}\n- {'word ' * 20}\n\n```text\n{words}\n```\n"))
    yield "a cell that is too long", len(list(found(f"| a | {words}|\n|---|---|\n| {'word ' * 20} | {'word ' * 20} |\n"))) == 1
    yield "a link's address", not list(found(f"A [page]({words.strip()}) is short.\n"))
    texts = [it.read_text() for it in (ROOT / "README.md", ROOT / "SECURITY.md", *(ROOT / "docs").glob("*.md"))]
    yield "the sentences of the pages: tools/dev/long-sentences prints long ones", not any(list(found(it)) for it in texts)
    yield f"the words of the pages, of {MOST_WORDS:,}", sum(len(it.split()) for it in texts) <= MOST_WORDS


def outside_tests():
    """How many rows from outside the pages say that there are."""
    lines = (ROOT / "crates/outside_rows/stdin").read_text().splitlines()
    count = sum(bool(line) and not line.startswith("#") for line in lines)
    said = re.search(r"answers ([\d,]+) questions", (ROOT / "docs/CLAIMS.md").read_text())
    part = (ROOT / "docs/statements/rows.md").read_text().partition("\n## Numbers from outside\n")[2]
    listed = [int(it.replace(",", "")) for it in re.findall(r"(?m)^\|[^|]*\| ([\d,]+) \|", part)]
    yield "the number of rows from outside", said is not None and int(said[1].replace(",", "")) == count == sum(listed)


def guide_tests():
    """The files that crates/README names, each after its crate."""
    crate = ""
    for name in re.findall(r"`([\w/]+(?:\.rt)?)`", (ROOT / "crates/README.md").read_text().partition("\n## How to add\n")[2]):
        if (ROOT / "crates" / name).is_dir():
            crate = name
        elif name.endswith(".rt"):
            yield f"{name} of {crate}, which crates/README names", any((ROOT / "crates" / crate / "src").glob(f"**/{name}"))


def counted_tests():
    """How many definitions README says that all claims have."""
    said = "(1 definitions of 2 lines\nfor all eight)"
    yield "another number of definitions", pages.with_count(f"All {said}.", 1234, 5678) == "All (1,234 definitions of 5,678 lines\nfor all eight)."
    for what, text in [("no number of definitions", "All claims."), ("two of them", said + said)]:
        try:
            yield what, not pages.with_count(text, 3, 4)
        except statement.Unknown as why:
            yield what, "README.md says" in str(why)


def missing_tests():
    """Judges of a copy of the repository in which a file is missing: each says so in lines, and its status isn't 0."""
    left_out = shutil.ignore_patterns("out", "target", ".git", "proofs")
    with tempfile.TemporaryDirectory() as room:
        copy = pathlib.Path(room, "copy")
        shutil.copytree(ROOT, copy, ignore=left_out)
        for file, judges in (
            ("crates/xen_host/must-fail/made_up_access.edit", ("statement --check", "gate/stated")),
            ("crates/bpf_same/must-fail/counted_twice.edit", ("gate/stated",)),
            ("docs/THEOREM.md", ("statement --check",)),
            ("docs/CLAIMS.md", ("statement --check", "gate/stated")),
            ("docs/statements/rows.md", ("statement --check", "gate/stated")),
        ):
            (copy / file).rename(copy / "away")
            for judge in judges:
                done = subprocess.run([copy / "tools" / judge.split()[0], *judge.split()[1:]], capture_output=True, text=True, check=False)
                said = done.stdout + done.stderr
                yield f"{judge} without {file}", done.returncode != 0 and "Traceback" not in said and said.strip() != ""
            (copy / "away").rename(copy / file)


BASE = "crates/low/specs/Base.antt"
INNER = "crates/low/src/inner.rt"
WHOLE = "ensures small { Rattle.low.specs.Machinery.two ≡ result }"
NESTED = "\nmodule _ (a : ℕ) where\n  module _ (b : ℕ) where\n    abbrev pub inside : ℕ\n    inside = a\n"


def lost_tests():
    """Definitions that are named by a whole path, or that the reader doesn't find; and rows without a wrong body."""

    def tree(room, **files):
        return made_up.written(pathlib.Path(room), {**made_up.FILES, "crates/low/specs/Machinery.antt": made_up.MACHINERY, **files})

    files = made_up.FILES
    with tempfile.TemporaryDirectory() as room:
        yield "nothing is lost", not list(lost.findings(tree(room)))
        named = tree(room, **{INNER: files[INNER].replace("ensures small { IsSmall result }", WHOLE)})
        make = next(it for it in named.contracts("low") if it.path == "low::inner::make")
        yield "a definition by its whole path", Node("definition", "low", ("Machinery",), "two") in named.roots(make)
        above = tree(room, **{BASE: files[BASE].replace("other n = IsSmall n", "other n = Rattle.low.specs.Machinery.two ≡ n")})
        yield "one that a definition names so", Node("definition", "low", ("Machinery",), "two") in above.below(Node("definition", "low", ("Base",), "other"))
        for what, file, text in [
            ("a whole path that leads nowhere", INNER, files[INNER].replace("ensures small { IsSmall result }", WHOLE.replace("two", "three"))),
            ("an import that leads nowhere", INNER, files[INNER].replace("Base.{IsSmall, other}", "Base.{IsSmall, other, three}")),
            ("a definition of a section in a section", INNER, files[INNER].replace("Base.{IsSmall, other}", "Base.{IsSmall, other, inside}")),
        ]:
            found = list(lost.findings(tree(room, **{file: text, BASE: files[BASE] + NESTED})))
            yield what, len(found) == 1 and "leads to no definition that is read" in found[0]
        asked = tree(room, **{INNER: files[INNER].replace("{ words.now ≡ words.now }", "{ other 1 }")})
        nodes = statement.statement(asked, [statement.part(asked, "low::make (small)")]).nodes
        yield "what a caller has to establish", Node("definition", "low", ("Base",), "other") in nodes
        claim = '[[claim]]\nnumber = {}\nreading = ""\ncontracts = {}\nrefused = []\n'
        for what, second, wanted in [("claims with contracts", '["low::make"]', []), ("a claim with none", "[]", [2])]:
            tree(room, **{f"{headlines.LIST}": claim.format(1, '["low::make"]') + claim.format(2, second)})
            yield what, headlines.without_contracts(pathlib.Path(room)) == wanted
        tree(room, **{f"{headlines.LIST}": claim.format(2, '["low::make"]')})
        yield "a claim that the list leaves out", headlines.without_contracts(pathlib.Path(room)) == [1]
        long = 'fn long() -> &str {\n    "one { [ \\\n     two\\n"\n}\n'
        read = tree(room, **{INNER: long + files[INNER]})
        yield "a string of two lines", not list(lost.findings(read)) and any(it.path == "low::inner::make" for it in read.contracts("low"))
        half = tree(room, **{INNER: files[INNER] + "fn outer() {\n    fn inner() {}\n}\n"})
        yield "a function that isn't read", [it for it in lost.findings(half) if "1 of its functions aren't read" in it] != []
        hidden = files[made_up.ROWS].replace("refused: `make`", "refused: `make`, and of another `made_up`")
        found = [it for it in rows.findings(tree(room, **{made_up.ROWS: hidden})) if "names made_up behind" in it]
        yield "a wrong body behind other words", len(found) == 1
        for what, words, count in [("a row of a function without a wrong body", "no wrong body", 1), ("one that says why", "no wrong body of its own: it follows", 0)]:
            page = files[made_up.ROWS].replace("refused: `make`", words)
            yield what, len([it for it in rows.findings(tree(room, **{made_up.ROWS: page})) if "which is no law" in it]) == count


VERDICTS = ["== xdp_load", "logic=proved functions=3 axioms=9 sum=0", "== xdpbox", "crate xdpbox: modules loaded=1 checked=2"]


def assumed_tests():
    """The number of assumed contracts in README."""
    assumed = script("gate/assumed")
    readme = "| memory | `axioms=10` in a line |"
    proved = [*VERDICTS, "logic=proved functions=3 axioms=10 main=1 sum=0", "rt: xdpbox proved"]
    yield "the number of assumed contracts", assumed.finding(readme, proved) == "" and assumed.counted(proved, "xdpbox") == [10]
    yield "another number", assumed.finding(readme.replace("10", "11"), proved) != ""
    yield "no number in the verdict", assumed.finding(readme, [*VERDICTS, "logic=proved functions=3 sum=0"]) != ""
    yield "a program that was kept", assumed.finding(readme, ["rt: xdpbox is kept: an earlier run"]) == ""
    yield "no number in README", assumed.finding("", proved) != ""
    library = ["== xdp_host", "logic=proved functions=3 axioms=3 sum=0"]
    yield "the library's number", assumed.finding("10 for it, 3\nfor the library for C", library, "xdp_host") == ""
    unlinked = ["== xdp_host", "logic=proved functions=3 sum=0"]
    yield "a library that isn't linked", assumed.finding("3 for the library for C", unlinked, "xdp_host") == ""
    yield "another number of the library's", assumed.finding("4 for the library for C", library, "xdp_host") != ""
    lost = ["== xdpbox", "verdict: proved", "rt: xdpbox proved"]
    yield "a program that was proved without a verdict", assumed.finding(readme, lost) != ""
    built = [*unlinked, "rt: xdp_host proved", "crate xdp_host: modules loaded=1 checked=2", library[1]]
    yield "one that was proved and built", assumed.finding("3 for the library for C", built, "xdp_host") == ""
