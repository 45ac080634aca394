"""Wrong bodies: what is read of an edit and of what the prover says, and how edits are tried."""
import argparse
import contextlib
import io
import os
import pathlib
import re
import tempfile

from laxonje_tools import wrong_bodies
from tested.common import script

# A source with two functions and a method, and what the prover says of them.
SOURCE = """use low::thing;

pub fn first(x: u32) -> u32 {
    second(x)
}

impl<'a> Thing<'a> for Held<'a> {
    fn second(&self) -> u32 {
        1
    }
}

impl<'a> Held<'a> {
    pub fn third(&self) -> u32 {
        2
    }
}

impl From<AllocError> for fault::Fault {
    fn from(_: AllocError) -> Fault {
        Fault::Memory
    }
}

pub trait Thing {
    fn fourth(&self) -> u32 {
        3
    }
}
"""
CLAUSE = "fn low::part::first: no proof: expected answers in ./proofs/part/first/Answers.antt; `search` did not prove `returns`"
CALLEE = "fn low::part::first: not proved; it calls part::second, which is not proved"
BOTH = f"./proofs/part/first/Answers.antt:3:9: error: `c`: the two types differ\n{CALLEE}"
NOT_ADMITTED = f"./proofs/part/first/Answers.antt:3:9: error: `c`: `met` was not admitted\n{CALLEE}"
NAMES = "./proofs/part/first/Answers.antt:3:9: error: `x`: record `After` has no field `y`\nfn low::part::first: not proved"
FALSE = "./proofs/part/first/Answers.antt:3:9: error: expected `1`, found `2`\nfn low::part::first: not proved"
SUM = CLAUSE.replace("returns", "overflow_add-sum")
INDEX_AND_LOOP = CLAUSE.replace("`returns`", "`index-requires`, `loop-b-preserved`")
LAST_OF_TWO = CLAUSE.replace("`returns`", "`unreachable-requires` and `returns-in_err-x-clause-gives`")
INVARIANT = FALSE.replace("Answers", "Invariants")
# A proof file: what stands in its line 3 answers `returns`, and in its line 6 what a callee requires.
ANSWERS = "use a\npub returns : goal.returns\nreturns c = x\n\npub take-requires : goal.take-requires\ntake-requires c = x\n"
PROVED = "fn low::part::first: proved"
NO_VERDICT = "fn low::part::first: no proof: antt has no verdict on `returns`"
NOT_TOLD = "fn low::part::first: could not tell"
REFUSED_TOO = f"./proofs/part/first/Answers.antt:3:9: error: expected `1`, found `2`\n{NOT_TOLD}"


def edit_tests():
    """What is read of an edit, and what the prover says of the function that it changes."""

    def function_at(text, file="src/part.rt", types=()):
        return wrong_bodies.function_at(file, SOURCE, SOURCE.find(text), dict(types))

    yield "a function of a file", function_at("second(x)") == "part::first"
    yield "a method of a trait", function_at("1\n") == "part::HeldThing::second"
    yield "a method of a trait that is given a type", function_at("Fault::Memory") == "part::FaultFromAllocError::from"
    yield "a trait's own function", function_at("3\n") == "part::Thing::fourth"
    yield "a method", function_at("2\n") == "part::Held::third"
    yield "a method of another file's type", function_at("2\n", types={"Held": ["whole", "held"]}) == "whole::held::Held::third"
    yield "a function of the root", function_at("second(x)", "src/lib.rt") == "first"
    yield "no function", function_at("use low") is None
    yield "a constant is of all", wrong_bodies.is_of_all(f"{SOURCE}\nconst MOST: u32 = 1;\n", "u32 = 1")
    yield "a macro is of all", wrong_bodies.is_of_all(f"macro_rules! m {{\n}}\n{SOURCE}", "m {")
    yield "a function that constants are made by is of all", wrong_bodies.is_of_all("const fn most() -> u32 {\n    1\n}\n", "    1")
    yield "an import and a body are not", not wrong_bodies.is_of_all(SOURCE, "use low::thing;") and not wrong_bodies.is_of_all(SOURCE, "second(x)")
    for said, wanted in [
        (CLAUSE, wrong_bodies.Verdict.CLAUSE),
        (CALLEE, wrong_bodies.Verdict.CALLEE),
        (BOTH, wrong_bodies.Verdict.CLAUSE),
        (NOT_ADMITTED, wrong_bodies.Verdict.CALLEE),
        (NAMES, wrong_bodies.Verdict.NAMES),
        (FALSE, wrong_bodies.Verdict.CLAUSE),
        (FALSE.replace(":3:9", ":6:9"), wrong_bodies.Verdict.SAFETY),
        (SUM, wrong_bodies.Verdict.SAFETY),
        (CLAUSE.replace("returns", "holds-requires"), wrong_bodies.Verdict.SAFETY),
        (INDEX_AND_LOOP, wrong_bodies.Verdict.INVARIANT),
        (LAST_OF_TWO, wrong_bodies.Verdict.CLAUSE),
        (INVARIANT, wrong_bodies.Verdict.INVARIANT),
        (PROVED, wrong_bodies.Verdict.PROVED),
        (NO_VERDICT, wrong_bodies.Verdict.STOPPED),
        (NOT_TOLD, wrong_bodies.Verdict.STOPPED),
        (REFUSED_TOO, wrong_bodies.Verdict.CLAUSE),
        ("", wrong_bodies.Verdict.UNKNOWN),
    ]:
        yield f"a verdict, {wanted.name}", wrong_bodies.verdict_of(said, "low", "part::first", lambda file: ANSWERS) is wanted


def bad_edit_tests():
    """Edits that show nothing: of a definition, so that it doesn't type check, and of a clause."""
    ill_typed = "./specs/Part.antt:3:9: error: `first`: the two types differ"
    yield "a definition that doesn't type check", wrong_bodies.unread(ill_typed, {"specs/Part.antt"}) == ill_typed
    contract = "fn first() -> u32\n    ensures { result ≡ place }\n{\n    place\n}\n"
    was = wrong_bodies.contracts_of(contract)
    yield "a clause that is changed", was != wrong_bodies.contracts_of(contract.replace("≡ place", "≡ 1"))
    yield "a clause that is added", was != wrong_bodies.contracts_of(contract.replace("-> u32\n", "-> u32\n    requires { ⊥ }\n"))
    yield "a function with a clause that is added", was != wrong_bodies.contracts_of(contract + contract.replace("first", "second"))
    yield "a ghost field that is added", was != wrong_bodies.contracts_of(contract + "struct Held {\n    ghost few: { ⊥ },\n}\n")
    imports = "ghost use Rattle.low.specs.Part.{one, other};\n#[tactic(auto)]\n"
    named = wrong_bodies.contracts_of(imports + contract)
    yield "another name for what a clause names", named != wrong_bodies.contracts_of(imports.replace("one", "one as other") + contract)
    yield "another tactic", named != wrong_bodies.contracts_of(imports.replace("auto", "none") + contract)
    yield "a body that is changed", was == wrong_bodies.contracts_of(contract.replace("    place", "    1"))


class Crate:
    """Stands for the kit's crate."""

    def __init__(self, folder):
        self.name, self.folder = "low", str(folder)


class Prover:
    """Stands for the prover, which says of each function what its body tells it to, counts its checks, and keeps a file of each.
    One that is spoilt says of a function beside that it isn't proved, if anything is kept."""

    def __init__(self, bodies, is_spoilt):
        self.bodies, self.is_spoilt = bodies, is_spoilt
        self.checks, self.found = 0, []

    def check(self, crate, rtlib, texts, only=(), kept=None):
        self.checks += 1
        self.found.append(len(os.listdir(kept)) if kept else None)
        text = texts["src/part.rt"]
        lines = [CLAUSE.replace("first", "beside")] if self.is_spoilt and self.found[-1] else []
        if kept:
            pathlib.Path(kept, f"{self.checks}.oantt").touch()
        bodies = dict(re.findall(r"fn (\w+)\(\).*\n(?:.*\n\{\n)?    (.*)", text))
        for name in only or [f"part::{it}" for it in bodies]:
            lines += self.said_of(name, bodies[name[6:]], bodies)
        is_proved = text.count("wrong") + text.count("weak") == 0
        last = "" if only else "logic=proved" if is_proved else "logic=not-proved"
        unread = ["src/part.rt:2:1: error: cannot continue"] if "unread" in text else []
        return self.bodies.Checked("\n".join([*lines, *unread, last]), 0 if is_proved else 1, 0.0, 0.0)

    def said_of(self, name, body, bodies):
        waits = "not proved; it calls x, which is not proved"
        callee = body.removeprefix("waits for ")
        if callee != body:
            waits = waits.replace("x", f"`low::part::{callee}`")
            body = "wrong" if bodies[callee] in ("one", "two", "four") else "waits"
        error = f"./proofs/{name.replace('::', '/')}/Answers.antt:3:9: error"
        said = {
            "waits": [waits],
            "wrong": ["`search` did not prove `returns`"],
            "sum": ["`search` did not prove `overflow_add-sum`"],
            "wrong, and calls": [f"{error}: expected `1`, found `2`", waits],
            "wrong, and given up": ["could not tell"],
            "wrong by names": [f"{error}: record `After` has no field `y`", "not proved"],
            "wrong by names, and calls": [f"{error}: record `After` has no field `y`", waits],
        }
        *errors, line = said.get(body, ["proved"])
        return [*errors, f"fn low::{name}: {line}"]


class Room:
    """A crate, edits of it, and a prover that tries them."""

    def __init__(self, edits, folder):
        self.edits, self.folder = edits, folder
        self.source = folder / "src/part.rt"
        self.prover, self.made, self.was = None, 0, edits.wrong_bodies.check

    def __enter__(self):
        self.source.parent.mkdir()
        self.source.write_text("fn first() {\n    one\n}\n\nfn second() {\n    two\n}\n\nfn last() {\n    four\n}\n")
        for name in ("first", "second", "last"):
            answers = self.folder / "proofs/part" / name / "Answers.antt"
            answers.parent.mkdir(parents=True)
            answers.write_text(ANSWERS)
        return self

    def __exit__(self, *_):
        self.edits.wrong_bodies.check = self.was

    def edit(self, old, new):
        self.made += 1
        path = self.folder / f"{self.made}.edit"
        path.write_text(f"file: src/part.rt\nold: {old}\nnew: {new}\n")
        return str(path)

    def outcomes(self, *paths, is_spoilt=False):
        """What becomes of these edits, and the number of checks that it takes."""
        self.prover = Prover(self.edits.wrong_bodies, is_spoilt)
        self.edits.wrong_bodies.check = self.prover.check
        bad, trials = self.edits.trials_of(Crate(self.folder), paths)
        with contextlib.redirect_stdout(io.StringIO()):
            found = bad + self.edits.try_all(trials, None, 1, False)
        return sorted(it.outcome.name for it in found), self.prover.checks


def trial_tests():
    """Edits that are tried together, alone and over the whole crate, with a prover that says what its source tells it to."""
    edits = script("gate/more-edits")
    with tempfile.TemporaryDirectory() as room, Room(edits, pathlib.Path(room)) as tried:
        wrong, other = tried.edit("one", "wrong"), tried.edit("two", "wrong")
        yield "two edits together", tried.outcomes(wrong, other) == (["CLAUSE", "CLAUSE"], 1)
        yield "two edits of one function", tried.outcomes(wrong, tried.edit("one", "right")) == (["CLAUSE", "PROVED"], 3)
        yield "a sum that may wrap", tried.outcomes(tried.edit("one", "sum")) == (["SAFETY"], 1)
        calls = tried.edit("one", "wrong, and calls")
        yield "a clause that is refused beside a callee", tried.outcomes(calls, other) == (["CLAUSE", "CLAUSE"], 1)
        names = tried.edit("one", "wrong by names")
        yield "names alone", tried.outcomes(names, other) == (["CLAUSE", "NAMES"], 1)
        both = tried.edit("one", "wrong by names, and calls")
        yield "names beside a callee, tried again", tried.outcomes(both, other)[1] == 3
        given_up = tried.edit("one", "wrong, and given up")
        yield "an edit on which the prover gives up", tried.outcomes(given_up) == (["GAVE_UP"], 1)
        yield "the same beside another", tried.outcomes(given_up, other) == (["CLAUSE", "GAVE_UP"], 2)
        unread = tried.edit("one", "unread")
        yield "an edit that a caller refuses", tried.outcomes(tried.edit("one", "weak")) == (["NAMES"], 2)
        yield "an edit that can't be read", tried.outcomes(unread) == (["BAD"], 2)
        yield "an edit beside one that can't be read", tried.outcomes(unread, other) == (["BAD", "CLAUSE"], 4)
        yield "a text that isn't there", tried.outcomes(tried.edit("three", "wrong")) == (["BAD"], 0)
        yield "a text that stands twice", tried.outcomes(tried.edit("fn ", "fn"), other) == (["BAD", "CLAUSE"], 1)
        yield "an edit without a text", tried.outcomes(tried.edit("", "")) == (["BAD"], 0)
        tried.source.write_text("#[tactic(auto, unfolding(one))]\nfn first() {\n    let _value = *self;\n    one // first\n}\n")
        for what, old, new in [
            ("an attribute", "#[tactic(auto, unfolding(one))]", ""),
            ("a comment", "// first", "// wrong"),
            ("what is named for the proof", "let _value = *self;", ""),
            ("blanks", "    one", "  one"),
        ]:
            yield f"an edit of {what} alone", tried.outcomes(tried.edit(old, new)) == (["BAD"], 0)
        of_proof = tried.edit("goal.returns", "goal.other")
        path = pathlib.Path(of_proof)
        path.write_text(path.read_text().replace("src/part.rt", "proofs/part/first/Answers.antt"))
        yield "an edit of a proof", tried.outcomes(of_proof) == (["BAD"], 0)
        whole = edits.Trial(Crate(tried.folder), [])
        for file, line, wanted in [("part/first/Answers", 3, "CLAUSE"), ("part/first/Answers", 6, "SAFETY"), ("part/first/Invariants", 1, "INVARIANT"), ("Lemmas", 6, "CLAUSE")]:
            yield f"line {line} of {file}, of a whole crate", whole.of_goals([], [(f"proofs/{file}.antt", line, "")]).name == wanted
        tried.source.write_text("fn first()\n    ensures { result ≡ three }\n{\n    one\n}\n")
        yield "an edit of a clause", tried.outcomes(tried.edit("three", "four")) == (["BAD"], 0)
        yield "an edit that adds a clause", tried.outcomes(tried.edit("fn first()", "fn first() requires { two }")) == (["BAD"], 0)


def choice_tests():
    """Which edits the gate tries: all of must-fail and a tenth of the others, or with few jobs a sixth and a twentieth, other ones for each
    commit."""
    edits = script("gate/more-edits")
    first, others = edits.edits_in("bpf_same", "must-fail"), edits.edits_in("bpf_same", "more-edits")
    gate = {"all": False, "read": False, "gate": True, "must_fail": False}

    def tried(jobs, number):
        return edits.chosen("bpf_same", argparse.Namespace(**gate, jobs=jobs), number)[0]

    def by(commits, jobs, edits):
        """What so many commits try of these edits, each."""
        return [[it for it in tried(jobs, number) if it in edits] for number in range(commits)]

    sixths = by(6, 2, first)
    yield "a sixth with few jobs, and each edit by one of six commits", sorted(sum(sixths, [])) == first and all(sixths)
    yield "a twentieth of the others with few jobs, and each by one of twenty commits", sorted(sum(by(20, 2, others), [])) == others
    yield "all with many jobs", all(set(first) <= set(tried(4, number)) for number in range(10))
    yield "a tenth of the others, and each by one of ten commits", sorted(sum(by(10, 4, others), [])) == others


def kept_tests():
    """What the checks of a crate find of what the ones before kept."""
    edits = script("gate/more-edits")
    with tempfile.TemporaryDirectory() as room, Room(edits, pathlib.Path(room)) as tried:
        wrong, more, weak = tried.edit("one", "wrong"), tried.edit("one", "wrong, and calls"), tried.edit("one", "weak")
        tried.outcomes(wrong)
        yield "one edit, nothing kept", tried.prover.found == [None]
        tried.outcomes(wrong, more)
        yield "each check begins with what the ones before kept", tried.prover.found == [0, 1]
        yield "kept work that is spoilt", tried.outcomes(wrong, more, is_spoilt=True) == (["CLAUSE", "CLAUSE"], 3)
        yield "from nothing if it is spoilt", tried.prover.found == [0, 1, None]
        yield "an edit that a caller refuses, and another", tried.outcomes(weak, wrong) == (["CLAUSE", "NAMES"], 3)
        yield "callers are checked over what is kept", tried.prover.found == [0, 1, 2]
        own = pathlib.Path(room, "out/incremental")
        own.mkdir(parents=True)
        (own / "check.oantt").touch()
        tried.outcomes(wrong)
        yield "what a check of the crate kept", tried.prover.found == [1] and os.listdir(own) == ["check.oantt"]
    beside = edits.wrong_bodies.unproved_beside
    yield "a function beside that isn't proved", beside(CLAUSE, "low", {"second"}) == ["part::first"]
    yield "an edited one, one that waits and one that is proved", not any(beside(it, "low", {"first"}) for it in (CLAUSE, CALLEE, PROVED))
