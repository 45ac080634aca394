"""Tests of the readers of definitions and contracts, on a small repository that is made up."""
import pathlib
import tempfile
from collections.abc import Iterator

from . import antt, claims, headlines, pages, proving
from .statement import Unknown, counts, function, lines_of, outside, part, statement, trait_lines, type_lines
from .tree import Node, Tree

FILES = {
    "crates.txt": "# a comment: no crate\nlow:\nhigh: low\n",
    "README.md": "# It\n\n## What is proved\n\n1. **It is\n   small**, and more.\n2. Another.\n\nText.\n\n## Open\n",
    "crates/low/src/lib.rt": "mod inner;\npub use inner::{Hidden, Shape, make};\npub use inner::thing::Thing;\n",
    "crates/low/src/inner.rt": """mod thing;
ghost use Rattle.low.specs.Base.{IsSmall, other};
/// A shape.
pub enum Shape { Round, Square(u32) }
use thing::Thing;
pub struct Hidden {
    size: Shape,
    pub thing: Option<Thing>,
}
pub struct Pair(pub Shape, Thing);
impl Hidden { fn own(&self) -> u32 ensures { IsSmall result } { 1 } }
/// Makes some.
///
/// By hand.
pub fn make(words: [u32; 3], shape: Shape) -> u32
    requires some { words.now ≡ words.now }
    ensures small { IsSmall result }
    // A remark; it has a brace: {
    ensures apart {
        other result
    }
{
    0
}
pub(crate) fn helper() ensures { other 1 } {}
""",
    "crates/low/src/inner/thing.rt": """ghost use Rattle.low.specs.Base.{one};
pub struct Thing { list: Vec<u32> }
impl Model for Thing {
    ghost use Rattle.low.specs.Base.{Kind, other};
    ghost Value = { Kind };
    ghost view = { λ t. t.list };
    ghost invariant = { λ t.
        other t.size };
}
impl Thing {
    pub fn count(&self) -> u32
        ensures { result ≡ one }
    { 1 }
}
#[cfg(test)]
mod tests;
""",
    "crates/low/specs/Lib.antt": "pub mod Base\n",
    "crates/low/specs/Base.antt": """-- Numbers (RFC 1, section 2).
use Rattle.std.specs.Prelude.{ℕ, ◌<◌}

-- the first number
abbrev pub one : ℕ
one = 1

abbrev pub IsSmall : ℕ → Type 0
IsSmall n = n < one

-- kinds
pub data Kind : Type 0 where
  Small : Kind
  Large : (n : ℕ) → IsSmall n → Kind

abbrev pub other : ℕ → Type 0
other n = IsSmall n

infixl 10 ◌>>=◌
abbrev pub ◌>>=◌ : ℕ → ℕ → ℕ
a >>= b = one
""",
    "crates/low/specs/Again.antt": "pub use Rattle.low.specs.Base.{IsSmall, one as first}\n",
    "crates/high/src/lib.rt": "ghost use Rattle.high.specs.Top.{by_alias};\npub fn law() ensures end { by_alias 1 } {}\n",
    "crates/high/specs/Top.antt": """-- What is above.
use Rattle.low.specs.Again.{IsSmall as IsLittle, first}
use Rattle.low.specs.Base.{Kind, Small as Tiny, other, one, ◌>>=◌}
use Rattle.low.specs.Base as base
use Rattle.low.specs.declared.inner.Shape.TheVariants as shape

abbrev pub by_alias : ℕ → Type 0
by_alias n = IsLittle n

abbrev pub by_hand : ℕ
by_hand = first

abbrev pub by_module : ℕ → Type 0
by_module n = base.other n

abbrev pub by_case : Kind → ℕ
by_case Tiny = 0
by_case k = 1

abbrev pub by_variant : ℕ → ℕ
by_variant (shape.Square one) = one

abbrev pub by_pattern : ℕ → ℕ
by_pattern one = one

abbrev pub by_lambda : ℕ → ℕ
by_lambda n = (λ one (other : ℕ). one) n

abbrev pub behind_lambda : ℕ → ℕ
behind_lambda n = (λ one. one) one

abbrev pub by_binder : Type 0
by_binder = ((one : ℕ) → one ≡ one) × (n : ℕ) → n ≡ n

abbrev pub by_let : ℕ
by_let = let one = 3 in one

abbrev pub by_text : ℕ
by_text = codes "one other"   -- one

abbrev pub by_field : ℕ
by_field = (record { one = 2 }).one

abbrev pub by_operator : ℕ
by_operator = 1 >>= 2

pub record Fields (other : ℕ) : Type 0 where
  pub one : ℕ
  pub both : one ≡ other

module _ (one : ℕ) where
  abbrev pub in_section : ℕ → Type 0
  in_section n = n ≡ one

abbrev pub behind_section : ℕ
behind_section = one
""",
    "docs/CLAIMS.md": """# Claims

## `low`

`must-fail` has 1 edits, `more-edits` 1.

1. What is made is small.
2. A kind is one of two.
""",
    "docs/statements/rows.md": """# Rows

## `low`

1. What is made is small. *By* `one` of all: `make` (`small`), `inner::helper`; `Base`; refused: `make`.
2. A kind is one of two. *By* `Thing::count` (`Kind`), `Base` (`Small`); also
   refused: `third`.
""",
    "crates/low/must-fail/make.edit": "",
    "crates/low/more-edits/third.edit": "",
}

ROWS = "docs/statements/rows.md"

# What each definition of Top names, of the crate below.
BELOW = {
    "by_alias": {"IsSmall"},
    "by_hand": {"one"},
    "by_module": {"other"},
    "by_case": {"Kind"},
    "by_variant": {"Shape"},
    "by_pattern": set(),
    "by_lambda": set(),
    "behind_lambda": {"one"},
    "by_binder": set(),
    "by_let": set(),
    "by_text": set(),
    "by_field": set(),
    "by_operator": {"◌>>=◌"},
    "Fields": set(),
    "in_section": set(),
    "behind_section": {"one"},
}


def written(root: pathlib.Path, files: dict[str, str]) -> Tree:
    """A repository of these files."""
    for name, text in files.items():
        path = root / name
        path.parent.mkdir(parents=True, exist_ok=True)
        path.write_text(text, encoding="utf-8")
    return Tree(root)


def is_unknown(tree: Tree, path: str) -> bool:
    try:
        part(tree, path)
    except Unknown:
        return True
    return False


def has_no_claims(root: pathlib.Path) -> bool:
    """Whether it is said in a line that there are no claims, or none that can be read."""
    answers = []
    for text in (None, "claim = [", "", "[[claim]]\nnumber = 3\n", "[[claim]]\nnumber = 2\n"):
        if text is not None:
            (root / headlines.LIST).parent.mkdir(exist_ok=True)
            (root / headlines.LIST).write_text(text, encoding="utf-8")
        try:
            answers.append(headlines.claims(root) and False)
        except Unknown:
            answers.append(True)
    return all(answers)


def parts_of(root: pathlib.Path, *names: str) -> list[list[str]]:
    """The pages of the claims of these names, of one that has two parts."""
    one = '[[claim]]\nnumber = 1\npart = "{}"\nreading = ""\ncontracts = []\nrefused = []\n'
    (root / headlines.LIST).write_text(one.format("make") + one.format("take"), encoding="utf-8")
    return [[it.name for it in headlines.claim(root, name)] for name in names]


def tests() -> Iterator[tuple[str, bool]]:
    with tempfile.TemporaryDirectory() as room:
        tree = written(pathlib.Path(room), FILES)
        yield from definition_tests(tree)
        yield from contract_tests(tree)
        yield from page_tests(tree)
    yield from repository_tests(pathlib.Path(__file__).resolve().parents[3])


# A file that no contract reaches, and an import of it into one that contracts do.
MACHINERY = "use Rattle.low.specs.Base.{one}\n\nabbrev pub two : ℕ\ntwo = one\n"
IMPORTS = "use Rattle.low.specs.Machinery.{two}\n\nabbrev pub three : ℕ\nthree = two\n"


def stated_tests(stated) -> Iterator[tuple[str, bool]]:
    """Tests of the script `stated`, as a module."""
    with tempfile.TemporaryDirectory() as room:
        root = pathlib.Path(room)
        files = {**FILES, "crates/low/specs/Machinery.antt": MACHINERY}
        tree = written(root, files)
        yield "first lines that are missing", len(stated.findings(tree)) == 4
        stated.write(tree)
        tree = Tree(root)
        proofs = [module.path for _, module in stated.modules(tree) if module.head == stated.FOR_PROOFS]
        yield "files for proofs", proofs == [("Again",), ("Machinery",)]
        yield "first lines as they should be", stated.findings(tree) == []
        found = stated.findings(written(root, {ROWS: FILES[ROWS].replace("`Base`;", "`Machinery`;")}))
        yield "a row that names machinery", len(found) == 1 and "names Machinery of low" in found[0]
        written(root, {ROWS: FILES[ROWS]})
        before = (root / "crates/low/specs/Base.antt").read_text(encoding="utf-8")
        stated.write(tree)
        yield "lines are written once", (root / "crates/low/specs/Base.antt").read_text(encoding="utf-8") == before
        yield from row_tests(stated, root)
        pair = "pub mod facts;\npub use facts::Fact;\n" + FILES["crates/low/src/lib.rt"]
        fact = "ghost use Rattle.low.specs.Machinery.{two};\npub struct Fact {\n    size: u32,\n    ghost few: { size ≡ two },\n}\n"
        fact += "impl Fact {\n    pub fn make() -> Fact { Fact { size: 1 } }\n}\n"
        tree = written(root, {"crates/low/src/lib.rt": pair, "crates/low/src/facts.rt": fact})
        yield "what an invariant alone reaches", [it[-len(stated.STATED) :] for it in stated.findings(tree)] == [stated.STATED]
        fact = fact.replace("pub struct Fact {\n    size: u32,", "pub struct Fact {\n    inside: Inside,\n}\nstruct Inside {\n    size: u32,")
        tree = written(root, {"crates/low/src/facts.rt": fact})
        yield "what one of a type within alone reaches", [it[-len(stated.STATED) :] for it in stated.findings(tree)] == [stated.STATED]
        tree = written(root, {"crates/low/src/lib.rt": FILES["crates/low/src/lib.rt"]})
        (root / "crates/low/src/facts.rt").unlink()
        tree = written(root, {"crates/low/specs/Base.antt": before + "\n" + IMPORTS})
        found = stated.findings(tree)
        yield "an import of machinery", len(found) == 1 and "imports two" in found[0]


def row_tests(stated, root: pathlib.Path) -> Iterator[tuple[str, bool]]:
    """Rows that name what isn't there, and wrong bodies that no row names."""
    edits, page = root / "crates/low/must-fail", FILES[ROWS]

    def found(text: str) -> list[str]:
        return stated.findings(written(root, {ROWS: text}))

    (edits / "make.edit").rename(edits / "made.edit")
    names = found(page)
    yield "a wrong body that is deleted", any("names make, which isn't in must-fail of low" in it for it in names)
    yield "a wrong body that no row names", any("no row names made of crates/low/must-fail" in it for it in names)
    (edits / "made.edit").rename(edits / "make.edit")
    (root / "crates/low/more-edits/fourth.edit").touch()
    yield "another number of wrong bodies", [it for it in found(page) if "`must-fail` has 1 edits, `more-edits` 2" in it] != []
    stated.write(Tree(root))
    yield "the numbers are written", stated.findings(Tree(root)) == []
    (root / "crates/low/more-edits/fourth.edit").unlink()
    same = {f"crates/low/{it}.edit": "file: a\nold: b\nnew: c\n" for it in ("must-fail/make", "more-edits/third")}
    yield "a wrong body that is another's copy", stated.findings(written(root, same))[0].endswith("low/more-edits/third.edit are one wrong body")
    written(root, dict.fromkeys(same, ""))
    written(root, {"docs/CLAIMS.md": FILES["docs/CLAIMS.md"]})
    for old, new in (("`make` (`small`)", "`make` (`large`)"), ("(`Kind`)", "(`other`)"), ("`Base` (`Small`)", "`Base` (`Tiny`)")):
        stale = [it for it in found(page.replace(old, new)) if "is neither there nor reached" in it]
        yield f"a stale name, {new}", len(stale) == 1
    for old, new in (("`Base`;", "`Bass`;"), ("`inner::helper`", "`inner::helped`"), ("`one` of all", "`once` of all")):
        yield f"what carries a row and isn't there, {new}", any(it.endswith(", which nothing has") for it in found(page.replace(old, new)))
    unread = found(page.replace("`make` (`small`)", "`make`'s (`large`)"))
    yield "brackets behind no name", len(unread) == 1 and "(`large`): no function" in unread[0]
    yield "a stale path in brackets", any("large is neither" in it for it in found(page.replace("(`small`)", "(`Thing::large`)")))
    yield "a wrong body of the other folder", any("third, which isn't in must-fail" in it for it in found(page.replace("also\n   ", "")))
    yield "a row without a wrong body", any(it.endswith(" 2 names no wrong body") for it in found(page.partition("; also")[0] + ".\n"))
    yield "a row that says so", found(page.replace("refused: `third`", "no wrong body of its own: it follows").replace("also\n   ", "")) == []
    yield "a claim without a row", any("claim 2 has no row" in it for it in found(page.partition("2. ")[0]))
    yield "a row without a claim", any(it.endswith(" 3 has no claim") for it in found(page + "3. *By* `make`; refused: `make`.\n"))
    written(root, {"docs/CLAIMS.md": FILES["docs/CLAIMS.md"].replace("1. What", "- Refused too: `make` (`tiny`); refused: `fourth`.\n\n1. What")})
    names = found(page)
    yield "a row of the page of claims", len(names) == 2 and "tiny is neither" in " ".join(names) and "names fourth, which" in " ".join(names)
    written(root, {"docs/CLAIMS.md": FILES["docs/CLAIMS.md"]})
    yield "rows as they should be", found(page) == []
    yield from alone_tests(stated, root)


def alone_tests(stated, root: pathlib.Path) -> Iterator[tuple[str, bool]]:
    """Claims that the page of rows has alone, as the page of claims says of their crates."""
    rows, left = FILES[ROWS], " On the page of rows alone are those of `low`."

    def found(said: str, rows: str = rows) -> list[str]:
        page = f"# Claims\n\n`must-fail` has 1 edits, `more-edits` 1.{said}\n"
        return stated.findings(written(root, {"docs/CLAIMS.md": page, ROWS: rows}))

    yield "claims of rows alone", found(left) == []
    yield "a headline that is deleted", [it for it in found("") if it.endswith(" has no claim")] == found("") and len(found("")) == 2
    unsaid = found(left, rows.replace("A kind is one of two. ", ""))
    yield "a row alone without a claim", [it.endswith(" 2 has no claim") for it in unsaid] == [True]
    yield "a crate without rows", any(it.startswith(f"{ROWS}: high has no rows") for it in found(left.replace("`low`", "`low`, `high`")))
    yield "rows alone stay", claims.with_claims(rows, "# Claims\n") == rows
    written(root, {"docs/CLAIMS.md": FILES["docs/CLAIMS.md"], ROWS: rows})


def definition_tests(tree: Tree) -> Iterator[tuple[str, bool]]:
    for name, wanted in BELOW.items():
        found = {it.name for it in tree.below(Node("definition", "high", ("Top",), name))}
        yield f"what {name} names", found == wanted
    kind = tree.definition_of(Node("definition", "low", ("Base",), "Kind"))
    yield "cases, comment and line of a definition", (kind.cases, kind.comment, kind.line) == (["Small", "Large"], ["-- kinds"], 11)
    yield "what a case names", Node("definition", "low", ("Base",), "IsSmall") in tree.below(Node("definition", "low", ("Base",), "Kind"))
    order = [it.name for it in tree.closure([Node("definition", "low", ("Base",), "Kind")])]
    yield "lowest first", order == ["one", "IsSmall", "Kind"]
    for name, wanted in (("Hidden", {"Thing"}), ("Pair", {"Shape"})):
        found = {it.name for it in tree.below(Node("type", "low", ("inner",), name))}
        yield f"the public fields of {name}", found == wanted
    yield "a type by its Model", [it.name for it in tree.below(Node("type", "low", ("inner", "thing"), "Thing"))] == ["Kind"]


def repository_tests(root: pathlib.Path) -> Iterator[tuple[str, bool]]:
    """Almost every import of the repository's own definitions is named by one, so the reader sees what they name."""
    tree, unread, count = Tree(root), [], 0
    for crate in tree.crates.values():
        for module in crate.modules.values():
            own = {name for name, it in module.imports.items() if it.path[1] in tree.crates and not it.is_public}
            unread += [f"{module.file} {name}" for name in own - named_in(tree, crate.name, module)]
            count += len(own)
    yield f"imports that no definition names: {unread}", count > 0 and 100 * len(unread) <= count


def named_in(tree: Tree, crate: str, module: antt.Module) -> set[str]:
    """The words that the definitions of a file name, operators with the places of their operands."""
    found = [name for it in module.definitions for name, _ in antt.free_in(it, lambda word: tree.is_case(crate, module, word))]
    return {*found, *(f"◌{name}◌" for name in found)}


def contract_tests(tree: Tree) -> Iterator[tuple[str, bool]]:
    public = {it.path for it in tree.contracts("low")}
    yield "public contracts", public == {"low::inner::make", "low::inner::thing::Thing::count"}
    make = function(tree, "low::make").item
    yield "clauses after a semicolon in a type", [it.name for it in make.clauses] == ["some", "small", "apart"]
    yield "a clause on lines of its own", (make.clauses[2].text, make.clauses[2].last - make.clauses[2].line) == ("other result", 2)
    yield "documentation", make.docs == ["Makes some.", "", "By hand."]
    small = statement(tree, [part(tree, "low::make (small)")])
    yield "one clause alone", [it.name for it in small.nodes] == ["one", "IsSmall"]
    yield "counts", str(counts(tree, small)) == "2 definitions of 5 lines, in 1 file of 1 crate"
    yield "words of the kit", outside(tree, small) == {"Rattle.std.specs.Prelude": ["ℕ", "◌<◌"]}
    text = "\n".join(pages.contract_lines(small.parts[0]))
    yield "other clauses aren't shown", "ensures small" in text and "other" not in text and "requires some" in text
    yield "no comment without its clause", "A remark" not in text
    thing = Node("type", "low", ("inner", "thing"), "Thing")
    yield "what only an invariant reaches", [it.name for it in tree.premises(tree.closure([thing]))] == ["other"]
    bus = "pub trait Bus {\n    // How many.\n    ghost size: { Self → ℕ };\n\n    /// Reads.\n    fn read(&self) -> u32\n        ensures { a };\n\n"
    bus += "    fn runs(&self)\n        ensures { b }\n    {\n        0\n    }\n    fn own(&self) {\n        1\n    }\n}"
    seen = ["pub trait Bus {", "    // How many.", "    ghost size: { Self → ℕ };", "    fn read(&self) -> u32", "        ensures { a };"]
    seen += ["    fn runs(&self)", "        ensures { b };", "    fn own(&self);", "}"]
    yield "a trait, without bodies", trait_lines(bus) == seen
    yield "an invariant, on a line", any("ghost invariant = { λ t. other t.size };" in it for it in lines_of(tree, thing))
    loan = "(record { mir = named 1; lft = [] })"
    lent = f"ensures* after {{ sem 𝓛 (follows_so\n    (the_row {loan} {loan})\n    (the_row {loan})\n"
    lent += "    self.entry.ghost_name none (λ _ _. ⊤)\n    (λ q. IsOver self.old q result)) }"
    yield "what holds once a loan has ended", pages.LOAN.sub(r"\1 \2 \3 \4", lent) == "after self q IsOver self.old q result"
    known = statement(tree, [part(tree, "low::make")], ["IsSmall"])
    yield "a word that is known", ([it.name for it in known.nodes], [it.name for it in known.known]) == (["other"], ["IsSmall"])
    paths = [proving.prover_path(tree, function(tree, it)) for it in ("low::make", "low::Thing::count", "low::Hidden::own")]
    yield "functions as the prover names them", paths == ["inner::make", "inner::thing::Thing::count", "inner::Hidden::own"]
    for path in ("low", "none::make", "low::none", "low::make (none)"):
        yield f"no contract {path}", is_unknown(tree, path)


def page_tests(tree: Tree) -> Iterator[tuple[str, bool]]:
    said = headlines.sentences(FILES["README.md"])
    yield "README's claims", said == {1: "**It is small**, and more.", 2: "Another."}
    text = claims.linked(tree, FILES[ROWS].replace("*By* ", ""))
    row = "`one` of all: [`make`](../crates/low/src/inner.rt) (`small`), [`inner::helper`](../crates/low/src/inner.rt); `Base`; refused: `make`."
    yield "claims that aren't there", has_no_claims(tree.root)
    yield "a claim of two parts", parts_of(tree.root, "1", "1-take") == [["1-make", "1-take"], ["1-take"]]
    yield "links of a row", row in " ".join(text.split())
    yield "links are made once", claims.linked(tree, text) == text
    rows = claims.with_claims(FILES[ROWS], FILES["docs/CLAIMS.md"].replace("What is made", "All that\n   is made"))
    yield "claims go to their rows", "1. All that is made is small. *By* `one` of all" in " ".join(rows.split()) and rows.count("*By*") == 2
    yield "which is done once", claims.with_claims(rows, FILES["docs/CLAIMS.md"].replace("What is made", "All that is made")) == rows
    linked = claims.linked(tree, rows, claims.ROWS)
    yield "a row's links", "[`make`](../../crates/low/src/inner.rt)" in linked and claims.linked(tree, linked, claims.ROWS) == linked
    yield "a type that fits on a line", type_lines("pub enum E {\n    A,\n    B { x: u32 },\n}") == ["pub enum E { A, B { x: u32 } }"]
    long = ", ".join(f"field{number}: u32" for number in range(20))
    yield "a type that doesn't", [len(it) < 121 for it in type_lines(f"pub struct S {{ {long} }}")] == [True] * 5
