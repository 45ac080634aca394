"""README's claims and what carries each, from docs/statements/claims.toml."""
import dataclasses
import pathlib
import re
import tomllib

from .statement import Statement, Unknown, part, statement
from .tree import Tree

LIST = pathlib.PurePath("docs/statements/claims.toml")


@dataclasses.dataclass(frozen=True)
class Claim:
    """A claim: its number and sentence in README, how its contracts say that, the contracts as claims.toml writes them, the wrong bodies
    that are refused, the claims whose pages are read before its own, and the files that its page gives in full: all if none is named."""

    number: int
    sentence: str
    reading: str
    contracts: tuple[str, ...]
    refused: tuple[str, ...]
    after: tuple[str, ...] = ()
    shown: tuple[str, ...] = ()
    part: str = ""

    @property
    def name(self) -> str:
        """Its page's name."""
        return f"{self.number}-{self.part}" if self.part else f"{self.number}"

    @property
    def headline(self) -> str:
        """The sentence's part in bold, or all of it."""
        found = re.search(r"\*\*(.+?)\*\*", self.sentence)
        return found[1] if found else self.sentence


@dataclasses.dataclass(frozen=True)
class Chapter:
    """A chapter of the headline's page: its title, its text and the files whose definitions it has; types if it names none."""

    title: str
    text: str
    files: tuple[str, ...]


@dataclasses.dataclass(frozen=True)
class Theorem:
    """The headline's page: its contract, the words that it takes as known, each with what it says, its first and last text, and its
    chapters."""

    contract: str
    known: dict[str, str]
    sentence: str
    outside: str
    chapters: tuple[Chapter, ...]


def sentences(readme: str) -> dict[int, str]:
    """The items of README's list of what is proved, by their numbers."""
    proved = readme.partition("\n## What is proved\n")[2].partition("\n## ")[0]
    items = re.findall(r"(?ms)^(\d+)\. (.+?)(?=^\d+\. |^\S|\n\n|\Z)", proved)
    return {int(number): re.sub(r"\s+", " ", text).strip() for number, text in items}


def table(root: pathlib.Path) -> dict:
    """What claims.toml says."""
    try:
        with open(root / LIST, "rb") as file:
            return tomllib.load(file)
    except (OSError, tomllib.TOMLDecodeError) as why:
        raise Unknown(f"{LIST}: {why}") from why


def field(it: dict, key: str):
    """A value of claims.toml, which has to be there."""
    if key not in it:
        raise Unknown(f"{LIST}: a table lacks {key}")
    return it[key]


def claims(root: pathlib.Path) -> list[Claim]:
    """The claims, in their order."""
    said = sentences((root / "README.md").read_text(encoding="utf-8"))
    found = []
    for it in field(table(root), "claim"):
        number = field(it, "number")
        if number not in said:
            raise Unknown(f"README has no claim {number}")
        lists = [tuple(field(it, key)) for key in ("contracts", "refused")]
        lists += [tuple(f"{each}" for each in it.get(key, ())) for key in ("after", "shown")]
        found.append(Claim(number, said[number], field(it, "reading").strip(), *lists, it.get("part", "")))
    return found


def without_contracts(root: pathlib.Path) -> list[int]:
    """The numbers of README's claims that no contract carries."""
    said = sentences((root / "README.md").read_text(encoding="utf-8"))
    carried = {it.number for it in claims(root) if it.contracts}
    return [number for number in said if number not in carried]


def claim(root: pathlib.Path, name: str) -> list[Claim]:
    """The claim of this number, by its parts, or the part of this name."""
    every = claims(root)
    found = [it for it in every if name in (str(it.number), it.name)]
    if not found:
        raise Unknown(f"no claim {name}: README has {', '.join(dict.fromkeys(str(it.number) for it in every))}")
    return found


def theorem(root: pathlib.Path) -> Theorem:
    """What the headline's page is made of."""
    it = field(table(root), "theorem")
    chapters = tuple(Chapter(field(each, "title"), field(each, "text").strip(), tuple(each.get("files", ()))) for each in field(it, "chapter"))
    return Theorem(field(it, "contract"), field(it, "known"), field(it, "sentence").strip(), field(it, "outside").strip(), chapters)


def of_claim(tree: Tree, it: Claim) -> Statement:
    return statement(tree, [part(tree, text) for text in it.contracts])


def edit_path(root: pathlib.Path, name: str) -> pathlib.PurePath:
    """The file of a wrong body that is named `crate/name`."""
    crate, _, edit = name.partition("/")
    for folder in ("must-fail", "more-edits"):
        path = pathlib.PurePath("crates", crate, folder, f"{edit}.edit")
        if (root / path).is_file():
            return path
    raise Unknown(f"no wrong body {name}: it has to be in crates/{crate}/must-fail or more-edits")
