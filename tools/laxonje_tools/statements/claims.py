"""docs/CLAIMS.md has claims of crates, docs/statements/rows.md the others too, and for each the functions whose contracts carry it; and
their links."""
import os
import pathlib
import re
import textwrap
from collections.abc import Callable, Iterator

from . import rattle
from .tree import Contract, Tree

WIDTH = 131
PAGE = pathlib.PurePath("docs/CLAIMS.md")
ROWS = pathlib.PurePath("docs/statements/rows.md")
# Between a claim, which the page of rows has from the page of claims, and what carries it.
BY = "*By* "
ITEM = re.compile(r"(?ms)^(?:(?:- |\d+\. ).*?(?=^- |^\d+\. |^$|\Z)|\|[^\n]*)")
QUALIFIED = re.compile(r"`(\w+(?:::\w+)+)`")
# A function's name, which stands in no link and in no brackets with the names of clauses.
NAME = re.compile(r"(?<![\[`])`((?:\w+::)*[a-z]\w*)`(?![\]`])")
# A link that this makes.
LINK = re.compile(r"\[(`[\w:]+`)\]\((?:\.\./)+crates/[^)]*\.rt\)")
BRACKETS = re.compile(r"\([^()]*\)")


def sections(text: str) -> Iterator[tuple[list[str], str]]:
    """The parts of the page, each with the crates of its headline."""
    for part in re.split(r"(?m)^(?=## )", text):
        head = part.partition("\n")[0]
        yield (re.findall(r"`(\w+)`", head) if head.startswith("## ") else []), part


def pages_of(tree: Tree) -> Iterator[tuple[pathlib.PurePath, str]]:
    """The page of claims and the page of their rows, each with its path."""
    yield from ((page, (tree.root / page).read_text(encoding="utf-8")) for page in (PAGE, ROWS))


def every_section(tree: Tree) -> Iterator[tuple[pathlib.PurePath, list[str], str]]:
    """The parts of both pages, each with its page and the crates of its headline."""
    for page, text in pages_of(tree):
        yield from ((page, crates, part) for crates, part in sections(text))


def numbered(text: str) -> dict[str, dict[int, str]]:
    """The numbered items of each part of a page, by its headline, without line breaks."""
    found: dict[str, dict[int, str]] = {}
    for _, part in sections(text):
        items = [re.match(r"(\d+)\. (.*)", " ".join(it.split())) for it in ITEM.findall(part)]
        found[part.partition("\n")[0]] = {int(it[1]): it[2] for it in items if it}
    return found


def with_claims(rows: str, claims: str) -> str:
    """The page of rows with the claims as the page of claims has them."""
    said = {head: numbered(LINK.sub(r"\1", claims)).get(head, {}) for head in numbered(claims)}

    def part_with_claims(part: str) -> str:
        here = said.get(part.partition("\n")[0], {})
        if not here:
            return part

        def item(found: re.Match) -> str:
            number, carried = int(found[1]), " ".join(found[2].split()).rpartition(BY)[2]
            row = f"{number}. {here[number]} {BY}{carried}" if number in here else found[0]
            return filled(row) + "\n"

        return re.sub(r"(?ms)^(\d+)\. (.*?)(?=^\d+\. |^$|\Z)", item, part)

    return "".join(part_with_claims(part) for _, part in sections(rows))


def is_named(contract: Contract, words: list[str]) -> bool:
    """Whether these words, a module or type and a function, name the function of a contract."""
    it = contract.item
    return isinstance(it, rattle.Function) and it.name == words[-1] and words[-2] in (it.owner, contract.crate, *contract.source.path)


def named(tree: Tree) -> Iterator[Contract]:
    """The contracts of the functions that the pages name by more than their names, public or not."""
    for _, crates, part in every_section(tree):
        for name in dict.fromkeys(QUALIFIED.findall(part)):
            for crate in crates:
                if crate in tree.crates:
                    yield from (it for it in tree.contracts(crate, is_public=False) if is_named(it, name.split("::")))


def read_files(tree: Tree) -> Iterator[tuple[str, tuple[str, ...]]]:
    """The files of definitions that the rows name, each by its crate and module."""
    for _, crates, part in every_section(tree):
        rows = "\n".join(ITEM.findall(part))
        for name in dict.fromkeys(re.findall(r"`([A-Z]\w*)`", rows)):
            yield from ((crate, (name,)) for crate in crates if crate in tree.crates and (name,) in tree.crates[crate].modules)


def linked(tree: Tree, text: str, page: pathlib.PurePath = PAGE) -> str:
    """A page with a link to its source at each function that it names: by its name if it is public, else by its module or type too."""
    bare = LINK.sub(r"\1", text)
    return "".join(linked_part(tree, [it for it in crates if it in tree.crates], part, page) for crates, part in sections(bare))


def linked_part(tree: Tree, crates: list[str], part: str, page: pathlib.PurePath) -> str:
    """The same of one part of the page."""
    public = [it for crate in crates for it in tree.contracts(crate)]
    every = [it for crate in crates for it in tree.contracts(crate, is_public=False)]
    clauses = {clause.name for it in every for clause in it.clauses}

    def with_link(found: re.Match) -> str:
        words = found[1].split("::")
        # in a table the names of clauses stand in no brackets
        if found.string.startswith("| ") and words[0] in clauses:
            return found[0]
        files = {it.source.file for it in public if isinstance(it.item, rattle.Function) and it.item.name == words[0]}
        if len(words) > 1:
            files = {it.source.file for it in every if is_named(it, words)}
        return f"[`{found[1]}`]({os.path.relpath(files.pop(), page.parent)})" if len(files) == 1 else found[0]

    return "".join(with_links(line, with_link) for line in re.split(r"(?m)^(?=- |\d+\. |\|)", part))


def with_links(text: str, with_link: Callable[[re.Match], str]) -> str:
    """A row with links at the names that stand in no brackets, before its wrong bodies; other text as it is."""
    row, rest = re.match(r"(?s)((?:- |\d+\. ).*?(?=\n\n|\Z)|\| [^\n]*)?(.*)", text).groups()
    if row is None:
        return text
    claim, by, carried = row.rpartition(BY)
    before, word, edits = carried.partition("refused:")
    pieces, start = [], 0
    for it in BRACKETS.finditer(before):
        pieces += [before[start : it.start()], it.group()]
        start = it.end()
    pieces.append(before[start:])
    mark = "| " if row.startswith("| ") else ""
    done = [NAME.sub(with_link, mark + it).removeprefix(mark) if number % 2 == 0 else it for number, it in enumerate(pieces)]
    return filled("".join([claim, by, *done, word, edits])) + rest


def filled(row: str) -> str:
    """An item of a list on lines that aren't too long."""
    if row.startswith("| ") or max(len(line) for line in row.split("\n")) <= WIDTH:
        return row
    end = "\n" * (len(row) - len(row.rstrip("\n")))
    indent = "  " if row.startswith("- ") else "   "
    return textwrap.fill(" ".join(row.split()), WIDTH, subsequent_indent=indent, break_long_words=False, break_on_hyphens=False) + end
