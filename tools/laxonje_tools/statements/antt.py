"""Files of definitions, `specs/*.antt`: their imports and their definitions."""
import dataclasses
import pathlib
import re
from collections.abc import Callable, Iterator

from .words import Reader, clause_words, free_words, words

USE = re.compile(r"^(pub )?use ([^\s{]+?)(?:\.\{([^}]*)\}| as (\S+))?$")
HEAD = re.compile(r"^(?:(abbrev|unfoldable|opaque|def|data|record|infix[lr]?) )?(?:pub )?(?:(data|record) )?(?:\d+ )?([^\s:({]+)")
IMPORTS = ("use ", "pub use ", "pub mod ", "mod ")
BEGINS = re.compile(r"^(?:abbrev|unfoldable|opaque|def|data|record|infix[lr]?|pub) ")
CASE = re.compile(r"^  (?:pub )?([^\s:({]+(?: [^\s:({]+)*) :")


@dataclasses.dataclass(frozen=True)
class Import:
    """A name that a file knows: `name` of the module `path`, or the module itself if `name` is empty."""

    path: tuple[str, ...]
    name: str
    is_public: bool
    line: int


@dataclasses.dataclass
class Definition:
    """A definition: its text with the comment above it. `cases` are the constructors of a `data`; `section` is the line `module _ ..`
    that it stands under, whose parameters it knows."""

    module: tuple[str, ...]
    name: str
    file: str
    line: int
    lines: list[str]
    kind: str
    cases: list[str] = dataclasses.field(default_factory=list)
    section: str = ""

    @property
    def comment(self) -> list[str]:
        return [it for it in self.lines if it.startswith("--")]

    @property
    def body(self) -> list[str]:
        return [it for it in self.lines if not it.startswith("--")]


@dataclasses.dataclass
class Module:
    """A file of definitions. `head` is its first line."""

    path: tuple[str, ...]
    file: str
    head: str
    imports: dict[str, Import]
    definitions: list[Definition]


def imports_of(line: str, number: int) -> Iterator[tuple[str, Import]]:
    """The names that a `use` line brings in, each with where it comes from."""
    found = USE.match(line)
    if not found:
        return
    is_public, path, names, alias = bool(found[1]), tuple(found[2].split(".")), found[3], found[4]
    if names is None:
        yield alias or path[-1], Import(path, "", is_public, number)
        return
    for it in names.split(","):
        name, _, other = it.strip().partition(" as ")
        if name:
            yield (other or name).strip(), Import(path, name.strip(), is_public, number)


def definition_of(module: tuple[str, ...], file: str, first: int, lines: list[str], section: str) -> Definition:
    body = [it for it in lines if not it.startswith("--")]
    head = next((it for it in body if not it.startswith("infix")), body[0])
    found = HEAD.match(head)
    if found is None:  # of a section in a section, which isn't read
        return Definition(module, "", file, first, lines, "def", [], section)
    kind = found[2] or found[1] or "def"
    cases = []
    if kind == "data":
        cases = [name for it in body[1:] if (case := CASE.match(it)) for name in case[1].split(" ")]
    return Definition(module, found[3], file, first, lines, kind, cases, section)


def blocks_of(lines: list[str]) -> Iterator[tuple[int, list[str], str]]:
    """Each definition's lines, the comment above it among them, with the number of the first and the section that it stands in."""
    block, first, has_body, section = [], 0, False, ""
    for number, line in enumerate([*lines, ""], 1):
        if section and line.startswith("  "):
            line = line[2:]
        elif line:
            section = ""
        is_comment = line.startswith("--")
        ends = line == "" or is_comment or (bool(BEGINS.match(line)) and not (has_body and block[-1].startswith("infix")))
        if has_body and ends:
            yield first, block, section
        if line == "" or (has_body and ends):
            block, has_body = [], False
        if line.startswith("module _ "):
            section, block = line, []
        elif line and not line.startswith(IMPORTS):
            first = first if block else number
            block.append(line)
            has_body = has_body or not is_comment
        else:
            block = []


def read(path: pathlib.Path, module: tuple[str, ...], file: str) -> Module:
    """The module that a file holds."""
    lines = path.read_text(encoding="utf-8").splitlines()
    imports = {}
    for number, line in enumerate(lines, 1):
        imports.update(imports_of(line, number))
    definitions = [definition_of(module, file, *it) for it in blocks_of(lines)]
    return Module(module, file, lines[0] if lines else "", imports, definitions)


FIELD = re.compile(r"\n(?=  (?:pub )?[^\s:({]+(?: [^\s:({]+)* :)")


def free_in(definition: Definition, is_case: Callable[[str], bool]) -> Iterator[tuple[str, str | None]]:
    """Each word of a definition that it doesn't bind itself, with the member that is taken of it."""
    body = "\n".join(definition.body)
    section = Reader(words(definition.section.removeprefix("module _").removesuffix("where")), set())
    yield from section.free()
    known = section.frames[0]
    if definition.kind in ("data", "record"):
        yield from free_in_type(FIELD.split(body), definition.kind == "record", known)
        return
    for piece in re.split(r"\n(?=\S)", body):
        if BEGINS.match(piece):
            yield from free_words(piece, known)
        else:
            yield from clause_words(piece, is_case, known)


def free_in_type(pieces: list[str], is_record: bool, known: set[str]) -> Iterator[tuple[str, str | None]]:
    """The words of a type's head, and of its fields or cases; a record's field is known in the fields below it."""
    head = Reader(words(pieces[0]), known)
    yield from head.free()
    bound = set(head.frames[0])
    for piece in pieces[1:]:
        names, _, kind = piece.partition(" :")
        yield from free_words(kind, bound)
        if is_record:
            bound |= set(names.split()) - {"pub"}
