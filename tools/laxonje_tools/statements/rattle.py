"""Sources, `src/*.rt`: their imports, their types, and their functions with the clauses of their contracts."""
import dataclasses
import pathlib
import re
from collections.abc import Iterator

from .antt import Import, imports_of

# Comments, strings, of which a line may go on in the next one, and characters.
CODE = re.compile(r'//[^\n]*|b?"(?:\\[\s\S]|[^"\\])*"|b?\'(?:\\.|[^\\\'\n])\'')
ITEM = re.compile(
    r"(?P<test>#\[cfg\(test\)\]\s*)?(?:#\[[^\]]*\]\s*)*(?P<pub>pub(?P<inside>\([a-z ]+\))? )?"
    r'(?:(?P<ghost>ghost use) (?P<spec>[^;]+);|(?P<use>use) (?P<path>[^;]+);|(?:const |unsafe |extern\s+)*(?P<fn>fn) (?P<name>\w+)'
    r"|(?:unsafe )?(?P<impl>impl)\b|(?P<kind>struct|enum|trait|mod|type|const|static|macro_rules!) (?P<called>\w+)"
    r"|ghost (?P<member>\w+)\s*(?P<sign>[=:])\s*\{)"
)
CLAUSE = re.compile(r"\b(requires|ensures)(\*?)(?: (\w+))?\s*\{")
TYPE_NAME = re.compile(r"(?<![\w.])(?:\w+::)*([A-Z]\w*)")


@dataclasses.dataclass(frozen=True)
class Clause:
    """A clause of a contract, or a ghost member of an impl, a trait or a struct: its words `ensures`, `requires` or `ghost`; and its
    first and last line."""

    kind: str
    name: str
    text: str
    line: int
    last: int


@dataclasses.dataclass
class Function:
    """A function: `owner` is the type of its impl or the trait that declares it, `trait` the trait that the impl is of."""

    name: str
    owner: str
    trait: str
    is_public: bool
    line: int
    signature: str
    clauses: list[Clause]
    text: str
    docs: list[str]
    imports: dict[str, Import]


@dataclasses.dataclass
class Type:
    """A struct, an enum or a trait."""

    name: str
    kind: str
    is_public: bool
    line: int
    text: str


def ghost_fields(it: Type) -> list[tuple[str, str]]:
    """The ghost fields of a struct, which each value of it meets: their names and what they say."""
    if it.kind != "struct":
        return []
    found = []
    for field in re.finditer(r"(?m)^\s*ghost (\w+): (?=\{)", it.text):
        end = end_of(it.text, field.end())
        found.append((field[1], re.sub(r"\s+", " ", it.text[field.end() + 1 : end - 1]).strip()))
    return found


@dataclasses.dataclass
class Impl:
    """An impl: its ghost members, over the imports that it knows."""

    owner: str
    trait: str
    line: int
    members: list[Clause]
    imports: dict[str, Import]


@dataclasses.dataclass
class Source:
    """A file of src/, which is the module `path` of its crate. `uses` are its imports of items: (path, name, alias, whether they are handed on)."""

    path: tuple[str, ...]
    file: str
    imports: dict[str, Import] = dataclasses.field(default_factory=dict)
    uses: list[tuple[tuple[str, ...], str, str, bool]] = dataclasses.field(default_factory=list)
    modules: dict[str, bool] = dataclasses.field(default_factory=dict)
    types: list[Type] = dataclasses.field(default_factory=list)
    functions: list[Function] = dataclasses.field(default_factory=list)
    impls: list[Impl] = dataclasses.field(default_factory=list)


def masked(text: str) -> str:
    """The text with its comments and strings blank, so that places stay the same."""
    return CODE.sub(lambda it: re.sub(r"[^\n]", " ", it.group()), text)


def end_of(code: str, start: int) -> int:
    """The place after the brace that closes the one at `start`."""
    depth = 0
    for it in re.compile(r"[{}]").finditer(code, start):
        depth += 1 if it.group() == "{" else -1
        if depth == 0:
            return it.end()
    return len(code)


def stop_at(code: str, at: int) -> int:
    """The place of the first brace or semicolon that stands in no round or square bracket."""
    depth = 0
    for it in re.compile(r"[\[\](){};]").finditer(code, at):
        sign = it.group()
        if depth <= 0 and sign in "{;":
            return it.start()
        depth += (sign in "[(") - (sign in "])")
    return len(code)


def paths_of(text: str, before: tuple[str, ...] = ()) -> Iterator[tuple[tuple[str, ...], str, str]]:
    """What a `use` brings in: each path, its last name, and the name that it has here."""
    text = text.strip()
    if text.endswith("}") and "{" in text:
        head, _, inside = text.partition("{")
        path = (*before, *(it for it in head.strip().split("::") if it))
        depth, start = 0, 0
        for at, sign in enumerate(inside):
            depth += (sign == "{") - (sign == "}")
            if (sign == "," and depth == 0) or depth < 0:
                if inside[start:at].strip():
                    yield from paths_of(inside[start:at], path)
                start = at + 1
        return
    whole, _, alias = text.partition(" as ")
    *path, name = whole.strip().split("::")
    yield (*before, *path), name, (alias or name).strip()


class Scanner:
    """Reads the items of one file."""

    def __init__(self, text: str, source: Source):
        self.text, self.code, self.source = text, masked(text), source

    def line(self, at: int) -> int:
        return self.text.count("\n", 0, at) + 1

    def scan(self, start: int, end: int, owner: str, trait: str, imports: dict[str, Import], all_public: bool) -> list[Clause]:
        """Reads the items between two places; what is there of ghost members."""
        members, at = [], start
        while (found := ITEM.search(self.code, at, end)) is not None:
            at = self.item(found, owner, trait, imports, all_public, members)
        return members

    def item(self, found: re.Match, owner: str, trait: str, imports: dict[str, Import], all_public: bool, members: list[Clause]) -> int:
        """Reads one item, and says where it ends."""
        is_public = all_public or (bool(found["pub"]) and not found["inside"])
        if found["ghost"]:
            imports.update(imports_of("use " + re.sub(r"\s+", " ", found["spec"]).replace(", }", "}"), self.line(found.start("ghost"))))
            return found.end()
        if found["use"]:
            self.source.uses += [(*it, is_public) for it in paths_of(found["path"])]
            return found.end()
        if found["fn"]:
            return self.function(found, owner, trait, imports, is_public)
        if found["member"]:
            end = end_of(self.code, found.end() - 1)
            members.append(self.clause("ghost", found["member"], found.start("member"), found.end(), end))
            return end
        if found["impl"]:
            return self.implementation(found)
        return self.declaration(found, is_public)

    def declaration(self, found: re.Match, is_public: bool) -> int:
        """Reads a type, a trait, a module or a constant."""
        kind, name = found["kind"], found["called"]
        stop = stop_at(self.code, found.end())
        end = end_of(self.code, stop) if self.code.startswith("{", stop) else stop + 1
        if kind == "mod" and not found["test"]:
            self.source.modules[name] = is_public
        if kind in ("struct", "enum", "trait"):
            start = self.text.rfind("\n", 0, found.start("pub") if found["pub"] else found.start("kind")) + 1
            self.source.types.append(Type(name, kind, is_public, self.line(start), self.text[start:end]))
        if kind == "trait":
            imports = dict(self.source.imports)
            members = self.scan(stop + 1, end - 1, name, "", imports, True)
            self.source.impls.append(Impl(name, name, self.line(found.start("kind")), members, imports))
        return end

    def implementation(self, found: re.Match) -> int:
        """Reads an impl, with its functions."""
        brace = self.code.find("{", found.end())
        end = end_of(self.code, brace)
        head = re.sub(r"\s+", " ", self.code[found.end("impl") : brace])
        head = without_generics(head).strip()
        trait, _, kind = head.rpartition(" for ")
        owner = last_name(kind)
        imports = dict(self.source.imports)
        members = self.scan(brace + 1, end - 1, owner, last_name(trait), imports, bool(trait))
        self.source.impls.append(Impl(owner, last_name(trait), self.line(found.start("impl")), members, imports))
        return end

    def function(self, found: re.Match, owner: str, trait: str, imports: dict[str, Import], is_public: bool) -> int:
        """Reads a function up to the end of its body."""
        start = found.start("pub") if found["pub"] else found.start("fn")
        clauses, at = self.clauses(found.end())
        stop = stop_at(self.code, at)
        end = end_of(self.code, stop) if self.code.startswith("{", stop) else stop + 1
        signature_end = clauses[0][0] if clauses else stop
        text = self.text[self.text.rfind("\n", 0, start) + 1 : at if clauses else stop].rstrip()
        signature = self.code[start:signature_end]
        given = [it for _, it in clauses]
        docs = self.docs(start)
        it = Function(found["name"], owner, trait, is_public, self.line(start), signature, given, text, docs, imports)
        self.source.functions.append(it)
        return end

    def clauses(self, at: int) -> tuple[list[tuple[int, Clause]], int]:
        """The clauses after a function's name, each with its place, and the place after the last."""
        found = []
        while True:
            stop = stop_at(self.code, at)
            clause = CLAUSE.search(self.code, at, stop + 1)
            if clause is None:
                return found, at
            at = end_of(self.code, clause.end() - 1)
            found.append((clause.start(), self.clause(clause[1] + clause[2], clause[3] or "", clause.start(), clause.end(), at)))

    def clause(self, kind: str, name: str, first: int, start: int, end: int) -> Clause:
        """A clause that begins at `first`, whose words stand between `start` and the brace that ends it."""
        return Clause(kind, name, self.text[start : end - 1].strip(), self.line(first), self.line(end - 1))

    def docs(self, start: int) -> list[str]:
        """The documentation above a place."""
        found = []
        for line in reversed(self.text[:start].split("\n")[:-1]):
            if not line.strip().startswith(("///", "#[")):
                break
            found.insert(0, line.strip())
        return [it.removeprefix("///").strip() for it in found if it.startswith("///")]


def without_generics(head: str) -> str:
    """The head of an impl without what stands in angle brackets."""
    kept, depth = [], 0
    for at, sign in enumerate(head):
        if sign == "<":
            depth += 1
        elif sign == ">" and head[at - 1] != "-":
            depth -= 1
        elif depth == 0:
            kept.append(sign)
    return "".join(kept)


def last_name(text: str) -> str:
    names = re.findall(r"[A-Za-z_]\w*", text.partition(" where ")[0])
    return names[-1] if names else ""


def read(path: pathlib.Path, module: tuple[str, ...], file: str) -> Source:
    """The source that a file holds."""
    return read_text(path.read_text(encoding="utf-8"), module, file)


def read_text(text: str, module: tuple[str, ...] = (), file: str = "") -> Source:
    """The source that a text is."""
    source = Source(module, file)
    Scanner(text, source).scan(0, len(text), "", "", source.imports, False)
    return source


def type_names(signature: str) -> list[str]:
    """The names of types in a signature, without the paths before them."""
    return TYPE_NAME.findall(signature)
