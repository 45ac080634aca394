"""A statement: contracts, and all definitions that they depend on, lowest first."""
import dataclasses
import re
from collections.abc import Callable, Iterable

from . import rattle
from .tree import SEEN, Contract, Node, Tree
from .words import free_words

# How wide the text of a type is at most, where it is laid out anew.
WIDEST = 120
NAMED = re.compile(r"^(\S+?)(?:\s*\(([^)]*)\))?$")


class Unknown(Exception):
    """Why there is no such statement, in a line."""


@dataclasses.dataclass(frozen=True)
class Part:
    """A contract of a statement, and the clauses of it that count: all of them if none is named."""

    contract: Contract
    clauses: tuple[rattle.Clause, ...]

    @property
    def place(self) -> str:
        return f"{self.contract.source.file}:{self.contract.item.line}"


def counted(number: int, what: str) -> str:
    return f"{number} {what}" if number == 1 else f"{number} {what}s"


@dataclasses.dataclass(frozen=True)
class Counts:
    definitions: int
    lines: int
    files: int
    crates: int
    types: int

    def __str__(self) -> str:
        types = f"; {counted(self.types, 'type')} of sources" if self.types else ""
        definitions = f"{counted(self.definitions, 'definition')} of {counted(self.lines, 'line')}"
        return f"{definitions}, in {counted(self.files, 'file')} of {counted(self.crates, 'crate')}{types}"


@dataclasses.dataclass(frozen=True)
class Group:
    """The definitions of one file in its order; or types of one crate, with the crate's folder of sources in place of a file."""

    file: str
    nodes: tuple[Node, ...]


@dataclasses.dataclass(frozen=True)
class Statement:
    """Contracts, the groups below them, lowest first, the words that are taken as known, and the groups that only the invariants of
    types reach."""

    parts: tuple[Part, ...]
    groups: tuple[Group, ...]
    known: tuple[Node, ...]
    premises: tuple[Group, ...] = ()

    @property
    def nodes(self) -> list[Node]:
        return [it for group in self.groups for it in group.nodes]


def function(tree: Tree, path: str) -> Contract:
    """The contract of a function by its path: its crate, then its module or type, and its name. A part of that does, if it
    leaves one."""
    crate, *inside = path.split("::")
    if crate not in tree.crates or not inside:
        raise Unknown(f"no function {path}: a path begins with a crate of crates.txt, as in bpf_verify::verify")
    found = [it for it in tree.contracts(crate, is_public=False) if isinstance(it.item, rattle.Function) and is_at(it, inside)]
    whole = [it for it in found if it.path == path]
    public = [it for it in found if it in list(tree.contracts(crate))] if len(found) > 1 else found
    chosen = whole or public or found
    if len(chosen) != 1:
        raise Unknown(f"no function {path}" if not chosen else f"{path} may be {' or '.join(it.path for it in chosen)}")
    return chosen[0]


def is_at(contract: Contract, inside: list[str]) -> bool:
    """Whether a function's path has these words in this order, its name last."""
    words = iter(contract.path.split("::")[1:])
    return contract.item.name == inside[-1] and all(it in words for it in inside)


def part(tree: Tree, text: str) -> Part:
    """A contract that is named as `crate::path::function (clause, clause)`, or with no clauses."""
    found = NAMED.match(text)
    if found is None:
        raise Unknown(f"no contract {text}: it has to be crate::path::function, and maybe clauses in brackets")
    contract = function(tree, found[1])
    if found[2] is None:
        return Part(contract, tuple(contract.clauses))
    names = [it.strip() for it in found[2].split(",")]
    lost = [it for it in names if it not in {clause.name for clause in contract.clauses}]
    if lost:
        raise Unknown(f"{found[1]} has no clause {lost[0]}")
    return Part(contract, tuple(it for it in contract.clauses if it.name in names))


def starts(tree: Tree, it: Part) -> list[Node]:
    """What a contract's clauses name, and what the caller has to establish names, whichever clauses count; and the types of the parameters
    that these speak of."""
    contract = it.contract
    module = contract.source.path
    clauses = [*it.clauses, *(clause for clause in contract.clauses if clause.kind == "requires" and clause not in it.clauses)]
    found = list(tree.of_clauses(contract.crate, module, clauses, contract.item.imports))
    text = " ".join(clause.text for clause in clauses)
    for name in spoken_types(contract.item, text):
        if (node := tree.type_named(contract.crate, module, name)) is not None:
            found.append(node)
    return list(dict.fromkeys(found))


def spoken_types(item: rattle.Function, text: str) -> list[str]:
    """The types of the parameters, and of the result, that clauses speak of."""
    inside, _, result = item.signature.partition("->")
    names = re.findall(r"(\w+): ((?:[^,(<]|<[^>]*>|\([^)]*\))+)", inside)
    found = [name for parameter, kind in names if re.search(rf"\b{parameter}\b", text) for name in rattle.type_names(kind)]
    if item.owner and re.search(r"\bself\b", text):
        found.append(item.owner)
    if re.search(r"\bresult\b", text):
        found += [item.owner if it == "Self" else it for it in rattle.type_names(result)]
    return found


def statement(tree: Tree, parts: Iterable[Part], known: Iterable[str] = ()) -> Statement:
    """The statement of these contracts; words that are named as known stand for what is below them."""
    parts, known = tuple(parts), set(known)
    borders: list[Node] = []

    def below(node: Node) -> list[Node]:
        return [it for it in tree.below(node) if not is_border(it)]

    def is_border(node: Node) -> bool:
        if node.name in known and node not in borders:
            borders.append(node)
        return node.name in known

    order = tree.closure([it for each in parts for it in starts(tree, each) if not is_border(it)], below)
    missing = known - {it.name for it in borders}
    if missing:
        raise Unknown(f"{sorted(missing)[0]} is taken as known, and isn't below the contracts")
    named = tuple(borders)
    twice = [it.name for it in named if [other.name for other in named if other.kind == it.kind].count(it.name) > 1]
    if twice:
        raise Unknown(f"{twice[0]} is taken as known, and is the name of two definitions")
    premises = tree.premises(order, below)
    return Statement(parts, tuple(groups(tree, order, below)), named, tuple(groups(tree, premises, below)))


def place(tree: Tree, node: Node) -> tuple[str, int]:
    """The file and line of a definition or a type."""
    if node.kind == "definition":
        it = tree.definition_of(node)
        return it.file, it.line
    return tree.crates[node.crate].sources[node.module].file, tree.type_of(node).line


def group_of(tree: Tree, node: Node) -> str:
    """The file of a definition; of a type the folder of its crate's sources."""
    return place(tree, node)[0] if node.kind == "definition" else f"crates/{node.crate}/src"


def groups(tree: Tree, order: list[Node], below: Callable[[Node], list[Node]]) -> list[Group]:
    """The nodes by file, a file after those that it depends on as far as files don't depend on one another."""
    by_file: dict[str, list[Node]] = {}
    for node in order:
        by_file.setdefault(group_of(tree, node), []).append(node)
    found, seen, kept = [], set(), set(order)

    def go(file: str) -> None:
        if file in seen:
            return
        seen.add(file)
        for node in by_file[file]:
            for it in below(node):
                if it in kept:
                    go(group_of(tree, it))
        is_types = by_file[file][0].kind == "type"
        found.append(Group(file, tuple(by_file[file] if is_types else sorted(by_file[file], key=lambda it: place(tree, it)[1]))))

    for file in by_file:
        go(file)
    return found


def lines_of(tree: Tree, node: Node) -> list[str]:
    """The lines of a definition or a type."""
    if node.kind == "definition":
        it = tree.definition_of(node)
        return [it.section, *(f"  {line}" for line in it.lines)] if it.section else it.lines
    model = tree.model_of(node)
    if model is not None:
        told = [*(it for it in model.members if it.name in SEEN), *tree.facts_of(node)]
        views = [f"ghost {it.name} = {{ {' '.join(it.text.split())} }};" for it in told]
        flat = " ".join([f"impl Model for {node.name} {{", *views, "}"])
        return [flat] if len(flat) <= WIDEST else [f"impl Model for {node.name} {{", *(f"    {it}" for it in views), "}"]
    it = tree.type_of(node)
    if re.match(r"(?:pub(?:\([a-z]+\))? )?trait\b", it.text):
        return trait_lines(it.text)
    facts = [f"    ghost {fact.name}: {{ {fact.text} }}," for fact in tree.facts_of(node)]
    lines = type_lines(without_ghosts(it.text))
    return lines if not facts else [*(lines[:-1] if len(lines) > 1 else [lines[0].removesuffix("}").rstrip() + ","]), *facts, "}"]


def without_ghosts(text: str) -> str:
    """A type's text without its comments, its attributes and its ghost fields."""
    text = re.sub(r"(?m)^\s*(?:///|//|#\[).*\n", "", text + "\n")
    while (found := re.search(r"(?m)^\s*ghost \w+: (?=\{)", text)) is not None:
        end = rattle.end_of(text, found.end())
        text = text[: found.start()] + text[text.find("\n", end) + 1 :]
    return re.sub(r"(?m)^\s*ghost [^\n]*\n", "", text)


def trait_lines(text: str) -> list[str]:
    """A trait with its ghost members and its methods' contracts, without documentation and the bodies that methods have."""
    lines: list[str] = []
    is_body = False
    for line in text.splitlines():
        if is_body:
            is_body = line != "    }"
        elif line == "    {" or (line.startswith("    fn ") and line.endswith(" {")):
            is_body = True
            head = lines.pop() if line == "    {" else line.removesuffix(" {")
            lines.append(f"{head};")
        elif line.strip() and not re.match(r"\s*(?:///|#\[)", line):
            lines.append(line)
    return lines


def type_lines(text: str) -> list[str]:
    """A type on one line if it fits; else its fields or variants, those without parts of their own as many on a line as fit."""
    flat = re.sub(r"\s+", " ", text).strip().replace(", }", " }").replace("( ", "(").replace(", )", ")")
    if len(flat) <= WIDEST:
        return [flat]
    head, _, inside = flat.partition("{")
    items = [it.strip() for it in re.split(r",\s*(?![^{]*\}|[^(]*\)|[^<]*>)", inside.rstrip().removesuffix("}").rstrip()) if it.strip()]
    if "struct " not in head and any(sign in it for it in items for sign in "{("):
        return [f"{head.strip()} {{", *(f"    {it}," for it in items), "}"]
    return [f"{head.strip()} {{", *filled(items), "}"]


def filled(items: list[str]) -> list[str]:
    """These items, as many on a line as fit."""
    lines = [""]
    for it in items:
        if lines[-1] and len(lines[-1]) + len(it) + 2 > WIDEST:
            lines.append("")
        lines[-1] += f" {it}," if lines[-1] else f"    {it},"
    return lines


def outside(tree: Tree, it: Statement) -> dict[str, list[str]]:
    """The words of the kit's libraries that a statement uses, by module; an operator with `◌` at each operand."""
    words = [word for node in it.nodes if node.kind == "definition" for word in tree.outside(node)]
    for each in it.parts:
        names = [name for clause in each.clauses for name, _ in free_words(clause.text)]
        words += tree.of_kit(names, each.contract.item.imports)
    found: dict[str, set[str]] = {}
    for word in words:
        module = word.path if word.name else word.path[:-1]
        found.setdefault(".".join(module), set()).add(word.name or word.path[-1])
    return {module: sorted(names) for module, names in sorted(found.items())}


def counts(tree: Tree, it: Statement) -> Counts:
    """How much there is to read."""
    return counts_of(tree, it.groups)


def counts_of(tree: Tree, groups: Iterable[Group]) -> Counts:
    """How much these groups have."""
    nodes = [node for group in groups for node in group.nodes]
    definitions = [node for node in nodes if node.kind == "definition"]
    files = {place(tree, node)[0] for node in definitions}
    lines = sum(len(lines_of(tree, node)) for node in definitions)
    return Counts(len(definitions), lines, len(files), len({node.crate for node in definitions}), len(nodes) - len(definitions))
