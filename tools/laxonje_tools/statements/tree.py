"""The repository's definitions, types and contracts, and what each depends on, by the imports of its file."""
import dataclasses
import pathlib
import re
from collections.abc import Callable, Iterable, Iterator

from . import antt, rattle
from .words import free_words

# How often a name is handed on at most, from where it is defined to where it is used.
MOST_HANDS = 8
# How contracts see a type, by its Model.
SEEN = ("Value", "view")
# A name of the repository's own definitions that is written with its whole path.
WHOLE = re.compile(r"(?<![\w.])Rattle(?:\.[\w'-]+)+")


@dataclasses.dataclass(frozen=True)
class Node:
    """What a contract may depend on: a `definition` of specs/ or a `type` of src/, by its crate, its module and its name."""

    kind: str
    crate: str
    module: tuple[str, ...]
    name: str


@dataclasses.dataclass
class Crate:
    """A crate: its modules of definitions, its sources, and the names that its root hands on, each with where it is from."""

    name: str
    modules: dict[tuple[str, ...], antt.Module]
    sources: dict[tuple[str, ...], rattle.Source]
    exports: dict[str, tuple[tuple[str, ...], str]] = dataclasses.field(default_factory=dict)
    is_program: bool = False


@dataclasses.dataclass
class Contract:
    """A public function, or an impl whose ghost members are a contract of their own."""

    crate: str
    source: rattle.Source
    item: rattle.Function | rattle.Impl

    @property
    def path(self) -> str:
        """Its crate, its source's modules, its type and its name."""
        parts = [self.crate, *self.source.path]
        if isinstance(self.item, rattle.Impl):
            return "::".join([*parts, f"{self.item.owner} as {self.item.trait}"])
        return "::".join([*parts, *([self.item.owner] if self.item.owner else []), self.item.name])

    @property
    def clauses(self) -> list[rattle.Clause]:
        return self.item.members if isinstance(self.item, rattle.Impl) else self.item.clauses


def listed(root: pathlib.Path) -> list[str]:
    """The crates of crates.txt, lowest first as far as it has them so."""
    lines = (root / "crates.txt").read_text(encoding="utf-8").splitlines()
    return [line.partition(":")[0].split()[0] for line in lines if ":" in line and not line.startswith("#")]


def read_crate(root: pathlib.Path, name: str) -> Crate:
    """The crate of this name, with the sources that its root reaches."""
    folder = root / "crates" / name
    modules = {}
    for path in sorted(folder.glob("specs/**/*.antt")):
        module = path.relative_to(folder / "specs").with_suffix("").parts
        if module != ("Lib",):
            modules[module] = antt.read(path, module, path.relative_to(root).as_posix())
    crate = Crate(name, modules, {})
    top = next((it for it in ("lib", "main") if (folder / "src" / f"{it}.rt").is_file()), None)
    if top is not None:
        crate.is_program = top == "main"
        read_sources(root, folder / "src", (), f"{top}.rt", crate)
        hand_on(crate, ())
    return crate


def read_sources(root: pathlib.Path, src: pathlib.Path, module: tuple[str, ...], file: str, crate: Crate) -> None:
    """Reads a source, and those that its `mod` items name."""
    source = rattle.read(src / file, module, (src / file).relative_to(root).as_posix())
    crate.sources[module] = source
    for name in source.modules:
        below = (*module, name)
        path = "/".join(below) + ".rt"
        if (src / path).is_file():
            read_sources(root, src, below, path, crate)


def hand_on(crate: Crate, module: tuple[str, ...]) -> None:
    """Adds what a public module hands on to what the crate does."""
    source = crate.sources.get(module)
    if source is None:
        return
    for path, name, alias, is_public in source.uses:
        if is_public:
            crate.exports[alias] = (absolute(path, module, crate), name)
    for it in [*source.types, *(it for it in source.functions if not it.owner)]:
        if it.is_public:
            crate.exports[it.name] = (module, it.name)
    for name, is_public in source.modules.items():
        if is_public:
            hand_on(crate, (*module, name))


def absolute(path: tuple[str, ...], module: tuple[str, ...], crate: Crate) -> tuple[str, ...]:
    """A path of a `use` from the crate's root, or with `@` and the name of another crate before it."""
    if path[:1] == ("crate",):
        return path[1:]
    if path[:1] == ("self",):
        return (*module, *path[1:])
    is_above = path[:1] == ("super",)
    while path[:1] == ("super",):
        path, module = path[1:], module[:-1]
    if is_above:
        return (*module, *path)
    if path and ((*module, path[0]) in crate.sources):
        return (*module, *path)
    return ("@" + path[0], *path[1:]) if path else ()


def public_fields(code: str) -> str:
    """The public fields of a struct, each on a line of its own if they have names."""
    head, brace, inside = code.partition("{")
    fields = inside.split("\n") if brace else head.partition("(")[2].split(",")
    return "\n".join(it for it in fields if it.strip().startswith("pub "))


class Tree:
    """All crates of a repository."""

    def __init__(self, root: pathlib.Path, names: Iterable[str] | None = None):
        self.root = root
        self.crates = {name: read_crate(root, name) for name in (listed(root) if names is None else names)}
        self.known: dict[Node, list[Node]] = {}
        self.own: dict[str, set[tuple[tuple[str, ...], str]]] = {}

    # Where a name leads

    def definition(self, crate: str, module: tuple[str, ...], name: str, seen: frozenset = frozenset()) -> Node | None:
        """The definition that a module of definitions calls by this name, or whose case it is; also one that it hands on."""
        if crate not in self.crates or (crate, module, name) in seen:
            return None
        found = self.crates[crate].modules.get(module)
        if found is None:
            return self.definition(crate, module[:-1], module[-1], seen) if len(module) > 1 else None
        name = name.removesuffix("-prop") if not any(it.name == name for it in found.definitions) else name
        for it in found.definitions:
            if name == it.name or name in it.cases:
                return Node("definition", crate, module, it.name)
        other = found.imports.get(name)
        if other is None or not other.is_public:
            return None
        return self.imported(other, None, seen | {(crate, module, name)})

    def imported(self, found: antt.Import, member: str | None, seen: frozenset = frozenset()) -> Node | None:
        """What an import names: a definition, or a type of a source. None for what isn't of the repository."""
        if len(found.path) < 4 or found.path[0] != "Rattle" or found.path[2] != "specs":
            return None
        crate, path = found.path[1], found.path[3:]
        if path[0] == "declared":
            return self.declared(crate, path[1:])
        if path[0] == "contracts":
            return None
        if found.name:
            return self.definition(crate, path, found.name, seen)
        return self.definition(crate, path, member, seen) if member else None

    def of_paths(self, text: str) -> Iterator[Node]:
        """What a text names by whole paths; a member may be taken of it."""
        return (it for path in WHOLE.findall(text) if (it := self.at_path(path)) is not None)

    def at_path(self, path: str) -> Node | None:
        """What a whole path names, or its longest beginning that names something."""
        words = tuple(path.split("."))
        wholes = (antt.Import(words[:end], words[end], False, 0) for end in range(len(words) - 1, 3, -1))
        return next((it for found in wholes if (it := self.imported(found, None)) is not None), None)

    def module_named(self, found: antt.Import) -> tuple[str, tuple[str, ...]] | None:
        """The file of definitions that an import of a whole module names."""
        crate, path = found.path[1:2], found.path[3:]
        if found.name or found.path[:1] != ("Rattle",) or found.path[2:3] != ("specs",) or crate[0] not in self.crates:
            return None
        return (crate[0], path) if path in self.crates[crate[0]].modules else None

    def declared(self, crate: str, path: tuple[str, ...]) -> Node | None:
        """The type that a path below `declared` names: its module's, its own name, and maybe `TheVariants`."""
        path = path[:-1] if path and path[-1] == "TheVariants" else path
        return self.type_at(crate, path[:-1], path[-1]) if path else None

    def type_at(self, crate: str, module: tuple[str, ...], name: str) -> Node | None:
        """The type of this name that a source defines."""
        source = self.crates[crate].sources.get(module) if crate in self.crates else None
        if source is not None and any(it.name == name for it in source.types):
            return Node("type", crate, module, name)
        return None

    def type_named(self, crate: str, module: tuple[str, ...], name: str) -> Node | None:
        """The type that a source calls by this name."""
        found = self.home(crate, module, name)
        return None if found is None else self.type_at(*found)

    def home(self, crate: str, module: tuple[str, ...], name: str, depth: int = 0) -> tuple[str, tuple[str, ...], str] | None:
        """The crate, module and own name of the type or function that a source calls by this name."""
        source = self.crates[crate].sources.get(module)
        if source is None or depth > MOST_HANDS:
            return None
        if any(it.name == name for it in source.types) or any(it.name == name and not it.owner for it in source.functions):
            return crate, module, name
        for path, called, alias, _ in source.uses:
            if alias == name:
                return self.behind(crate, absolute(path, module, self.crates[crate]), called, depth + 1)
        return None

    def behind(self, crate: str, path: tuple[str, ...], name: str, depth: int) -> tuple[str, tuple[str, ...], str] | None:
        """The same of a path, which may lead to another crate."""
        if path[:1] and path[0].startswith("@"):
            other = self.crates.get(path[0][1:])
            if other is None or name not in other.exports:
                return None
            crate = other.name
            path, name = other.exports[name]
            depth += 1
        return self.home(crate, path, name, depth) if not path[:1] or not path[0].startswith("@") else self.behind(crate, path, name, depth)

    # What depends on what

    def module_of(self, node: Node) -> antt.Module:
        return self.crates[node.crate].modules[node.module]

    def definition_of(self, node: Node) -> antt.Definition:
        return next(it for it in self.module_of(node).definitions if it.name == node.name)

    def type_of(self, node: Node) -> rattle.Type:
        return next(it for it in self.crates[node.crate].sources[node.module].types if it.name == node.name)

    def model_of(self, node: Node) -> rattle.Impl | None:
        """The `impl Model` of a type: how contracts see it."""
        for source in self.crates[node.crate].sources.values():
            for it in source.impls:
                if it.trait == "Model" and it.owner == node.name and self.type_named(node.crate, source.path, it.owner) == node:
                    return it
        return None

    def below(self, node: Node) -> list[Node]:
        """What a definition or a type names."""
        if node not in self.known:
            found = self.below_definition(node) if node.kind == "definition" else self.below_type(node)
            self.known[node] = [it for it in dict.fromkeys(found) if it != node]
        return self.known[node]

    def in_module(self, crate: str, module: antt.Module, name: str, member: str | None) -> Node | None:
        """What a word of a file of definitions names: one of its own, or an import."""
        for it in module.definitions:
            if name == it.name or name in it.cases or ("◌" in it.name and name == it.name.strip("◌")):
                return Node("definition", crate, module.path, it.name)
        return self.in_imports(module.imports, name, member)

    def in_imports(self, imports: dict[str, antt.Import], name: str, member: str | None) -> Node | None:
        """What a word names by these imports; an operator is imported with the places of its operands."""
        found = imports.get(name) or imports.get(f"◌{name}◌") or imports.get(name.removesuffix("-prop"))
        return None if found is None else self.imported(found, member)

    def is_case(self, crate: str, module: antt.Module, name: str) -> bool:
        """Whether a word of a pattern is a case, and so isn't bound there: every name that isn't known to be no case."""
        node = self.in_module(crate, module, name, None)
        if node is None:
            return name in module.imports
        called = module.imports[name].name if name in module.imports else name
        return node.kind == "type" or called in self.definition_of(node).cases

    def below_definition(self, node: Node) -> Iterator[Node]:
        """What a definition's own words name."""
        module = self.module_of(node)
        for name, member in antt.free_in(self.definition_of(node), lambda it: self.is_case(node.crate, module, it)):
            if (found := self.in_module(node.crate, module, name, member)) is not None:
                yield found
        yield from self.of_paths("\n".join(self.definition_of(node).body))

    def outside(self, node: Node) -> Iterator[antt.Import]:
        """What a definition's own words name of the kit's libraries."""
        module = self.module_of(node)
        free = antt.free_in(self.definition_of(node), lambda it: self.is_case(node.crate, module, it))
        return self.of_kit((name for name, _ in free), module.imports)

    def of_kit(self, names: Iterable[str], imports: dict[str, antt.Import]) -> Iterator[antt.Import]:
        """The imports by which these words name what is of the kit's libraries."""
        for name in names:
            found = imports.get(name) or imports.get(f"◌{name}◌")
            if found is not None and (found.path[0] != "Rattle" or found.path[1] not in self.crates):
                yield found

    def below_type(self, node: Node) -> Iterator[Node]:
        """What a type is seen as by its Model, or else the types of its variants or of its public fields: a definition that looks into
        another field names what it finds there."""
        model = self.model_of(node)
        if model is not None:
            yield from self.of_clauses(node.crate, node.module, [it for it in model.members if it.name in SEEN], model.imports)
            return
        it = self.type_of(node)
        code = rattle.masked(it.text)
        for name in rattle.type_names(public_fields(code) if it.kind == "struct" else code):
            if (found := self.type_named(node.crate, node.module, name)) is not None:
                yield found

    def facts_of(self, node: Node) -> list[rattle.Clause]:
        """What each value of a type meets: the invariant of its Model, or its ghost fields; of a trait the contracts of its methods."""
        model = self.model_of(node)
        if model is not None:
            return [it for it in model.members if it.name == "invariant"]
        if self.type_of(node).kind == "trait":
            functions = self.crates[node.crate].sources[node.module].functions
            return [clause for it in functions if it.owner == node.name and not it.trait for clause in it.clauses]
        return [rattle.Clause("ghost", name, text, 0, 0) for name, text in rattle.ghost_fields(self.type_of(node))]

    def named_by_facts(self, node: Node) -> list[Node]:
        """What these name, over the imports of the type's Model or of its file, and what those of the types within it do, which no
        field shows."""
        model = self.model_of(node)
        imports = self.crates[node.crate].sources[node.module].imports if model is None else model.imports
        return [*self.of_clauses(node.crate, node.module, self.facts_of(node), imports), *self.kept_in(node)]

    def kept_in(self, node: Node) -> Iterator[Node]:
        """The types of a struct's fields, whoever sees these, that have an invariant."""
        it = self.type_of(node)
        for name in rattle.type_names(rattle.masked(it.text)) if it.kind == "struct" else []:
            found = self.type_named(node.crate, node.module, name)
            if found is not None and found != node and (self.facts_of(found) or any(self.kept_in(found))):
                yield found

    def premises(self, found: Iterable[Node], below: Callable[[Node], list[Node]] | None = None) -> list[Node]:
        """What the invariants of these types, and of those that are met then, depend on besides, lowest first."""
        first, below = dict.fromkeys(found), below or self.below

        def wider(node: Node) -> list[Node]:
            return below(node) + (self.named_by_facts(node) if node.kind == "type" else [])

        return [it for it in self.closure(first, wider) if it not in first]

    def of_clauses(self, crate: str, module: tuple[str, ...], clauses: list[rattle.Clause], imports: dict[str, antt.Import]) -> Iterator[Node]:
        """What the words of clauses name, by these imports and the source's types."""
        for clause in clauses:
            for name, member in free_words(clause.text):
                found = self.in_imports(imports, name, member) or self.type_named(crate, module, name)
                if found is not None:
                    yield found
            yield from self.of_paths(clause.text)

    # Contracts

    def contracts(self, crate: str, is_public: bool = True) -> Iterator[Contract]:
        """The contracts of a crate that others may rest on, or all of them."""
        for source in self.crates[crate].sources.values():
            for it in source.functions:
                if not is_public or self.is_handed_on(crate, source, it):
                    yield Contract(crate, source, it)
            for it in source.impls:
                if it.members and it.trait != "Model" and (not is_public or self.is_own_export(crate, source, it.owner)):
                    yield Contract(crate, source, it)

    def own_exports(self, crate: str) -> set[tuple[tuple[str, ...], str]]:
        """The crate's own types and functions that its root hands on, each by its module and its own name."""
        if crate not in self.own:
            found = {self.behind(crate, path, name, 0) for path, name in self.crates[crate].exports.values()}
            self.own[crate] = {(it[1], it[2]) for it in found if it is not None and it[0] == crate}
        return self.own[crate]

    def is_own_export(self, crate: str, source: rattle.Source, name: str) -> bool:
        """Whether a source's name is that of a type of its crate that the root hands on."""
        node = self.type_named(crate, source.path, name)
        return node is not None and node.crate == crate and (node.module, node.name) in self.own_exports(crate)

    def is_handed_on(self, crate: str, source: rattle.Source, it: rattle.Function) -> bool:
        """Whether a function can be called from outside its crate."""
        if it.owner:
            return it.is_public and self.is_own_export(crate, source, it.owner)
        return it.is_public and (source.path, it.name) in self.own_exports(crate)

    def roots(self, contract: Contract) -> list[Node]:
        """What a contract names: the definitions in its clauses, and the types of its signature."""
        module = contract.source.path
        found = list(self.of_clauses(contract.crate, module, contract.clauses, contract.item.imports))
        if isinstance(contract.item, rattle.Function):
            names = rattle.type_names(contract.item.signature)
            names += [contract.item.owner] if contract.item.owner else []
            found += [it for name in names if (it := self.type_named(contract.crate, module, name)) is not None]
        return list(dict.fromkeys(found))

    def closure(self, starts: Iterable[Node], below: Callable[[Node], list[Node]] | None = None) -> list[Node]:
        """These and all that they depend on, lowest first."""
        order, seen, below = [], set(), below or self.below
        for start in starts:
            stack = [(start, iter(below(start)))] if start not in seen else []
            seen.add(start)
            while stack:
                node, rest = stack[-1]
                following = next((it for it in rest if it not in seen), None)
                if following is None:
                    order.append(node)
                    stack.pop()
                else:
                    seen.add(following)
                    stack.append((following, iter(below(following))))
        return order
