"""Names of the repository's own definitions that lead to none, and functions that aren't read: what stands there would be on no page. A
definition that isn't read, as one of a section in a section, is found so."""
import re
from collections.abc import Iterator

from . import antt, rattle
from .tree import WHOLE, Tree

FUNCTION = re.compile(r"\bfn (\w+)")
IMPORT = re.compile(r"\s*(?:pub |ghost )?use |--")


def findings(tree: Tree) -> Iterator[str]:
    """What leads to no definition, by its file."""
    for crate in tree.crates.values():
        for file in [*crate.modules.values(), *crate.sources.values()]:
            for name, found in sorted({(name, found) for imports in known_in(file) for name, found in imports.items()}, key=lambda it: it[1].line):
                if is_own(tree, found) and tree.imported(found, None) is None and tree.module_named(found) is None:
                    yield f"{file.file}:{found.line}: {name} leads to no definition that is read"
            yield from unread(tree, file)
            for path in whole_paths(tree, file.file):
                if is_own(tree, antt.Import(tuple(path.split(".")), "", False, 0)) and tree.at_path(path) is None:
                    yield f"{file.file}: {path} leads to no definition that is read"


def known_in(file: antt.Module | rattle.Source) -> list[dict[str, antt.Import]]:
    """The imports of a file, and those of its functions and impls."""
    return [file.imports] if isinstance(file, antt.Module) else [file.imports, *(it.imports for it in [*file.functions, *file.impls])]


def unread(tree: Tree, file: antt.Module | rattle.Source) -> Iterator[str]:
    """What a source has of functions that aren't read."""
    if isinstance(file, rattle.Source):
        there = FUNCTION.findall(rattle.masked((tree.root / file.file).read_text(encoding="utf-8")))
        lost = len(there) - len(file.functions)
        if lost:
            yield f"{file.file}: {lost} of its functions aren't read"


def whole_paths(tree: Tree, file: str) -> list[str]:
    """The whole paths that stand in a file, but for its imports."""
    text = rattle.masked((tree.root / file).read_text(encoding="utf-8"))
    lines = [it for it in text.split("\n") if not IMPORT.match(it)]
    return list(dict.fromkeys(path for line in lines for path in WHOLE.findall(line)))


def is_own(tree: Tree, found: antt.Import) -> bool:
    """Whether an import is of a definition of the repository, or of a type's."""
    top, crate, part, below = (*found.path, "", "", "", "")[:4]
    return top == "Rattle" and crate in tree.crates and part == "specs" and below != "contracts"
