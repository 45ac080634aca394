"""The inline hints of the sources, and the name that LLVM has for each: the kit's `rattle build` hands them on, `rt try` doesn't."""
import dataclasses
import pathlib
import re

WORDS = {"always": "alwaysinline", "never": "noinline", None: "inlinehint"}
INLINE = re.compile(r"#\[inline(?:\((\w+)\))?\]")
FUNCTION = re.compile(r"(?:pub(?:\([^)]*\))?\s+)?(?:const\s+)?(?:unsafe\s+)?(?:extern \"C\"\s+)?fn\s+(\w+)")
IMPL = re.compile(r"impl\b(?:<[^{]*?>)?\s+(?:(?:\w+::)*(\w+)(?:<.*>)?\s+for\s+)?&?(?:'\w+ )?(?:mut )?([A-Za-z_]\w*)")


@dataclasses.dataclass(frozen=True)
class Hint:
    """A function's type, or the module that it stands in, and what its attributes ask for."""

    owner: str
    inline: str = ""
    is_cold: bool = False

    def words(self):
        return " ".join(filter(None, [self.inline, "cold" if self.is_cold else ""]))


def module_of(path, source):
    """The path of a file's module, below its crate."""
    parts = path.relative_to(source).with_suffix("").parts
    return "::".join(parts[:-1] if parts[-1] in ("lib", "main", "mod") else parts)


def hints_of_file(text, module):
    """Each function of a file with its hint."""
    owner, inline, is_cold = "", "", False
    for line in text.splitlines():
        words = line.strip()
        if line.startswith("}"):
            owner = ""
        if found := IMPL.match(line):
            # LLVM's name of a trait's function has the type's name and then the trait's
            owner = found[2] + (found[1] or "")
        if found := INLINE.match(words):
            inline = WORDS.get(found[1], "")
        elif words.startswith("#[cold]"):
            is_cold = True
        elif found := FUNCTION.match(words):
            yield found[1], Hint(owner or module, inline, is_cold)
            inline, is_cold = "", False
        elif words and not words.startswith(("#[", "//")):
            inline, is_cold = "", False


def hints_of(folders):
    """The hints by crate and name of a function, of the crates in these folders."""
    found = {}
    for folder in map(pathlib.Path, folders):
        for path in sorted(folder.glob("src/**/*.rt")):
            text = path.read_text(encoding="utf-8", errors="replace")
            for name, hint in hints_of_file(text, module_of(path, folder / "src")):
                found.setdefault((folder.name, name), set()).add(hint)
    return found


def fitting(hints, within):
    """The hints of one name that are for a function in this module or type."""
    path = "::".join(within)
    for fits in (
        lambda owner: within and owner == within[-1],
        lambda owner: owner and (path == owner or path.startswith(owner + "::")),
        lambda owner: not owner,
    ):
        if found := [hint for hint in hints if fits(hint.owner)]:
            return found
    return list(hints) if len(hints) == 1 else []


def words_for(hints, symbol):
    """The words that LLVM gets for a function of this symbol, as crate::module::Type::name::<#hash>."""
    parts = [part for part in re.sub(r"<[^>]*>", "", symbol).split("::") if part]
    found = fitting(hints.get((parts[0], parts[-1]), ()), parts[1:-1]) if len(parts) > 1 else []
    strongest = next((word for word in WORDS.values() if any(hint.inline == word for hint in found)), "")
    return Hint("", strongest, any(hint.is_cold for hint in found)).words()
