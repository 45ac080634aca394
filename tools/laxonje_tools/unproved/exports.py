"""The calls for C that the sources of a static library export.

`rt try` compiles programs alone, and of them what `main` reaches: so a copy of the library gets a `main` that reaches each export.
There a struct is answered through a first pointer or in two parts, and in C as C does it: C in between answers the header's structs."""
import dataclasses
import re

PREFIX = "unproved_"
EXPORT = re.compile(r'#\[unsafe\(no_mangle\)\]\s+pub extern "C" fn (\w+)\s*\(')
INTEGER = re.compile(r"[ui](8|16|32|64|size)$")
ANSWERS_STRUCT = re.compile(r"\bstruct\s+(\w+)\s+(\w+)\s*\(([^()]*)\)\s*;")
COMMENT = re.compile(r"/\*.*?\*/|//[^\n]*", re.DOTALL)
DEFINED = re.compile(r'define (?:internal )?(?P<answer>.+?) @"(?:\w+::)+(?P<name>\w+)"\((?P<taken>.*)\) (?P<rest>.*)$')


@dataclasses.dataclass(frozen=True)
class Export:
    """A call: its name, and the types of what it takes."""

    name: str
    types: tuple


def end_of_group(text, start):
    """Where the bracket at this place is closed."""
    depth = 0
    for at in range(start, len(text)):
        depth += (text[at] in "([{<") - (text[at] in ")]}>")
        if depth == 0:
            return at
    raise ValueError("a bracket isn't closed")


def parts_of(text):
    """The parts between a text's commas, but for those inside brackets."""
    parts, depth = [""], 0
    for letter in text:
        depth += (letter in "([{<") - (letter in ")]}>")
        if letter == "," and depth == 0:
            parts.append("")
        else:
            parts[-1] += letter
    return [part.strip() for part in parts if part.strip()]


def exports_of(text):
    """The exports of a source file, in their order."""
    for found in EXPORT.finditer(text):
        taken = text[found.end() : end_of_group(text, found.end() - 1)]
        yield Export(found[1], tuple(part.split(":", 1)[1].strip() for part in parts_of(taken)))


def argument(kind, name):
    """A value of a type, and what has to stand around the call for it: nothing, or a place that is never filled."""
    if kind.endswith("Global"):
        return "alloc", None
    if found := re.match(r"(&(?:'\w+ )?(?:mut )?)\[", kind):
        return re.sub(r"'\w+ ", "", found[1]) + "[]", None
    if INTEGER.match(kind):
        return "0", None
    if kind == "bool":
        return "false", None
    owned = re.sub(r"^&(?:'\w+ )?(?:mut )?", "", kind)
    lent = ".as_mut()" if re.match(r"&(?:'\w+ )?mut ", kind) else ".as_ref()" if kind.startswith("&") else ""
    return name, (owned, lent)


def reach(export):
    """A block that calls an export, if places that are never filled were."""
    arguments = [argument(kind, f"held{number}") for number, kind in enumerate(export.types)]
    places = [(name, *place) for name, place in arguments if place]
    lines = [f"    let mut {name}: Option<{owned}> = None;" for name, owned, _ in places]
    lines += [f"    if let Some({name}) = {name}{lent} {{" for name, _, lent in places]
    lines.append(f"    let _answer = {export.name}({', '.join(name for name, _ in arguments)});")
    return "\n".join(["{", *lines, "}" * (len(places) + 1)])


def reaching(exports):
    """A function that reaches these exports, for the end of their file."""
    body = "\n".join(map(reach, exports))
    return f"\npub fn reach_exports(alloc: std::alloc::Global) {{\n{body}\n}}\n"


def main_of(modules):
    """A `main` that reaches the exports of these modules, the root being the empty one."""
    calls = "\n".join(f"    {module}{'::' if module else ''}reach_exports(rt.alloc());" for module in modules)
    return f"\nfn main(rt: HostRuntime) {{\n{calls}\n}}\n"


def answered(header):
    """The calls of a header that answer a struct: the struct and the parameters, by name."""
    return {name: (kind, parts_of(taken)) for kind, name, taken in ANSWERS_STRUCT.findall(COMMENT.sub("", header))}


def shim(header, names):
    """C that answers the structs of these calls of the header."""
    lines = ['#include "laxonje.h"']
    for name, (kind, taken) in answered(header).items():
        if name in names:
            taken = [] if taken == ["void"] else taken
            passed = "".join(", " + re.search(r"(\w+)\s*(?:\[\w*\])?$", part)[1] for part in taken)
            lines.append(f"void {PREFIX}{name}({', '.join([f'struct {kind} *', *taken])});")
            lines.append(f"struct {kind} {name}({', '.join(taken) or 'void'})")
            lines.append(f"{{ struct {kind} answer; {PREFIX}{name}(&answer{passed}); return answer; }}")
    return "\n".join(lines) + "\n"


def by_pointer(answer, name, taken):
    """LLVM's function that stores what another answers in parts where its first pointer says."""
    words = [f"{kind.split()[0] if not kind.startswith('{') else kind} %a{number}" for number, kind in enumerate(parts_of(taken))]
    return (
        f"\ndefine void @{PREFIX}{name}({', '.join(['ptr %to', *words])}) {{\n"
        f"  %answer = call {answer} @{PREFIX}{name}_parts({', '.join(words)})\n"
        f"  store {answer} %answer, ptr %to, align 4\n  ret void\n}}\n"
    )


def exported(lines, names, structs):
    """The module's lines with the exports under names of C, and no `main`: what nothing reaches any more is dropped by the compiler."""
    renamed, added = {name: name for name in names}, []
    lines = list(lines)
    for line in lines:
        found = DEFINED.match(line) if line.startswith("define ") else None
        if found and found["name"] in structs and found["name"] in names:
            name = found["name"]
            is_stored = found["answer"].split()[-1] == "void"
            renamed[name] = PREFIX + name + ("" if is_stored else "_parts")
            if not is_stored:
                added.append(by_pointer(re.sub(r"^noundef ", "", found["answer"]), name, found["taken"]))
    symbol = re.compile(r'@"(?:\w+::)+(' + "|".join(sorted(names, key=len, reverse=True)) + r')"')
    for line in lines:
        line = symbol.sub(lambda found: "@" + renamed[found[1]], line)
        if line.startswith("define "):
            line = re.sub(r"^define internal (.*@(?:laxonje_|" + PREFIX + "))", r"define \1", line)
            line = re.sub(r"^define i32 @main\(", "define internal i32 @main(", line)
        yield line
    yield from added
