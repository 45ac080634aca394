"""Settings beside the object's own function: where they are kept, and what isn't called the same or is refused."""
import os
import pathlib
import re
import subprocess
import tempfile
import tomllib

from tests.straight.rows import words_of
from laxonje_tools.straight.beside_function import OF_OBJECT, OF_TOOL
from laxonje_tools.straight.verifier import asked

TOOLS = pathlib.Path(__file__).resolve().parents[3]
FILTERS = TOOLS / "gate/tests/straight/filters"
# filters that the tool changes nothing of first: accepted as clang made them, and shown in each way; and what `xdpbox same` says
OF_OBJECTS = {"01-fragments": "same", "16-blocklist": "same", "03-small-mss": "same", "06-vlan-policy": "same by counts", "36-quota": "same alone"}
OF_OBJECTS |= {"63-open-ports": "same", "77-configured": "same"}
# those of which it does: globals, keys that are written out, numbers of fewer than eight bytes
OF_TOOLS = "34-sack", "64-key-as-index", "61-narrow-values"
# what is changed in the settings beside a function, in which filter: the name of a pattern, what stands there then, and the answer
CHANGES = {
    "another function": ("16-blocklist", r'function = "\w+"', 'function = "nobody"', "original refused O10 at 0"),
    "no object": ("16-blocklist", 'object = "7f', 'object = "7e', "original refused O1 at 0"),
    "an object of 32 bits": ("16-blocklist", 'object = "7f454c4602', 'object = "7f454c4601', "original refused O2 at 0"),
    "half an object": ("16-blocklist", r'object = "(\w{2048})\w*"', r'object = "\1"', r"original refused O\d+ at \d+"),
    "no hex": ("16-blocklist", 'object = "7f', 'object = "7g', "settings refused L6"),
    "another name of a map": ("16-blocklist", r'name = "\w+"((?s:.*)\[\[reloc\]\]\nslot = \d+\nmap = )"\w+"', r'name = "other"\1"other"', r"original refused O34 at \d+"),
    "another number of entries": ("16-blocklist", "entries = 1024", "entries = 1000", r"original refused O35 at \d+"),
    "another kind of keys": ("06-vlan-policy", r"entries = (\d+)", r'entries = \1\nkey = "exact"', r"original refused O35 at \d+"),
    "another constant": ("63-open-ports", r'(key = "constants"\nsize = \d+\nrows = \[\n  ")..', r"\g<1>5a", r"original refused O36 at \d+"),
    "no object and no program": ("16-blocklist", r'object = "\w+"\n', "", "settings refused L3"),
    "a program too": ("16-blocklist", "function = ", "program = []\nfunction = ", "settings refused L3"),
    "another instruction": ("01-fragments", '"b700000002000000"', '"b700000003000000"', "not shown"),
}


def kept_of(clang, xdpbox, name, folder):
    """The settings that a filter is made to, and what `xdpbox same` was asked of them."""
    kept, path = folder / f"{name}.toml", FILTERS / f"{name}.c"
    words = [TOOLS / "settings-from-c", "--same", kept, *words_of(path), path]
    run = subprocess.run(words, env={**os.environ, "CLANG": clang, "XDPBOX": xdpbox}, capture_output=True, text=True, check=False)
    return run.stdout, kept.read_text() if kept.exists() else run.stderr


def program_of(text):
    """The program, the maps and the relocations of settings."""
    settings = tomllib.loads(text)
    return {key: settings.get(key, []) for key in ("program", "map", "reloc")}


def tests(clang, xdpbox):
    kept = {}
    with tempfile.TemporaryDirectory() as folder:
        for name, how in OF_OBJECTS.items():
            made, kept[name] = kept_of(clang, xdpbox, name, pathlib.Path(folder))
            yield f"{name} is kept beside its object", "" if kept[name].startswith(f"# {OF_OBJECT}\n") else kept[name][:200]
            said = asked(xdpbox, "same", kept[name]).stdout
            yield f"{name} is {how}", "" if said.startswith(f"{how}, ") else said
            yield f"{name} is what is printed", "" if made and program_of(made) == program_of(kept[name]) else "other settings"
        for name in OF_TOOLS:
            made, text = kept_of(clang, xdpbox, name, pathlib.Path(folder))
            right = text.startswith(f"# {OF_TOOL}\n") and f"# {OF_TOOL}\n" in made
            yield f"{name} is kept beside what the tool made of it", "" if right else text[:200]
    yield from change_tests(xdpbox, kept)


def change_tests(xdpbox, kept):
    """What isn't the object's is named, and never the same."""
    for what, (name, pattern, other, wanted) in CHANGES.items():
        text, count = re.subn(pattern, other, kept[name], count=1, flags=re.M)
        run = asked(xdpbox, "same", text)
        right = count and run.returncode and re.match(wanted, run.stdout + run.stderr)
        yield f"{what}, of {name}", "" if right else f"{count} {run.returncode} {run.stdout}{run.stderr}"
    of = {name: re.search(r'^object = .*\nfunction = .*\n', text, re.M)[0] for name, text in kept.items() if "object = " in text}
    text = re.sub(r'^object = .*\nfunction = .*\n', lambda _: of["03-small-mss"], kept["01-fragments"], flags=re.M)
    run = asked(xdpbox, "same", text)
    yield "a function of another object", "" if run.returncode and "same, " not in run.stdout else run.stdout
