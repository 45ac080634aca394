"""Settings that were printed, with other rows in their lists: nothing is compiled, and xdpbox isn't asked."""
import pathlib
import tempfile
import tomllib

from tests.straight.options import EXAMPLES, ran

FOLDER = EXAMPLES / "lists-and-protocols"
EMPTY = "# map hosts: an empty list; --list hosts=FILE fills it\n"
# a list's lines, and the rows that are made of them
LISTS = {
    "hosts": ("10.7.0.1\n10.7.0.2 # the second\n", ["0a070001", "0a070002"]),
    "networks": ("10.7.0.0/16\n192.0.2.1\n", ["100000000a070000", "20000000c0000201"]),
}
# a word, a list's lines, and what is said
WRONG = {
    "hosts=of prefixes": ("hosts", "10.7.0.0/16\n", "has whole keys"),
    "hosts=of another size": ("hosts", "2001:db8::1\n", "its rows have 16 bytes"),
    "hosts=of too many": ("hosts", "".join(f"10.{row >> 8}.{row & 255}.1\n" for row in range(1001)), "it has 1001 rows"),
    "hosts=of none": ("hosts", "# none\n", "it has no row"),
    "hosts=of one twice": ("hosts", "10.0.0.1\n10.0.0.1\n", "line 2: it is that of line 1"),
    "constants": (".rodata", "10.0.0.1\n", "there is no list .rodata"),
    "no map": ("none", "10.0.0.1\n", "there is no list none"),
}
# settings that aren't printed so
CHANGED = {
    "in one line": (lambda text: text.replace('rows = [\n  "0a000001",\n', 'rows = [ "0a000001",\n'), "hosts", ""),
    "with values": (lambda text: text.replace("entries = 1000\n", "entries = 1000\nvalues = [1]\n", 1), "hosts", "the values of hosts"),
    "in braces": (lambda text: text.split("\n[[map]]")[0] + 'map = [{ name = "hosts", entries = 9, key = "exact", size = 4 }]\n', "hosts", "isn't as"),
    "no TOML": (lambda text: text + "]", "hosts", "these aren't settings"),
    "without a size": (lambda text: text.replace("size = 4\n", "", 1), "hosts", "these aren't settings"),
}


def rows_of(text):
    """What maps of settings have as rows."""
    return {row["name"]: row.get("rows") for row in tomllib.loads(text)["map"]}


def listed(folder, settings, lists):
    """Settings with lists: what is printed, what is said, and the status."""
    (folder / "settings.toml").write_text(settings)
    words = []
    for name, text in lists.items():
        (folder / name).write_text(text)
        words += ["--list", f"{name}={folder / name}"]
    return ran("/nowhere", "/nowhere", "settings-from-c", *words, folder / "settings.toml")


def tests(xdpbox):
    settings = (FOLDER / "settings.toml").read_text()
    with tempfile.TemporaryDirectory() as name:
        folder = pathlib.Path(name)
        made, said, _ = listed(folder, settings, {name: text for name, (text, _) in LISTS.items()})
        wanted = {**rows_of(settings), **{name: rows for name, (_, rows) in LISTS.items()}}
        yield "other rows of printed settings", "" if made and rows_of(made) == wanted else made + said
        again, said, _ = listed(folder, made, {name: (FOLDER / f"{name}.txt").read_text() for name in LISTS})
        yield "the first rows again", "" if again == settings else again + said
        empty = EMPTY + settings.replace('rows = [\n  "0a000001",\n  "0a000002",\n]\n', "", 1)
        filled, said, _ = listed(folder, empty, {"hosts": (FOLDER / "hosts.txt").read_text()})
        yield "rows of an empty list", "" if filled == settings else filled + said
        for name, (of, text, wanted) in WRONG.items():
            made, said, status = listed(folder, settings, {of: text})
            yield f"{name} is named", "" if status == 1 and not made and wanted in said and said.count("\n") == 1 else made + said
        for name, (changed, of, wanted) in CHANGED.items():
            made, said, status = listed(folder, changed(settings), {of: LISTS[of][0]})
            right = rows_of(made)[of] == LISTS[of][1] if not wanted and made else status == 1 and not made and wanted in said
            yield f"settings {name}", "" if right else made + said
