"""The rows of crates/outside_rows: questions, and the answers that others' headers, assemblers and interpreters give.

The file stdout has a section for each source, begun by a line '# SOURCE: version', with lines 'question = answer'; the file stdin
has the same without the answers. The gate runs the program on stdin and compares what it writes with stdout.
"""
import os
import re

TOP = os.path.dirname(os.path.dirname(os.path.dirname(os.path.realpath(__file__))))
FOLDER = f"{TOP}/crates/outside_rows"


def sections():
    """The lines of each section of stdout, by its source."""
    found, source = {}, None
    with open(f"{FOLDER}/stdout", encoding="utf-8") as text:
        for line in text.read().splitlines():
            head = re.match(r"# (\w+): ", line)
            source = head[1] if head else source
            found.setdefault(source, []).append(line)
    return found


def write(all_sections):
    lines = [line for section in all_sections.values() for line in section]
    with open(f"{FOLDER}/stdout", "w", encoding="utf-8") as out:
        out.writelines(f"{line}\n" for line in lines)
    with open(f"{FOLDER}/stdin", "w", encoding="utf-8") as out:
        out.writelines(f"{line.split(' = ')[0]}\n" for line in lines)


def compare(theirs, ours):
    """How many rows differ; each is printed."""
    differ = 0
    for at in range(max(len(theirs), len(ours))):
        pair = [rows[at] if at < len(rows) else "nothing" for rows in (theirs, ours)]
        if pair[0] != pair[1]:
            differ += 1
            print(f"row {at + 1}: the source has '{pair[0]}', stdout has '{pair[1]}'")
    return differ


def run(words, source, version_of, rows_of):
    """The whole of a tool, by what gives the source's version and its rows. Its last line is 'N rows, M differ'; its status is 1 if any does."""
    usage = f"usage: tools/dev/rows-from-{source} [--write]"
    if words == ["--help"]:
        print(usage)
        return 0
    if words not in ([], ["--write"]):
        raise SystemExit(usage)
    version, made = version_of(), list(rows_of())
    kept = sections()
    if words == ["--write"]:
        kept[source] = [f"# {source}: {version}", *made]
        write(kept)
    differ = compare(made, kept.get(source, [""])[1:])
    print(f"{len(made)} rows, {differ} differ")
    return 1 if differ else 0
