"""clang, as it compiles a filter."""
from __future__ import annotations

import copy
import functools
import os
import platform
import re
import shlex
import shutil
import subprocess
import sys
import tempfile
from typing import Optional

from laxonje_tools.output import fail

# clang before 15 calls memcmp for a constant size too: a loop of our own takes its place. So it does for bpf_strncmp, and for bpf_for and
# bpf_repeat, which libbpf defines unless a file did
INLINED = """
static inline __attribute__((always_inline)) int inlined_memcmp(const void *a, const void *b, unsigned long n)
{
	const unsigned char *x = a, *y = b;
#pragma unroll
	for (unsigned long i = 0; i < n; i++)
		if (x[i] != y[i])
			return x[i] < y[i] ? -1 : 1;
	return 0;
}
#define __builtin_memcmp inlined_memcmp
static inline __attribute__((always_inline)) long inlined_strncmp(const char *a, unsigned int n, const char *b)
{
#pragma unroll
	for (unsigned int i = 0; i < n; i++) {
		if (a[i] != b[i])
			return (unsigned char)a[i] < (unsigned char)b[i] ? -1 : 1;
		if (!a[i])
			break;
	}
	return 0;
}
#define bpf_strncmp(a, n, b) inlined_strncmp(a, n, b)
#define bpf_for(i, start, end) \\
	for (int bpf_at = (start), bpf_end = (end); bpf_at < bpf_end && ((i) = bpf_at, 1); bpf_at++)
#define bpf_repeat(n) for (int bpf_at = 0, bpf_end = (n); bpf_at < bpf_end; bpf_at++)
"""
MEMCMP = "#define memcmp inlined_memcmp\n"
# what clang isn't to do: compare distances where C compares addresses, and store once through one of two addresses
# where C stores twice. Other versions may not know these words
KEPT_AS_IN_C = ["-indvars-predicate-loops=false", "-sink-common-insts=false"]
# and store two numbers of a struct at once; and join two conditions to one; and take a number that is read as one of another type for
# another number, as C allows
STORED_APART, TESTED_APART, OF_ANY_TYPE = "-combiner-store-merging=false", "-simplifycfg-branch-fold-threshold=0", "-fno-strict-aliasing"
IN_HALVES = "-mcpu=v3"  # arithmetic and jumps of 32 bits, which need no cut
# of what clang says of stacks, a line for each function: where it stands, its name, and how many bytes it uses
FRAME = re.compile(r":(?P<name>[^:\t\n]+)\t(?P<bytes>[0-9]+)\t", re.M)
# a function `memcmp` of a file's own, as there is no library: behind a type or an attribute, and not in the condition of an `if`
BEFORE_BLOCK, AFTER_TYPE, MOST_BLANKS = re.compile(r"memcmp\s*\([^;{}]*\)\s*\{"), re.compile(r"[\w)]\s+\Z"), 100
UNKNOWN_WORD = re.compile(rb"Unknown command line argument '([^']+)'")


def system_headers() -> list[str]:
    """The folder of the headers that Debian and Ubuntu keep by machine, and the machine's name, which they look at."""
    machine = platform.machine()
    folder = f"/usr/include/{machine}-linux-gnu"
    return ["-idirafter", folder, f"-D__{machine}__"] if os.path.isdir(folder) else []


def flags() -> list[str]:
    """The words in CFLAGS."""
    try:
        return shlex.split(os.environ.get("CFLAGS", ""))
    except ValueError as fault:
        fail(f"CFLAGS can't be read: {fault}")
        return []


def check_source(source: str) -> None:
    """Ends if a file can't be C, before clang says so in many lines."""
    if not source.endswith(".c"):
        fail(f"{source}: this isn't called .c: give a file of C, or an object file for BPF")


def compile_with(words: list[str], ours: list[str]) -> int:
    """clang's status. What it says goes to standard error, but for words of ours that it doesn't know."""
    ours = [word for word in ours if word == IN_HALVES or not any(word.partition("=")[0] in given for given in words)]
    while True:
        more = [part for word in ours for part in ([word] if word.startswith(("-f", "-mcpu")) else ["-mllvm", word])]
        run = subprocess.run([*words, *more], stderr=subprocess.PIPE, check=False)
        unknown = {name.decode() for name in UNKNOWN_WORD.findall(run.stderr)} & set(ours)
        if not run.returncode or not unknown:
            break
        ours = [word for word in ours if word not in unknown]
    sys.stderr.buffer.write(run.stderr)
    sys.stderr.flush()
    return run.returncode


class Compiler:
    """clang and its words for one file, with a folder for what it makes. `ours`: words that it may not know."""

    def __init__(self, source: str, ours: list[str] = KEPT_AS_IN_C) -> None:
        self.source, self.ours, self.clang = source, ours, os.environ.get("CLANG", "clang")
        if shutil.which(self.clang) is None:
            fail(f"{self.clang} isn't on the PATH: install it (Debian: apt install clang), or name one, as CLANG=clang-19")
        check_source(source)
        self.words = [*flags(), "-x", "c", os.path.join(".", source) if source.startswith("-") else source]
        self.room = self.of_header = tempfile.TemporaryDirectory()  # it is there as long as this is
        self.header = os.path.join(self.room.name, "inlined.h")
        with open(self.header, "w", encoding="utf-8") as file:
            file.write(INLINED if self.defines_memcmp() else INLINED + MEMCMP)
        # a loop that clang keeps is unwound later, and which ones it keeps is nobody's concern
        self.words = ["-Wno-pass-failed", "-Wno-macro-redefined", "-include", self.header, *self.words]

    def with_word(self, word: str) -> Optional[Compiler]:
        """The same with one more of these words; None if this has it."""
        if word in self.ours:
            return None
        other = copy.copy(self)
        other.ours, other.room = [*self.ours, word], tempfile.TemporaryDirectory()
        return other

    def target(self) -> list[str]:
        """For which machine it compiles, and how well."""
        return ["-O2", "-g", "-target", "bpf", "-mcpu=" + os.environ.get("MCPU", "v2"), *system_headers()]

    def is_own(self, place: str) -> bool:
        """Whether a line of C, as `file.c:12`, isn't the author's."""
        return place.rpartition(":")[0] == self.header

    def defines_memcmp(self) -> bool:
        """Whether the file, or a header of it, has a function `memcmp` of its own. What is wrong with them clang says later."""
        run = subprocess.run([self.clang, *self.target(), "-E", "-P", *self.words], capture_output=True, check=False)
        text = run.stdout.decode(errors="replace")
        places = (found.start() for found in BEFORE_BLOCK.finditer(text))
        return any(AFTER_TYPE.search(text[max(0, at - MOST_BLANKS) : at]) for at in places)

    def compiled(self) -> bytes:
        """The bytes of the object file that clang makes. What clang says goes to standard error."""
        target = os.path.join(self.room.name, "program.o")
        words = [self.clang, *self.target(), *self.words, "-fstack-usage", "-c", "-o", target]
        if compile_with(words, self.ours) or not os.path.exists(target):
            fail(f"{self.source}: {self.clang} made no program of it")
        with open(target, "rb") as file:
            return file.read()

    def frames(self) -> dict[str, int]:
        """How many bytes of the stack each function of the object uses, by its symbol's name."""
        with open(os.path.join(self.room.name, "program.su"), encoding="utf-8", errors="backslashreplace") as file:
            return {row["name"]: int(row["bytes"]) for row in FRAME.finditer(file.read())}

    @functools.cached_property
    def declared(self) -> dict[str, int]:
        """Where each variable is declared among the others of the file, by the name that its symbol has."""
        words = [self.clang, *self.target(), *self.words, "-w", "-fsyntax-only", "-Xclang", "-ast-dump"]
        run = subprocess.run(words, capture_output=True, check=False)
        return declarations(run.stdout.decode(errors="backslashreplace"))


# of clang's dump: a variable or a function of the file, a static variable of a function, or a variable's symbol
DECLARATION = re.compile(
    r"^[|`]-(?P<kind>VarDecl|FunctionDecl) [^\n]*?(?P<name>[^\s']+) '"
    r"|^[| ][^\n]*[|`]-VarDecl [^\n]*?(?P<local>[^\s']+) '[^\n]*' static"
    r"|^[| ] [|`]-AsmLabelAttr [^\n]*?> \"(?P<label>.*?)\"(?: IsLiteralLabel)?$",
    re.M | re.S,
)


def declarations(dump: str) -> dict[str, int]:
    """The place of each variable among those of a dump, by the name of its symbol."""
    names, function = [], ""
    for row in DECLARATION.finditer(dump):
        if row["kind"] == "FunctionDecl":
            function = row["name"]
        elif row["label"] is None:
            names.append(row["name"] or f"{function}.{row['local']}")
        elif names:
            names[-1] = row["label"]
    return {name: place for place, name in reversed(list(enumerate(names)))}
