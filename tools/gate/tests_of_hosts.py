"""Tests of the scripts for hosts in C: of their words, and of what compares the header with the library."""
import os
import pathlib
import subprocess
import types
from collections.abc import Iterator

TOOLS = pathlib.Path(__file__).resolve().parents[1]


def answer(name: str, *words: str, **settings: str) -> tuple[int, str, str]:
    """What a script answers to these words: its status, and what it says on both outputs."""
    run = subprocess.run([TOOLS / name, *words], capture_output=True, text=True, timeout=60, env={**os.environ, **settings})
    return run.returncode, run.stdout, run.stderr


def word_tests() -> Iterator[tuple[str, bool]]:
    """What the tests of hosts answer to words alone: their help, or one line of what is wrong."""
    status, said, wrong = answer("gate/host-examples", "--help")
    yield "the help of host-examples", status == 0 and "tools/gate/host-examples" in said.splitlines()[0] and not wrong
    status, said, wrong = answer("gate/host-examples", "out")
    yield "a word that host-examples doesn't know", status == 2 and not said and wrong.count("\n") == 1
    status, said, wrong = answer("under-guests", "an hour")
    yield "an hour that is no number", status == 2 and not said and wrong.count("\n") == 1
    status, said, wrong = answer("gate/host-examples", ARCHIVE="/dev/null")
    yield "an archive that isn't there", status == 2 and "/dev/null has no liblaxonje.a" in said


def header_tests(fits: types.ModuleType) -> Iterator[tuple[str, bool]]:
    """A header in which one thing is wrong doesn't fit the library."""
    header, sources = (TOOLS.parent / "include/laxonje.h").read_text(), fits.source_texts()
    in_c = fits.text_in_c()
    yield "the header that fits", fits.differences(header, sources, in_c) == []
    yield "a call in C that isn't declared", len(fits.differences(header, sources, in_c + "\nconst char *laxonje_text(void);\n")) == 1
    calls = (TOOLS / "parts/calls.c").read_text()
    yield "the calls that take a handle", fits.unheld(sources, calls) == []
    yield "a call without an answer for null", len(fits.unheld(sources, calls.replace("HELD(laxonje_run_into);\n", ""))) == 1
    yield "an answer for null of no call", len(fits.unheld(sources, calls + "HELD(laxonje_version);\n")) == 1
    yield "the calls and structs that are compared", len(fits.prototypes(header)) > 20 and len(fits.header_structs(header)) > 7
    for what, old, new in (
        ("two fields swapped", "uint32_t entries;\n\tuint32_t counters;", "uint32_t counters;\n\tuint32_t entries;"),
        ("a wider field", "uint16_t domain;", "uint32_t domain;"),
        ("a wider field of a union", "union {\n\t\tuint32_t lent;", "union {\n\t\tuint64_t lent;"),
        ("a field less", "\tuint32_t slots;\n", ""),
        ("a pointer that may be written through", "const uint8_t *packet, size_t packet_bytes);", "uint8_t *packet, size_t packet_bytes);"),
        ("a shorter count", "struct laxonje_op *ops, size_t op_count);", "struct laxonje_op *ops, uint32_t op_count);"),
        ("another answer", "size_t laxonje_counters(", "uint32_t laxonje_counters("),
        ("a call less", "uint32_t laxonje_version(void);", ""),
        ("a call that isn't there", "uint32_t laxonje_version(void);", "uint32_t laxonje_version(void);\nvoid laxonje_nothing(void);"),
    ):
        yield f"a header with {what}", old in header and len(fits.differences(header.replace(old, new), sources, in_c)) >= 1


# What a disassembly says, with what later than the second level each line has, and whether it is of the second level alone.
DISASSEMBLED = [
    ("vpaddd (%rdi),%ymm0,%ymm0", True, False),
    ("vmovd  %eax,%xmm0", True, False),
    ("andn   %esi,%edi,%eax", True, False),
    ("shlx   %rax,%rbx,%rcx", True, False),
    ("lzcnt  %eax,%eax", True, False),
    ("movbe  (%rdi),%eax", True, False),
    ("kmovw  %eax,%k1", True, False),
    ("tzcnt  %eax,%eax", False, False),
    ("verr   %ax", False, False),
    ("mov    %rax,%rbx", False, False),
    ("lock cmpxchg %rcx,(%rdx)", False, False),
    ("popcnt %rax,%rax", False, True),
    ("pshufb %xmm1,%xmm0", False, True),
    ("crc32b %sil,%edi", False, True),
    ("pmaxsw %xmm1,%xmm0", False, False),
    ("pmaxub %xmm1,%xmm0", False, False),
    ("pmaxuw %xmm1,%xmm0", False, True),
]


def baseline_tests(baseline: types.ModuleType) -> Iterator[tuple[str, bool]]:
    """Which instructions each processor of the second level has."""
    for line, is_later, is_second in DISASSEMBLED:
        found = baseline.instructions(f"  1234:\t{line}\n")
        yield f"the level of {line}", found.total() == 1 and (bool(baseline.later(found)), bool(baseline.second(found))) == (is_later, is_second)
    yield "what is no instruction", not baseline.instructions("\nout.o:     file format elf64-x86-64\n\n0000 <main>:\n")
    for words in ((), ("--fast",), ("/nowhere",)):
        status, said, wrong = answer("gate/baseline", *words)
        yield f"baseline {' '.join(words)}", status == (1 if words == ("/nowhere",) else 2) and not said and wrong.count("\n") == 1
