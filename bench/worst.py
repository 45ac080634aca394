#!/usr/bin/env python3
"""Looks for programs that the verifier takes the most time or memory for, by changing programs as long as they take more:

    bench/worst.py [--memory] [--seconds N] [--seed N] [--keep FILE] COMMAND..
    bench/worst.py --settings 'PART COUNT PICK, ..'

COMMAND is one that reads settings, as `out/xdpbox check`. A program is 4,096 slots: a few parts, each of
which makes ids, keeps values on the stack, makes notes differ, or compares and jumps; the last part goes on to the end.
A line is printed for each program that takes more than those before it, with its parts, and the worst one's settings are
kept in FILE. N is 600 seconds and seed 1 if they aren't given. --settings prints those of a program of these parts."""
import argparse
import os
import random
import subprocess
import sys
import tempfile
import time

sys.dont_write_bytecode = True
from assembler import assembled
from mixes import BEGIN, END, KEPT, MOST_SLOTS

MOST_PARTS = 9
BITS = ("r6", "r7", "r8")


def ids(count, pick):
    return ["r5 += r3"] * count


def fresh(count, pick):
    """Addresses with ids of their own."""
    return [line for register in KEPT[:1 + count % len(KEPT)] for line in (f"{register} = r2", f"{register} += r3")]


def bits(count, pick):
    """Notes that differ in registers: two, four or eight."""
    return [line for at, register in enumerate(BITS[:1 + count % len(BITS)]) for line in
            (f"{register} = 0", f"if r3 > {60 * at + pick % 60} goto +1", f"{register} = 1")]


def constants(count, pick):
    """Notes with a constant of their own in r6: two, four or eight, in an order that PICK turns."""
    few = 1 + count % 3
    return ["r6 = 0", *(line for bit in range(few) for line in (f"if w3 > {60 * bit + pick % 60} goto +1", f"r6 += {1 << bit}")),
            "r7 = r6", f"r7 {('+=', '-=')[pick % 2]} {pick // 2 % 8}", "r7 &= 7", "r6 = r7", "r6 += 1"]


def offsets(count, pick):
    """Chunks of bounds of which an address is compared at each note's own constant."""
    few = 1 + pick % 29
    return [line for _chunk in range(max(1, count // 32)) for line in
            (*["r5 += r3"] * few, "r7 = r5", "r7 += r6", "if r7 > r4 goto +0", *["r5 += r3"] * (29 - few))]


def ranges(count, pick):
    """Ids of which each note has a greatest base of its own."""
    return ["r8 = r3", f"r8 &= {(15, 127, 255)[pick % 3]}", "r8 += r6"] + ["r5 += r8"] * count


def far_jumps(count, pick):
    """Jumps that teach nothing, each to a slot of its own."""
    return [f"if w3 > {pick % 255} goto +{count - 1}"] * count


def kept(count, pick):
    """Values that the stack keeps."""
    register = ("r3", "r5", *KEPT)[pick % 7]
    return [f"*(u64 *)(r10 - {8 * (1 + (pick + at) % 64)}) = {register}" for at in range(min(count, 64))]


def stack_bytes(count, pick):
    return [f"*(u8 *)(r10 - {1 + (pick + at) % 512}) = r3" for at in range(min(count, 512))]


def loads(count, pick):
    return [f"r0 = *(u64 *)(r10 - {8 * (1 + (pick + at) % 64)})" for at in range(min(count, 64))]


def checks(count, pick):
    """Comparisons of addresses in turn with the packet's end; either way leads to the next slot."""
    few = 1 + pick % len(KEPT)
    return [f"if {KEPT[at % few]} <= r4 goto +0" for at in range(count)]


def last_checks(count, pick):
    return [f"if r5 {('<=', '>')[pick % 2]} r4 goto +{pick // 2 % 3}" for _at in range(count)]


def far_checks(count, pick):
    return [f"if {('r5', *KEPT)[pick % 6]} <= r4 goto +{count}"] * count


def ids_and_checks(count, pick):
    return ["r5 += r3", f"if r5 <= r4 goto +{pick % 2}"] * (count // 2)


def branches(count, pick):
    return [f"if r3 > {(pick + at) % 255} goto +{pick % 3}" for at in range(count)]


def moves(count, pick):
    """Ids that go, and come back, in turn."""
    return [line for at in range(count // 3) for line in
            (f"{KEPT[at % 5]} = r2", f"{KEPT[at % 5]} += r3", f"if {KEPT[(at + pick) % 5]} <= r4 goto +0")]


PARTS = [ids, fresh, bits, constants, offsets, ranges, kept, stack_bytes, loads, checks, last_checks, far_checks, far_jumps,
         ids_and_checks, branches, moves]


def some_part(rng):
    return rng.choice(PARTS), rng.choice((1, 5, 30, 64, 200, 600, 1000, 1400, 2000)), rng.randrange(1000)


def changed(parts, rng):
    """The same parts but for one or two changes."""
    parts = list(parts)
    for _change in range(rng.choice((1, 1, 2))):
        at = rng.randrange(len(parts))
        part, count, pick = parts[at]
        kind = rng.randrange(6)
        if kind == 0:
            parts[at] = part, max(1, int(count * rng.choice((0.5, 0.8, 0.95, 1.05, 1.25, 2)))), pick
        elif kind == 1:
            parts[at] = part, count, rng.randrange(1000)
        elif kind == 2:
            parts[at] = some_part(rng)
        elif kind == 3 and len(parts) < MOST_PARTS:
            parts.insert(at, some_part(rng))
        elif kind == 4 and len(parts) > 1:
            del parts[at]
        else:
            other = rng.randrange(len(parts))
            parts[at], parts[other] = parts[other], parts[at]
    return parts


def lines_of(parts):
    """The program: the last part fills what is left."""
    room = MOST_SLOTS - len(END) - 2
    lines = [*BEGIN, "r5 = r2"]
    for part, count, pick in parts:
        lines += part(count, pick)
    part, _count, pick = parts[-1]
    while len(lines) < room:
        lines += part(room - len(lines), pick) or ["r0 += 1"]
    return lines[:room] + ["r0 = 0"] * 2 + END


def settings(parts):
    return f'program = ["{b"".join(map(assembled, lines_of(parts))).hex()}"]\n'


def cost(command, text, memory):
    """Processor seconds, or MB, of one run."""
    with tempfile.TemporaryFile("w+") as given:
        given.write(text)
        given.seek(0)
        child = subprocess.Popen(command, stdin=given, stdout=subprocess.DEVNULL, stderr=subprocess.DEVNULL)
        _pid, _status, used = os.wait4(child.pid, 0)
        child.returncode = 0
    return used.ru_maxrss / 1000 if memory else used.ru_utime + used.ru_stime


def told(parts):
    return ", ".join(f"{part.__name__} {count} {pick}" for part, count, pick in parts)


def parts_of(text):
    """The parts that `told` tells."""
    named = {part.__name__: part for part in PARTS}
    words = [part.split() for part in text.split(", ")]
    return [(named[name], int(count), int(pick)) for name, count, pick in words]


def main():
    words = argparse.ArgumentParser(usage=__doc__)
    words.add_argument("--memory", action="store_true")
    words.add_argument("--seconds", type=float, default=600)
    words.add_argument("--seed", type=int, default=1)
    words.add_argument("--keep")
    words.add_argument("--settings")
    words.add_argument("command", nargs=argparse.REMAINDER)
    given = words.parse_args()
    if given.settings:
        return print(settings(parts_of(given.settings)), end="")
    rng = random.Random(given.seed)
    end, tried = time.monotonic() + given.seconds, 0
    worst, standing = 0.0, []
    while time.monotonic() < end:
        if standing and rng.random() < 0.8:
            parts = changed(rng.choice(standing)[1], rng)
        else:
            parts = [some_part(rng) for _part in range(rng.randint(2, MOST_PARTS))]
        text = settings(parts)
        taken = cost(given.command, text, given.memory)
        tried += 1
        if len(standing) == 8 and taken <= standing[-1][0]:
            continue
        # what else the machine does only adds to a time
        taken = min([taken, *(cost(given.command, text, given.memory) for _again in range(3))])
        standing = sorted([*standing, (taken, parts)], key=lambda it: -it[0])[:8]
        if taken > worst:
            worst = taken
            print(f"{tried}: {taken:.3f} {'MB' if given.memory else 's'}: {told(parts)}", flush=True)
            if given.keep:
                with open(given.keep, "w") as file:
                    file.write(text)
    print(f"{tried} programs tried; the worst took {worst:.3f} {'MB' if given.memory else 's'}")


main()
