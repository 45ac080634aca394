#!/usr/bin/env python3
"""Machine instructions that a packet takes in several.c or in turn.c, by callgrind: instructions.py [--functions] BINARY SIZE PROGRAM [SLOTS [MOST [BATCH]]]

The words are the binary's own, but for the number of batches: what is printed is the difference of 2 batches and 6, without what publishes packets. Of
several.c it is followed by what its host's loop takes of it. With --functions a line for each function that takes more than 2."""
import collections
import pathlib
import re
import subprocess
import sys
import tempfile

ROUNDS, FEW, MANY = 5, 2, 6
PAGE, RING, MOST_BATCH = 4096, 256, 16
PUBLISHING = ("main", "publish", "put", "laxonje_queue_state", "held_laxonje_queue_state")
LOOP = ("take_turn", "take_turns", "take_batch", "make_ops", "read_words", "write_words")


def own_instructions(output: pathlib.Path) -> collections.Counter[str]:
    """What each function of callgrind's output takes itself."""
    counts: collections.Counter[str] = collections.Counter()
    name, is_call = "", False
    for line in output.read_text().splitlines():
        if line.startswith("fn="):
            name = line[3:].strip()
        elif line.startswith("calls="):
            is_call = True
        elif re.match(r"[\d+*-]", line):
            counts[name] += 0 if is_call else int(line.split()[-1])
            is_call = False
    return counts


def counted(command: list[str]) -> collections.Counter[str]:
    """The instructions of a run, by function."""
    with tempfile.TemporaryDirectory() as room:
        output = pathlib.Path(room) / "counted"
        options = ["--compress-strings=no", "--compress-pos=no", f"--callgrind-out-file={output}"]
        subprocess.run(["valgrind", "--tool=callgrind", *options, *command], capture_output=True, check=True)
        return own_instructions(output)


def batch_of(size: int, words: list[str]) -> int:
    """How many packets the binary publishes at a time."""
    if len(words) > 3:
        return int(words[3])
    slots = int(words[1]) if len(words) > 1 else 0
    return min(MOST_BATCH, RING // max(1, slots or -(-size // PAGE)))


def packet_instructions(binary: str, size: int, words: list[str]) -> dict[str, float]:
    """What a packet takes in each function."""
    few, many = (counted([binary, str(size), str(batches), *words]) for batches in (FEW, MANY))
    packets = (MANY - FEW) * ROUNDS * batch_of(size, words)
    return {name: (count - few[name]) / packets for name, count in many.items() if count != few[name]}


def main() -> None:
    words = sys.argv[1:]
    if len(words) < 3 or words[0] in ("--help", "-h"):
        sys.exit(__doc__)
    shows = words[0] == "--functions"
    binary, size, *rest = words[shows:]
    found = {name: count for name, count in packet_instructions(binary, int(size), rest).items() if name.split(".")[0] not in PUBLISHING}
    loop = sum(count for name, count in found.items() if name.split(".")[0] in LOOP)
    print(f"{sum(found.values()):.1f}" + (f" {loop:.1f}" if loop else ""))
    for name, count in sorted(found.items(), key=lambda it: -it[1]):
        if shows and count > 2:
            print(f"{count:10.1f} {name}")


if __name__ == "__main__":
    main()
