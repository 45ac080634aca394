#!/usr/bin/env python3
"""Programs to measure with. Without a name: a line `NAME-SLOTS PROGRAM` for each mix in each of three sizes. With one:

    bench/mixes.py NAME [SLOTS]              the program in hex
    bench/mixes.py --settings NAME [SLOTS]   settings for `xdpbox check`
    bench/mixes.py --same NAME [SLOTS]       settings for `xdpbox same`, beside an original that differs in the slot before the last

NAME is a mix, or a program that is made for the memory and the time that our verifier takes: `hostile-ids`, `far-jumps`,
`far-jumps-of-eight`, `far-checks`, `most-waiting`, `late-ids`, `early-ids`, `id-checks`, `set-stack`, `checked-ids`, `joined-checks` or
`joined-ids`. No peer is measured on those.
SLOTS is 4096 if it isn't given."""
import sys

sys.dont_write_bytecode = True
from assembler import assembled

SIZES = (100, 1000, 4000)
MOST_SLOTS = 4096

# What all mixes begin with: r2 is the packet's start, r3 its first byte, which the verifiers don't know, and r0 is 0.
# A packet of less than 64 bytes is dropped.
BEGIN = ["r0 = 0", "r2 = *(u32 *)(r1 + 0)", "r4 = *(u32 *)(r1 + 4)", "r5 = r2", "r5 += 64", "if r5 <= r4 goto +1",
         "exit", "r3 = *(u8 *)(r2 + 0)"]
END = ["r0 &= 1", "exit"]

# What the mixes run on. The first byte is in the middle of its range, so that comparisons with it go either way.
PACKET = bytes((128 + 37 * at) % 256 for at in range(64))


def alu(at):
    """Arithmetic of 64 and 32 bits, with registers and constants."""
    return ["r0 += r3", "r5 = r0", "w5 ^= 85", "r5 <<= 3", "r0 *= 7", "w0 += w5", "r5 -= r3", "r0 ^= r5", "w5 = 9",
            "r5 |= r0", "w5 >>= 2", "r0 += r5"]


def mem(at):
    """Loads and stores of packet and stack, of each size."""
    word, half, kept, byte = 4 * at % 60, 2 * at % 62, 8 + at % 64 // 8 * 8, 72 + at % 64
    return [f"r4 = *(u32 *)(r2 + {word})", f"*(u64 *)(r10 - {kept}) = r4", f"r5 = *(u16 *)(r2 + {half})",
            f"*(u8 *)(r10 - {byte}) = r5", f"r5 = *(u64 *)(r10 - {kept})", f"*(u32 *)(r2 + {word}) = r5",
            f"r3 = *(u8 *)(r10 - {byte})", f"*(u16 *)(r2 + {half}) = r3"]


def branch(at):
    """Comparisons of the packet's bytes with constants that vary, each with a jump over one instruction."""
    return [f"r3 = *(u8 *)(r2 + {at % 64})", f"if r3 > {7 * at % 251} goto +1", "r0 += 1"]


def pkt(at):
    """Loads of the packet."""
    return [f"r3 = *(u8 *)(r2 + {at % 64})", f"r3 = *(u16 *)(r2 + {at % 62})", f"r3 = *(u32 *)(r2 + {at % 60})",
            "r0 += r3"]


def stack(at):
    """Eight bytes to the stack and back."""
    return [f"*(u64 *)(r10 - {8 + 4 * at % 64}) = r3", f"r3 = *(u64 *)(r10 - {8 + 4 * at % 64})"]


def stackbyte(at):
    """A byte to the stack and back."""
    return [f"*(u8 *)(r10 - {1 + at // 2 % 64}) = r3", f"r3 = *(u8 *)(r10 - {1 + at // 2 % 64})"]


def imm32(at):
    """Arithmetic of 32 bits with constants."""
    return [f"w0 ^= {at}", f"w0 += {at + 1}"]


def jump(at):
    """Jumps with and without a condition."""
    return [f"r3 = *(u8 *)(r2 + {at % 64})", f"if r3 > {7 * at % 251} goto +1", "goto +1", "r0 += 1"]


def straight(at):
    return ["r0 += 1"]


def diamonds(at):
    """The same comparison over and over."""
    return ["if r3 == 1 goto +1", "r0 += 1"]


def mixed(at):
    """What a filter does: fields of headers, comparisons, a value that is kept on the stack."""
    return ["r3 = *(u8 *)(r2 + 12)", "r4 = *(u8 *)(r2 + 13)", "r3 <<= 8", "r3 |= r4", "if r3 == 34525 goto +1",
            "r0 += 1", "*(u64 *)(r10 - 8) = r3", "r4 = *(u16 *)(r2 + 14)", "r4 = be16 r4", "r4 &= 4095",
            "r5 = *(u64 *)(r10 - 8)", "if r5 == r4 goto +1", "r0 += r5", "r3 >>= 4", "w3 ^= 85", "r4 = r3"]


MIXES = {block.__name__: block for block in
         (alu, mem, branch, pkt, stack, stackbyte, imm32, jump, straight, diamonds, mixed)}


def mix(name, slots):
    """A program of that many slots: the beginning, as many whole blocks as fit, `r0 += 1` for the rest, the end."""
    lines = list(BEGIN)
    while len(lines) < slots - len(END):
        block = MIXES[name](len(lines))
        lines += block if len(lines) + len(block) <= slots - len(END) else ["r0 += 1"]
    return lines + END


# Three bits, each in a register of its own: eight notes that differ from there on. It takes nine slots.
EIGHT = [line for register in (6, 7, 8) for line in
         (f"r{register} = 0", f"if r3 > {30 * register} goto +1", f"r{register} = 1")]


def hostile_ids(slots):
    """Eight notes, then an address in the packet with an id of its own in each slot."""
    lines = [*BEGIN, "r5 = r2", *EIGHT]
    return lines + ["r5 += r3"] * (slots - len(lines) - len(END)) + END


def far_jumps(slots, differ=()):
    """Ids in half of the slots; in a quarter jumps, each to a slot of its own in the last quarter. All these slots wait
    at once, each for notes that have all the ids."""
    far = slots // 4
    begin = ["r2 = *(u32 *)(r1 + 0)", "r3 = *(u32 *)(r1 + 16)", "r3 &= 255", "r5 = r2", *differ]
    ids = ["r5 += r3"] * (slots - len(begin) - 2 * far - 1)
    jumps = [f"if r3 > {at % 255} goto +{far - 1}" for at in range(far)]
    return begin + ids + jumps + ["r0 = 0"] * far + ["exit"]


def far_jumps_of_eight(slots):
    """The same with eight notes."""
    return far_jumps(slots, EIGHT)


def far_checks_of(slots, ids):
    """Eight notes, this many ids, and for the rest comparisons of the last address with the packet's end, each with a jump to
    a slot of its own: each of these waits for eight notes, and each of the notes has learned a bound."""
    begin = [*BEGIN, "r5 = r2", *EIGHT] + ["r5 += r3"] * ids
    far = (slots - len(begin) - 1) // 2
    lines = begin + [f"if r5 <= r4 goto +{far - 1}"] * far
    return lines + ["r0 = 0"] * (slots - len(lines) - 1) + ["exit"]


def far_checks(slots):
    """Ids in three slots of seven."""
    return far_checks_of(slots, slots * 3 // 7)


def most_waiting(slots):
    """As few ids as fill a chunk of bounds, and so the most slots that wait."""
    return far_checks_of(slots, 64)


# Addresses in the packet, each with an id of its own, and comparisons of one with the packet's end that lead on to the
# next slot either way.
KEPT = ["r1", "r6", "r7", "r8", "r9"]
FRESH = [line for register in KEPT for line in (f"{register} = r2", f"{register} += r3")]


def checked_in_turn(lines, slots):
    checks = slots - len(lines) - len(END)
    return lines + [f"if {KEPT[at % len(KEPT)]} <= r4 goto +0" for at in range(checks)] + END


def late_ids(slots):
    """Ids in half of the slots, then five more that are compared in turn: two notes come from each of the eight, and
    differ in what was made last."""
    return checked_in_turn([*BEGIN, "r5 = r2"] + ["r5 += r3"] * (slots // 2) + FRESH, slots)


def early_ids(slots):
    """The same, but notes differ in what was made first."""
    return checked_in_turn([*BEGIN, *FRESH, "r5 = r2"] + ["r5 += r3"] * (slots // 2), slots)


def id_checks(slots):
    """An id and its comparison, over and over."""
    lines = [*BEGIN, "r5 = r2"]
    pairs = (slots - len(lines) - len(END)) // 2
    lines += ["r5 += r3", "if r5 <= r4 goto +0"] * pairs
    return lines + ["r0 += 1"] * (slots - len(lines) - len(END)) + END


def set_stack(slots):
    """Each byte of the stack is set, then five ids are compared in turn: the notes differ in their bounds alone."""
    stores = [f"*(u8 *)(r10 - {1 + at}) = r3" for at in range(512)]
    return checked_in_turn([*BEGIN, *stores, *FRESH], slots)


def checked_ids(slots):
    """Ids in a seventh of the slots, ids that are each compared in half, then ids for the rest."""
    lines = [*BEGIN, "r5 = r2"] + ["r5 += r3"] * (slots // 7) + ["r5 += r3", "if r5 <= r4 goto +0"] * (slots // 4)
    return lines + ["r5 += r3"] * (slots - len(lines) - len(END)) + END


def constants(place):
    """Eight notes with a constant of 1 to 8 each in r6, by what PLACE makes of their numbers 0 to 7. The jumps teach nothing."""
    bits = [line for bit in range(3) for line in (f"if w3 > {60 * bit + 60} goto +1", f"r6 += {1 << bit}")]
    return ["r6 = 0", *bits, *place, "r7 &= 7", "r6 = r7", "r6 += 1"]


RISING = constants(["r7 = r6", "r7 += 1"])  # 2 to 8, then 1
FALLING = constants(["r7 = 6", "r7 -= r6"])  # 7 to 1, then 8


def joined_far(lines, slots):
    """A jump from which nothing is learned, to each slot of a far part, where eight notes wait; each slot of that part splits a range at
    another place, so what falls through equals none of the eight, and is joined into the last, a note after another."""
    far = (slots - len(lines) - len(END)) // 2
    lines = lines + [f"if w3 > 7 goto +{far - 1}"] * far
    lines += [f"if r3 > {(126 + at) % 255} goto +0" for at in range(slots - len(lines) - len(END))]
    return lines + END


def joined_checks(slots):
    """The first id of each chunk of bounds is compared with the packet's end at each note's own constant, so each of eight notes has a
    safe bound of its own in each chunk. If the packet is shorter, the program ends."""
    lines = [*BEGIN, "r5 = r2", *FALLING]
    lines += ["r5 += r3"] * (-len(lines) % 32)
    for _chunk in range(slots * 31 // 64 // 32):
        lines += ["r5 += r3", "r7 = r5", "r7 += r6"]
        lines += [f"if r7 > r4 goto +{slots - 2 - len(lines)}"] + ["r5 += r3"] * 28
    return joined_far(lines, slots)


def joined_ids(slots):
    """The range that is added to make an id begins at each note's own constant, so each of eight notes has a greatest base of
    its own for each id."""
    lines = [*BEGIN, "r5 = r2", *RISING, "r8 = r3", "r8 &= 127", "r8 += r6"]
    return joined_far(lines + ["r5 += r8"] * (slots * 31 // 64), slots)


MADE = {"hostile-ids": hostile_ids, "far-jumps": far_jumps, "far-jumps-of-eight": far_jumps_of_eight, "far-checks": far_checks,
        "most-waiting": most_waiting, "late-ids": late_ids, "early-ids": early_ids, "id-checks": id_checks,
        "set-stack": set_stack, "checked-ids": checked_ids, "joined-checks": joined_checks, "joined-ids": joined_ids}


def program(name, slots):
    """The bytes of a program."""
    lines = MADE[name](slots) if name in MADE else mix(name, slots)
    return b"".join(map(assembled, lines))


def print_lines():
    for name in MIXES:
        for slots in SIZES:
            print(f"{name}-{slots}", program(name, slots).hex())


def settings_of(code):
    return f'program = ["{code.hex()}"]'


def same_settings_of(code):
    """Settings with an original in which the slot before the last is another instruction."""
    original = code[:-16] + assembled("r0 = 77") + code[-8:]
    places = ", ".join(f"[{slot}, false]" for slot in range(len(code) // 8))
    return f"{settings_of(code)}\n[original]\n{settings_of(original)}\nplaces = [{places}]"


FORMS = {"--settings": settings_of, "--same": same_settings_of}


def main(words):
    form = FORMS.get(words[0]) if words else None
    name, slots = (words[form is not None:] + [None, None])[:2]
    if not words:
        return print_lines()
    if name not in {**MIXES, **MADE} or slots and not slots.isdigit():
        sys.exit(__doc__)
    code = program(name, int(slots or MOST_SLOTS))
    print(form(code) if form else code.hex())


if __name__ == "__main__":
    main(sys.argv[1:])
