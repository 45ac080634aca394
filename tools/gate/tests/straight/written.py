"""Words of which the programs of tests are written: instructions, registers, and settings of a program."""
from laxonje_tools.straight.instructions import (
    ADD_CONSTANT,
    ADD_REGISTER,
    AND,
    ALU64,
    ATOMIC_DOUBLE,
    CALL,
    EXIT,
    IF_ABOVE_CONSTANT,
    IF_ABOVE_REGISTER,
    IF_EQUAL_CONSTANT,
    JMP,
    JNE,
    LDX,
    LOAD_DOUBLE,
    LOAD_WORD,
    LSH,
    MOVE_CONSTANT,
    MOVE_REGISTER,
    RSH,
    ST,
    STX,
    STORE_DOUBLE,
    SUB,
    WIDE_LOAD,
    Instruction,
)

LOAD_BYTE, LOAD_HALF, STORE_WORD, STORE_HALF = LDX | 0x70, LDX | 0x68, STX | 0x60, STX | 0x68
STORE_WORD_CONSTANT = ST | 0x60
RSH_CONSTANT = ALU64 | RSH
IF_NOT_CONSTANT, AND_CONSTANT, LSH_CONSTANT, SUB_CONSTANT = JMP | JNE, ALU64 | AND, ALU64 | LSH, ALU64 | SUB
R0, R1, R2, R3, R4, R5, R6, R7, R8, R9, R10 = range(11)
DATA, DATA_END, QUEUE = 0, 4, 16


def settings(*instructions, entries=0, counters=1):
    """Settings of a program, with one map if it has entries. Wide loads name it."""
    slots, relocations = [], []
    for fields in instructions:
        instruction = Instruction(*fields)
        if instruction.opcode == WIDE_LOAD:
            instruction.upper = 0
            relocations.append({"slot": len(slots), "map": "hits"})
        slots += instruction.words()
    maps = [{"name": "hits", "entries": entries, "counters": counters}] if entries else []
    return {"program": slots, "map": maps, "reloc": relocations}


def with_memory(*instructions, constants=b"", counters=0):
    """The same, of a program whose wide loads are of the address of constants, or of a global's, if it has counters."""
    made, places, slot = [], [], 0
    for fields in instructions:
        made.append(Instruction(*fields))
        if made[-1].opcode == WIDE_LOAD:
            made[-1].upper = 0
            places.append({"slot": slot, "place": 0})
        slot += made[-1].slots
    found = {"program": [word for instruction in made for word in instruction.words()], "map": [], "reloc": []}
    if counters:
        maps = [{"name": "seen", "entries": 1, "counters": counters}]
        return {**found, "map": maps, "globals": [{**row, "map": "seen"} for row in places]}
    part = {"name": "table", "section": ".rodata", "first": 0, "end": len(constants)}
    return {**found, "constants": {".rodata": constants}, "tables": [{**row, **part} for row in places]}


START = [(LOAD_WORD, R2, R1, DATA), (LOAD_WORD, R3, R1, DATA_END)]
PASS = [(MOVE_CONSTANT, R0, 0, 0, 2), (EXIT,)]


def in_packet(count, beyond):
    """r2 is the packet's start; if it has fewer bytes than that, control goes on `beyond` slots further."""
    return [(MOVE_REGISTER, R4, R2), (ADD_CONSTANT, R4, 0, 0, count), (IF_ABOVE_REGISTER, R4, R3, beyond)]


def lookup(*rest):
    """r0 is a value of the map, or the rest is left out."""
    return [
        (STORE_WORD_CONSTANT, R10, 0, -4, 0),
        (MOVE_REGISTER, R2, R10),
        (ADD_CONSTANT, R2, 0, 0, -4),
        (WIDE_LOAD, R1),
        (CALL, 0, 0, 0, 1),
        (IF_EQUAL_CONSTANT, R0, 0, len(rest), 0),
        *rest,
    ]
