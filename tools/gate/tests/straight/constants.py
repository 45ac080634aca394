"""Constants in memory as maps of their own: their addresses, when there are none, and runs beside those of the tables; and globals that
are looked up."""
from laxonje_tools.from_c.constants import CONSTANTS_START, CONSTANTS_STRIDE, with_constants
from laxonje_tools.from_c.frames import stack_of
from laxonje_tools.from_c.looked_up import looked_up
from laxonje_tools.straight.instructions import ADD_REGISTER, ALU64, EXIT, MUL, WIDE_LOAD
from laxonje_tools.straight.settings import relocations_of
from tests.straight import programs
from tests.straight.machine import Machine, filtered

ARRAY = {"name": "a", "entries": 1}
PACKETS = [bytes((first, *range(13))) for first in range(0, 256, 7)]
# three bits of the packet three times are an index of 24 constants, of which no verifier's range is known
INDEXED = with_constants(
    programs.with_memory(
        *programs.START,
        *programs.in_packet(1, 8),
        (programs.LOAD_BYTE, programs.R5, programs.R2),
        (programs.AND_CONSTANT, programs.R5, 0, 0, 7),
        (ALU64 | MUL, programs.R5, 0, 0, 3),
        (WIDE_LOAD, programs.R6),
        (ADD_REGISTER, programs.R6, programs.R5),
        (programs.LOAD_BYTE, programs.R0, programs.R6, 2),
        (EXIT,),
        *programs.PASS,
        constants=bytes(range(24)),
    )
)


def beside(*maps, **changed):
    """A program with a table, beside these maps."""
    return {**programs.TABLE, "map": list(maps), **changed}


# what can't be maps of constants
NONE = {
    "no constants": beside(tables=[], constants={}),
    "a section named as a map": beside({**ARRAY, "name": ".rodata"}),
    "sixteen maps beside it": beside(*({**ARRAY, "name": f"{number}"} for number in range(16))),
    "no bytes": beside(constants={".rodata": b""}),
    "more bytes than a map has": beside(constants={".rodata": bytes(CONSTANTS_STRIDE + 1)}),
    "an address past them all": beside(tables=[{**row, "place": CONSTANTS_STRIDE} for row in programs.TABLE["tables"]]),
}


# a global of two numbers, to the second of which 1 is added; and a store that leaves eight bytes of the stack
TWO_NUMBERS = {
    "program": ["1801000000000000", "0000000000000000", "b702000001000000", "db21000000000000", "b700000002000000", "9500000000000000"],
    "map": [{**ARRAY, "counters": 2}],
    "reloc": [],
    "tables": [],
    "globals": [{"slot": 0, "map": "a", "place": 8}],
}
DEEP = ["7a0a08fe00000000"]


def address_of(settings):
    """The number of the first wide load."""
    slot = programs.TABLE["tables"][0]["slot"]
    low, high = (int.from_bytes(bytes.fromhex(settings["program"][slot + at][8:]), "little") for at in (0, 1))
    return low + (high << 32)


def runs(settings):
    """Of each packet what becomes of it, by the interpreter."""
    machine = Machine(settings)
    return [machine.run(packet) for packet in PACKETS]


def tests(xdpbox):
    for name, settings in NONE.items():
        yield f"{name}: no map of constants", "" if with_constants(settings) is None else "there is one"
    made = with_constants(beside(ARRAY))
    yield "constants are the last map", "" if address_of(made) == CONSTANTS_START + CONSTANTS_STRIDE else f"{address_of(made):#x}"
    wide = [with_constants(beside(*({**ARRAY, "name": f"{number}"} for number in range(maps)))).get("wide", False) for maps in (3, 4)]
    yield "a fifth map asks for wider limits", "" if wide == [False, True] else f"{wide}"
    for name in ("TABLE", "RISING_TABLE"):
        settings = getattr(programs, name)
        made = with_constants(settings)
        yield f"{name} runs as with its table", "" if runs(made) == runs(settings) else "it differs"
        said, _ = filtered(xdpbox, made, made["program"], relocations_of(made), PACKETS)
        yield f"{name} is accepted as it is, and runs so", "" if said == runs(settings) else f"{said}"
    yield from global_tests()


def global_tests():
    """Globals that are looked up: the runs of the program that has their addresses."""
    for name in ("GLOBAL", "SMALL_GLOBAL"):
        settings = {"reloc": [], "tables": [], **getattr(programs, name)}
        made = looked_up(with_stack(settings))
        yield f"{name} runs as with its address", "" if counted(made) == counted(settings) else f"{counted(made)}"
    _, counters = counted(looked_up(with_stack(TWO_NUMBERS)))
    yield "a second number of a global", "" if counters == {("a", 1): len(PACKETS)} else f"{counters}"
    full = {**TWO_NUMBERS, "program": [*DEEP, *TWO_NUMBERS["program"]]}
    yield "a global without room on the stack", "" if looked_up(with_stack(full)) is None else "it is looked up"
    yield "no global", "" if looked_up(with_stack({**TWO_NUMBERS, "globals": []})) is None else "it is looked up"


def with_stack(settings):
    """Settings with how much of the stack their program uses, as what reads C says it."""
    return {**settings, "stack": stack_of(bytes.fromhex("".join(settings["program"])), "", {})}


def counted(settings):
    """What becomes of packets, by the interpreter, and the counters that aren't 0."""
    machine = Machine(settings)
    return [machine.run(packet) for packet in PACKETS], machine.counters()
