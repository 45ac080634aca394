"""What `xdpbox same` is asked of a result, and what comes of its answers."""
import os
import pathlib
import shlex
import shutil
import subprocess
import tempfile
import tomllib

from tests.straight import programs
from laxonje_tools.straight.command import NO_XDPBOX, straightened
from laxonje_tools.straight.refused import Refused
from laxonje_tools.straight.settings import text_beside
from laxonje_tools.straight.shown import NOT_SHOWN, question
from laxonje_tools.straight.verifier import called

TOOLS = pathlib.Path(__file__).resolve().parents[3]
EXAMPLES = TOOLS.parent / "examples/straightened"
# examples whose result is proved to be the same, and how
PROVED = {"loop": "proved", "loop-with-break": "proved", "nine-ways": "proved", "plain-count": "proved by counts"}
PROVED |= {"read-and-count": "proved alone", "syn-share": "proved alone"}
# programs whose result is proved to be the same: the index of a counter is told apart where it is one of a row, and a number is kept that is
# cut to 32 bits; the same by counts; those with a counter that is stored to otherwise, and those with halves of one
SAME = "COUNTER_INDEX", "STACK_INDEX", "CUT_TO_32_BITS"
BY_COUNTS = "COUNT", "COUNT_OF_A_NUMBER", "TWO_COUNTS", "COUNT_IN_A_LOOP"
ALONE = "COUNT_READ", "DOUBLED", "COUNTER_SET", "COUNTER_SET_ON_SOME_WAYS", "COUNTED_TWICE"
HALVES = "HALF_COUNTER", "UPPER_HALF", "BOTH_HALVES"  # written out; the last two are counts
# programs whose result has another form than the first that is found
# behind a loop a jump both of whose ways lead to the next slot
IDLE_BRANCH = programs.settings(
    (programs.LOAD_WORD, programs.R4, programs.R1, programs.QUEUE),
    (programs.MOVE_CONSTANT, programs.R0),
    (programs.MOVE_CONSTANT, programs.R3),
    (programs.ADD_CONSTANT, programs.R0, 0, 0, 2),
    (programs.ADD_CONSTANT, programs.R3, 0, 0, 1),
    (programs.IF_NOT_CONSTANT, programs.R3, 0, -3, 5),
    (programs.IF_EQUAL_CONSTANT, programs.R4, 0, 0, 7),
    (programs.EXIT,),
)
# an index of a counter by one bit of a byte, which higher ones stand above
BIT_INDEX = programs.settings(
    *programs.START,
    *programs.in_packet(1, 13),
    (programs.LOAD_BYTE, programs.R6, programs.R2),
    *programs.lookup(
        (programs.RSH_CONSTANT, programs.R6, 0, 0, 3),
        (programs.AND_CONSTANT, programs.R6, 0, 0, 8),
        (programs.ADD_REGISTER, programs.R0, programs.R6),
        (programs.MOVE_CONSTANT, programs.R1, 0, 0, 1),
        (programs.ATOMIC_DOUBLE, programs.R0, programs.R1),
    ),
    *programs.PASS,
    entries=1,
    counters=2
)
FORMS = {"IDLE_BRANCH": IDLE_BRANCH, "BIT_INDEX": BIT_INDEX}
# what stands in place of `xdpbox same`, and how a result is shown by it, None if it isn't
ANSWERS = {
    "a yes": ("echo 'same, 1 slots for 1'", "proved"),
    "a yes by counts": ("echo 'same by counts, 1 slots for 1'", "proved by counts"),
    "a yes alone": ("echo 'same alone, 1 slots for 1'", "proved alone"),
    "a yes by something else": ("echo 'same by chance, 1 slots for 1'", None),
    "a no": ("echo 'not shown'; exit 1", None),
    "a no with its place": ("printf 'not shown\\nat slot 2, the original at 1: the instructions differ\\n'; exit 1", None),
    "an xdpbox without the command": ("echo 'words refused'; exit 2", None),
    "a yes that is refused": ("echo 'same, 1 slots for 1'; exit 4", None),
    "a yes by counts that is refused": ("echo 'same by counts, 1 slots for 1'; exit 4", None),
    "a status without a word": ("exit 0", None),
    "no answer": ("kill $$", None),
}


def before(name):
    return tomllib.loads((EXAMPLES / name / "before.toml").read_text())


def is_called_same(xdpbox, original, result, labels):
    """Files of a pair that differs: why it is called the same, or nothing."""
    original, result = (tomllib.loads(path.read_text()) for path in (original, result))
    rows = (line.split() for line in labels.read_text().splitlines())
    wanted = question(original, result, {int(slot): (kind, int(at)) for slot, kind, at in rows})
    answer = None if wanted is None else called(xdpbox, wanted).how
    return f"it is called {answer}" if answer else ""


def how(xdpbox, settings):
    """How a result was shown to be the same, or why there is none."""
    try:
        return straightened(settings, xdpbox).how
    except Refused as refused:
        return f"refused: {refused.why}"


def answer_tests(xdpbox):
    """Other answers in place of xdpbox's own."""
    with tempfile.TemporaryDirectory() as folder:
        path = pathlib.Path(folder, "xdpbox")
        for name, (answer, wanted) in ANSWERS.items():
            path.write_text(f'#!/bin/sh\nif [ "$1" = same ]; then {answer}; exit; fi\nexec {shlex.quote(xdpbox)} "$@"\n')
            path.chmod(0o755)
            found = how(str(path), before("loop"))
            right = found == wanted if wanted else found.startswith("refused: ") and NOT_SHOWN in found
            yield f"{name} is {wanted or 'refused'}", "" if right else found


STOPPED = "printf 'not shown\\nat slot 2, the original at 1: the instructions differ\\n'; exit 1"
STOPS = "a program was found that isn't shown to be the same: xdpbox same stops at its slot 2, the original's 1: the instructions differ"


def straightened_by(tool, name, *words, **env):
    """What `straighten` prints of an example, and what it says."""
    with open(EXAMPLES / name / "before.toml", encoding="utf-8") as given:
        run = subprocess.run([tool, *words], stdin=given, env={**os.environ, **env}, capture_output=True, text=True, check=False)
    return run.stdout, run.stderr, run.returncode


def tool_tests(xdpbox):
    """The tool, as it is called."""
    with tempfile.TemporaryDirectory() as folder:
        path, fake = pathlib.Path(folder, "asked.toml"), pathlib.Path(folder, "xdpbox")
        made, said, _ = straightened_by(TOOLS / "straighten", "loop", "--same", path, XDPBOX=xdpbox)
        yield "what is proved is printed", "" if made.split("\n")[0].endswith(", proved") else said
        kept = path.exists() and called(xdpbox, path.read_text()).how == "same"
        yield "--same keeps what was asked", "" if kept else "it isn't"
        fake.write_text(f'#!/bin/sh\nif [ "$1" = same ]; then {STOPPED}; fi\nexec {shlex.quote(xdpbox)} "$@"\n')
        fake.chmod(0o755)
        made, said, status = straightened_by(TOOLS / "straighten", "loop", XDPBOX=str(fake))
        right = not made and status == 1 and f": {STOPS}\nwrite instead: " in said
        yield "what isn't shown isn't printed, and where that stops is said", "" if right else f"{status} {made[:60]} {said}"
        yield from absence_tests(pathlib.Path(folder))


def absence_tests(folder):
    """The tools where there is no xdpbox."""
    shutil.copytree(TOOLS / "laxonje_tools", folder / "tools/laxonje_tools")
    env = {name: value for name, value in os.environ.items() if name != "XDPBOX"}
    env["PATH"] = os.pathsep.join(part for part in env["PATH"].split(os.pathsep) if not pathlib.Path(part, "xdpbox").exists())
    source = folder / "filter.c"
    source.write_text('__attribute__((section("xdp"), used)) int f(void *ctx) { return 2; }\n')
    for name, words in (("straighten", ()), ("settings-from-c", (source,))):
        tool = shutil.copy(TOOLS / name, folder / "tools")
        run = subprocess.run([tool, *words], env=env, stdin=subprocess.DEVNULL, capture_output=True, text=True, check=False)
        right = run.returncode == 1 and not run.stdout and NO_XDPBOX in run.stderr and run.stderr.count("\n") == 1
        yield f"{name} without xdpbox", "" if right else run.stdout + run.stderr


def tests(xdpbox):
    for name, wanted in PROVED.items():
        found = how(xdpbox, before(name))
        yield f"{name} is {wanted}", "" if found == wanted else found
    for name, settings in [*((name, getattr(programs, name)) for name in SAME), *FORMS.items()]:
        found = how(xdpbox, settings)
        yield f"{name} is proved", "" if found == "proved" else found
    for name in BY_COUNTS:
        found = how(xdpbox, getattr(programs, name))
        yield f"{name} is proved by counts", "" if found == "proved by counts" else found
    for name in ALONE:
        found = how(xdpbox, getattr(programs, name))
        yield f"{name} is proved alone", "" if found == "proved alone" else found
    for name in HALVES:
        found = how(xdpbox, getattr(programs, name))
        yield f"{name} is proved alone", "" if found == "proved alone" else found
    yield "constants in memory aren't asked of", "" if question(programs.TABLE, programs.TABLE, {}) is None else "they are"
    other = {**programs.COUNT, "map": [{"name": "b", "entries": 1}]}
    yield "nor other maps", "" if question(programs.COUNT, other, {}) is None else "they are"
    few = text_beside(programs.ACCEPTED, programs.ACCEPTED, {})
    yield "a slot without a place has one", "" if len(tomllib.loads(few)["original"]["places"]) else "none"
    yield from answer_tests(xdpbox)
    yield from tool_tests(xdpbox)
