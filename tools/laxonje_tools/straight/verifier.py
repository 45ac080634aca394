"""What xdpbox says of a program: `explain`, and what its words mean; and `same`."""
from __future__ import annotations

import functools
import re
import subprocess
from dataclasses import dataclass
from typing import NamedTuple, Optional, Union

from laxonje_tools.output import fail

from .graph import Fail


MOST_WORK = 250000  # slots, for a command of the tools
ENDED = f"the search ended here: with all that was tried {MOST_WORK} slots were written and judged"


class Lost(NamedTuple):
    """A refused access: where its register was an address last, and what was known of the number added there."""

    was: str  # pkt, fp or map_value
    slot: int
    register: Optional[int]  # that of the number
    span: Optional[tuple]  # of the number, from and to

    def multiples_of(self, stride: int) -> range:
        """What the number can be, as far as that is said, if it is a multiple of another one."""
        return range(-(-self.span[0] // stride) * stride, self.span[1] + 1, stride) if self.span else range(0)


@dataclass
class Verdict:
    words: str
    cause: Optional[str] = None  # of a refusal
    slot: Optional[int] = None

    @property
    def accepted(self) -> bool:
        return self.cause is None and re.search(r"^accepted, ", self.words, re.M) is not None

    @property
    def too_many_notes(self) -> bool:
        """Whether it says that more ways meet there than it keeps apart."""
        return re.search(r"is an address on \d+ of the eight notes", self.words) is not None

    @property
    def has_map(self) -> bool:
        """Whether the first argument of the lookup that it refuses is a map."""
        return re.search(r"^>.*\n +R1=map_ptr", self.words, re.M) is not None

    def is_none(self, register: int) -> bool:
        """Whether a register of the instruction that it refuses is 0, as a lookup gives it."""
        return re.search(rf"^>.*\n(?: .*)?\bR{register}=0(?:\s|$)", self.words, re.M) is not None

    @property
    def has_list(self) -> bool:
        """Whether the lookup that it refuses is in a list of keys."""
        return re.search(r"^write instead: .*\bkey of the map's list has$", self.words, re.M) is not None

    def lost(self) -> Optional[Lost]:
        """What is said of an address that became a number."""
        said = re.search(r"^ *R\d+ was ([a-z_]+)\S* before (\d+)(?: with R(\d+)=([^\s:]+))?", self.words, re.M)
        if not said:
            return None
        span = re.search(r"umin=(\d+),umax=(\d+)", said[4] or "")
        register = int(said[3]) if said[3] else None
        return Lost(said[1], int(said[2]), register, (int(span[1]), int(span[2])) if span else None)


class StillRefused(Fail):
    """The verifier's answer to a program that nothing more was changed in."""

    def __init__(self, slot: Optional[int], answer: Verdict) -> None:
        super().__init__(f"straightened, it is refused with {answer.cause}", slot, answer.cause)
        self.answer = answer


@dataclass
class Work:
    """How many slots of programs were written and judged, and how many a command has at most; None: as many as it takes."""

    slots: int = 0
    most: Optional[int] = None

    @property
    def is_enough(self) -> bool:
        return self.most is not None and self.slots > self.most

    def check(self) -> None:
        """Ends a search if no more is judged."""
        if self.is_enough:
            raise Fail(ENDED)


WORK = Work()


def asked(xdpbox: str, command: str, settings: Union[str, bytes]) -> subprocess.CompletedProcess:
    """What xdpbox answers. Ends if it can't be run."""
    given = settings.encode() if isinstance(settings, str) else settings
    try:
        run = subprocess.run([xdpbox, command], input=given, capture_output=True, check=False)
    except OSError as fault:
        fail(f"{xdpbox} can't be run: {fault.strerror}")
        raise
    run.stdout, run.stderr = (part.decode(errors="replace") for part in (run.stdout, run.stderr))
    return run


def refusal(xdpbox: str, settings: Union[str, bytes]) -> Optional[str]:
    """The line with which `xdpbox check` refuses settings; None if it accepts them."""
    run = asked(xdpbox, "check", settings)
    said = (run.stdout + run.stderr).strip().partition("\n")[0]
    return None if run.returncode == 0 else said or f"{xdpbox} gave no answer"


def is_of_program(refused: str) -> bool:
    """Whether a refusal is of the program, in settings that are right."""
    return re.match(r"refused V\d+ ", refused) is not None


class Stop(NamedTuple):
    """Where `xdpbox same` stops: a slot of the result, the slot of the original there, and why."""

    slot: int
    original: int
    words: str


class Called(NamedTuple):
    """`how`: what `xdpbox same` calls a program beside another one: `same`, `same by counts`, `same alone`, or None; and then where it
    stops, if it says that."""

    how: Optional[str] = None
    stop: Optional[Stop] = None


def called(xdpbox: str, settings: str) -> Called:
    """What `xdpbox same` answers of the program of settings, as text, beside the other one there."""
    run = asked(xdpbox, "same", settings)
    said = re.match("(same|same by counts|same alone), ", run.stdout)
    if run.returncode == 0 and said:
        return Called(said[1])
    stop = re.search(r"^at slot (\d+), the original at (\d+): (.*)$", run.stdout, re.M)
    return Called(stop=Stop(int(stop[1]), int(stop[2]), stop[3]) if stop else None)


@functools.cache
def verdict(xdpbox: str, settings: str) -> Verdict:
    """What `xdpbox explain` answers to settings as text. The same text isn't asked twice."""
    run = asked(xdpbox, "explain", settings)
    refused = re.search(r"^refused (V\d+) at (\d+)", run.stdout, re.M)
    return Verdict(run.stdout, refused[1], int(refused[2])) if refused else Verdict(run.stdout)
