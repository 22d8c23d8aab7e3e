"""What the proved program says of a show's text, as values: for `import hemtoghai`.

The verdict is the program's, or that of the library with the same answers (answering.py), and so are the places in
which drones are blocked. What helps beside it, what no drone flies and the cure of a faulty line, is worked out by the
companions and proves nothing.
"""
from __future__ import annotations

import json
import operator
import os
import re
from collections.abc import Iterator, Mapping
from dataclasses import dataclass, field
from functools import cached_property
from typing import Any, Optional, Union

from hemtoghai import answering, companion, program, texts
from hemtoghai.language import choreo, cures
from hemtoghai.language.choreo import DEPTH
from hemtoghai.writing import flyable, meetings

Text = Union[str, bytes]
Place = tuple[int, int, int]
NO_MEMORY = 1  # the status
Unusable = program.Unusable  # why neither the library nor the program can be asked


# ---- values

@dataclass(frozen=True)
class Blocked:
    """Two drones in a cue that are too near, or of which nothing shows that they are apart, as the program's
    `explain --all` names them. Instants are milliseconds from the begin of the show, places micrometres, cues count
    from 1 with repeats and figures written out, lines are those of the text."""
    first: str
    second: str
    cue: int
    begin_ms: float  # of the first of the cue's parts that is blocked
    end_ms: float  # of that part
    nearest_ms: float  # where the two are nearest, of the 33 instants that cut the cue into 32 parts
    places: tuple[Place, Place]  # of both, there
    share: float  # how far apart they are there, as a share of the distance at which their ellipsoids touch
    touch: bool  # whether the ellipsoids share a point there: then no greater depth helps
    cause: Optional[str]  # the show's `stray` and `late`, where the program separates the two without both
    lines: tuple[int, ...]  # of the cue and of what the two fly in it
    named: bool  # whether it is the one that the program names


@dataclass(frozen=True)
class Caution:
    """Something that no drone flies, or that is seldom meant, in a show that is accepted. Cues count from 1, and the
    one after the last is the end."""
    kind: str  # "motion", "low", "small", "stacked" or "still"
    words: str
    drone: Optional[str] = None
    cue: Optional[int] = None
    line: Optional[int] = None


@dataclass(frozen=True)
class Verdict:
    """What the program or the library answers to a show."""
    status: int  # docs/COMMANDS.md, Statuses and fault lines
    output: bytes = field(repr=False)
    proof: Optional[str] = field(repr=False)  # the last line of the proof of what answered
    text: bytes = field(repr=False)
    depth: int = DEPTH
    by: Optional[str] = field(default=None, compare=False)  # "library" or "process": which of the two answered

    def __bool__(self) -> bool:
        """Whether the show is accepted, so that `if hemtoghai.check(text):` asks what it seems to ask."""
        return self.ok

    def __repr__(self) -> str:
        return f"Verdict(status={self.status}, line={self.line!r}, depth={self.depth}, by={self.by!r})"

    @property
    def ok(self) -> bool:
        """Whether the show is accepted."""
        return self.status == 0

    @property
    def proved(self) -> bool:
        """Whether the file that answered is the one of a record or manifest that has its proof."""
        return self.proof is not None

    @property
    def line(self) -> str:
        """The first line of the answer: of a refusal, what is wrong and where."""
        return self.output.split(b"\n", 1)[0].decode(errors="replace")

    @property
    def fault(self) -> Optional[int]:
        """The line of the text that is faulty, or None."""
        found = re.match(r"error 3 line (\d+) ", self.line)
        return int(found[1]) if found else None

    @cached_property
    def cure(self) -> Optional[str]:
        """In words, what a faulty line needs, or None."""
        if self.fault is None:
            return None
        if is_path(self.text):
            return "a show's text is wanted, and this is the name of a file: check(open(name).read())"
        row = cures.cure_in(self.text, self.fault, self.line.split(" ")[4])
        return row[-1] if row else None

    @cached_property
    def places(self) -> tuple[tuple[Blocked, ...], bool]:
        """The places that are blocked, and whether these are all; raises Unusable where the program can't be asked."""
        return blocked_of(self.text, self.depth) if self.status == 5 else ((), True)

    @property
    def blocked(self) -> tuple[Blocked, ...]:
        """The pairs and cues that are blocked, the nearest first, of a show that is refused with status 5: the first
        200 of them, in the order in which the program looks, by pair and then by cue."""
        return self.places[0]

    @property
    def more_blocked(self) -> bool:
        """Whether more are blocked than `blocked` has."""
        return not self.places[1]

    @cached_property
    def cautions(self) -> tuple[Caution, ...]:
        """What of an accepted show no drone flies: the first of each kind."""
        return cautions_of(self.text) if self.ok else ()

    def as_data(self) -> dict[str, Any]:
        """What is wrong, as values of JSON."""
        return {"status": self.status, "ok": self.ok, "line": self.line, "proved": self.proved, "depth": self.depth,
                "fault": self.fault, "cure": self.cure, "blocked": [dict(vars(place)) for place in self.blocked],
                "more_blocked": self.more_blocked}


def is_path(text: bytes) -> bool:
    """Whether a text is the name of a file, which was given in place of what the file says."""
    if b"\n" in text or not 0 < len(text) < 4096 or b"\0" in text:
        return False
    return os.path.isfile(text)


class Refused(Exception):
    """A show that a command refuses; `verdict` says why."""

    def __init__(self, verdict: Verdict) -> None:
        super().__init__(verdict.line or f"status {verdict.status}")
        self.verdict = verdict


@dataclass(frozen=True)
class DronePlan:
    """What one drone is sent."""
    name: str
    data: bytes = field(repr=False)  # its trajectory, with the three zero bytes at its end
    pieces: int
    packets: tuple[tuple[str, bytes], ...] = field(repr=False)  # `write`, `define` or `start`, and the packet's bytes

    def pack(self) -> bytes:
        """The trajectory's bytes, as Bitcraze's library asks an element of a trajectory for them."""
        return self.data


@dataclass(frozen=True)
class Plan(Mapping[str, DronePlan]):
    """A show's plan: each drone's part by its name, in the order of the show."""
    text: bytes = field(repr=False)  # as `compile` writes it
    drones: tuple[DronePlan, ...]
    verdict: Verdict = field(repr=False)

    def __getitem__(self, name: str) -> DronePlan:
        return {drone.name: drone for drone in self.drones}[name]

    def __iter__(self) -> Iterator[str]:
        return (drone.name for drone in self.drones)

    def __len__(self) -> int:
        return len(self.drones)


# ---- what helps

def place_of(flown: Any, drone: int, cue: int, u: float) -> Place:
    """Where a drone is at a fraction of a cue, in micrometres."""
    x, y, z = (round(1000 * v) for v in companion.place(flown, drone, cue, u))
    return x, y, z


def told(words: list[str], text: bytes) -> tuple[int, str]:
    """The status and the output of a command; raises Unusable, and MemoryError where it is out of memory."""
    answer = answering.runner().run(words, text)
    if answer.status == NO_MEMORY:
        raise MemoryError
    return answer.status, answer.output.decode()


def blocked_of(text: bytes, deep: int) -> tuple[tuple[Blocked, ...], bool]:
    """The places in which drones of a show are blocked that `check` refuses, that first in which they are nearest, and
    whether these are all."""
    flown, out = choreo.flown_of(text), []
    found = meetings.meetings_of(told, flown, text, deep)
    if found is None or not found[0]:
        raise Unusable("the program doesn't name the places of a show that it refuses")
    for number, it in enumerate(found[0]):
        cue, names = flown.cues[it.cue], (flown.names[it.i], flown.names[it.j])
        lines = {cue.number, *(cue.acts[name][0] for name in names if name in cue.acts)}
        places = place_of(flown, it.i, it.cue, it.at), place_of(flown, it.j, it.cue, it.at)
        out.append(Blocked(*names, it.cue + 1, it.begin, it.end, it.nearest, places, it.share, it.touch, it.cause,
                           tuple(sorted(lines)), not number))
    return tuple(sorted(out, key=lambda place: place.share)), found[1]


CAUTION = re.compile(r"line (\d+), (?:cue (\d+)|the end): (\S+) ")


def cautions_of(text: bytes) -> tuple[Caution, ...]:
    """What no drone flies of an accepted show."""
    flown, out = choreo.flown_of(text), []
    motion = flyable.motion_if_known(program.PROGRAM, flown, text)
    low, small = flyable.below(flown), flyable.small(flown)
    floor = None if low or small else flyable.on_floor(flown)
    for kind, words in (("motion", motion), ("low", low), ("small", small), ("floor", floor),
                        ("stacked", flyable.stacked(flown)), ("still", flyable.still(flown))):
        found = CAUTION.match(words) if words else None
        if words and found:
            line, cue, drone = found.groups()
            out.append(Caution(kind, words, drone, int(cue or len(flown.cues) + 1), int(line)))
        elif words:
            out.append(Caution(kind, words))
    return tuple(out)


# ---- asking

def bytes_of(text: Text) -> bytes:
    """The bytes of a text; raises TypeError where it is neither a text nor bytes."""
    if isinstance(text, str):
        return text.encode("utf-8", "surrogateescape")
    try:
        return bytes(memoryview(text))
    except TypeError:
        raise TypeError(f"a text is a str or bytes, and not {type(text).__name__}") from None


# The least and the greatest number of each parameter, as docs/COMMANDS.md has those of the options.
LIMITS = {"depth": (0, 8), "step": (1, 60000), "limit": (1, 999999999), "accel": (0, 999999999), "jump": (0, 999999999)}


def within(name: str, number: int) -> int:
    """A number of a parameter; raises TypeError where it is none, and ValueError where it is out of its limits."""
    least, most = LIMITS[name]
    called = {"depth": "the depth", "step": "step_ms"}.get(name, name)
    try:
        whole = operator.index(number)
    except TypeError:
        raise TypeError(f"{called} is a whole number, and not {type(number).__name__}") from None
    if not least <= whole <= most:
        raise ValueError(f"{called} is {least} to {most}, and not {whole:d}")
    return whole


def verdict_of(words: list[str], show: bytes, whole: bytes, depth: int = DEPTH) -> Verdict:
    """What is answered to a whole input of which this is the show; raises Unusable where neither the library nor the
    program can be asked, and MemoryError where it is out of memory."""
    answer = answering.runner().run(words, whole)
    if answer.status == NO_MEMORY:
        raise MemoryError
    return Verdict(answer.status, answer.output, answer.proof, show, depth, answer.by)


def asked(command: str, text: Text, depth: int, second: Text = b"", **options: Optional[int]) -> Verdict:
    """The same of a command with a depth and the options that are given, over a show and maybe a second text."""
    show, words = bytes_of(text), [command, "--depth", f"{within('depth', depth):d}"]
    for word, number in options.items():
        words += [] if number is None else ["--" + word, f"{within(word, number):d}"]
    return verdict_of(words, show, texts.joined(show, bytes_of(second)) if command == "boxes" else show, depth)


def accepted(verdict: Verdict) -> Verdict:
    """The verdict, where the show is accepted; raises Refused."""
    if not verdict.ok:
        raise Refused(verdict)
    return verdict


# ---- the calls

def run(words: str, text: Text = b"") -> Verdict:
    """The answer to a command with its options, as "explain --depth 4", over its whole input: nothing, a show, or a
    show with a marker line and a second text (docs/COMMANDS.md). Its bytes are the verdict's `output`."""
    if not isinstance(words, str):
        raise TypeError("the words are one str, as 'check --depth 4', and not %s" % type(words).__name__)
    listed, whole = re.findall(r"[^\0- ]+", words), bytes_of(text)
    depth = re.search(r"--depth 0*([0-8])(?: |$)", " ".join(listed))
    return verdict_of(listed, choreo.parts_of(whole)[0], whole, int(depth[1]) if depth else DEPTH)


def check(text: Text, depth: int = DEPTH) -> Verdict:
    """Whether a show is well-formed, fits into its drones' memories, and no two drones ever come too near."""
    return asked("check", text, depth)


def compile(text: Text, depth: int = DEPTH) -> Plan:
    """The plan of a show: what each drone is sent. Raises Refused where there is none."""
    verdict = accepted(asked("compile", text, depth))
    return Plan(verdict.output, tuple(
        DronePlan(name, data, pieces, tuple((word, bytes.fromhex(digits)) for word, digits in packets))
        for name, data, pieces, packets in companion.parts_of_plan(verdict.output, "the plan")), verdict)


def certify(text: Text, depth: int = DEPTH) -> bytes:
    """A certificate that no two drones ever come too near, which `verify` and others judge. Raises Refused."""
    return accepted(asked("certify", text, depth)).output


def verify(text: Text, certificate: Text) -> Verdict:
    """Whether a certificate is one of this show, whoever made it."""
    show = bytes_of(text)
    return verdict_of(["verify"], show, texts.joined(show, bytes_of(certificate)))


def play(text: Text, step_ms: int = 100, depth: int = DEPTH) -> list[tuple[int, str, int, int, int, int]]:
    """Where each drone is at each step and in the end: the instant in milliseconds, the drone's name, x, y and z in
    micrometres, and yaw in hundredths of a degree. Raises Refused."""
    output = accepted(asked("play", text, depth, step=step_ms)).output.decode()
    rows = (line.split(" ") for line in output.splitlines())
    return [(int(at), name, int(x), int(y), int(z), int(yaw)) for at, name, x, y, z, yaw in rows]


def report(text: Text, depth: int = DEPTH) -> dict[str, Any]:
    """A show's numbers: bytes, cues, drones, duration_ms, nodes and packets. Raises Refused."""
    found: dict[str, Any] = json.loads(accepted(asked("report", text, depth)).output)
    return found


def dynamics(text: Text, accel: Optional[int] = None, jump: Optional[int] = None,
             depth: int = DEPTH) -> dict[str, dict[str, Any]]:
    """By drone bounds on its acceleration (micrometres per second squared on x, y and z), its greatest jumps of speed
    (micrometres per second) with the cues that begin with them, and whether it begins and ends at rest. Raises Refused,
    also where a limit in millimetres is passed."""
    return companion.motions_in(accepted(asked("dynamics", text, depth, accel=accel, jump=jump)).output.decode())


def speed(text: Text, limit: Optional[int] = None, depth: int = DEPTH) -> dict[str, tuple[int, int, int]]:
    """By drone a bound on its speed on x, y and z, in micrometres per second. Raises Refused, also above a limit."""
    return companion.speeds_in(accepted(asked("speed", text, depth, limit=limit)).output.decode())


def boxes(text: Text, regions: Text, depth: int = DEPTH) -> Verdict:
    """Whether all drones keep to regions, as docs/COMMANDS.md has their text."""
    return asked("boxes", text, depth, regions)
