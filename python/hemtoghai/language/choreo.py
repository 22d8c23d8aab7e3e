"""The reader of the language that tools and benches share: from a show's text to the bytes of its trajectories.

It is written from the documents alone and shares nothing with the program: lines, names and cues by docs/LANGUAGE.md,
the order of refusals and fault lines by docs/COMMANDS.md, curves, rounding and bytes by docs/TRAJECTORY.md. All numbers
are whole, those of `choreo 2` too once they are read. It proves nothing; where it and the program differ, one of them
is wrong.
"""
from __future__ import annotations

import re
import struct
from collections.abc import Iterator, Sequence
from itertools import accumulate
from typing import Any, NamedTuple

from hemtoghai.language import quantities
from hemtoghai.language.quantities import MICROMETRES, MILLIMETRES, MILLISECONDS, TENTHS

Row = list[int]  # the control values of a curve on an axis
Segment = tuple[int, list[Row]]  # milliseconds, and the rows of x, y, z and yaw
LONGEST_TEXT = 1048576
MEMORY = 4096
MOST_DRONES = 32
MOST_CUES = 1000
MOST_SEGMENTS = 255
LONGEST_SEGMENT = 65535
DEPTH = 6
ALLOWED = bytes([9, 13, *range(32, 127)])
# The form of the language by the words of a text's first line.
FORMS: dict[tuple[str, ...], int] = {("choreo", "1"): 1, ("choreo", "2"): 2}


class Number(NamedTuple):
    """The slot of a number: its limits, and what it counts where a text of `choreo 2` has a quantity. Without that it
    is a whole number in both forms."""

    least: int
    most: int
    counts: quantities.Counts | None = None

    def has(self, value: int | None) -> bool:
        return value is not None and self.least <= value <= self.most


COORDINATE, YAW = Number(-100000000, 100000000, MICROMETRES), Number(-32768, 32767, TENTHS)
HALF_AXIS = Number(1, 2000, MILLIMETRES)
POINT = [COORDINATE] * 3
AXES = ["x", "y", "z", "yaw"]
ARCS = ["arc", "swing", "arc_in", "arc_out"]
# The slots of a line after its first word: a name, one or more names, a number, or a set of fixed words.
LINES: dict[str, list[Any]] = {
    "memory": [Number(0, 255), Number(0, 4095)], "trajectory": [Number(0, 9)], "ellipsoid": [HALF_AXIS, HALF_AXIS],
    "stray": [Number(0, 1000, MILLIMETRES)], "late": [Number(0, 1000, MILLISECONDS)],
    "drone": ["name", *POINT, YAW], "formation": ["name"], "at": ["name", *POINT, YAW], "figure": ["name", "names"],
    "cue": [Number(1, LONGEST_SEGMENT, MILLISECONDS)], "repeat": [Number(1, 1000000000)],
    "perform": ["name", {"none", "x", "y"}, Number(0, 3), *POINT, "names"],
    "form": ["name", {"line", "move"}], "end": [],
}
ACTS: dict[str, list[Any]] = {
    "hold": [], "line": [*POINT, YAW], "move": [*POINT, YAW], "turn": [YAW], "curve": [*POINT * 3, YAW],
    **{act: [{"ccw", "cw"}, COORDINATE, COORDINATE, YAW] for act in ARCS}}
SETTINGS = ["memory", "trajectory", "ellipsoid", "stray", "late"]
PLAYED = ["cue", "repeat", "perform"]
PLACES = {"top": [*SETTINGS, "drone", "formation", "figure", *PLAYED], "formation": ["at", "end"],
          "figure": ["cue", "repeat", "end"], "repeat": [*PLAYED, "end"], "cue": ["form", "end"]}
OPENING = [kind for kind in PLACES if kind != "top"]
LINE_FAULTS = ["bad-byte", "header", "bad-word", "bad-name", "bad-count", "bad-number", "range", "double-setting",
               "nesting", "empty-block", "no-end"]
# The faults of names on one line, in the order of their table: the word, and what tells its row from others with it.
NAME_FAULTS = ["double-name drone", "double-name formation, figure", "double-name role", "unknown-name at",
               "double-act at", "unknown-name act", "unknown-name act in a figure", "double-act act",
               "unknown-name form", "double-act form", "double-act act after form", "unknown-name figure", "role-count",
               "unknown-name performer", "double-act perform"]


# ---- lines

class Refused(Exception):
    """A refusal: its status, the words of its fault line, the outcome that it counts as, and maybe its line number."""

    def __init__(self, status: int, words: str, outcome: str, number: int | None = None) -> None:
        super().__init__(f"error {status} {words}")
        self.status, self.outcome, self.number, self.output = status, outcome, number, f"error {status} {words}\n"


def fault(number: int, word: str, outcome: str | None = None) -> Refused:
    return Refused(3, f"line {number} {word}", outcome or word, number)


class Line:
    """A line: its number, its kind, the values of its words, the lines of the block that it opens, and the number of
    the line that closes it. The root of a text, of the kind `top`, has the form of the language as its value."""

    def __init__(self, number: int, kind: str, values: list[Any]) -> None:
        self.number, self.kind, self.values, self.last = number, kind, values, number
        self.body: list[Line] = []

    @property
    def name(self) -> Any:
        """Whose line it is: a drone's or a role's, a formation's or a figure's."""
        return self.values[0]

    @property
    def roles(self) -> list[str]:
        """The roles of a figure."""
        return self.values[1:]

    @property
    def players(self) -> list[str]:
        """The drones or roles that perform a figure."""
        return self.values[6:]


def is_name(word: str) -> bool:
    return re.fullmatch("[a-z][a-z0-9_]{0,15}", word) is not None and word not in ("form", "end")


def form_of(text: bytes) -> int:
    """The form of the language that the first line with words of a text names, and 1 where it names none."""
    for line in text.split(b"\n"):
        words = line.partition(b"#")[0].decode("ascii", "replace").split()
        if words:
            return FORMS.get(tuple(words), 1)
    return 1


def number_of(slot: Number, word: str, form: int) -> int | None:
    """The number that a word is in its slot, or None where it is none; beyond every range it may be a smaller one."""
    if form == 2 and slot.counts:
        return quantities.value_of(slot.counts, word)
    if not re.fullmatch("-?[0-9]+", word):
        return None
    return quantities.number_of(word.lstrip("-")) * (-1 if word[0] == "-" else 1)


def value_of(number: int, slot: Any, word: str, form: int = 1) -> Any:
    if slot in ("name", "names"):
        if not is_name(word):
            raise fault(number, "bad-name")
        return word
    if isinstance(slot, set):
        if word not in slot:
            raise fault(number, "bad-word")
        return word
    if (value := number_of(slot, word, form)) is None:
        raise fault(number, "bad-number")
    if not slot.has(value):
        raise fault(number, "range")
    return value


def slots_of(number: int, words: list[str], blocks: list[Line]) -> tuple[str, list[str], list[Any]]:
    """What a line is, where these blocks are open: its kind, the first words, that say so, and slots for the others."""
    place, in_figure = blocks[-1].kind, any(block.kind == "figure" for block in blocks)
    if place == "cue" and words[0] != "end" and (in_figure or words[0] != "form"):
        if not is_name(words[0]):
            raise fault(number, "bad-name")
        if len(words) > 1 and words[1] not in ACTS:
            raise fault(number, "bad-word")
        kind, front, slots = "act", words[:2], ACTS[words[1]] if len(words) > 1 else ["name"]
    else:
        if words[0] not in PLACES[place] or (words[0] == "perform" and in_figure):
            raise fault(number, "bad-word")
        kind, front, slots = words[0], [], LINES[words[0]]
    rest = words[2:] if kind == "act" else words[1:]
    most = len(slots) + 31 if slots[-1:] == ["names"] else len(slots)
    if not len(slots) <= len(rest) <= most:
        raise fault(number, "bad-count")
    return kind, front, slots + ["name"] * (len(rest) - len(slots))


def line_of(number: int, words: list[str], blocks: list[Line]) -> Line:
    """A line as its words say it, where these blocks are open, in the form of the outermost."""
    kind, front, slots = slots_of(number, words, blocks)
    form = (blocks[0].values or [1])[0]
    values = [value_of(number, slot, word, form) for slot, word in zip(slots, words[len(words) - len(slots):])]
    return Line(number, kind, front + values)


def word_of(slot: Any, value: Any, form: int) -> str:
    if form == 2 and isinstance(slot, Number) and slot.counts:
        return quantities.written(slot.counts, value)
    return str(value)


def words_of(line: Line, form: int) -> list[str]:
    """The words of a line, as a text in a form of the language has them."""
    first = line.values[:2] if line.kind == "act" else [line.kind]
    values = line.values[2:] if line.kind == "act" else line.values
    slots = ACTS[first[1]] if line.kind == "act" else LINES[line.kind]
    slots = slots + ["name"] * (len(values) - len(slots))
    return first + [word_of(slot, value, form) for slot, value in zip(slots, values)]


def add_line(line: Line, blocks: list[Line]) -> None:
    """Puts a line into the open blocks, or refuses it for what earlier lines leave open."""
    if line.kind in SETTINGS and any(other.kind == line.kind for other in blocks[0].body):
        raise fault(line.number, "double-setting")
    if line.kind == "repeat" and sum(block.kind == "repeat" for block in blocks) == 8:
        raise fault(line.number, "nesting")
    if line.kind == "end":
        if blocks[-1].kind != "cue" and not blocks[-1].body:
            raise fault(line.number, "empty-block")
        blocks.pop().last = line.number
        return
    blocks[-1].body.append(line)
    if line.kind in OPENING:
        blocks.append(line)


def read(text: bytes) -> Line:
    """A show's lines as a tree, whose root is `top`."""
    lines = [line.partition(b"#")[0] for line in text.split(b"\n")]
    for number, line in enumerate(lines, 1):
        if line.translate(None, ALLOWED):
            raise fault(number, "bad-byte")
    blocks, begun = [Line(0, "top", [])], False
    for number, line in enumerate(lines, 1):
        words = line.decode().split()
        if words and begun:
            add_line(line_of(number, words, blocks), blocks)
        elif words and tuple(words) not in FORMS:
            raise fault(number, "header")
        elif words:
            blocks[0].values, begun = [FORMS[tuple(words)]], True
    if not begun:
        raise fault(1, "header")
    if len(blocks) > 1:
        raise fault(blocks[-1].number, "no-end")
    return blocks[0]


# ---- names and cues

class Show:
    """A show whose lines are all right: its lines by kind, and what the names of formations and figures mean."""

    def __init__(self, top: Line) -> None:
        def firsts(kind: str) -> dict[str, Line]:
            return {line.name: line for line in reversed(top.body) if line.kind == kind}
        self.top, self.form = top, top.values[0]
        self.drones = [line for line in top.body if line.kind == "drone"]
        self.names = [line.name for line in self.drones]
        self.body = [line for line in top.body if line.kind in PLAYED]
        self.formations, self.figures = firsts("formation"), firsts("figure")
        self.settings: dict[str, list[int]] = {
            "memory": [2, 0], "trajectory": [0], "ellipsoid": [120, 300], "stray": [0], "late": [0]}
        self.settings.update((line.kind, line.values) for line in top.body if line.kind in SETTINGS)


def inside(line: Line) -> Iterator[Line]:
    """All lines inside a line's block, also in blocks within it."""
    for inner in line.body:
        yield inner
        yield from inside(inner)


def faults_of_declarations(show: Show, drones: set[str]) -> Iterator[tuple[int, str]]:
    """The faults of names of drones, formations, figures and places, as (line, word and row)."""
    for kind, row in (("drone", "drone"), ("formation", "formation, figure"), ("figure", "formation, figure")):
        lines = [line for line in show.top.body if line.kind == kind]
        for k, line in enumerate(lines):
            if any(line.name == other.name for other in lines[:k]):
                yield line.number, "double-name " + row
            if kind == "figure" and len(set(line.roles)) < len(line.roles):
                yield line.number, "double-name role"
            for j, place in enumerate(line.body if kind == "formation" else []):
                if place.name not in drones:
                    yield place.number, "unknown-name at"
                if any(place.name == other.name for other in line.body[:j]):
                    yield place.number, "double-act at"


def faults_of_cue(show: Show, cue: Line, known: set[str], in_figure: bool) -> Iterator[tuple[int, str]]:
    acted: set[str] = set()
    formed: set[str] = set()
    for line in cue.body:
        name = line.name
        if line.kind == "act":
            if name not in known:
                yield line.number, "unknown-name act in a figure" if in_figure else "unknown-name act"
            if name in acted | formed:
                yield line.number, "double-act act" if name in acted else "double-act act after form"
            acted.add(name)
        elif name not in show.formations:
            yield line.number, "unknown-name form"
        else:
            places = {place.name for place in show.formations[name].body}
            if places & (acted | formed):
                yield line.number, "double-act form"
            formed |= places


def faults_of_perform(show: Show, line: Line, drones: set[str]) -> Iterator[tuple[int, str]]:
    figure, players = show.figures.get(line.name), line.players
    if figure is None:
        yield line.number, "unknown-name figure"
    elif len(players) != len(figure.values) - 1:
        yield line.number, "role-count"
    if not set(players) <= drones:
        yield line.number, "unknown-name performer"
    if len(set(players)) < len(players):
        yield line.number, "double-act perform"


def faults_of_names(show: Show) -> Iterator[tuple[int, str]]:
    drones = set(show.names)
    yield from faults_of_declarations(show, drones)
    for block in show.top.body:
        known = set(block.roles) if block.kind == "figure" else drones
        for line in [block, *inside(block)]:
            if line.kind == "cue":
                yield from faults_of_cue(show, line, known, block.kind == "figure")
            elif line.kind == "perform":
                yield from faults_of_perform(show, line, drones)


def count(show: Show, lines: list[Line]) -> int:
    """How many cues some lines stand for."""
    total = 0
    for line in lines:
        body = show.figures[line.name].body if line.kind == "perform" else line.body
        total += 1 if line.kind == "cue" else count(show, body) * (line.values[0] if line.kind == "repeat" else 1)
    return total


def judge_names(show: Show) -> None:
    """Refuses a show for its names or its number of drones or cues."""
    if not show.drones:
        raise fault(1, "no-drone")
    if len(show.drones) > MOST_DRONES:
        raise fault(show.drones[MOST_DRONES].number, "too-many-drones")
    if faults := sorted((number, NAME_FAULTS.index(row)) for number, row in faults_of_names(show)):
        number, row = faults[0]
        raise fault(number, NAME_FAULTS[row].split()[0], NAME_FAULTS[row])
    if not show.body:
        raise fault(1, "no-cue")
    total = 0
    for line in show.body:
        total += count(show, [line])
        if total > MOST_CUES:
            raise fault(line.number, "too-many-cues")


# ---- cues written out

def put(frame: Sequence[Any], x: int, y: int, z: int, yaw: int) -> Row:
    """A point and a yaw put through a frame: its mirror, its quarter turns, its shift."""
    mirror, turns, dx, dy, dz = frame
    if mirror == "x":
        x, yaw = -x, 1800 - yaw
    elif mirror == "y":
        y, yaw = -y, -yaw
    for _ in range(turns):
        x, y, yaw = -y, x, yaw + 900
    return [x + dx, y + dy, z + dz, yaw]


def goal(frame: Sequence[Any], act: str, numbers: Sequence[Any]) -> Any:
    """The numbers of an act in the show's frame, grouped as `controls` takes them."""
    if act == "hold":
        return None
    if act == "turn":
        return put(frame, 0, 0, 0, numbers[0])[3:]
    if act in ARCS:
        x, y, _, yaw = put(frame, numbers[1], numbers[2], 0, numbers[3])
        other = {"cw": "ccw", "ccw": "cw"}
        return numbers[0] if frame[0] == "none" else other[numbers[0]], x, y, yaw
    if act == "curve":
        points = [put(frame, numbers[k], numbers[k + 1], numbers[k + 2], numbers[9]) for k in (0, 3, 6)]
        return [point[:3] for point in points] + [points[2][3]]
    return put(frame, *numbers)


class Cue:
    """A cue written out: its line, by drone the line, the act and its goal, by drone the line of its act or of its
    place in a formation, and what it stands in, from outside in: ("repeat", line, turn, of), ("perform", line, figure).
    """

    def __init__(self, line: Line, acts: dict[str, tuple[int, str, Any]], places: dict[str, int],
                 within: tuple[Any, ...]) -> None:
        self.line, self.acts, self.places, self.within = line, acts, places, within
        self.number, self.milliseconds = line.number, int(line.values[0])


def written_out(show: Show, lines: list[Line], frame: Sequence[Any] = ("none", 0, 0, 0, 0),
                players: dict[str, str] | None = None, within: tuple[Any, ...] = ()) -> Iterator[Cue]:
    for line in lines:
        if line.kind == "repeat":
            for turn in range(1, line.values[0] + 1):
                yield from written_out(show, line.body, frame, players,
                                       (*within, ("repeat", line.number, turn, line.values[0])))
        elif line.kind == "perform":
            figure = show.figures[line.name]
            yield from written_out(show, figure.body, line.values[1:6], dict(zip(figure.roles, line.players)),
                                   (*within, ("perform", line.number, line.name)))
        else:
            acts, places = {}, {}
            for inner in line.body:
                formed = show.formations[inner.name].body if inner.kind == "form" else [inner]
                for place in formed:
                    name, *numbers = place.values
                    act = inner.values[1] if place is not inner else numbers.pop(0)
                    name = players[name] if players else name
                    acts[name] = inner.number, act, goal(frame, act, numbers)
                    places[name] = place.number
            yield Cue(line, acts, places, within)


# ---- curves and bytes

KINDS = {1: 0, 2: 1, 4: 2, 8: 3}


def rounded(micrometres: int) -> int:
    """The nearest millimetre, and of two that are equally near the upper one."""
    return (micrometres + 500) // 1000


# The millionths of the ways to the start and to the end in each of the eight control points of an eased quarter circle.
TO_START = {"swing": [1000000, 1000000, 1000000, 1063179, 696647, 0, 0, 0],
            "arc_in": [1000000, 1000000, 1000144, 993507, 974935, 785073, 473387, 0],
            "arc_out": [1000000, 1000000, 741519, 507934, 186897, 114406, 0, 0]}
TO_END = {"swing": [0, 0, 0, 696647, 1063179, 1000000, 1000000, 1000000],
          "arc_in": [0, 0, 114406, 186897, 507934, 741519, 1000000, 1000000],
          "arc_out": [0, 473387, 785073, 974935, 993507, 1000144, 1000000, 1000000]}


def millionths(share: int, s: int) -> int:
    return (share * s + 500000) // 1000000


def yaws(act: str, begin: int, end: int) -> Row:
    turn = end - begin
    if act == "arc_in":
        return [begin + (turn * k * (k - 1) + 21) // 42 for k in range(8)]
    if act == "arc_out":
        return [end - (turn * (7 - k) * (6 - k) + 21) // 42 for k in range(8)]
    return [begin] * 4 + [end] * 4


def round_controls(act: str, at: Row, to: Any) -> list[Row]:
    x, y = at[0] - to[1], at[1] - to[2]  # of the start from the centre
    start, end = (x, y), (-y, x) if to[0] == "ccw" else (y, -x)
    if act == "arc":
        rows = [[a, a + millionths(552285, w), c + w + millionths(552285, v), c + w]
                for a, c, v, w in zip(at, to[1:3], start, end)]
        return [*rows, [at[2]], [at[3], to[3]]]
    rows = [[c + millionths(a, v) + millionths(b, w) for a, b in zip(TO_START[act], TO_END[act])]
            for c, v, w in zip(to[1:3], start, end)]
    return [*rows, [at[2]], yaws(act, at[3], to[3])]


def controls(act: str, at: Row, to: Any) -> list[Row]:
    """The control values of an act on x, y, z and yaw, from where the drone is."""
    if act == "hold":
        return [[v] for v in at]
    if act == "line":
        return [[a, b] for a, b in zip(at, to)]
    if act == "move":
        return [[a] * 4 + [b] * 4 for a, b in zip(at, to)]
    if act == "turn":
        return [[at[0]], [at[1]], [at[2]], [at[3]] * 4 + [to[0]] * 4]
    if act in ARCS:
        return round_controls(act, at, to)
    first, second, third, yaw = to
    return [[at[k], first[k], second[k], third[k]] for k in range(3)] + [[at[3], yaw]]


def element(values: Row, axis: int) -> Row:
    """The rounded control values on an axis; one where all are equal."""
    whole = [rounded(v) if axis < 3 else v for v in values]
    return whole[:1] if len(set(whole)) == 1 else whole


def fit(number: int, values: list[Row]) -> None:
    """Refuses control values that two bytes cannot hold."""
    for axis, row in enumerate(values):
        for value in row:
            if not -32768 <= (rounded(value) if axis < 3 else value) <= 32767:
                raise fault(number, f"out-of-range {AXES[axis]} {value}", "out-of-range " + AXES[axis])


def joined(flight: list[Segment]) -> list[Segment]:
    """A flight's segments with whole holds joined from the left, as long as they last at most 65,535 ms together."""
    out: list[Segment] = []
    held = False
    for milliseconds, elements in flight:
        holds = all(len(e) == 1 for e in elements)
        if holds and held and out[-1][0] + milliseconds <= LONGEST_SEGMENT:
            out[-1] = out[-1][0] + milliseconds, elements
        else:
            out.append((milliseconds, elements))
        held = holds
    return out


def segment_bytes(milliseconds: int, elements: list[Row]) -> bytes:
    header = sum(KINDS[len(e)] << (2 * k) for k, e in enumerate(elements))
    numbers = [v for e in elements for v in e[1:]]
    return struct.pack(f"<BH{len(numbers)}h", header, milliseconds, *numbers)


def bytes_of(start: Row, segments: list[Segment]) -> bytes:
    """A trajectory's bytes: its start in micrometres, its segments as (milliseconds, elements), and the ending."""
    out = struct.pack("<4h", *map(rounded, start[:3]), start[3])
    return out + b"".join(segment_bytes(*segment) for segment in segments) + bytes(3)


class Flown:
    """What a show's drones fly: its cues, and for each drone its start in micrometres and tenths of a degree, one
    segment a cue as (milliseconds, elements) in `by_cue`, and what it is sent, holds joined, in `sent`."""
    fastest: list[int]  # worked out where it is asked for

    def __init__(self, show: Show) -> None:
        self.show, self.names = show, show.names
        self.starts: list[Row] = [line.values[1:] for line in show.drones]
        for line in show.drones:
            fit(line.number, [[value] for value in line.values[1:]])
        self.cues = list(written_out(show, show.body))
        self.places = [[start] for start in self.starts]  # where each drone is when a cue begins, and at the end
        self.by_cue: list[list[Segment]] = [[] for _ in self.starts]
        known: dict[str, tuple[list[Row], Row]] = {}  # by an act, where it begins and its goal: a repeat flies it often
        for cue in self.cues:
            for k, name in enumerate(self.names):
                number, act, to = cue.acts.get(name, (0, "hold", None))
                what = f"{act} {self.places[k][-1]} {to}"
                if what not in known:
                    values = controls(act, self.places[k][-1], to)
                    fit(number, values)
                    known[what] = [element(row, axis) for axis, row in enumerate(values)], [row[-1] for row in values]
                elements, last = known[what]
                self.by_cue[k].append((cue.milliseconds, elements))
                self.places[k].append(last)
        self.sent = [joined(flight) for flight in self.by_cue]
        self.begins = list(accumulate((cue.milliseconds for cue in self.cues), initial=0))  # of cues, and the end
        self.milliseconds = self.begins[-1]

    def data(self) -> list[bytes]:
        return [bytes_of(start, segments) for start, segments in zip(self.starts, self.sent)]

    def room(self) -> int:
        """How many bytes of a drone's memory the show may take."""
        return MEMORY - self.show.settings["memory"][1]


def parts_of(whole: bytes) -> tuple[bytes, bytes | None, list[int]]:
    """The show's text, the second text or None where there is no marker line, and the numbers of the first two."""
    lines = whole.split(b"\n")
    markers = [number for number, line in enumerate(lines, 1) if line in (b"%%", b"%%\r")]
    if not markers:
        return whole, None, []
    text = b"".join(line + b"\n" for line in lines[:markers[0] - 1])
    if len(markers) > 1:
        second = b"".join(line + b"\n" for line in lines[markers[0]:markers[1] - 1])
    else:
        second = b"\n".join(lines[markers[0]:])
    return text, second, markers[:2]


def flown_of(text: bytes) -> Flown:
    """What the drones of a show's text fly, or a refusal 3."""
    if len(text) > LONGEST_TEXT:
        raise Refused(3, "too-large", "too-large")
    show = Show(read(text))
    judge_names(show)
    return Flown(show)


def judge_room(flown: Flown) -> None:
    """Refuses a show with a trajectory that has too many segments or too many bytes."""
    room = flown.room()
    for name, data, segments in zip(flown.names, flown.data(), flown.sent):
        if len(segments) > MOST_SEGMENTS:
            raise Refused(4, "drone %s segments %d" % (name, len(segments)), "too many segments")
        if len(data) > room:
            raise Refused(4, "drone %s bytes %d room %d" % (name, len(data), room), "no room")
