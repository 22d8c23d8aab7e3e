"""Where drones are at samples of time, which pairs come nearest there, where two are blocked, and regions: the data of
a page. For ./show picture and ./show studio. It looks at single instants and proves nothing."""
from __future__ import annotations

from collections.abc import Iterable
from itertools import combinations
from math import hypot
from typing import Any

from hemtoghai.companion import ask, begins, cue_words, place, read_file, seconds, stop, value
from hemtoghai.geometry.curves import derived
from hemtoghai.language import choreo
from hemtoghai.program import Unusable
from hemtoghai.texts import joined
from hemtoghai.writing.meetings import Meeting, meetings_of

MOST_PLACES = 48000  # of all drones together, so that a page has about a megabyte
MOST_PAIRS = 12
PLACES, LEAST_PLACES = 32, 4  # instants of a cue at which speeds are looked at, and of one of a long show
MOST_LOOKED = 100000  # of all drones in all cues
Sample = tuple[float, float, float, float]  # x, y and z in millimetres, and yaw in degrees
Mark = dict[str, Any]  # a place in which two drones are blocked, as mark_of says it
Region = list[Any]  # its kind, and its limits in millimetres: x, y and z from, and x, y and z to


def step_of(flown: choreo.Flown, wanted: int | None, most_places: int = MOST_PLACES) -> int:
    """The milliseconds from one sample to the next: as wanted, or so that the page stays small."""
    if wanted:
        return wanted
    most = min(2000, most_places // len(flown.names))
    least = -(-flown.milliseconds // most)
    few = [step for step in (10, 20, 25, 50, 100, 200, 250, 500) if step >= least]
    return min(60000, few[0] if few else -(-least // 1000) * 1000)


def places_in(flown: choreo.Flown) -> int:
    """The instants of each cue at which speeds and boxes are looked at."""
    flights = sum(len({(ms, id(elements)) for ms, elements in row}) for row in flown.by_cue)
    return max(LEAST_PLACES, min(PLACES, MOST_LOOKED // max(1, flights)))


def look(flown: choreo.Flown, drone: int, places: int = PLACES) -> tuple[float, list[tuple[float, float]]]:
    """A drone's top speed in metres a second, and its box in mm, by so many instants of each cue."""
    speed = 0.0
    box: list[list[float]] = [[], [], []]
    for milliseconds, elements in {(flight[0], id(flight[1])): flight for flight in flown.by_cue[drone]}.values():
        first = [derived(row, milliseconds) for row in elements[:3]]
        for at in range(places + 1):
            u = at / places
            speed = max(speed, hypot(*(value(row, u) / 1000 for row in first)))
            for axis in range(3):
                box[axis].append(value(elements[axis], u))
    return speed, [(min(row), max(row)) for row in box]


def played(rows: list[str], names: list[str]) -> tuple[list[int], list[list[Sample]]]:
    """The instants and, for each, the drones' places in millimetres and yaws in degrees, by the rows of `play`."""
    times: list[int] = []
    places: list[list[Sample]] = []
    for k, row in enumerate(rows):
        instant, name, x, y, z, yaw = row.split(" ")
        if name != names[k % len(names)]:
            stop(f"play wrote a row of {name} where {names[k % len(names)]} comes next")
        if k % len(names) == 0:
            times.append(int(instant))
            places.append([])
        places[-1].append((int(x) / 1000, int(y) / 1000, int(z) / 1000, int(yaw) / 100))
    return times, places


def worked_out(flown: choreo.Flown, step: int, also: Iterable[int] = ()) -> tuple[list[int], list[list[Sample]]]:
    """The same, by the tool: at each step, at the end, and at further instants."""
    times = sorted({*range(0, flown.milliseconds, step), flown.milliseconds, *also})
    places: list[list[Sample]] = []
    edges, cue = begins(flown), 0
    for instant in times:
        while edges[cue + 1] < instant:
            cue += 1
        u = (instant - edges[cue]) / flown.cues[cue].milliseconds
        places.append([])
        for k in range(len(flown.names)):
            x, y, z = place(flown, k, cue, u)
            places[-1].append((x, y, z, value(flown.by_cue[k][cue][1][3], u) / 10))
    return times, places


def rows_of_play(text: bytes, program: str, deep: int, step: int) -> list[str] | None:
    """The rows of the program's `play`, or None where it isn't there."""
    answer = ask(["play", "--depth", str(deep), "--step", str(step)], text, program)
    return answer[1].splitlines() if answer and answer[0] == 0 else None


def flight_of(flown: choreo.Flown, step: int, rows: list[str] | None, also: Iterable[int],
              regions: list[Region]) -> tuple[dict[str, Any], list[list[Sample]]]:
    """What a page draws, a sample each so many milliseconds, and the places: by rows of `play`, or else by the tool."""
    times, places = played(rows, flown.names) if rows else worked_out(flown, step, also)
    (r, h), (stray,), (late,) = [flown.show.settings[word] for word in ("ellipsoid", "stray", "late")]
    columns: list[tuple[Sample, ...]] = list(zip(*places))
    return {
        "source": "play" if rows else "tool", "step": step, "r": r, "h": h, "stray": stray, "late": late,
        "regions": regions, "names": flown.names, "times": times, "end": flown.milliseconds,
        "xyz": [[round(number) for sample in column for number in sample[:3]] for column in columns],
        "yaw": [[round(sample[3]) for sample in column] for column in columns],
        "cues": [[begin, cue_words(cue)] for begin, cue in zip(begins(flown), flown.cues)],
    }, places


def shares(flown: choreo.Flown, places: list[list[Sample]]) -> tuple[list[list[float]], list[list[float]]]:
    """At each sample the nearest pair as (share, first, second), and of each pair the sample at which it is nearest."""
    r, h = flown.show.settings["ellipsoid"]
    nearest: list[list[float]] = []
    pairs: dict[tuple[int, int], tuple[float, int]] = {}
    for k, row in enumerate(places):
        best: tuple[float, int, int] | None = None
        for (i, a), (j, b) in combinations(enumerate(row), 2):
            squared = ((a[0] - b[0]) ** 2 + (a[1] - b[1]) ** 2) / (4 * r * r) + (a[2] - b[2]) ** 2 / (4 * h * h)
            squared = round(squared, 9)  # so that of equal ones the first counts
            if best is None or squared < best[0]:
                best = squared, i, j
            if (i, j) not in pairs or squared < pairs[i, j][0]:
                pairs[i, j] = squared, k
        if best:
            nearest.append([round(100 * best[0] ** 0.5, 1), best[1], best[2]])
    rows = sorted((squared, i, j, k) for (i, j), (squared, k) in pairs.items())
    return nearest, [[round(100 * squared ** 0.5, 1), i, j, k] for squared, i, j, k in rows[:MOST_PAIRS]]


def mark_of(flown: choreo.Flown, it: Meeting, is_named: bool = False) -> Mark:
    """A place in which two drones are blocked: from, to, both drones, cue, the nearest instant, all in milliseconds,
    how near they are there, whether they touch, the cause where it is the show's `stray` or `late`, and words."""
    words = "%s and %s in cue %d, %s: nearest at %s with %.1f %% of what their ellipsoids need, %s" % (
        flown.names[it.i], flown.names[it.j], it.cue + 1, cue_words(flown.cues[it.cue]), seconds(it.nearest),
        100 * it.share,
        "too near" if it.touch else "apart while they fly exactly: the cause is " + it.cause.replace("`", "")
        if it.cause else "apart, but along no direction")
    return {"from": it.begin, "to": it.end, "pair": [it.i, it.j], "cue": it.cue, "nearest": it.nearest, "words": words,
            "share": round(100 * it.share, 1), "touch": it.touch, "cause": it.cause, "named": is_named}


def blocked_marks(flown: choreo.Flown, text: bytes, deep: int, program: str) -> tuple[list[Mark], bool]:
    """Places in which two drones are blocked, as the program names them, the nearest first, and whether these are all;
    `named` is the one that `check` names. None of them where the program doesn't answer."""
    try:
        told = meetings_of(lambda words, show: ask(words, show, program), flown, text, deep)
    except Unusable:
        told = None
    found, are_all = told or ([], False)
    marks = [mark_of(flown, it, number == 0) for number, it in enumerate(found)]
    return sorted(marks, key=lambda mark: float(mark["share"])), are_all


def regions_of(path: str) -> list[Region]:
    """The regions of a file as (kind, six numbers): docs/COMMANDS.md, boxes."""
    out: list[Region] = []
    for number, line in enumerate(read_file(path).decode(errors="replace").split("\n"), 1):
        words = line.split()
        try:
            if words:
                kind, *limits = words[0], *map(int, words[1:])
                if kind not in ("keepout", "volume") or len(limits) != 6 or any(
                        not -40000 <= low <= high <= 40000 for low, high in zip(limits, limits[3:])):
                    raise ValueError
                out.append([kind, *limits])
        except ValueError:
            stop(f"{path}, line {number}: this is no region: {line[:60]}")
    return out


def boxes_said(program: str, text: bytes, path: str, deep: int) -> str:
    """What the program's `boxes` says of the regions of a file, or nothing."""
    answer = ask(["boxes", "--depth", str(deep)], joined(text, read_file(path)), program)
    return answer[1].strip() if answer else ""
