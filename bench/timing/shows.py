"""Texts of shows that are timed. Drones are d1, d2 and so on; lengths are in micrometres, times in milliseconds."""
from __future__ import annotations

import math
from typing import List, Sequence, Tuple

Point = Tuple[int, ...]  # x and y, and z where it isn't HEIGHT
Cue = Tuple[int, List[str]]  # how long it lasts, and the lines of the drones that act
HEIGHT = 1_000_000
MEMORY = ("memory 2 0",)
STRAYED = ("stray 50", "late 20")


def where(point: Point) -> str:
    """A place in words."""
    return "%d %d %d" % (*point, HEIGHT)[:3]


def curve(drone: int, *points: Point) -> str:
    """The line of a drone that flies a curve by three points. Drones count from 0."""
    return "d%d curve %s 0" % (drone + 1, " ".join(map(where, points)))


def move(drone: int, point: Point) -> str:
    """The line of a drone that moves to a point."""
    return "d%d move %s 0" % (drone + 1, where(point))


def show(places: Sequence[Point], cues: Sequence[Cue], settings: Sequence[str] = MEMORY) -> bytes:
    """The text of a show whose drones begin at these places."""
    lines = ["choreo 1", *settings]
    lines += ["drone d%d %s 0" % (drone + 1, where(place)) for drone, place in enumerate(places)]
    for ms, acts in cues:
        lines += ["cue %d" % ms, *acts, "end"]
    return ("\n".join(lines) + "\n").encode()


def grid(drones: int, apart: int) -> list[Point]:
    """Places in rows of six."""
    return [(apart * (i % 6), apart * (i // 6)) for i in range(drones)]


def drill(drones: int) -> bytes:
    """A grid of drones that rise, step aside, sink and step back in turn, ten times."""
    places, cues = grid(drones, HEIGHT), []
    for aside, up in ((0, True), (500000, True), (500000, False), (0, False)):
        cues.append((3000, [move(i, (x + aside, y, HEIGHT * (2 if up and i % 2 else 1)))
                            for i, (x, y) in enumerate(places)]))
    return show(places, cues, ()).replace(b"cue", b"repeat 10\ncue", 1) + b"end\n"


def curves(drones: int, cues: int, settings: Sequence[str] = (), ms: int = 1000) -> bytes:
    """A grid of drones that fly small curves there and back. 255 cubic segments on three axes take 5,366 bytes, more
    than a drone's memory has, so only x moves."""
    places = grid(drones, 2000000)

    def acts(out: int, back: int) -> list[str]:
        return [curve(i, (x + out, y), (x + out, y), (x + back, y)) for i, (x, y) in enumerate(places)]
    both = acts(200000, 300000), acts(100000, 0)
    return show(places, [(ms, both[cue % 2]) for cue in range(cues)], (*MEMORY, *settings))


def tall(cues: int) -> bytes:
    """A grid of 32 drones that fly small curves on three axes, there and back: 9 bytes of memory and 21 a cue."""
    places = grid(32, 2000000)

    def acts(near: int, far: int) -> list[str]:
        return [curve(i, *((x + by, y + by, HEIGHT + by) for by in (near, near, far)))
                for i, (x, y) in enumerate(places)]
    both = acts(100000, 200000), acts(100000, 0)
    return show(places, [(2000, both[cue % 2]) for cue in range(cues)])


def dense(cues: int) -> bytes:
    """Sixteen pairs of drones, near one another, that change places in each cue, one on each side."""
    places = [(620000 * (i // 2 % 4), 620000 * (i // 8)) for i in range(32)]
    steps = []
    for cue in range(cues):
        acts = []
        for i, (x, y) in enumerate(places):
            begin, end, by = (x, x + 270000, y - 180000) if i % 2 == cue % 2 else (x + 270000, x, y + 180000)
            acts.append(curve(i, (begin, by), (end, by), (end, y)))
        steps.append((2000, acts))
    return show([(x + 270000 * (i % 2), y) for i, (x, y) in enumerate(places)], steps)


# Millimetres on x and y from the middle of each ring to its first drone.
RINGS = ((162, 66), (174, 0), (153, 87), (165, 66), (141, 105), (126, 126), (180, 0), (198, 0))


def rings(cues: int, settings: Sequence[str] = ()) -> bytes:
    """Eight rings of four drones that fly half a turn in each cue, so near one another that parts of depth 3 to 6 are
    needed: 408 nodes without a direction a cue, 104,040 in 255 cues."""
    places = []
    for k, (x, y) in enumerate(RINGS):
        for _ in range(4):
            places.append((760000 * (k % 4), 760000 * (k // 4), 1000 * x, 1000 * y))
            x, y = -y, x
    steps = []
    for cue in range(cues):
        acts, sign = [], -1 if cue % 2 else 1
        for i, (u, v, x, y) in enumerate(places):
            x, y = sign * x, sign * y
            aside, ahead = u - y // 3 * 4, v + x // 3 * 4
            acts.append(curve(i, (aside + x, ahead + y), (aside - x, ahead - y), (u - x, v - y)))
        steps.append((2000, acts))
    return show([(u + x, v + y) for u, v, x, y in places], steps, (*MEMORY, *settings))


def turning_ring(cues: int) -> bytes:
    """A ring of 24 drones that turns by one place in each cue of a second, on cubic curves. Neighbours are 107 % of the
    distance at which their ellipsoids touch from one another, with the ellipsoid of a show that sets none."""
    count, chord = 24, 107 * 2 * 120000 // 100
    radius = chord / (2 * math.sin(math.pi / count))
    handle = 4 / 3 * math.tan(math.pi / count / 2)
    turns = [2 * math.pi * k / count for k in range(count)]
    points = [(radius * math.cos(a), radius * math.sin(a)) for a in turns]

    def act(drone: int, cue: int) -> str:
        (x, y), (u, v) = points[(drone + cue) % count], points[(drone + cue + 1) % count]
        by = (x - handle * y, y + handle * x), (u + handle * v, v - handle * u), (u, v)
        return curve(drone, *((round(a), round(b)) for a, b in by))
    steps = [(1000, [act(drone, cue) for drone in range(count)]) for cue in range(cues)]
    return show([(round(x), round(y)) for x, y in points], steps)


def lanes(cues: int) -> bytes:
    """Four drones in lanes beside one another, there and back in turn: each moves in every eighth cue. So its moves and
    the holds between them are at most 255 segments in 1,000 cues."""
    def acts(cue: int) -> list[str]:
        drone = cue % 8
        return [move(drone, (500000 if cue % 16 < 8 else 0, 1000000 * drone))] if drone < 4 else []
    return show([(0, 1000000 * i) for i in range(4)], [(1000, acts(cue)) for cue in range(cues)])


def turned(x: float, y: float, degrees: float) -> Point:
    """A place that is turned around the origin."""
    a = math.radians(degrees)
    return round(x * math.cos(a) - y * math.sin(a)), round(x * math.sin(a) + y * math.cos(a))


def diagonal(cues: int) -> bytes:
    """Eight files of four drones, all turned by 35 degrees. Neighbouring files fly against one another, there and
    back, 450 mm apart; drones stray and are late."""
    homes = [(4000000 + 700000 * (i % 4), 450000 * (i // 4), 1 if i // 4 % 2 else -1) for i in range(32)]

    def acts(begin: int, end: int) -> list[str]:
        return [curve(i, *(turned(x + way * by, y, 35) for by in (begin, end, end)))
                for i, (x, y, way) in enumerate(homes)]
    both = acts(0, 300000), acts(300000, 0)
    steps = [(2000, both[cue % 2]) for cue in range(cues)]
    return show([turned(x, y, 35) for x, y, _ in homes], steps, (*MEMORY, "stray 25", "late 60"))


def swings(cues: int) -> bytes:
    """Two rings of eight drones that turn against one another by quarters: `swing`, `arc_in`, `arc` and `arc_out`, and
    then a rest of as many cues, in which the other ring turns half of the time. Yaws stay."""
    quarters = (("swing", 3000), ("arc_in", 3000), ("arc", 1500), ("arc_out", 3000))
    rings = [(0, "ccw", 0), (1_400_000, "cw", 2)]  # where a ring's middle is, which way it turns, and when it begins
    ring = [(500_000, 0), (354_000, 354_000), (0, 500_000), (-354_000, 354_000),
            (-500_000, 0), (-354_000, -354_000), (0, -500_000), (354_000, -354_000)]

    def acts(cue: int) -> Cue:
        turning = [(k, (cue + first) % 8) for k, (_, _, first) in enumerate(rings) if (cue + first) % 8 < 4]
        lines = ["d%d %s %s %d 0 0" % (8 * k + i + 1, quarters[n][0], rings[k][1], rings[k][0])
                 for k, n in turning for i in range(8)]
        return max((quarters[n][1] for _, n in turning), default=1000), lines
    return show([(middle + x, y) for middle, _, _ in rings for x, y in ring], [acts(cue) for cue in range(cues)])


def measured(micrometres: int, unit: str, places: int) -> str:
    """A length in the second form of the language."""
    whole, rest = divmod(abs(micrometres), 10 ** places)
    return "%s%d.%0*d%s" % ("-" if micrometres < 0 else "", whole, places, rest, unit)


def with_units(cues: int) -> bytes:
    """The show of `curves` with 32 drones, in the second form of the language: x in metres, y in centimetres, z in
    millimetres, each to the micrometre."""
    places = grid(32, 2000000)

    def point(x: int, y: int) -> str:
        return " ".join((measured(x, "m", 6), measured(y, "cm", 4), measured(HEIGHT, "mm", 3)))

    def acts(out: int, back: int) -> list[str]:
        return ["d%d curve %s 0" % (i + 1, " ".join(point(x + by, y) for by in (out, out, back)))
                for i, (x, y) in enumerate(places)]
    both = acts(200000, 300000), acts(100000, 0)
    lines = ["choreo 2", *MEMORY, *("drone d%d %s 0" % (i + 1, point(x, y)) for i, (x, y) in enumerate(places))]
    for cue in range(cues):
        lines += ["cue 1s", *both[cue % 2], "end"]
    return ("\n".join(lines) + "\n").encode()


def compared() -> list[tuple[str, bytes]]:
    """The shows of `bench/time plain` and of bench/count, by name."""
    return [("dense", dense(255)), ("XL", rings(255)), ("XL set", rings(255, ("ellipsoid 65 300", *STRAYED))),
            ("spread", curves(32, 255)), ("spread set", curves(32, 255, STRAYED)),
            ("ring", turning_ring(120)), ("lanes", lanes(1000)), ("diagonal", diagonal(160)),
            ("units", with_units(255)), ("swings", swings(200))]
