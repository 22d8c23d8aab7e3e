"""Writes shows: places, paths and a Show that cuts the paths of all drones at common cues, as `curve` lines.

    import sys; sys.path.insert(0, "python")
    from hemtoghai.writing.figures import Show, ring, turn

    show = Show("eight drones on a ring that turns by 100 degrees")
    for k, place in enumerate(ring(8, 1.2)):
        show.drone("d%d" % (k + 1), place)
    show.fly(6, {name: turn(show.at(name), (0, 0), 100) for name in show.names}, cuts=6)
    print(show.text(), end="")

Lengths are in metres, times in seconds, angles in degrees. A place is (x, y, z). A path is a function from the part u
of its time, 0 to 1, to a place; those of this module begin and end at rest. `Show.fly` cuts a path into several cues,
writes each piece as the cubic with the path's place and velocity at both ends, and returns by how much the cubics
leave the paths, in metres. The text is in `choreo 2`, or with `form=1` in `choreo 1`. Nothing is proved of what it
writes: ./show check judges it as any other show.
"""
from __future__ import annotations

from collections.abc import Callable, Mapping, Sequence
from math import cos, dist, pi, radians, sin

from hemtoghai.geometry.curves import ease
from hemtoghai.language.lines import header, line_in, NEWEST

Place = Sequence[float]  # x, y, z
Path = Callable[[float], Place]
STEP = 1e-5


# ---- places

def ring(count: int, radius: float, centre: Place = (0, 0, 1), first: float = 0) -> list[Place]:
    """So many places on a circle, evenly, counter-clockwise, the first one at this angle."""
    angles = [radians(first) + 2 * pi * k / count for k in range(count)]
    return [(centre[0] + radius * cos(a), centre[1] + radius * sin(a), centre[2]) for a in angles]


def grid(columns: int, rows: int, spacing: float, centre: Place = (0, 0, 1)) -> list[Place]:
    """Places in rows along x, from the least y on."""
    left, front = centre[0] - spacing * (columns - 1) / 2, centre[1] - spacing * (rows - 1) / 2
    return [(left + spacing * column, front + spacing * row, centre[2])
            for row in range(rows) for column in range(columns)]


def dealt(begins: Sequence[Place], goals: Sequence[Place]) -> list[Place]:
    """The goals in the order in which they go to these begins, so that the sum of the squared ways is least."""
    cost = [[micrometres(dist(begin, goal)) ** 2 for goal in goals] for begin in begins]
    columns = least(cost)
    return [goals[columns[k]] for k in range(len(begins))]


def least(cost: Sequence[Sequence[int]]) -> dict[int, int]:
    """For each row its column, so that the sum is least: the assignment by shortest ways, each with potentials."""
    size = len(cost)
    rows, columns, taken, back = ([0] * (size + 1) for _ in range(4))
    for row in range(1, size + 1):
        taken[0], column = row, 0
        used: list[int] = []
        left = list(range(1, size + 1))
        lowest: dict[int, int] = {}
        while taken[column]:
            used.append(column)
            left = [other for other in left if other != column]
            at = taken[column]
            for other in left:
                slack = cost[at - 1][other - 1] - rows[at] - columns[other]
                if other not in lowest or slack < lowest[other]:
                    lowest[other], back[other] = slack, column
            column = min(left, key=lambda other: lowest[other])
            gap = lowest[column]
            for other in used:
                rows[taken[other]] += gap
                columns[other] -= gap
            for other in left:
                lowest[other] -= gap
        while column:
            taken[column] = taken[back[column]]
            column = back[column]
    return {taken[column] - 1: column - 1 for column in range(1, size + 1)}


# ---- paths

def stay(place: Place) -> Path:
    """Stays."""
    return lambda u: tuple(place)


def straight(begin: Place, end: Place) -> Path:
    """Straight, from rest to rest."""
    return lambda u: tuple(a + (b - a) * ease(u) for a, b in zip(begin, end))


def turn(begin: Place, centre: Sequence[float], degrees: float, rise: float = 0) -> Path:
    """Around (x, y) by any angle, counter-clockwise where it is positive, and up by `rise`."""
    x, y = begin[0] - centre[0], begin[1] - centre[1]

    def path(u: float) -> Place:
        a = radians(degrees) * ease(u)
        return centre[0] + x * cos(a) - y * sin(a), centre[1] + x * sin(a) + y * cos(a), begin[2] + rise * ease(u)
    return path


def wave(place: Place, height: float, cycles: float = 1, phase: float = 0, fade: float = 0.25) -> Path:
    """Up and down along a sine, `phase` from 0 to 1 of a cycle late; it swells and fades in this part of its time."""
    def path(u: float) -> Place:
        size = ease(u / fade) * ease((1 - u) / fade)
        return place[0], place[1], place[2] + height * size * sin(2 * pi * (cycles * u - phase))
    return path


def later(path: Path, begin: float, end: float) -> Path:
    """The path between these parts of the time; before and after it stays."""
    return lambda u: path(min(1, max(0, (u - begin) / (end - begin))))


def cascade(paths: Mapping[str, Path], share: float = 0.5) -> dict[str, Path]:
    """Paths by name, one after the other in their order: each takes this share of the time."""
    late = (1 - share) / max(1, len(paths) - 1)
    return {name: later(path, k * late, k * late + share) for k, (name, path) in enumerate(paths.items())}


def mirrored(path: Path, axis: str, at: float = 0) -> Path:
    """The path mirrored at x = `at` or y = `at`, as `axis` is "x" or "y"."""
    k = "xy".index(axis)
    return lambda u: tuple(2 * at - v if i == k else v for i, v in enumerate(path(u)))


def shifted(path: Path, by: Place) -> Path:
    """The path moved by (dx, dy, dz)."""
    return lambda u: tuple(a + b for a, b in zip(path(u), by))


# ---- shows

def micrometres(v: float) -> int:
    """Metres as they are written."""
    return round(v * 1000000)


class Show:
    """A show that is being written, in a form of the language: 2 has units, 1 whole numbers. The half axes of the
    ellipsoid and the stray are in millimetres, the lateness is in milliseconds."""

    def __init__(self, comment: str = "", ellipsoid: Sequence[int] | None = None, memory: Sequence[int] | None = None,
                 trajectory: int | None = None, stray: int | None = None, late: int | None = None,
                 form: int = NEWEST) -> None:
        self.form = form
        self.lines = ["# " + line for line in comment.split("\n") if line] + [header(form)]
        for kind, values in (("ellipsoid", ellipsoid), ("memory", memory), ("trajectory", trajectory and [trajectory]),
                             ("stray", stray and [stray]), ("late", late and [late])):
            if values:
                self.add(kind, *map(int, values))
        self.places: dict[str, Place] = {}
        self.yaws: dict[str, float] = {}

    def add(self, kind: str, *values: object) -> None:
        """Adds a line; its numbers are whole ones of what their places count."""
        self.lines.append(line_in(self.form, kind, *values))

    @property
    def names(self) -> list[str]:
        """The drones' names, in their order."""
        return list(self.places)

    def at(self, name: str) -> Place:
        """Where a drone is now."""
        return self.places[name]

    def drone(self, name: str, place: Place, yaw: float = 0) -> None:
        """Adds a drone at a place; all drones come before the first cue."""
        if name in self.places:
            raise ValueError(f"two drones have the name {name}")
        self.places[name], self.yaws[name] = tuple(place), yaw
        self.add("drone", name, *map(micrometres, place), round(10 * yaw))

    def hold(self, seconds: float) -> None:
        """All hold."""
        self.add("cue", round(1000 * seconds))
        self.add("end")

    def fly(self, seconds: float, paths: Mapping[str, Path], cuts: int = 1,
            yaws: Mapping[str, float] | None = None) -> float:
        """Drones fly their paths, by name; the others hold. A drone's yaw turns evenly to that in `yaws`, if any."""
        worst, yaws = 0.0, yaws or {}
        for name, path in paths.items():
            if dist(path(0), self.places[name]) > 0.001:
                raise ValueError(f"{name} is at {self.places[name]}, and its path begins at {path(0)}")
        for k in range(cuts):
            u, v = k / cuts, (k + 1) / cuts
            self.add("cue", round(1000 * seconds * v) - round(1000 * seconds * u))
            for name, path in paths.items():
                points, left = piece(path, u, v)
                worst = max(worst, left)
                yaw = self.yaws[name] + (yaws.get(name, self.yaws[name]) - self.yaws[name]) * v
                numbers = [micrometres(c) for point in points[1:] for c in point]
                still = len({tuple(map(micrometres, point)) for point in points}) == 1
                if not still or name in yaws:
                    self.add("act", name, "curve", *numbers, round(10 * yaw))
            self.add("end")
        self.places.update({name: path(1) for name, path in paths.items()})
        self.yaws.update({name: yaw for name, yaw in yaws.items() if name in paths})
        return worst

    def text(self) -> str:
        """The show's text."""
        return "\n".join(self.lines) + "\n"


def slope(path: Path, u: float) -> list[float]:
    """A path's velocity at u, for the whole time; from inside at the two ends."""
    low, high = max(0, u - STEP), min(1, u + STEP)
    return [(b - a) / (high - low) for a, b in zip(path(low), path(high))]


def piece(path: Path, u: float, v: float) -> tuple[list[Place], float]:
    """The four control points of the cubic with a path's places and velocities at u and v, and how far it is off."""
    first, last = path(u), path(v)
    out = [first, [a + s * (v - u) / 3 for a, s in zip(first, slope(path, u))],
           [b - s * (v - u) / 3 for b, s in zip(last, slope(path, v))], last]

    def cubic(t: float) -> Place:
        weights = (1 - t) ** 3, 3 * t * (1 - t) ** 2, 3 * t * t * (1 - t), t ** 3
        return [sum(weight * value for weight, value in zip(weights, row)) for row in zip(*out)]
    return out, max(dist(cubic(t / 8), path(u + (v - u) * t / 8)) for t in range(1, 8))
