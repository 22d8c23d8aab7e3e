"""How near two drones come in a cue, and how far one moves while it is late: distances in exact whole numbers, of which
no tool takes a yes or a no. Flights are those of `choreo`, as control values in millimetres."""
from __future__ import annotations

import heapq
from itertools import combinations
from math import comb, hypot, inf, lcm

from hemtoghai.geometry.curves import halves
from hemtoghai.geometry.paths import whole_raised
from hemtoghai.language.choreo import Flown, Row

Part = list[Row]  # on x, y and z eight control values
SCALE = lcm(*(comb(14, k) for k in range(15)))
FARTHEST = 65536  # no two positions are farther apart on an axis, in millimetres
REACH_DEPTH = 6   # by parts of this depth speeds are bounded
MOST_NEAR = 10000  # cues of pairs that are looked at closely


def raised(b: Row) -> Row:
    """The eight control values of degree seven of 5,040 times a curve."""
    whole, over = whole_raised((b, 1), 7)
    return [v * (5040 // over) for v in whole]


def difference(first: list[Row], second: list[Row]) -> Part:
    """Where the second drone is from the first in a cue: on x, y and z eight control values, times 5,040."""
    return [[v - u for u, v in zip(raised(a), raised(b))] for a, b in zip(first[:3], second[:3])]


def speed(milliseconds: int, b: Row) -> int:
    """How fast a segment is at most on an axis, in micrometres per second, by its parts."""
    parts = [raised(b)]
    for _ in range(REACH_DEPTH):
        parts = [half for part in parts for half in halves(part)]
    step = max(abs(v - u) for part in parts for u, v in zip(part, part[1:]))
    return -(-7000000 * (step << REACH_DEPTH) // (5040 * milliseconds << 7 * REACH_DEPTH))


def reach_of(flown: Flown, late: int | None = None) -> tuple[int, int, int]:
    """How many millimetres any drone moves on x, y and z at most in so many milliseconds, those of the show if none."""
    late = flown.show.settings["late"][0] if late is None else late
    if not late:
        return 0, 0, 0
    if not hasattr(flown, "fastest"):
        flown.fastest = [max(speed(milliseconds, elements[axis]) for flight in flown.by_cue
                             for milliseconds, elements in flight) for axis in range(3)]
    x, y, z = (min(FARTHEST, -(-late * v // 1000000)) for v in flown.fastest)
    return x, y, z


def square(b: Row) -> Row:
    """The fifteen control values, times SCALE, of the square of a curve with eight control values."""
    weighted = [comb(7, k) * v for k, v in enumerate(b)]
    return [SCALE // comb(14, k) * sum(weighted[i] * weighted[k - i] for i in range(max(0, k - 7), min(7, k) + 1))
            for k in range(15)]


def nearest_in(flown: Flown, i: int, j: int, cue: int) -> Nearest:
    """Where two drones of a show come nearest in a cue, from 0."""
    return Nearest(difference(flown.by_cue[i][cue][1], flown.by_cue[j][cue][1]), *flown.show.settings["ellipsoid"])


class Nearest:
    """Where two drones come nearest in a cue, measured by their ellipsoids: at `index` / 2^`depth` of its time. There
    `squared` and `needed` are the squares of their distance and of the one at which the ellipsoids touch, in one
    scale of whole numbers. At no other instant of the cue is the square of the distance less by a 4,096th or more."""

    def __init__(self, part: Part, r: int, h: int) -> None:
        rows = [square(b) for b in part]
        curve = [h * h * (x + y) + r * r * z for x, y, z in zip(*rows)]
        needed = 4 * r * r * h * h * 5040 * 5040 * SCALE
        self.index, self.depth, self.squared = 0, 0, curve[0]
        heap: list[tuple[float, int, int, Row]] = [(min(curve), 0, 0, curve)]
        while heap:
            _, depth, index, curve = heapq.heappop(heap)
            for at, value in ((index, curve[0]), (index + 1, curve[-1])):
                if value << (14 * self.depth) < self.squared << (14 * depth):
                    self.index, self.depth, self.squared = at, depth, value
            # What is least in this part is at least its least control value, and this part has the least of all.
            if depth == 24 or min(curve) * 4097 << (14 * self.depth) >= self.squared * 4096 << (14 * depth):
                break
            for at, half in enumerate(halves(curve), 2 * index):
                heapq.heappush(heap, (min(half) / 2 ** (14 * (depth + 1)), depth + 1, at, half))
        self.needed = needed << (14 * self.depth)
        self.at = self.index / 2 ** self.depth
        self.share: float = (self.squared / self.needed) ** 0.5


def least_shares(flown: Flown, i: int, j: int) -> list[tuple[float, int]]:
    """What two drones' share of the distance at which their ellipsoids touch isn't less than in each cue, by the boxes
    of their curves, with the cue; the least first. Of what both fly again, as in a repeat, there is the first cue."""
    (r, h), found = flown.show.settings["ellipsoid"], dict[tuple[int, int], tuple[float, int]]()
    for cue in range(len(flown.cues)):
        first, second = flown.by_cue[i][cue][1], flown.by_cue[j][cue][1]
        if (both := (id(first), id(second))) not in found:
            gap = [max(0, min(b) - max(a), min(a) - max(b)) for a, b in zip(first[:3], second[:3])]
            found[both] = hypot(gap[0] / r, gap[1] / r, gap[2] / h) / 2, cue
    return sorted(found.values())


def nearest_of(flown: Flown, i: int, j: int, most: int) -> tuple[tuple[float, int, int, int, float], bool]:
    """Where two drones come nearest, measured by their ellipsoids: their share of the distance at which these touch,
    the two, the cue and the fraction of it; and whether no cue was left out, where so many are looked at closely."""
    best = (inf, i, j, 0, 0.0)
    for number, (least, cue) in enumerate(least_shares(flown, i, j)):
        if least >= best[0]:
            break
        if number == most:
            return best, False
        near = nearest_in(flown, i, j, cue)
        best = (near.share, i, j, cue, near.at) if (near.share, cue) < (best[0], best[3]) else best
    return best, True


def nearest_pairs(flown: Flown) -> tuple[list[tuple[float, int, int, int, float]], int]:
    """Where each pair comes nearest, as `nearest_of` has it, the nearest first; and of how many pairs cues were left
    out."""
    pairs = list(combinations(range(len(flown.names)), 2))
    found = [nearest_of(flown, i, j, max(1, MOST_NEAR // len(pairs))) for i, j in pairs]
    return sorted(row for row, _ in found), sum(not is_whole for _, is_whole in found)
