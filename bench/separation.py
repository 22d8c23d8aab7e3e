"""Whether drones are apart, for benches and .ci/, which compare it with what the program says: directions, thresholds
and parts of a cue.

It is written from docs/SEPARATION.md alone, in exact whole numbers, and shares nothing with the program. The reader of
the language and the differences of curves are the package's, whose folder has to be on `sys.path`. It proves nothing.
"""
from __future__ import annotations

from collections.abc import Iterator
from itertools import combinations
from math import gcd, isqrt
from typing import Tuple

from hemtoghai.geometry.curves import halves
from hemtoghai.geometry.nearest import difference, Nearest, Part, raised, reach_of
from hemtoghai.language.choreo import Flown, Refused, Row

Direction = Tuple[int, int, int]


def directions(most: int) -> list[Direction]:
    """The vectors with entries from -most to most whose greatest common divisor is 1, in lexicographic order."""
    entries = range(-most, most + 1)
    return [(x, y, z) for x in entries for y in entries for z in entries if gcd(x, y, z) == 1]


TABLES = {1: directions(1), 2: directions(2)}  # by the version of a certificate: 26 and 98


def word_of(version: int, number: int) -> str:
    """The word of a direction: a letter in version 1, two digits in version 2."""
    return chr(ord("a") + number) if version == 1 else "%02d" % number


# ---- parts of a cue

def cut(part: Part) -> tuple[Part, Part]:
    """Both halves of a part of a cue."""
    pairs = [halves(b) for b in part]
    return [left for left, _ in pairs], [right for _, right in pairs]


class Ruler:
    """The directions of a version with their weights and thresholds, for half axes r and h, a stray and a reach."""

    def __init__(self, r: int, h: int, version: int = 2, stray: int = 0, reach: Direction = (0, 0, 0)) -> None:
        self.r, self.h, self.version = r, h, version
        self.weights = [(x * h, y * h, z * r) for x, y, z in TABLES[version]]
        self.thresholds: list[int] = []
        for n, w in zip(TABLES[version], self.weights):
            strays = 4 * stray * stray * sum(v * v for v in w)
            self.thresholds.append(5040 * (
                isqrt(4 * r * r * h * h * sum(v * v for v in n)) + 1
                + (isqrt(strays - 1) + 1 if strays else 0) + sum(abs(v) * far for v, far in zip(w, reach))))
        axes = [TABLES[version].index(n) for n in ((1, 0, 0), (0, 1, 0), (0, 0, 1))]
        self.axes = [(max(self.weights[k]), self.thresholds[k] // 5040) for k in axes]

    def separates(self, part: Part, depth: int, number: int) -> bool:
        """Whether a direction separates a part; both ends are looked at first."""
        x, y, z = self.weights[number]
        least = self.thresholds[number] << (7 * depth)
        a, b, c = part
        return all(x * a[k] + y * b[k] + z * c[k] >= least for k in (0, 7, 1, 2, 3, 4, 5, 6))

    def has_direction(self, part: Part, depth: int) -> bool:
        """Whether any direction separates a part. Nearly all are refused by one end of it, so that is looked at here."""
        (a, *_, a_), (b, *_, b_), (c, *_, c_) = part
        for number, ((x, y, z), least) in enumerate(zip(self.weights, self.thresholds)):
            least <<= 7 * depth
            if x * a + y * b + z * c >= least and x * a_ + y * b_ + z * c_ >= least and self.separates(part, depth, number):
                return True
        return False


looked = [0]  # at how many parts of cues: by it what would take too long is left out, the same on every machine


def blocked(part: Part, ruler: Ruler, most: int, depth: int = 0, index: int = 0) -> int | None:
    """The index of the first part of depth `most` along which no direction separates the two, or None."""
    looked[0] += 1
    if ruler.has_direction(part, depth):
        return None
    if depth == most:
        return index
    left, right = cut(part)
    found = blocked(left, ruler, most, depth + 1, 2 * index)
    return blocked(right, ruler, most, depth + 1, 2 * index + 1) if found is None else found


def ruler_of(flown: Flown, version: int = 2, stray: int | None = None, late: int | None = None) -> Ruler:
    """The ruler of a show, or that with another stray, in millimetres, or another lateness, in milliseconds."""
    stray = flown.show.settings["stray"][0] if stray is None else stray
    r, h = flown.show.settings["ellipsoid"]
    return Ruler(r, h, version, stray, reach_of(flown, late))


def are_far(first: list[Row], second: list[Row], ruler: Ruler) -> bool:
    """Whether the boxes around two curves are so far apart along an axis that its direction separates the whole cue."""
    return any(weight * max(min(b) - max(a), min(a) - max(b)) >= least
               for a, b, (weight, least) in zip(first, second, ruler.axes))


def slots(flown: Flown) -> Iterator[tuple[int, int, int]]:
    """Each pair of drones and each cue, in the order of certificates: two drones and a cue, numbered from 0."""
    for i, j in combinations(range(len(flown.names)), 2):
        for cue in range(len(flown.cues)):
            yield i, j, cue


def blocked_places(flown: Flown, depth: int, version: int = 2) -> Iterator[tuple[int, int, int, int]]:
    """Each pair and cue that has a part without a direction, as (first, second, cue, first such part), all from 0."""
    ruler = ruler_of(flown, version)
    for i, j, cue in slots(flown):
        first, second = flown.by_cue[i][cue][1], flown.by_cue[j][cue][1]
        if not are_far(first, second, ruler):
            if (index := blocked(difference(first, second), ruler, depth)) is not None:
                yield i, j, cue, index


def judge_separation(flown: Flown, depth: int, version: int = 2) -> None:
    """Refuses a show with a part in which no direction separates two drones."""
    for i, j, cue, index in blocked_places(flown, depth, version):
        names = flown.names[i], flown.names[j]
        raise Refused(5, "pair %s %s cue %d part %d of %d" % (*names, cue + 1, index, 2 ** depth), "too near")
