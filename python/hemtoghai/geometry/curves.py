"""Where drones of a show are at any time, in doubles: for tools that compare flights with it.

Millimetres and milliseconds. The control values are those of the bytes that are sent. A place is off by less than a
micrometre, which is what doubles cost.
"""
from __future__ import annotations

import bisect
from collections.abc import Sequence
from math import comb, dist

from hemtoghai.language.choreo import Flown, Segment


class Curve:
    """A drone's curve. Before its begin and after its end it is where it begins and ends."""
    STEP = 10

    def __init__(self, segments: Sequence[Segment]) -> None:
        self.begins: list[int] = []
        self.pieces: list[tuple[int, int, list[list[int]]]] = []
        t = 0
        for milliseconds, elements in segments:
            self.begins.append(t)
            self.pieces.append((t, milliseconds, [powers(row) for row in elements[:3]]))
            t += milliseconds
        self.end = t
        self.table = [self.at(k * self.STEP) for k in range(t // self.STEP + 2)]

    def at(self, t: float) -> list[float]:
        t = 0 if t < 0 else self.end if t > self.end else t
        begin, length, rows = self.pieces[bisect.bisect_right(self.begins, t) - 1]
        u, place = (t - begin) / length, []
        for row in rows:  # as value_of has it: this is asked a million times for a log
            v = 0.0
            for c in row:
                v = v * u + c
            place.append(v)
        return place

    def nearest(self, place: Sequence[float], low: float, high: float, enough: float = 0.0) -> tuple[float, float]:
        """The distance of a place from the curve between two times, as far as it is looked for, and its time; no finer
        than the table where that is near enough."""
        low, high = min(max(low, 0), self.end), min(max(high, 0), self.end)
        if low == high:
            return dist(place, self.at(low)), low
        best = min((dist(place, self.at(t)), t) for t in (low, high))
        for k in range(int(low) // self.STEP + 1, -(-int(high) // self.STEP)):
            best = min(best, (dist(place, self.table[k]), k * self.STEP))
        if best[0] <= enough:
            return best
        a, b = max(low, best[1] - self.STEP), min(high, best[1] + self.STEP)
        for _ in range(25):
            p, q = a + (b - a) / 3, b - (b - a) / 3
            near, far = dist(place, self.at(p)), dist(place, self.at(q))
            best = min(best, (near, p), (far, q))
            a, b = (a, q) if near < far else (p, b)
        return best


def ease(u: float) -> float:
    """From 0 to 1, from rest to rest, as `move` does."""
    u = min(1, max(0, u))
    return u ** 4 * (35 - 84 * u + 70 * u ** 2 - 20 * u ** 3)


def halves(row: Sequence[int]) -> tuple[list[int], list[int]]:
    """The control values of both halves of a curve, each times 2 to its degree: whole numbers stay whole."""
    left: list[int] = []
    right: list[int] = []
    for k in reversed(range(len(row))):
        left.append(row[0] << k)
        right.append(row[-1] << k)
        row = [a + b for a, b in zip(row, row[1:])]
    return left, right[::-1]


def powers(row: Sequence[int]) -> list[int]:
    """The coefficients of a curve by its control values, the highest power first."""
    n = len(row) - 1
    return [comb(n, k) * sum((-1) ** (k - j) * comb(k, j) * row[j] for j in range(k + 1)) for k in range(n, -1, -1)]


def derived(row: Sequence[float], milliseconds: int) -> list[float]:
    """The control values of the derivative of a curve by time: of millimetres, in millimetres a second."""
    degree = len(row) - 1
    return [1000 * degree * (after - before) / milliseconds for before, after in zip(row, row[1:])] or [0.0]


def value_of(coefficients: Sequence[int], u: float) -> float:
    """The place on an axis at a fraction of a curve, by its coefficients."""
    v = 0.0
    for c in coefficients:
        v = v * u + c
    return v


def curves_of(flown: Flown) -> dict[str, Curve]:
    """The curves of a show's drones by their names."""
    return {name: Curve(segments) for name, segments in zip(flown.names, flown.sent)}
