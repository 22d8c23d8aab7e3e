"""What `dynamics` writes, computed from docs/COMMANDS.md and docs/LANGUAGE.md alone: parts of curves by the polar form
and not by halving, jumps as fractions. For bench/reference, and for rows of tests."""
from __future__ import annotations

from fractions import Fraction
from functools import lru_cache
from math import ceil, comb
from typing import List, Sequence, Tuple

AXES = range(3)
Sent = Sequence[Tuple[int, Sequence[List[int]]]]  # a drone's segments: milliseconds, and control values by axis


def raised(b: list[int]) -> list[int]:
    """The eight control values of degree seven of 5,040 times a curve."""
    n = len(b) - 1
    return [sum(5040 // comb(7, k) * comb(n, j) * comb(7 - n, k - j) * b[j]
                for j in range(n + 1) if 0 <= k - j <= 7 - n) for k in range(8)]


@lru_cache(None)
def weights(depth: int, index: int) -> list[list[int]]:
    """By the polar form, how much of each control value of a curve is in those of a part, times 2^(7 depth)."""
    whole, begin, end = 2 ** depth, index, index + 1

    def weight(n: int, i: int, at: int) -> int:
        return comb(n, i) * int(at ** i * (whole - at) ** (n - i))
    return [[sum(weight(7 - k, i, begin) * weight(k, m - i, end) for i in range(8 - k) if 0 <= m - i <= k)
             for m in range(8)] for k in range(8)]


def part(depth: int, index: int, b: list[int]) -> list[int]:
    """The control values of a part of a curve, times 2^(7 depth)."""
    return [sum(w * v for w, v in zip(row, b)) for row in weights(depth, index)]


def acceleration(milliseconds: int, b: list[int], depth: int) -> int:
    """The bound on the acceleration of a segment, in micrometres per second squared: 42 times the widest second
    difference of its parts, by the square of a part's duration, rounded up."""
    if min(b) == max(b):
        return 0
    values = raised(b)
    rows = (part(depth, index, values) for index in range(2 ** depth))
    widest = max(abs(row[k + 2] - 2 * row[k + 1] + row[k]) for row in rows for k in range(6))
    return ceil(Fraction(42 * 10 ** 9 * 4 ** depth * widest, 5040 * 2 ** (7 * depth) * milliseconds ** 2))


def speeds(milliseconds: int, b: list[int]) -> tuple[Fraction, Fraction]:
    """The speeds at the two ends of a segment, in micrometres per second."""
    n = len(b) - 1
    if n == 0:
        return Fraction(0), Fraction(0)
    by = Fraction(10 ** 6 * n, milliseconds)
    return by * (b[1] - b[0]), by * (b[n] - b[n - 1])


def jumps(sent: Sent, axis: int) -> list[int]:
    """The jump of speed at the beginning of each segment, and at the end of the last one, rounded up."""
    ends = [speeds(milliseconds, elements[axis]) for milliseconds, elements in sent]
    before, after = [Fraction(0)] + [last for _, last in ends], [first for first, _ in ends] + [Fraction(0)]
    return [ceil(abs(b - a)) for a, b in zip(before, after)]


def cues_of(sent: Sent, cues: Sequence[int]) -> list[int]:
    """The number of the cue that begins with each segment, from 1, and at the end that after the last one."""
    begins, at, out, now = {0: 1}, 0, [1], 0
    for number, milliseconds in enumerate(cues, 2):
        at += milliseconds
        begins[at] = number
    for milliseconds, _ in sent:
        now += milliseconds
        out.append(begins[now])
    return out


def dynamics(names: Sequence[str], flights: Sequence[Sent], cues: Sequence[int], depth: int, accel: int | None = None,
             jump: int | None = None) -> tuple[int, str]:
    """The status and what is written for drones that are sent these segments, in a show whose cues last so long; the
    limits are in millimetres."""
    lines, most = [], [[0] * 3, [0] * 3]
    for name, sent in zip(names, flights):
        numbers, begins = [jumps(sent, axis) for axis in AXES], cues_of(sent, cues)
        bounds = [[acceleration(milliseconds, elements[axis], depth) for milliseconds, elements in sent]
                  for axis in AXES]
        for k, cue in enumerate(begins):
            rows = [("accel", accel, bounds)] * (k < len(sent)) + [("jump", jump, numbers)]
            for word, limit, row in rows:
                for axis in AXES:
                    if limit is not None and row[axis][k] > 1000 * limit:
                        return 18, "error 18 drone %s cue %d %s %s %d\n" % (name, cue, word, "xyz"[axis], row[axis][k])
        top = [max(bounds[axis]) for axis in AXES], [max(numbers[axis]) for axis in AXES]
        most = [[max(a, b) for a, b in zip(old, new)] for old, new in zip(most, top)]
        at = ["%d cue %d" % (top[1][axis], begins[numbers[axis].index(top[1][axis])]) for axis in AXES]
        rest = ["moving" if any(row[k] for row in numbers) else "rest" for k in (0, -1)]
        lines.append("dynamics %s acceleration %s jump %s begins %s ends %s\n" % (
            name, " ".join(map(str, top[0])), " ".join(at), rest[0], rest[1]))
    return 0, "".join(lines) + "greatest acceleration %d %d %d jump %d %d %d\n" % (*most[0], *most[1])
