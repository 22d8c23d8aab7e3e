"""Paths of drones by control values, and how far a curve may be from one, at every instant.

Micrometres and milliseconds; yaw in tenths of a degree. A path whose numbers are fractions is exact, and so is what is
said of it; `in_doubles` gives the same path in doubles, for a search whose finds are judged by the exact one.
"""
from __future__ import annotations

import bisect
import functools
import math
from collections.abc import Iterator
from fractions import Fraction
from math import ceil, comb, isqrt, lcm
from typing import Generic

from hemtoghai.companion import Number, value
from hemtoghai.geometry.curves import halves

Row = list[Number]  # the control values of a curve on an axis
Piece = tuple[Number, Number, list[Row[Number]]]  # its begin, its end, and its rows on x, y, z and yaw
Whole = tuple[list[int], int]  # fractions as whole numbers, and what these are to be divided by
MANY, SAMPLE = 20, 250  # from so many lines on of at most so many milliseconds each they are samples
PI = Fraction(31415926535897932384626433832795028841972, 10 ** 40)  # to forty places
SPLITS = 4  # halvings of a curve, for a bound in doubles
FINE = 1024  # fractions are judged in whole numbers of a 1,024th of their common denominator


class TooLong(Exception):
    """A search that would take more comparisons than it may."""


class Budget:
    """What may be taken, as the comparisons of a piece with a curve in a search, and what is raised after that."""

    def __init__(self, most: int, fault: Exception | None = None) -> None:
        self.left, self.fault = most, fault or TooLong()

    def take(self, count: int = 1) -> None:
        self.left -= count
        if self.left < 0:
            raise self.fault


# ---- curves by control values

def split(row: Row[Number], u: Number) -> tuple[Row[Number], Row[Number]]:
    """The control values of both sides of a curve."""
    left, right = [row[0]], [row[-1]]
    while len(row) > 1:
        row = [a + (b - a) * u for a, b in zip(row, row[1:])]
        left.append(row[0])
        right.append(row[-1])
    return left, right[::-1]


def part(row: Row[Number], u: Number, v: Number) -> Row[Number]:
    """The control values of a curve between two fractions of it."""
    if len(row) == 1:
        return row
    if len(row) == 2:
        step = row[1] - row[0]
        return [row[0] + step * u, row[0] + step * v]
    if isinstance(u, Fraction):
        whole, over = whole_part(row, u, v)
        return [Fraction(value, over) for value in whole]
    if len(row) == 4:
        return cubic_part(row, u, v)
    if u > 0:
        row, v = split(row, u)[1], (v - u) / (1 - u)
    return split(row, v)[0] if v < 1 else row


def cubic_part(row: Row[Number], u: Number, v: Number) -> Row[Number]:
    """The same of four control values: de Casteljau's steps at the one fraction or the other, each taken once."""
    a, b, c, d = row
    p, q, r = a + (b - a) * u, b + (c - b) * u, c + (d - c) * u
    k, m, n = a + (b - a) * v, b + (c - b) * v, c + (d - c) * v
    first, second = p + (q - p) * u, q + (r - q) * u
    third, fourth = p + (q - p) * v, q + (r - q) * v
    fifth, sixth = k + (m - k) * v, m + (n - m) * v
    return [first + (second - first) * u, first + (second - first) * v, third + (fourth - third) * v,
            fifth + (sixth - fifth) * v]


def halved(row: Row[float]) -> tuple[Row[float], Row[float]]:
    """The control values of both halves of a curve."""
    if len(row) != 4:
        return split(row, 0.5)
    a, b, c, d = row
    p, q, r = (a + b) / 2, (b + c) / 2, (c + d) / 2
    first, second = (p + q) / 2, (q + r) / 2
    middle = (first + second) / 2
    return [a, p, first, middle], [middle, second, r, d]


def in_whole_numbers(row: Row[Fraction]) -> Whole:
    over = lcm(*(v.denominator for v in row))
    return [v.numerator * (over // v.denominator) for v in row], over


def whole_part(row: Row[Fraction], u: Fraction, v: Fraction) -> Whole:
    """The control values of a curve between two fractions of it, exactly: by de Casteljau's rule in whole numbers, with
    k of its steps at the later end for the control value k."""
    whole, over = in_whole_numbers(row)
    if len(row) == 1 or (u == 0 and v == 1):
        return whole, over
    c, n, out = lcm(u.denominator, v.denominator), len(row) - 1, []
    a, b = u.numerator * (c // u.denominator), v.numerator * (c // v.denominator)
    for k in range(n + 1):
        values = whole
        for step in range(n):
            at = b if step < k else a
            values = [p * (c - at) + q * at for p, q in zip(values, values[1:])]
        out.append(values[0])
    return out, over * c ** n


@functools.lru_cache(maxsize=None)
def raising(low: int, high: int) -> tuple[list[list[tuple[int, int]]], int]:
    """How control values of a high degree are made of a low one's, each of (which, times), and what divides these."""
    over = lcm(*(comb(high, k) for k in range(high + 1)))
    return [[(j, comb(low, j) * comb(high - low, k - j) * (over // comb(high, k)))
             for j in range(max(0, k - high + low), min(low, k) + 1)] for k in range(high + 1)], over


def whole_raised(row: Whole, degree: int) -> Whole:
    whole, over = row
    if len(whole) > degree:
        return row
    if len(whole) == 1:
        return whole * (degree + 1), over
    rules, by = raising(len(whole) - 1, degree)
    return [sum(whole[j] * times for j, times in rule) for rule in rules], over * by


def gap(first: Whole, second: Whole) -> Whole:
    """How far a curve is from another one of its degree."""
    (p, over), (q, under) = first, second
    common = lcm(over, under)
    a, b = common // over, common // under
    return [v * a - w * b for v, w in zip(p, q)], common


def raised(row: Row[Number], degree: int) -> Row[Number]:
    """The same curve by more control values."""
    if len(row) > degree:
        return row
    if len(row) == 1:
        return row * (degree + 1)
    while len(row) <= degree:
        n = len(row)
        row = [row[0]] + [(k * row[k - 1] + (n - k) * row[k]) / n for k in range(1, n)] + [row[-1]]
    return row


def farthest(rows: list[Row[Fraction]], splits: int, enough: Fraction) -> Fraction:
    """A bound on the square of the length of a curve in space, at every fraction of it: the greatest of its control
    points, of those of its halves where that isn't `enough` and may get better. Rows of fractions; rounded up."""
    return farthest_of([in_whole_numbers(row) for row in rows], splits, enough, Fraction(0))


def farthest_of(rows: list[Whole], splits: int, enough: Fraction, least: Fraction) -> Fraction:
    """The same of whole numbers; `least` where it isn't more."""
    unit = FINE * lcm(*(over for _, over in rows))
    whole = [[v * (unit // over) for v in row] for row, over in rows]
    square = unit * unit
    found = in_whole(whole, splits, -(-enough.numerator * square // enough.denominator))
    return least if found * least.denominator <= least.numerator * square else Fraction(found, square)


def in_whole(rows: list[list[int]], splits: int, enough: int) -> int:
    squares: list[int] = [sum(v * v for v in point) for point in zip(*rows)]
    best, floor = max(squares), max(squares[0], squares[-1])
    if best <= enough or best == floor or not splits:
        return best
    shift, sides = 2 * (len(rows[0]) - 1), [halves(row) for row in rows]
    enough = max(enough, floor)
    for side in (0, 1):
        far = in_whole([it[side] for it in sides], splits - 1, enough << shift)
        enough = max(enough, -(-far >> shift))
    return enough


def is_within(rows: list[Row[float]], splits: int, enough: float) -> bool:
    """Whether that bound is at most `enough`, in doubles."""
    squares = [x * x + y * y + z * z for x, y, z in zip(*rows)] if len(rows) == 3 else [v * v for v in rows[0]]
    if max(squares) <= enough:
        return True
    if squares[0] > enough or squares[-1] > enough or not splits:
        return False
    sides = [halved(row) for row in rows]
    return all(is_within([it[side] for it in sides], splits - 1, enough) for side in (0, 1))


def root_up(square: Fraction, steps: int = 100) -> Fraction:
    """The root of a fraction, rounded up to a part of one."""
    wanted = ceil(square * steps * steps)
    root = isqrt(wanted)
    return Fraction(root + (root * root < wanted), steps)


# ---- paths

class Path(Generic[Number]):
    """A drone's path: pieces of (begin, end, rows of control values on x, y, z and yaw), each of which begins when the
    one before it ends. The drone stays where it is before and after them. Many short lines are samples of a smooth
    path: `reach` is then half the time between two, and else 0."""

    def __init__(self, name: str, pieces: list[Piece[Number]], reach: Number | None = None) -> None:
        self.name = name
        self.pieces: list[Piece[Number]] = pieces
        self.begins: Row[Number] = [piece[0] for piece in pieces]
        if reach is None:
            straight = len(pieces) >= MANY and all(len(row) <= 2 for piece in pieces for row in piece[2])
            lengths = [end - begin for begin, end, _ in (pieces if straight else pieces[:1])]
            step = sorted(lengths, key=float)[len(lengths) // 2]
            reach = step / 2 if straight and step <= SAMPLE else step * 0
        self.reach: Number = reach
        self.still = [all(row.count(row[0]) == len(row) for row in rows) for _, _, rows in pieces]
        self.moving = [k for k, still in enumerate(self.still) if not still]

    def in_doubles(self) -> Path[float]:
        pieces = [(float(a), float(b), [[float(v) for v in row] for row in rows]) for a, b, rows in self.pieces]
        return Path(self.name, pieces, float(self.reach))

    def piece_at(self, t: Number) -> int:
        """The number of the piece that an instant is in; of two that meet there, the later one."""
        return max(0, bisect.bisect_right(self.begins, t) - 1)

    def at(self, t: Number) -> Row[Number]:
        begin, end, rows = self.pieces[self.piece_at(t)]
        u = (min(max(t, begin), end) - begin) / (end - begin)
        return [value(row, u) for row in rows]

    def rests(self: Path[float], begin: float, end: float) -> bool:
        """Whether it stays where it is between two instants."""
        first = self.piece_at(begin)
        k = bisect.bisect_left(self.moving, first + (self.pieces[first][1] <= begin))
        return k == len(self.moving) or self.begins[self.moving[k]] >= end

    def stills(self: Path[float], end: float, least: float) -> list[tuple[float, float]]:
        """The stretches of at least so many milliseconds in which it rests, until the end of the show."""
        first, last = self.pieces[0], self.pieces[-1]
        out: list[tuple[float, float]] = []
        stays = [(0.0, first[0])] + [(a, b) for (a, b, _), still in zip(self.pieces, self.still) if still]
        for a, b in stays + [(last[1], end)]:
            if out and out[-1][1] == a:
                out[-1] = out[-1][0], b
            elif a < b:
                out.append((a, b))
        return [(a, b) for a, b in out if b - a >= least]

    def one_slope(self: Path[float], k: int, u: float) -> Row[float]:
        begin, end, rows = self.pieces[k]
        rates = [[(b - a) * (len(row) - 1) / (end - begin) for a, b in zip(row, row[1:])] for row in rows]
        return [value(rate or [0.0], u) for rate in rates]

    def slopes(self: Path[float], t: float) -> tuple[Row[float], Row[float]]:
        """The velocities just before and just after an instant."""
        k, rest = self.piece_at(t), [0.0] * 4
        begin, end, _ = self.pieces[k]
        if not begin <= t <= end:
            return rest, rest
        one = self.one_slope(k, (t - begin) / (end - begin))
        return one if t > begin else self.one_slope(k - 1, 1) if k else rest, one if t < end else rest

    def slope(self: Path[float], t: float, rest: int = 20) -> Row[float]:
        """The velocity at an instant: none where it rests before or after, the mean of both sides where they differ."""
        if self.rests(t - rest, t) or self.rests(t, t + rest):
            return [0.0] * 4
        if self.reach:
            low, high = self.at(t - self.reach), self.at(t + self.reach)
            return [(b - a) / (2 * self.reach) for a, b in zip(low, high)]
        return [(a + b) / 2 for a, b in zip(*self.slopes(t))]

    def corners(self: Path[float], least: int = 30) -> Iterator[tuple[float, float]]:
        """The jumps of speed of at least so many micrometres a millisecond, and when they are; none of samples."""
        before, stays = [0.0] * 3, [[0.0]] * 4
        pieces = [] if self.reach else [*self.pieces, (self.pieces[-1][1], math.inf, stays)]
        for begin, end, rows in pieces:
            rates = [(len(row) - 1) / (end - begin) for row in rows]
            after = [(row[1] - row[0]) * rate if rate else 0.0 for row, rate in zip(rows[:3], rates)]
            jump = sum((a - b) ** 2 for a, b in zip(before, after)) ** 0.5
            if jump >= least:
                yield jump, begin
            before = [(row[-1] - row[-2]) * rate if rate else 0.0 for row, rate in zip(rows[:3], rates)]

    def jumps(self) -> Iterator[tuple[Number, Number]]:
        """Where a piece doesn't begin where the one before ends: by how much on an axis, and when."""
        for (_, t, rows), (_, _, others) in zip(self.pieces, self.pieces[1:]):
            yield max(abs(a[-1] - b[0]) if a[-1] is not b[0] else 0 * t for a, b in zip(rows[:3], others[:3])), t

    def overlaps(self, begin: Number, end: Number) -> Iterator[Piece[Number]]:
        """The pieces between two instants, cut there, as (begin, end, rows)."""
        first, last = self.pieces[0], self.pieces[-1]
        if begin < first[0]:
            yield begin, min(end, first[0]), [row[:1] for row in first[2]]
        for k in range(self.piece_at(begin), len(self.pieces)):
            a, b, rows = self.pieces[k]
            low, high = max(a, begin), min(b, end)
            if a >= end:
                break
            if low < high:
                if low > a or high < b:
                    u, v = (low - a) / (b - a), (high - a) / (b - a)
                    rows = [part(row, u, v) for row in rows]
                yield low, high, rows
        if end > last[1]:
            yield max(begin, last[1]), end, [row[-1:] for row in last[2]]

    def keeps(self: Path[float], begin: float, end: float, rows: list[Row[float]], enough: tuple[float, float],
              budget: Budget) -> bool:
        """Whether curves between two instants leave the path by no more than this, the squares, of the place and of
        yaw, in doubles. It ends at the first piece that is too far away."""
        for low, high, own in self.overlaps(begin, end):
            budget.take()
            u, v = (low - begin) / (end - begin), (high - begin) / (end - begin)
            degree = max(len(row) for row in own[:3] + rows[:3]) - 1
            gaps = [[a - b for a, b in zip(raised(theirs, degree), raised(part(row, u, v), degree))]
                    for theirs, row in zip(own[:3], rows)]
            degree = max(len(own[3]), len(rows[3])) - 1
            turn = [a - b for a, b in zip(raised(own[3], degree), raised(part(rows[3], u, v), degree))]
            if not is_within(gaps, SPLITS, enough[0]) or not is_within([turn], SPLITS, enough[1]):
                return False
        return True

    def leaves(self: Path[Fraction], begin: Fraction, end: Fraction, rows: list[Row[Fraction]], splits: int,
               worst: tuple[Fraction, Fraction]) -> tuple[Fraction, Fraction]:
        """How far curves between two instants leave the path at most, at every instant: the squares, of the place and
        of yaw, no less than `worst`. Exact."""
        place, turn = worst
        for low, high, own in self.overlaps(begin, end):
            u, v = (low - begin) / (end - begin), (high - begin) / (end - begin)
            degree = max(len(row) for row in own + rows) - 1
            gaps = [gap(whole_raised(in_whole_numbers(theirs), degree), whole_raised(whole_part(row, u, v), degree))
                    for theirs, row in zip(own, rows)]
            place = farthest_of(gaps[:3], splits, place, place)
            turn = farthest_of(gaps[3:], splits, turn, turn)
        return place, turn
