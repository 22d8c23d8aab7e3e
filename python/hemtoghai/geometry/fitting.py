"""Common cues for the paths of several drones, and what each drone flies in them. For ./show import.

Micrometres, milliseconds and tenths of a degree. All control values that are flown are whole millimetres, as the
program sends them: its rounding changes nothing. Cues are looked for in doubles, and `bounds` says in exact fractions
how far what was found leaves the paths.
"""
from __future__ import annotations

import bisect
import math
from collections.abc import Sequence
from fractions import Fraction
from typing import NamedTuple, Union

from hemtoghai.geometry.paths import Budget, Path, root_up
from hemtoghai.language import choreo
from hemtoghai.language.lines import line_in

Sides = tuple[list[float], list[float]]  # the velocities before and after an instant, on x, y, z and of yaw

REST = 300  # milliseconds from which on a drone's rest is kept as it is
LONGEST = choreo.LONGEST_SEGMENT


def whole(v: float) -> int:
    """The nearest whole millimetre, in micrometres, as the program rounds."""
    return 1000 * choreo.rounded(round(v))


class Act(NamedTuple):
    """What a drone does in a cue: its words after its name, and its rows of control values."""
    words: list[Union[str, int]]
    rows: list[choreo.Row]


class Cue(NamedTuple):
    """A cue of the show, with each drone's act."""
    begin: int
    milliseconds: int
    acts: list[Act]


class Fit:
    """The cues of a show for paths: no more than `most` and one, and none at all where the edges alone would make more
    of them (`crowded`). `forced` has the instants at which a cue begins that leaves a path farther than the tolerance.
    The search ends with TooLong where it would take more comparisons than its budget has."""

    def __init__(self, paths: list[Path[Fraction]], tolerance: float, yaw_tolerance: float, least: int,
                 pinned: bool, most: int, budget: Budget) -> None:
        self.exact, self.paths, self.least = paths, [path.in_doubles() for path in paths], least
        # A little less, for what doubles are off.
        self.enough = (tolerance * 999.999) ** 2, (yaw_tolerance * 9.99999) ** 2
        self.end = max(1, max(math.ceil(path.pieces[-1][1]) for path in paths))
        self.now = [self.goal(path.at(0.0)) for path in self.paths]
        self.cues: list[Cue] = []
        self.forced: list[int] = []
        self.order = list(range(len(paths)))
        self.budget = budget
        self.known: dict[tuple[int, int], list[float]] = {}
        self.edges, self.sides = self.edges_of(REST if pinned else math.inf)
        self.crowded = len(self.edges) - 1 > most
        begin = 0
        while begin < self.end and len(self.cues) <= most and not self.crowded:
            length, found = self.balanced(begin, *self.longest_from(begin))
            self.known.clear()
            self.cues.append(Cue(begin, length, found))
            self.now = [[row[-1] for row in act.rows] for act in found]
            begin += length

    def goal(self, place: Sequence[float]) -> choreo.Row:
        """Where a drone is flown for a place: whole millimetres and tenths of a degree."""
        return [*map(whole, place[:3]), round(place[3])]

    def edges_of(self, rest: float) -> tuple[list[int], list[dict[int, Sides]]]:
        """The instants at which cues end in any case, and for each drone, at those of them at which its speed jumps,
        its velocities before and after. Drones begin or end to rest there, so that one at rest holds and no curve dips
        below the floor; or they turn a corner at speed. None is nearer to another one than the least cue."""
        stills = {edge for path in self.paths for begin, end in path.stills(self.end, rest)
                  for edge in (math.ceil(begin), math.floor(end))}
        corners = [(k, t) for k, path in enumerate(self.paths) for _, t in path.corners()]
        near = {t: next((edge for edge in range(math.ceil(t - 1), math.floor(t + 1) + 1) if edge in stills), round(t))
                for _, t in corners}
        kept = [0, self.end]
        for edge in sorted(stills) + sorted(set(near.values()) - stills):
            place = bisect.bisect(kept, edge)
            if 0 < place < len(kept) and kept[place - 1] + self.least <= edge <= kept[place] - self.least:
                kept.insert(place, edge)
        sides: list[dict[int, Sides]] = [{} for _ in self.paths]
        for k, t in corners:
            sides[k].setdefault(near[t], self.paths[k].slopes(t))
        return kept, sides

    def velocities(self, k: int, t: int) -> Sides:
        """A drone's velocities before and after an instant: two only where its speed jumps. Those of the begin of a cue
        are asked for at each length that is tried."""
        if t in self.sides[k]:
            return self.sides[k][t]
        if (k, t) not in self.known:
            self.known[k, t] = self.paths[k].slope(float(t))
        return self.known[k, t], self.known[k, t]

    def rest_of(self, begin: int) -> int:
        """How long it is until the next instant at which a cue ends in any case."""
        return self.edges[bisect.bisect(self.edges, begin)] - begin

    def act(self, k: int, begin: int, end: int) -> Act:
        """What a drone does between two instants: its words, and its rows of control values."""
        path, now, third = self.paths[k], self.now[k], (end - begin) / 3
        place = path.at(float(end))
        goal, first, last = self.goal(place), self.velocities(k, begin)[1], self.velocities(k, end)[0]
        if path.rests(begin, end) and goal[3] == now[3] and all(abs(a - b) <= 501 for a, b in zip(now[:3], place)):
            return Act(["hold"], [[a] for a in now])
        rows = [[a, whole(a + s * third), whole(b - e * third), b] for a, b, s, e in zip(now[:3], goal, first, last)]
        turn = [now[3], goal[3]] if goal[3] != now[3] else [now[3]]
        if all(len(set(row)) == 1 for row in [*rows, turn]):
            return Act(["hold"], [[a] for a in now])
        if all(abs(3 * row[j] - (row[0] * (3 - j) + row[3] * j)) <= 3000 for row in rows for j in (1, 2)):
            return Act(["line", *goal], [[row[0], row[3]] for row in rows] + [turn])
        return Act(["curve", *(row[j] for j in (1, 2, 3) for row in rows), goal[3]], rows + [turn])

    def fits(self, begin: int, end: int) -> list[Act] | None:
        """What all drones do between two instants, or None where one leaves its path too far."""
        found: dict[int, Act] = {}
        for place, k in enumerate(self.order):
            found[k] = self.act(k, begin, end)
            rows = [[float(v) for v in row] for row in found[k].rows]
            if not self.paths[k].keeps(begin, end, rows, self.enough, self.budget):
                self.order.insert(0, self.order.pop(place))  # who failed last is looked at first
                return None
        return [found[k] for k in range(len(self.paths))]

    def longest_from(self, begin: int) -> tuple[int, list[Act]]:
        """The greatest length of a cue that fits, as far as doubling and halving find it, and what is flown."""
        rest = self.rest_of(begin)
        most, low, found, length = min(LONGEST, rest), 0, None, min(self.least, rest)
        while found is None or low < length:
            if (fit := self.fits(begin, begin + length)) is None:
                break
            low, found, length = length, fit, min(2 * length, most)
        if found is None:
            self.forced.append(begin)
            return length, [self.act(k, begin, begin + length) for k in range(len(self.paths))]
        while length - low > max(1, low // 50):
            middle = (low + length) // 2
            if (fit := self.fits(begin, begin + middle)) is None:
                length = middle
            else:
                low, found = middle, fit
        return low, found

    def balanced(self, begin: int, length: int, found: list[Act]) -> tuple[int, list[Act]]:
        """The same, but shorter where the last cue before an edge would be a sliver: about half of what is left."""
        rest = self.rest_of(begin) - length
        for share in (50, 60, 40, 70, 80, 90) if 0 < rest < self.least else ():
            less = min(length - 1, (length + rest) * share // 100)
            fit = self.fits(begin, begin + less) if less > 0 else None
            if fit is not None:
                return less, fit
        return length, found

    def bounds(self) -> list[tuple[Fraction, Fraction]]:
        """For each drone how far what it flies leaves its path at most, at every instant: millimetres and degrees of
        yaw, exact fractions, rounded up to a hundredth."""
        out = []
        for k, path in enumerate(self.exact):
            worst = Fraction(0), Fraction(0)
            for begin, length, acts in self.cues:
                rows = [[Fraction(v) for v in row] for row in acts[k].rows]
                worst = path.leaves(Fraction(begin), Fraction(begin + length), rows, 6, worst)
            out.append((root_up(worst[0] / 1000000), root_up(worst[1] / 100)))
        return out

    def text(self, head: list[str], form: int, cues: slice = slice(None), wait: int = 0) -> str:
        """The show's text after these first lines, in a form of the language, or that of some cues after a wait."""
        chosen = self.cues[cues]
        starts = [[row[0] for row in act.rows] for act in chosen[0].acts]
        lines = head + [line_in(form, "drone", path.name, *start) for path, start in zip(self.paths, starts)]
        for k in range(0, wait, LONGEST):
            lines += [line_in(form, "cue", min(LONGEST, wait - k)), "end"]
        for begin, length, acts in chosen:
            lines.append("%s   # from %.3f s" % (line_in(form, "cue", length), begin / 1000))
            lines += [line_in(form, "act", path.name, *words)
                      for path, (words, _) in zip(self.paths, acts) if words != ["hold"]]
            lines.append("end")
        return "\n".join(lines) + "\n"
