"""At which instants of a show all may land at once: straight down from where they are.

A landing of the firmware begins at the setpoint of the moment with speed 0, whatever the speed was, and goes straight
down from rest to rest, which is the act `move`. The drone itself has to brake: it is carried on by v^2 / 2a and by what
passes until it reacts, and then comes back to its column. Nor do all hear of it at once: one that misses the broadcast
is told by a packet of its own, up to TOLD later, and flies its curve until then. Where floors have several heights, or
not all land, there is no broadcast, and packets of their own are up to LATE apart. So of each instant is taken all that
a drone may reach around it: its places from `late` before it to when it is told, with half a step at both ends, and
each of them carried on. What is judged, by the proved program's `check`, is a landing from the middle of these, with a
stray that is larger by how far they are from it.

A drone that is silent flies its curve on: that is judged with those who land by curves that are cut finely. One that
left its curve is judged from where it says that it is. The stages of the ways up and down have landings of their own,
judged alike. Millimetres and milliseconds.
"""
import threading
from copy import copy
from itertools import combinations, groupby
from math import ceil, dist, hypot
from typing import Callable, Dict, Iterable, Iterator, List, NamedTuple, Optional, Sequence, Set, Tuple, Union

from hemtoghai.companion import begins, value
from hemtoghai.flying.routes import LIFT
from hemtoghai.flying.stages import (apart, LAND, LATE, Leg, milliseconds_for, MOST, off_line, Place, place_of,
                                     refusal_of, Rules, SAME_FLOOR, side_by_side, Stage, stage_texts, standing_apart)
from hemtoghai.geometry.curves import Curve, curves_of, ease
from hemtoghai.language.choreo import Flown

BRAKE, REACT = 5.0, 0.1  # m/s^2 with which a drone brakes at least, and seconds until it does
TOLD = 100  # until a drone that missed the broadcast is told by a packet of its own; without a broadcast it is LATE
FINE = 20  # between the instants that are looked at around one
STEP = 200  # between instants of a stage of a way
PIECE = 250  # of the curves of a silent drone
MOST_CUES = 900  # of the show of a silent drone
ROUNDED = 2  # by which a cut curve may be off by rounding
TOO_FAR = "drones are carried on too far"
NOT_LOOKED = "not looked at before take-off"
COMPUTES = threading.Lock()  # one thread at a time, so that a flight isn't held up; `check` is asked by several

Reach = Tuple[Place, float]  # the middle of what a drone may reach, and how far it is from that at most
Cubic = List[List[float]]  # four control points
Moving = Union[Curve, "Mover"]  # what has a place at each time, in mm


def carried(speed: float, seconds: float = 0.0) -> float:
    """How far a drone is carried on, in mm, by its speed in mm a second, of which it is told after so many seconds."""
    return speed * speed / (2000 * BRAKE) + (REACT + seconds) * speed


def meet(a: Sequence[float], b: Sequence[float], c: Sequence[float], d: Sequence[float]) -> bool:
    """Whether the lines from a to b and from c to d cross, as seen from above."""
    def side(p: Sequence[float], q: Sequence[float], r: Sequence[float]) -> float:
        return (q[0] - p[0]) * (r[1] - p[1]) - (q[1] - p[1]) * (r[0] - p[0])
    return side(a, b, c) * side(a, b, d) < 0 and side(c, d, a) * side(c, d, b) < 0


class Column(NamedTuple):
    """What a drone may be above of while it comes straight down, or stays on its way: a line, and how far aside."""
    begin: Sequence[float]
    end: Sequence[float]
    reach: float = 0.0

    def apart(self, other: "Column") -> float:
        """How far two columns are from each other at least."""
        a, b, c, d = (place[:2] for place in (*self[:2], *other[:2]))
        if meet(a, b, c, d):
            return 0.0
        far = min(off_line(a, c, d), off_line(b, c, d), off_line(c, a, b), off_line(d, a, b))
        return far - self.reach - other.reach


class Landings:
    """The landings of a show: `floors` are by drone, in mm. A step is how far apart the instants are that stand for
    all. Drones are `before` late at most in what they fly, and told of a landing within `told`. Some may be `standing`
    on the floor, at these places, be `landing` already, be `off` their curves, and reach something else, or be `gone`
    from the room, where nobody meets them."""
    standing: Dict[int, Place] = {}
    landing: Set[int] = set()
    gone: Set[int] = set()
    off: Dict[int, Reach] = {}

    def __init__(self, flown: Flown, floors: Sequence[int], rules: Rules, step: Optional[int] = None) -> None:
        self.names, self.floors, self.rules = flown.names, floors, rules
        self.curves: List[Moving] = list(curves_of(flown).values())
        self.end, self.stray, self.before = flown.milliseconds, rules.show_stray, rules.show_late
        self.told = TOLD if max(floors) - min(floors) <= SAME_FLOOR else LATE
        self.step = step or max(100, 50 * ceil(self.end / 60000))
        edges = begins(flown)
        self.cues = list(zip(edges, edges[1:]))
        self.rows: Optional[List[Tuple[int, Optional[str]]]] = None
        self.deaf_rows: Dict[Tuple[int, int], Optional[str]] = {}

    def where(self, off: Dict[int, Reach], told: int, gone: Iterable[int] = ()) -> "Landings":
        """The same where some are off their curves or gone, and all are told within these milliseconds."""
        out = copy(self)
        out.off, out.told, out.gone = off, told, set(gone)
        return out

    # ---- what drones may reach

    def speed(self, k: int, t: float) -> List[float]:
        """A drone's speed by axis, in mm a second."""
        low, high = max(0, t - 2), min(self.end, t + 2)
        return [1000 * (b - a) / (high - low) for a, b in zip(self.curves[k].at(low), self.curves[k].at(high))]

    def reach(self, k: int, t: float) -> Reach:
        """What a drone may reach where all land at an instant, but nothing below its floor."""
        curve = self.curves[k]
        if k in self.off or isinstance(curve, Mover) and curve.first == curve.last:
            middle, far = self.off[k] if k in self.off else (place_of(curve.at(0)), 0.0)
            return (*middle[:2], max(middle[2], self.floors[k])), far
        low, high, points = t - self.before - self.step / 2, t + self.told + self.step / 2, []
        count = ceil((high - low) / FINE)
        for n in range(count + 1):
            at = min(max(low + (high - low) * n / count, 0), self.end)
            place, speed = curve.at(at), self.speed(k, at)
            size = hypot(*speed)
            on = carried(size) / size if size > 0.01 else 0.0
            points += [place, [v + on * w for v, w in zip(place, speed)]]
        middle = place_of((min(row) + max(row)) / 2 for row in zip(*points))
        return (*middle[:2], max(middle[2], self.floors[k])), max(dist(middle, point) for point in points)

    def after_start(self, t: float) -> Optional[str]:
        """Why not all may land so long after a start that some took and others didn't, or None: each drone is anywhere
        between its first place and where it should be."""
        rows = {}
        for k, curve in enumerate(self.curves):
            points = [self.reach(k, at) for at in range(0, ceil(t) + self.step, self.step)]
            middle = place_of((a + b) / 2 for a, b in zip(curve.at(0), points[-1][0]))
            rows[k] = middle, max(dist(middle, place) + more for place, more in [*points, (curve.at(0), 0.0)])
        return self.ask(rows, max(row[1] for row in rows.values()))

    def late(self) -> int:
        """How far apart landings may begin."""
        return min(MOST, self.before + self.told)

    # ---- landings of all

    def stage(self, at: Dict[int, Place]) -> Stage:
        """The stage in which drones land from places."""
        to = {k: (*place[:2], self.floors[k]) for k, place in at.items()}
        return Stage(LAND, milliseconds_for(LAND, [at[k][2] - self.floors[k] for k in at]), to)

    def ask(self, rows: Dict[int, Reach], more: float) -> Optional[str]:
        """The refusal of a landing from the middle of what drones may reach, with so much more stray, or None."""
        at, stray = {k: row[0] for k, row in rows.items()}, self.stray + ceil(more)
        fly = {k: place for k, place in at.items() if k not in self.standing}
        if stray > MOST or not fly:
            return TOO_FAR if fly else None
        texts = stage_texts(self.names, [0] * len(self.names), self.stage(fly), self.standing, at, self.rules, stray,
                            self.late())
        return next(filter(None, map(refusal_of, texts)), None)

    def refusal(self, t: float) -> Optional[str]:
        """Why not all may land at an instant, or None. Where drones are carried on by various ways, they are judged in
        sets that have each pair with no more stray than that has. Who lands already goes on: it refuses another
        landing."""
        if self.landing:
            return self.beside(t, self.landing)
        with COMPUTES:
            rows = {k: self.reach(k, t) for k in range(len(self.names)) if k not in self.gone}
        if not rows:
            return None
        line = self.ask(rows, max(row[1] for row in rows.values()))
        if line is None or len(rows) < 2:
            return line
        for drones in self.sets_of(rows):
            pairs = list(combinations(drones, 2))
            if self.ask({k: rows[k] for k in drones}, max((rows[i][1] + rows[j][1]) / 2 for i, j in pairs)) is None:
                continue
            whys = (self.ask({i: rows[i], j: rows[j]}, (rows[i][1] + rows[j][1]) / 2) for i, j in pairs)
            line = next(filter(None, whys), None)
            if line:
                return line
        return None

    def sets_of(self, rows: Dict[int, Reach]) -> List[List[int]]:
        """Sets of drones that have each pair in one of them, the nearest first. In a set only those are near to each
        other for whom it was begun, so that few sets are refused for another pair's stray."""
        wide = 2 * (self.rules.radius + self.stray + max(row[1] for row in rows.values())) + 100
        far = {(i, j): apart(rows[i][0], rows[j][0]) for i in rows for j in rows}
        sets: List[List[int]] = []
        have: Set[Tuple[int, int]] = set()
        for pair in sorted(combinations(rows, 2), key=lambda it: far[it]):
            if pair in have:
                continue
            drones = next((it for it in sets if all(
                far[k, other] > wide for k in pair for other in it if k not in it and other not in pair)), None)
            if drones is None:
                drones = []
                sets.append(drones)
            drones += [k for k in pair if k not in drones]
            have.update((i, j) for i in drones for j in drones)
        return sets

    def table(self) -> List[Tuple[int, Optional[str]]]:
        """The instants that stand for all, each with why not all may land then, or None."""
        if self.rows is None:
            instants = range(0, self.end + self.step, self.step)
            self.rows = list(zip(instants, side_by_side(self.refusal, instants)))
        return self.rows

    def row_at(self, t: float) -> Tuple[int, Optional[str]]:
        """The row of the table that stands for an instant."""
        rows = self.table()
        return rows[min(max(0, round(t / self.step)), len(rows) - 1)]

    def now(self, t: float) -> Optional[str]:
        """Why not all may land at any instant, by the table; None where they may."""
        return self.row_at(t)[1]

    def judge_deaf(self, is_over: Callable[[], bool]) -> None:
        """Judges for each drone, at the instants at which all may land, whether the others may where that one doesn't
        hear of it and flies on; until that is over."""
        pairs = [(at, k) for at, why in self.table() if why is None for k in range(len(self.names))
                 if k not in self.standing and k not in self.landing]

        def judge(pair: Tuple[int, int]) -> None:
            if not is_over():
                self.deaf_rows[pair] = self.beside(pair[0], self.landing | {pair[1]})
        side_by_side(judge, pairs)

    def now_deaf(self, t: float, deaf: Iterable[int]) -> Optional[str]:
        """Why not all may land at any instant where some may not hear of it, by the tables; None where they may. In
        each pair both land, or one of the two does."""
        at, why = self.row_at(t)
        flying = [k for k in deaf if k not in self.standing and k not in self.landing]
        return why or next(filter(None, (self.deaf_rows.get((at, k), NOT_LOOKED) for k in flying)), None)

    def next(self, t: float) -> Optional[int]:
        """The first instant from one on at which all may land, or None."""
        return next((at for at, why in self.table() if at >= t and why is None), None)

    # ---- for people

    def lines(self) -> Iterator[str]:
        """A line for each cue, or for cues that follow each other in all of which all may land at every instant."""
        cues = []
        for number, (begin, end) in enumerate(self.cues, 1):
            rows = [row for row in self.table() if begin <= row[0] < end] or [(begin, self.now(begin))]
            cues.append((number, begin, end, [(at, why) for at, why in rows if why]))
        for is_bad, group in groupby(cues, lambda it: bool(it[3])):
            parts = list(group)
            if is_bad:
                yield from ("cue %d, %.1f to %.1f s: %s" % (
                    number, begin / 1000, end / 1000, self.words(begin, end, bad)) for number, begin, end, bad in parts)
            else:
                first, last = parts[0], parts[-1]
                yield "%s, %.1f to %.1f s: land now" % (
                    "cue %d" % first[0] if first is last else "cues %d to %d" % (first[0], last[0]),
                    first[1] / 1000, last[2] / 1000)

    def words(self, begin: int, end: int, bad: Sequence[Tuple[int, str]]) -> str:
        """What to do in a cue at some of whose instants not all may land."""
        free, rows = self.next(bad[-1][0]), [row for row in self.table() if bad[0][0] <= row[0] <= bad[-1][0]]
        share = sum(row[1] is None for row in rows) / len(rows)
        return "land now, but from %.1f to %.1f s fly on to %s: %s%s" % (
            max(begin, bad[0][0] - self.step / 2) / 1000, min(end, bad[-1][0] + self.step / 2) / 1000,
            "the way down" if free is None else "%.1f s" % (free / 1000), short(bad[0][1]),
            "; there %d %% is apart" % round(100 * share) if share else "")

    # ---- where some fly on

    def beside_silent(self, t: float, silent: Iterable[int]) -> Optional[str]:
        """Why not all may land at an instant, or None, where each silent drone may hear of it and land as others do, or
        hear nothing and fly its curve on: so in each pair both land, or one of the two does."""
        return self.refusal(t) or next(filter(None, (self.beside(t, {k}) for k in silent)), None)

    def beside(self, t: float, on: Set[int]) -> Optional[str]:
        """Why others may not land at an instant while some fly on to the end as they do, or None."""
        land = [k for k in range(len(self.names)) if k not in on and k not in self.standing and k not in self.gone]
        if not land:
            return None
        with COMPUTES:
            rows = {k: self.reach(k, t) for k in land}
        stage, more = self.stage({k: row[0] for k, row in rows.items()}), max(row[1] for row in rows.values())
        ways = {k: (rows[k][0], stage.to[k], stage.milliseconds) for k in land}
        for row in standing_apart(self.standing, self.rules, self.stray + ceil(more), self.late()):
            hold = {k: (self.standing[k], self.standing[k], stage.milliseconds) for k in row}
            with COMPUTES:
                text = self.cut_text(self.times(t, stage.milliseconds), {**ways, **hold}, on, more)
            why = TOO_FAR if text is None else refusal_of(text)
            if why:
                return why
        return None

    def times(self, t: float, milliseconds: int) -> List[int]:
        """The instants at which curves are cut: the ends of cues, of the landing, and so that no stretch is longer than
        a piece, and each cue has four, as far as the language's number of cues lets that be."""
        t = round(t)
        marks, out = sorted({t, t + milliseconds, *(end for _, end in self.cues if end > t)}), [t]
        for least, times in (4, 1), (2, 1), (1, 1), (1, 2), (1, 4), (1, 8):
            out = [t]
            for first, mark in zip(marks, marks[1:]):
                pieces = min(mark - first, max(least, ceil((mark - first) / (times * PIECE))))
                out += [first + (mark - first) * n // pieces for n in range(1, pieces + 1)]
            if len(out) <= MOST_CUES:
                break
        return out

    def cut_text(self, times: Sequence[int], ways: Dict[int, Tuple[Place, Place, int]], silent: Iterable[int],
                 more: float) -> Optional[bytes]:
        """A show of cubics: drones that land by their ways, and silent ones on their curves. By how much the cubics are
        off, where it is looked, comes to the stray, half of it more, and the rounding. None where that is too much."""
        movers: Dict[int, Moving] = {k: Mover(times[0], ways[k]) for k in ways}
        movers.update((k, self.curves[k]) for k in silent)
        off, cues = 0.0, []
        for begin, end in zip(times, times[1:]):
            cue = {k: cubic_of(mover, begin, end) for k, mover in movers.items()}
            off = max([off, *(off_by(movers[k], cubic, begin, end) for k, cubic in cue.items())])
            cues.append((end - begin, cue))
        stray = self.stray + ceil(more + 1.5 * off) + ROUNDED
        if stray > MOST or len(cues) > MOST:
            return None
        out = ["choreo 1", "ellipsoid %d %d" % (self.rules.radius, self.rules.height), "stray %d" % stray,
               "late %d" % self.late()]
        for k, mover in movers.items():
            out.append("drone %s %d %d %d 0" % (self.names[k], *(round(1000 * v) for v in mover.at(times[0]))))
        for milliseconds, cue in cues:
            moves = {k: [round(1000 * v) for point in points[1:] for v in point] for k, points in cue.items()
                     if max(dist(points[0], point) for point in points) > 0.01}
            out += ["cue %d" % milliseconds, *("%s curve %s 0" % (self.names[k], " ".join(map(str, row)))
                                               for k, row in moves.items()), "end"]
        return ("\n".join(out) + "\n").encode()


class StageLandings(Landings):
    """The landings from a stage of a way, by its number from 0, over floors in mm. Commands to single drones are up to
    `late` apart in it, and so are those of a landing. Who stands on the floor is judged by the rule of stages.py."""

    def __init__(self, leg: Leg, number: int, floors: Sequence[int]) -> None:
        stage, at = leg.stages[number], leg.places(number)
        self.names, self.floors, self.rules = list(leg.names), floors, leg.rules
        self.curves = [Mover(0, (at[k], stage.to.get(k, at[k]), stage.milliseconds)) for k in range(len(at))]
        self.end, self.stray, self.before, self.told = stage.milliseconds, leg.rules.stray, leg.rules.late, LATE
        self.standing = {k: place for k, place in at.items() if k not in stage.to and place[2] <= floors[k]}
        self.step, self.rows, self.cues, self.deaf_rows = STEP, None, [(0, self.end)], {}
        self.landing = set(stage.to) if stage.kind == LAND else set()

    def has(self, k: int, t: float, place: Sequence[float]) -> bool:
        """Whether a drone that says that it is at a place, in mm, is where the stage has it at a time."""
        if k in self.standing:
            return dist(place, self.standing[k]) < LIFT
        curve = self.curves[k]
        times = [t - self.before + FINE * n for n in range(ceil((self.before + 2 * FINE) / FINE) + 1)]
        return min(dist(place, curve.at(at)) for at in times) <= self.stray


class Mover:
    """A drone on its way from an instant on, from rest to rest: where it is, as a curve says it."""

    def __init__(self, begin: float, way: Tuple[Place, Place, int]) -> None:
        self.begin, (self.first, self.last, self.milliseconds) = begin, way

    def at(self, t: float) -> List[float]:
        s = ease((t - self.begin) / self.milliseconds)
        return [v + (w - v) * s for v, w in zip(self.first, self.last)]

    def distance(self, place: Sequence[float], low: float, high: float) -> float:
        """How far a place is from where it is between two times, which is a straight line."""
        return off_line(place, self.at(max(low, self.begin)), self.at(max(high, self.begin)))


def cubic_of(mover: Moving, begin: float, end: float) -> Cubic:
    """A cubic with a curve's places and speeds at two times."""
    def speed(at: float, way: int) -> List[float]:
        return [way * (b - a) / 0.5 for a, b in zip(mover.at(at), mover.at(at + way * 0.5))]
    a, b, third = mover.at(begin), mover.at(end), (end - begin) / 3
    return [a, [v + third * w for v, w in zip(a, speed(begin, 1))],
            [v - third * w for v, w in zip(b, speed(end, -1))], b]


def off_by(mover: Moving, cubic: Cubic, begin: float, end: float) -> float:
    """How far a cubic is from a curve, at seven instants."""
    return max(dist(mover.at(begin + n / 8 * (end - begin)), [value(axis, n / 8) for axis in zip(*cubic)])
               for n in range(1, 8))


def short(line: str) -> str:
    words = line.split()
    return "%s and %s" % (words[3], words[4]) if words[:2] == ["error", "5"] and len(words) > 4 else line
