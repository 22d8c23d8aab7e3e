"""Writes what the drones of a plan or a show fly as a .skyc, as Skybrush reads them: for viewers and other programs.

    ./show export skyc [--tolerance MM] PLAN|SHOW OUT.skyc

A show is compiled by the proved program first, and isn't written where that refuses it. Lines and cubics are written as
they are. A `move` is of degree seven, of which the format knows none: it is cut into cubics. How far these are from
the plan's curves at most, at every instant, is worked out in exact fractions from the numbers that are written, and
printed. Yaw goes evenly between setpoints. Where it doesn't in the plan it has sixteen a segment, and how far that is
off is printed too. There are no lights, and no take-off or landing but what the show has.

The format is FROM MEMORY: NO PROGRAM of Skybrush ever read such a file. What another program sends to drones from it
are its own bytes, and nothing that is promised of the plan's bytes holds of those. Status 0: written. 3, 4, 5: a show
that is refused so. 2: wrong words. 70: a file can't be read or written, or isn't a plan.
"""
from __future__ import annotations

import io
import json
import zipfile
from collections.abc import Sequence
from fractions import Fraction
from typing import Any

from hemtoghai import outputs
from hemtoghai.companion import many, parser, value
from hemtoghai.exchange.plans import drones_of
from hemtoghai.geometry import paths
from hemtoghai.language.choreo import Segment
from hemtoghai.streams import shown

Row = list[Fraction]  # control values
SETPOINTS = 16
# Numbers are written in whole nanometres, nanoseconds and millionths of a degree, which doubles keep exactly.
FINE = 10 ** 6


def fine(v: Fraction) -> Fraction:
    """The nearest number that is written as it is: in parts of a millimetre, a millisecond or a tenth of a degree."""
    return Fraction(round(v * FINE), FINE)


def written(v: Fraction, scale: int) -> float:
    """A fine number in a unit that is so many times as large."""
    return round(float(v / scale), 9)


def cubic_of(row: Row) -> Row:
    """A cubic that begins and ends as a curve of a higher degree does, with its speeds there."""
    share = Fraction(len(row) - 1, 3)
    return [row[0], row[0] + share * (row[1] - row[0]), row[-1] - share * (row[-1] - row[-2]), row[-1]]


def cubics(rows: list[Row], begin: Fraction, end: Fraction,
           enough: Fraction) -> tuple[list[tuple[Fraction, list[Row]]], Fraction]:
    """Cubics near to a curve, as (end, rows), and the square of how far they leave it at most."""
    degree = max(map(len, rows)) - 1
    rows = [paths.raised(row, degree) for row in rows]
    near = [[fine(v) for v in (cubic_of(row) if degree > 3 else row)] for row in rows]
    gaps = [[a - b for a, b in zip(row, paths.raised(cubic, degree))] for row, cubic in zip(rows, near)]
    middle = fine((begin + end) / 2)
    if paths.farthest(gaps, 5, enough) <= enough or not begin < middle < end:
        return [(end, near)], paths.farthest(gaps, 5, Fraction(0))
    sides = [paths.split(row, (middle - begin) / (end - begin)) for row in rows]
    first, off = cubics([side[0] for side in sides], begin, middle, enough)
    second, also = cubics([side[1] for side in sides], middle, end, enough)
    return first + second, max(off, also)


def yaw_points(row: Row, begin: Fraction, end: Fraction) -> tuple[list[tuple[Fraction, Fraction]], Fraction]:
    """Setpoints of a segment's yaw in milliseconds and tenths of a degree, without the first, and the square of how far
    an even way between them is off at most."""
    count, off, out = SETPOINTS if len(row) > 2 else 1, Fraction(0), []
    u, a = Fraction(0), row[0]
    for k in range(1, count + 1):
        t = fine(begin + (end - begin) * k / count)
        v = (t - begin) / (end - begin)
        b, own = fine(value(row, v)), paths.raised(paths.part(row, u, v), 1)
        gap = [p - q for p, q in zip(own, paths.raised([a, b], len(own) - 1))]
        off, u, a = max(off, paths.farthest([gap], 5, Fraction(0))), v, b
        out.append((t, b))
    return out, off


def drone_of(name: str, start: Sequence[int], segments: list[Segment],
             enough: Fraction) -> tuple[dict[str, Any], int, Fraction, Fraction]:
    """A drone of the show.json, its number of pieces, and the squares of how far it is off in millimetres and in tenths
    of a degree."""
    points: list[list[Any]] = [[0, [v / 1000 for v in start[:3]], []]]
    yaws = [[0, start[3] / 10]]
    t, worst, turned = Fraction(0), Fraction(0), Fraction(0)
    for milliseconds, elements in segments:
        rows = [[Fraction(v) for v in row] for row in elements]
        pieces, off = cubics(rows[:3], t, t + milliseconds, enough)
        setpoints, also = yaw_points(rows[3], t, t + milliseconds)
        worst, turned, t = max(worst, off), max(turned, also), t + milliseconds
        yaws += [[written(at, 1000), written(v, 10)] for at, v in setpoints]
        for end, own in pieces:
            way = [[written(v, 1000) for v in point] for point in zip(*own)]
            points.append([written(end, 1000), way[-1], way[1:-1]])
    settings = {"name": name, "home": points[0][1], "landAt": points[-1][1],
                "trajectory": {"version": 1, "points": points, "takeoffTime": 0}, "lights": {"version": 1, "data": ""},
                "yawControl": {"version": 1, "setpoints": yaws, "autoYaw": False}}
    return {"type": "generic", "settings": settings}, len(points) - 1, worst, turned


def amount(word: str) -> Fraction:
    if not 0.001 <= float(word) <= 1000:
        raise ValueError
    return Fraction(word)


def main(words: list[str]) -> int:
    reader = parser(__doc__)
    reader.add_argument("--tolerance", type=amount, default=Fraction(1), metavar="MM",
                        help="how far cubics may leave a `move`, 0.001 to 1000; 1")
    outputs.add_force(reader)
    reader.add_argument("plan", metavar="PLAN|SHOW", help="what ./show compile wrote, or a show; - for standard input")
    reader.add_argument("out", metavar="OUT", help="the .skyc to write")
    options = reader.parse_args(words)
    outputs.refuse([options.out], options.force, [options.plan])
    drones: list[dict[str, Any]] = []
    count, worst, turned = 0, Fraction(0), Fraction(0)
    for name, start, segments in drones_of(options.plan):
        drone, more, off, also = drone_of(name, start, segments, options.tolerance ** 2)
        drones, count, worst, turned = drones + [drone], count + more, max(worst, off), max(turned, also)
    show = {"version": 1, "settings": {}, "environment": {"type": "indoor"}, "meta": {}, "swarm": {"drones": drones},
            "media": {}}
    packed = io.BytesIO()
    with zipfile.ZipFile(packed, "w") as archive:
        archive.writestr(zipfile.ZipInfo("show.json"), json.dumps(show), zipfile.ZIP_DEFLATED)
    outputs.write_all({options.out: packed.getvalue()}, options.force)
    print("%s: %s, %s; at any instant at most %.3f mm and %.2f degrees from the plan" % (
        shown(options.out), many(len(drones), "drone"), many(count, "piece"), paths.root_up(worst, 1000),
        paths.root_up(turned / 100)))
    print("what other programs send to drones from this file are their own bytes: nothing is promised of those")
    return 0
