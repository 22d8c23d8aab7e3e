"""How much room is enough: the tables of docs/LANGUAGE.md, by bench/separation.py and not the program."""
from __future__ import annotations

import collections
import os
import random
import sys
from math import cos, pi, sin, sqrt
from typing import Counter, Iterable, List, Tuple

from scripts import TOP

sys.path.insert(0, os.path.join(TOP, "python"))
from hemtoghai.language import choreo
import separation

R, H = 120, 300
CUES = 24000
SEED = 3


def random_elements(choose: random.Random) -> list[list[int]]:
    """The elements of a drone that does a random act from a random place."""
    at = [choose.randrange(-700000, 700000), choose.randrange(-700000, 700000), choose.randrange(700000, 1500000), 0]

    def near() -> List[int]:
        return [at[0] + choose.randrange(-1500000, 1500000), at[1] + choose.randrange(-1500000, 1500000),
                at[2] + choose.randrange(-700000, 700000)]
    act = choose.choice(["hold", "line", "move", "arc", "curve"])
    to = {"hold": lambda: None, "arc": lambda: (choose.choice(["ccw", "cw"]), *near()[:2], 0),
          "curve": lambda: (near(), near(), near(), 0)}.get(act, lambda: [*near(), 0])()
    return [choreo.element(row, axis) for axis, row in enumerate(choreo.controls(act, at, to))]


def print_moving(choose: random.Random) -> None:
    """Prints how many random cues are accepted, by how near the two drones come. Those count that come to 90 to 130 %
    of what their ellipsoids need."""
    ruler = separation.Ruler(R, H)
    seen: Counter[int] = collections.Counter()
    accepted: Counter[Tuple[int, int]] = collections.Counter()
    while sum(seen.values()) < CUES:
        part = separation.difference(random_elements(choose), random_elements(choose))
        share = separation.Nearest(part, R, H).share
        if 0.9 <= share < 1.3:
            row = min(max(int(100 * share) // 2 * 2, 98), 108)
            seen[row] += 1
            for depth in (6, 8):
                accepted[row, depth] += separation.blocked(part, ruler, depth) is None
    for row in sorted(seen):
        print("%s %3d %%: %6d cues, accepted at depth 6 %6.2f %%, at depth 8 %6.2f %%" % (
            "below" if row == 98 else "from ", max(row, 100), seen[row],
            100 * accepted[row, 6] / seen[row], 100 * accepted[row, 8] / seen[row]))


def worst(points: Iterable[Tuple[float, float, float]]) -> float:
    """The greatest share of the touching distance that a drone at one of these points on the unit sphere needs."""
    units = [[v / sqrt(sum(w * w for w in n)) for v in n] for n in separation.TABLES[2]]
    return max(1 / max(a * x + b * y + c * z for x, y, z in units) for a, b, c in points)


def room(_: str) -> None:
    """How much room is enough: shares of random cues that are accepted, and distances for drones that stand still."""
    print_moving(random.Random(SEED))
    circle = [(cos(k * pi / 4000), sin(k * pi / 4000), 0.0) for k in range(2001)]
    heights = [k / 200 for k in range(201)]
    sphere = [((1 - z * z) ** 0.5 * x, (1 - z * z) ** 0.5 * y, z) for z in heights for x, y, _ in circle[::10]]
    print("standing still: %.3f times the touching distance is enough, %.3f at one height"
          % (worst(sphere), worst(circle)))
