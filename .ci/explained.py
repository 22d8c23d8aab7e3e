"""What `explain` writes, for .ci/stand_in: by exact fractions, from docs/COMMANDS.md and bench/separation.py."""
from __future__ import annotations

from fractions import Fraction
from itertools import combinations
from math import comb, floor

from hemtoghai.language.choreo import Flown
import separation

MOST = 200  # pairs and cues that have a line


def place(row: list[int], at: int, of: int) -> Fraction:
    """The value of a curve at a fraction of its time."""
    n = len(row) - 1
    return sum((comb(n, k) * Fraction(at, of) ** k * Fraction(of - at, of) ** (n - k) * v for k, v in enumerate(row)),
               Fraction(0))


def share(flown: Flown, i: int, j: int, cue: int, at: int, of: int) -> Fraction:
    """The square of the distance of two drones, as a share of that of the distance at which their ellipsoids touch."""
    r, h = flown.show.settings["ellipsoid"]
    x, y, z = (place(b, at, of) - place(a, at, of)
               for a, b in zip(flown.by_cue[i][cue][1][:3], flown.by_cue[j][cue][1][:3]))
    return (h * h * (x * x + y * y) + r * r * z * z) / (4 * r * r * h * h)


def explained(flown: Flown, depth: int, fine: int = 5, is_all: bool = False) -> str:
    """The output of `explain`, with `--all` or without."""
    names, of, lines = flown.names, 2 ** fine, []
    pairs = list(combinations(range(len(names)), 2))
    blocked = list(separation.blocked_places(flown, depth))
    for i, j, cue, index in blocked[:MOST if is_all else 1]:
        line = "blocked pair %s %s cue %d part %d of %d" % (names[i], names[j], cue + 1, index, 2 ** depth)
        if is_all:
            least, at = min((share(flown, i, j, cue, k, of), k) for k in range(of + 1))
            line += " closest at %d of %d level %d" % (at, of, floor(1000 * least))
        lines.append(line)
    if is_all and len(blocked) > MOST:
        lines.append("blocked more than %d" % MOST)
    listed = [(share(flown, i, j, cue, at, of), (cue, at, i, j)) for cue in range(len(flown.cues))
              for at in range(of + 1) for i, j in pairs]
    if listed:
        least, (cue, at, i, j) = min(listed)
        lines.append("closest pair %s %s cue %d at %d of %d level %d" % (
            names[i], names[j], cue + 1, at, of, floor(1000 * least)))
    touches = [where for value, where in listed if value <= 1]
    if blocked and touches:
        cue, at, i, j = touches[0]
        lines.append("touch pair %s %s cue %d at %d of %d" % (names[i], names[j], cue + 1, at, of))
    elif blocked:
        lines.append("no-touch instants %d" % (len(flown.cues) * (of + 1)))
    return "".join(line + "\n" for line in ([] if blocked else ["separated"]) + lines)
