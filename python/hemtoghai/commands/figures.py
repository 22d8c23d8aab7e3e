"""Writes what no single line of the language says: drones on a ring or in rows, whole circles, helices and waves.

    ./show figures ring [--radius R] [--height Z] COUNT > SHOW
    ./show figures rows [--columns N] [--spacing D] [--height Z] COUNT > SHOW
    ./show figures turn [--by ANGLE] [--around X Y] [--rise D] [--time T] SHOW [NAME ..] > NEW
    ./show figures wave [--by D] [--cycles N] [--time T] SHOW [NAME ..] > NEW

`ring` and `rows` begin a show: so many drones in their places, and a second of rest. `turn` and `wave` add cues at the
end of a show, for all drones or for those that are named, from where each is then: `turn` takes them around a point by
any angle, with --rise on a helix, and `wave` takes them up and down one after another. All begin and end at rest. The
cues are `curve` lines, so many that no curve is off its figure by more than 1 mm; standard error says by how much, how
long it lasts, and what `check` says of the new show. python/hemtoghai/writing/figures.py has more figures, for
programs.

Lengths, angles and times have a unit, as in a show: 1.2m, 50cm, 360deg, 12s. Without --time no drone is faster than
0.8 m/s. The status is that of `check`. 2: wrong words. 3: the show is faulty. 70: no answer.
"""
from __future__ import annotations

import argparse
import re
from collections.abc import Callable
from math import ceil, dist

from hemtoghai.companion import flown_of, known_names, many, parser, put_show, say, set_tool, stop, whole
from hemtoghai.language import choreo
from hemtoghai.language.lines import header, line_in, NEWEST
from hemtoghai.language.quantities import Counts, listed, MICROMETRES, MILLISECONDS, TENTHS, value_of
from hemtoghai.writing.figures import grid, micrometres, Path, piece, Place, ring, turn, wave

KINDS = "ring", "rows", "turn", "wave"
ENOUGH = 0.001  # metres by which a curve may be off its figure
MOST_CUTS = 200
FASTEST = 0.8  # metres a second, where no time is given
SAMPLES = 400


def quantity(counts: Counts, least: int, most: int) -> Callable[[str], int]:
    """What reads a quantity with its unit, in whole numbers of what it counts."""
    def read(word: str) -> int:
        value = value_of(counts, word)
        if value is None or not least <= value <= most:
            raise argparse.ArgumentTypeError(f"{word} is no {counts.kind} here: write its number with "
                                             f"{listed(counts.units)} right after it")
        return value
    return read


LENGTH = quantity(MICROMETRES, -32000000, 32000000)
ANGLE = quantity(TENTHS, -36000, 36000)
TIME = quantity(MILLISECONDS, 100, 1000000)
COUNT = whole("a show has %d to %d drones", 1, choreo.MOST_DRONES)


# ---- a show that begins

def begun(places: list[Place]) -> int:
    """Writes a show of drones in these places, that rest for a second."""
    lines = [header(NEWEST)]
    lines += [line_in(NEWEST, "drone", f"d{k}", *map(micrometres, place), 0) for k, place in enumerate(places, 1)]
    return put_show("\n".join([*lines, line_in(NEWEST, "cue", 1000), "end", ""]).encode())


def begin(kind: str, words: list[str]) -> int:
    reader = parser(__doc__)
    reader.add_argument("--height", type=LENGTH, default=1000000, metavar="Z", help="above the ground; without it 1m")
    if kind == "ring":
        reader.add_argument("--radius", type=LENGTH, metavar="R", help="of the ring; without it so that neighbours are "
                            "60cm apart, and at least 50cm")
    else:
        reader.add_argument("--columns", type=COUNT, metavar="N", help="drones in a row; without it as many as rows")
        reader.add_argument("--spacing", type=LENGTH, default=600000, metavar="D", help="between two; without it 60cm")
    reader.add_argument("count", type=COUNT, metavar="COUNT", help="how many drones, 1 to 32")
    options = reader.parse_args(words)
    number, centre = options.count, (0, 0, options.height / 1e6)
    if kind == "ring":
        radius = max(500000, round(number * 600000 / 6.28)) if options.radius is None else options.radius
        return begun(ring(number, radius / 1e6, centre))
    columns = options.columns or ceil(number ** 0.5)
    return begun(grid(columns, -(-number // columns), options.spacing / 1e6, centre)[:number])


# ---- a show that goes on

def time_of(paths: dict[str, Path]) -> int:
    """Milliseconds in which no drone is faster than FASTEST, in half seconds."""
    most = max(dist(path(k / SAMPLES), path((k + 1) / SAMPLES)) for path in paths.values() for k in range(SAMPLES))
    return max(1000, 500 * ceil(most * SAMPLES / FASTEST * 2))


def cues_of(flown: choreo.Flown, paths: dict[str, Path], milliseconds: int, cuts: int) -> tuple[list[str], float]:
    """The lines of so many cues in which drones fly paths, and by how many metres the curves are off."""
    lines, worst, form = [], 0.0, flown.show.form
    for k in range(cuts):
        u, v = k / cuts, (k + 1) / cuts
        lines.append(line_in(form, "cue", round(milliseconds * v) - round(milliseconds * u)))
        for name, path in paths.items():
            points, off = piece(path, u, v)
            worst, yaw = max(worst, off), flown.places[flown.names.index(name)][-1][3]
            lines.append(line_in(form, "act", name, "curve", *(micrometres(c) for it in points[1:] for c in it), yaw))
        lines.append("end")
    return lines, worst


def extended(text: bytes, flown: choreo.Flown, paths: dict[str, Path], milliseconds: int | None, what: str) -> int:
    """Writes the show with cues at its end in which drones fly paths."""
    time = milliseconds or time_of(paths)
    for cuts in range(-(-time // choreo.LONGEST_SEGMENT) + 1, MOST_CUTS + 1):
        lines, off = cues_of(flown, paths, time, cuts)
        if off <= ENOUGH:
            break
    else:
        stop(f"no {MOST_CUTS} curves are within 1 mm of the figure: take a smaller one, or several after one another")
    say("%s, %s in %g s: %s, at most %.2f mm off the figure" % (many(len(paths), "drone"), what, time / 1000, many(
        cuts, "cue"), 1000 * off))
    return put_show((b"" if text.endswith(b"\n") else b"\n").join([text, "\n".join([*lines, ""]).encode()]))


def go_on(kind: str, words: list[str]) -> int:
    reader = parser(__doc__)
    reader._negative_number_matcher = re.compile("-[0-9.]+[a-z]*")  # -90deg is no option
    reader.add_argument("--time", type=TIME, metavar="T", help="how long it lasts; without it as 0.8 m/s allow")
    if kind == "turn":
        reader.add_argument("--by", type=ANGLE, default=3600, metavar="ANGLE", help="counter-clockwise as seen from "
                            "above, and clockwise below 0; without it 360deg, a whole circle")
        reader.add_argument("--around", nargs=2, type=LENGTH, default=(0, 0), metavar=("X", "Y"),
                            help="the centre; without it the origin")
        reader.add_argument("--rise", type=LENGTH, default=0, metavar="D", help="how much higher all are afterwards")
    else:
        reader.add_argument("--by", type=LENGTH, default=300000, metavar="D", help="up and down; without it 30cm")
        reader.add_argument("--cycles", type=int, choices=range(1, 21), default=2, metavar="N",
                            help="how often, 1 to 20; without it 2")
    reader.add_argument("show", metavar="SHOW", help="a file with a show, or - for standard input")
    reader.add_argument("names", nargs="*", metavar="NAME", help="a drone that flies it; without a name all do")
    options = reader.parse_args(words)
    text, flown = flown_of(options.show)
    names = known_names(flown, options.names) or flown.names
    ends = {name: [v / 1e6 for v in flown.places[flown.names.index(name)][-1][:3]] for name in names}
    if kind == "wave":
        paths = {name: wave(end, options.by / 1e6, options.cycles, k / max(1, len(names)))
                 for k, (name, end) in enumerate(ends.items())}
        return extended(text, flown, paths, options.time, "a wave of %d mm" % (options.by // 1000))
    x, y = options.around
    paths = {name: turn(end, (x / 1e6, y / 1e6), options.by / 10, options.rise / 1e6) for name, end in ends.items()}
    return extended(text, flown, paths, options.time, "by %g degrees around (%g, %g) m" % (
        options.by / 10, x / 1e6, y / 1e6) + (", up by %d mm" % (options.rise // 1000) if options.rise else ""))


def main(words: list[str]) -> int:
    if words[:1] and words[0] in KINDS:
        set_tool("figures " + words[0])
        return (begin if words[0] in KINDS[:2] else go_on)(words[0], words[1:])
    reader = parser(__doc__)
    reader.add_argument("kind", choices=KINDS, help="what is written")
    reader.parse_args(words)
    return 2
