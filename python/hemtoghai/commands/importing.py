"""Writes a show from trajectories that other programs made, and says how far it may leave them; --judge judges them.

    ./show import SHOW.skyc > SHOW.choreo             Skybrush
    ./show import A.csv B.csv .. > SHOW.choreo        uav_trajectories: a drone a file, a duration and 32 numbers a row
    ./show import --waypoints A.csv .. > SHOW.choreo  t,x,y,z[,yaw] a row: seconds, metres, degrees; maybe the drone
    ./show import SHOW.zip > SHOW.choreo              a zip of such CSV files, or of a show.json
    ./show import --judge SHOW.skyc                   is the show of the file apart, at every instant?

NEVER TRIED with a file that another program wrote: the readers are from memory of the formats.

All drones are cut at common instants. Between two of them each flies a curve with the file's place and velocity at
both, a line, or holds. E is a bound on the distance between these curves and the file's, at every instant: it is
computed in exact fractions, with the program's rounding to whole millimetres. The ellipsoid of the show is the wanted
one times 1 + E / (the smaller half axis). So status 0 of `check` means that the wanted ellipsoids around the file's own
curves keep apart, if this tool reads the file as its own program flies it.

Status 0: written, and within the tolerance. 1: written, but farther from the file than the tolerance. 2: wrong words.
3: a faulty file, too many drones or cues, or a place that is too far away. 4: no room in a drone's memory. With --judge
the status is that of `check`. 70: no answer.
"""
from __future__ import annotations

import argparse
import math
import os
import sys
from collections.abc import Callable
from fractions import Fraction
from typing import Any, NamedTuple, NoReturn

from hemtoghai import program
from hemtoghai.companion import add_depth, ask, begins, many, missing, parser, stop
from hemtoghai.exchange import foreign
from hemtoghai.geometry import fitting
from hemtoghai.geometry.paths import Budget, Path, TooLong
from hemtoghai.language import choreo
from hemtoghai.language.lines import header, line_in, NEWEST
from hemtoghai.streams import shown
from hemtoghai.writing.meetings import meetings_of
from hemtoghai.writing.places import print_place
from hemtoghai.writing.trials import Trials

Paths = list[Path[Fraction]]
Axes = tuple[int, int]  # half axes of an ellipsoid, in millimetres
MOST_JUDGED = 20000  # cues of a show that is only judged
COMPARISONS = 200000  # of a piece of a file with a curve, in a search for cues: some seconds
STRETCH = 150  # cues of curves, in 23 bytes each, fit into 4,096
STEPS = [1, 2, 5, 10, 20, 30, 50, 70, 100, 200, 500, 1000]  # millimetres
FAULTY = 3


# ---- the ellipsoid, and judging

def grown(wanted: Axes, bound: Fraction) -> tuple[Fraction, Axes]:
    """The factor 1 + bound / (the smaller half axis), rounded up to a ten-thousandth, and the half axes times that,
    rounded up: around a point such an ellipsoid holds the wanted one around any point within the bound."""
    factor = Fraction(math.ceil(10000 * (1 + bound / min(wanted))), 10000)
    return factor, (math.ceil(wanted[0] * factor), math.ceil(wanted[1] * factor))


def judge(fit: fitting.Fit, head: list[str], form: int, wanted: Axes, bound: Fraction, deep: int) -> int:
    """Says of the file's own curves whether the wanted ellipsoids keep apart; the status of `check`. Stretches that fit
    into a drone's memory are judged one after the other, since a show that is only judged needs no room."""
    for first in range(0, len(fit.cues), STRETCH):
        chosen = slice(first, first + STRETCH)
        try:
            status, output = program.ask(["check", "--depth", str(deep)], fit.text(head, form, chosen).encode())
        except program.Unusable as fault:
            return stop(f"`check` was not asked: {fault}")
        begin = fit.cues[first].begin
        print(f"check, from {begin / 1000:.3f} s on: {output.decode(errors='replace').strip()}")
        if status == 5:
            print_why(fit, fit.text(head, form, chosen, begin), wanted, deep)
        elif status:
            print("NO ANSWER on separation: the import is refused for another reason; see docs/COMMANDS.md")
        if status:
            return status
    print("APART: at every instant, by the file's own curves, ellipsoids %d %d of two drones share no point" % wanted)
    print("(what was judged is within %.2f mm of them, and its ellipsoids are larger by that)" % bound)
    return 0


def share_of(fit: fitting.Fit, pair: tuple[int, int], t: Fraction,
             wanted: Axes) -> tuple[Fraction, list[list[Fraction]]]:
    """The square of the share that two drones have by the file, at an instant, of the distance at which ellipsoids
    touch, and their places in micrometres: exact. The ellipsoids share a point where it is at most 1."""
    (r, h), places = wanted, [fit.exact[k].at(t) for k in pair]
    x, y, z = (b - a for a, b in zip(*(place[:3] for place in places)))
    return (h * h * (x * x + y * y) + r * r * z * z) / (4000000 * r * r * h * h), places


def nearest(fit: fitting.Fit, pair: tuple[int, int], begin: float, end: float, wanted: Axes) -> float:
    """An instant between two at which two drones are nearest by the file, as far as it is looked for in doubles."""
    (r, h), paths = wanted, [fit.paths[k] for k in pair]

    def far(t: float) -> float:
        first, second = (path.at(t) for path in paths)
        x, y, z = (b - a for a, b in zip(first[:3], second[:3]))
        return h * h * (x * x + y * y) + r * r * z * z
    step = (end - begin) / 256
    best = min(range(257), key=lambda k: far(begin + k * step))
    low, high = max(begin, begin + (best - 1) * step), min(end, begin + (best + 1) * step)
    for _ in range(40):
        a, b = low + (high - low) / 3, high - (high - low) / 3
        low, high = (low, b) if far(a) < far(b) else (a, high)
    return min((begin + best * step, (low + high) / 2), key=far)


def print_why(fit: fitting.Fit, text: str, wanted: Axes, deep: int) -> None:
    """Says of a refusal for separation whether the file is to blame, where and when, and what `why` says. The text
    begins with a wait, so that its time is the file's."""
    flown, found = choreo.flown_of(text.encode()), []
    edges = begins(flown)
    told = meetings_of(ask, flown, text.encode(), deep)
    blocked, are_all = told if told and told[0] else stop(missing())
    for it in blocked:
        t = nearest(fit, (it.i, it.j), edges[it.cue], edges[it.cue + 1], wanted)
        found.append((share_of(fit, (it.i, it.j), Fraction(t), wanted), t, it))
    found.sort(key=lambda row: row[0][0])
    (square, places), t, first = found[0]
    if square <= 1:
        print("TOO NEAR: at this instant, by the file's own curves, two ellipsoids %d %d share a point:" % wanted)
    else:
        print("NOT SHOWN: the larger ellipsoids of the import are apart along no direction; those of the file may be. "
              "A smaller --tolerance may show it. Nearest by the file, as far as was looked:")
    print("  at %.3f s of the file, with %.1f %% of the distance at which the ellipsoids touch" % (
        t / 1000, 100 * float(square) ** 0.5))
    for k, place in zip((first.i, first.j), places):
        print("  %s at (%s) mm by the file" % (flown.names[k], ", ".join("%.0f" % (v / 1000) for v in place[:3])))
    if len(found) > 1:
        print("  and %s blocked, of this or other pairs%s" % (
            many(len(found) - 1, "more place"), "" if are_all else "; there may be more"))
    print(f"{program.COMMAND} why, of the import: its cues and lines, and its larger ellipsoids")
    print_place(Trials(ask, flown, deep), text.encode().split(b"\n"), first, [])


# ---- limits

class TooMuch(NamedTuple):
    """What is too much of an import for a drone or for the language."""
    status: int
    words: str
    times: float  # too much; 0 where less of it doesn't help


def too_much(fit: fitting.Fit, head: list[str], form: int) -> TooMuch | None:
    if fit.crowded or len(fit.cues) > choreo.MOST_CUES:
        return TooMuch(FAULTY, f"more than {choreo.MOST_CUES} cues", max(1, len(fit.cues) / choreo.MOST_CUES))
    try:
        flown = choreo.flown_of(fit.text(head, form).encode())
        room = flown.room()
        most, name, segments = max((len(data), name, len(sent)) for name, data, sent in zip(
            flown.names, flown.data(), flown.sent))
        choreo.judge_room(flown)
    except choreo.Refused as refusal:
        if refusal.status == FAULTY:
            return TooMuch(FAULTY, f"the import would be refused: {refusal}", int(refusal.outcome == "too-large"))
        return TooMuch(refusal.status, "%s would take %d bytes of %d, in %s" % (
            name, most, room, many(segments, "segment")), most / room)
    return None


def fits(paths: Paths, options: argparse.Namespace, head: list[str], tolerance: float) -> bool:
    """Whether a show fits at a tolerance. A drone that flies in more cues than it takes segments is seen at once."""
    fit = fit_of(paths, options, tolerance)
    flights = [sum(act.words != ["hold"] for act in acts) for acts in zip(*(cue.acts for cue in fit.cues))]
    return max(flights, default=0) <= choreo.MOST_SEGMENTS and too_much(fit, head, options.form) is None


def tolerance_for(paths: Paths, options: argparse.Namespace, head: list[str], times: float) -> int | None:
    """A tolerance at which a show fits, or None: of the steps from the first on at which cubics may have so many times
    fewer pieces. The greatest is tried first, and then the others by halving."""
    steps = [mm for mm in STEPS if mm > max(options.tolerance, options.tolerance * times ** 2)]
    if not steps or not fits(paths, options, head, steps[-1]):
        return None
    low, high = 0, len(steps) - 1
    while low < high:
        middle = (low + high) // 2
        low, high = (low, middle) if fits(paths, options, head, steps[middle]) else (middle + 1, high)
    return steps[high]


def stop_for(paths: Paths, options: argparse.Namespace, found: TooMuch, head: list[str], crowded: bool) -> NoReturn:
    """Ends the tool for what is too much, with the tolerance at which the show would fit. No tolerance does without the
    edges of rests and corners."""
    if not found.times:
        stop(found.words, found.status)
    options.budget = Budget(options.comparisons)
    try:
        mm = None if crowded else tolerance_for(paths, options, head, found.times)
    except TooLong:
        stop("%s; no tolerance that helps was found in %d comparisons: cut the show into several" % (
            found.words, options.comparisons), found.status)
    stop("%s; %s" % (found.words, f"the show fits with --tolerance {mm}" if mm else
                     f"no tolerance up to {STEPS[-1]} mm helps: cut the show into several"), found.status)


# ---- words

def numbers(*limits: tuple[int, int]) -> Callable[[str], Any]:
    def read(word: str) -> Any:
        found = [int(it) if it.isdigit() and len(it) < 9 else -1 for it in word.replace(",", " ").split()]
        if len(found) != len(limits) or not all(low <= it <= high for it, (low, high) in zip(found, limits)):
            raise argparse.ArgumentTypeError("%r isn't %s" % (word, " and ".join("%d to %d" % it for it in limits)))
        return found[0] if len(limits) == 1 else tuple(found)
    return read


def amount(most: float) -> Callable[[str], float]:
    def read(word: str) -> float:
        if not foreign.NUMBER.fullmatch(word) or not 0 < float(word) <= most:
            raise argparse.ArgumentTypeError("%r isn't above 0 and at most %d" % (word, most))
        return float(word)
    return read


def options_of(words: list[str]) -> argparse.Namespace:
    reader = parser(__doc__)
    reader.add_argument("--waypoints", action="store_true", help="the files are waypoints, joined by lines")
    reader.add_argument("--smooth", action="store_true", help="the files are waypoints, joined by a smooth spline")
    reader.add_argument("--tolerance", type=amount(1000), default=10.0, metavar="MM",
                        help="the greatest deviation from the file; without it 10")
    reader.add_argument("--yaw-tolerance", type=amount(360), default=3.0, metavar="DEGREES",
                        help="the same for yaw; without it 3")
    reader.add_argument("--least", type=numbers((1, 65535)), default=50, metavar="MS",
                        help="the shortest cue, except for the two before a rest or the end; without it 50")
    reader.add_argument("--loose", action="store_true",
                        help="fewer cues: drones at rest may stray within the tolerance, too")
    reader.add_argument("--ellipsoid", type=numbers((1, 2000), (1, 2000)), default=(120, 300), metavar="'R H'",
                        help="the wanted half axes around the file's own curves, in mm; without it '120 300'")
    reader.add_argument("--memory", type=numbers((0, 255), (0, 4095)), default=(2, 0), metavar="'ID OFFSET'",
                        help="the show's line `memory`; without it '2 0'")
    reader.add_argument("--form", type=int, choices=sorted(choreo.FORMS.values()), default=NEWEST,
                        help="the form of the language: 2, with units, or 1, in whole numbers; without it 2")
    reader.add_argument("--starts", metavar="FILE",
                        help="a CSV file with name,x,y,z a row (metres), added to polynomials; or Crazyswarm2's "
                             "crazyflies.yaml, whose robots are called as the files")
    reader.add_argument("--comparisons", type=numbers((1, 99999999)), default=COMPARISONS, metavar="N",
                        help="comparisons of pieces with curves after which the search for cues ends; without it "
                             f"{COMPARISONS}")
    reader.add_argument("--judge", action="store_true", help="write no show: judge the file's own curves")
    add_depth(reader, "of --judge: 0 to 8, without it 6")
    reader.add_argument("files", nargs="+", metavar="FILE", help="one .skyc, or CSV files")
    options = reader.parse_args(words)
    options.skyc, options.left_out = options.files[0].lower().endswith(".skyc"), {}
    options.budget = Budget(options.comparisons)
    if options.skyc and len(options.files) > 1:
        reader.error("one .skyc has all drones")
    if options.starts and (options.skyc or options.waypoints or options.smooth):
        reader.error("--starts is for polynomials")
    return options


def paths_of(options: argparse.Namespace) -> Paths:
    try:
        if len(options.files) == 1 and options.files[0] != "-" and not options.skyc:
            data = foreign.limited(options.files[0])  # maybe a zip with a show.json, under any name
            options.skyc = foreign.is_archive(data) and "show.json" in foreign.Archive(data).names()
        if options.skyc:
            return foreign.read_skyc(options.files[0], options.left_out)
        return foreign.read_csv(options.files, options.waypoints or options.smooth, options.smooth, options.starts)
    except foreign.Unreadable as error:
        return stop(("%s: %s" % (options.files[0], error) if options.skyc else str(error)), FAULTY)


def fit_of(paths: Paths, options: argparse.Namespace, tolerance: float) -> fitting.Fit:
    """The cues for paths; those of a show that is written are no more than it may have, and one."""
    return fitting.Fit(paths, tolerance, options.yaw_tolerance, options.least, not options.loose,
                       MOST_JUDGED if options.judge else choreo.MOST_CUES, options.budget)


def say(words: str) -> None:
    print(shown(words), file=sys.stderr)  # beside the show's text


def say_cues(fit: fitting.Fit, bounds: list[tuple[Fraction, Fraction]]) -> None:
    """Says what was made of the files, and what can't be flown."""
    lengths = sorted(cue.milliseconds for cue in fit.cues)
    worst = max(range(len(bounds)), key=lambda k: bounds[k])
    say("%s, %.3f s, %s of %d to %d ms; at most %.2f mm from the file at any instant (%s), yaw %.2f degrees" % (
        many(len(bounds), "drone"), fit.end / 1000, many(len(lengths), "cue"), lengths[0], lengths[-1],
        bounds[worst][0], fit.paths[worst].name, max(row[1] for row in bounds)))
    if fit.forced:
        say(f"{many(len(fit.forced), 'cue')} could not be fitted, the first at {fit.forced[0] / 1000:.3f} s: a corner "
            "at speed, or too small a tolerance")
    if corners := [(*corner, path.name) for path in fit.paths for corner in path.corners()]:
        jump, when, name = max(corners)
        say(f"the file has corners at speed: {name} jumps by {jump / 1000:.2f} m/s at {when / 1000:.3f} s; no drone "
            "flies that, nor the show")
    jump, when, name = max((*row, path.name) for path in fit.paths for row in [(0, 0), *path.jumps()])
    if jump > 1000:
        say(f"the file jumps: {name} by {jump / 1000:.1f} mm at {when / 1000:.3f} s; its numbers may be rounded")


def say_left_out(options: argparse.Namespace, paths: Paths) -> None:
    """Says what of the files isn't in the show, and what their places may want."""
    for what, count in options.left_out.items():
        say("LEFT OUT: %s, of %s%s" % (what, many(count, "drone"), (
            "; drones turn by the setpoints alone, which the file may not mean" if what == foreign.AUTOMATIC else "")))
    if options.skyc or options.waypoints or options.smooth:
        return
    firsts = [[row[0] for row in path.pieces[0][2][:3]] for path in paths]
    adds = "--starts FILE adds it, by a row name,x,y,z in metres for each file, or as Crazyswarm2's crazyflies.yaml"
    if not options.starts and len(paths) > 1 and all(
            max(column) - min(column) <= 1000 for column in zip(*firsts)):  # within a millimetre
        say(f"all {len(paths)} drones begin in one place: polynomials may count from each drone's start. {adds}")
    elif low := [path.name for path, place in zip(paths, firsts) if abs(place[2]) <= 1000]:
        say("%s at z 0, on the floor: polynomials may count from where the drone hovers, %s" % (
            f"{low[0]} begins" if len(low) == 1 else f"{len(low)} drones begin",
            "and these places are on the floor: give their heights" if options.starts else "in x, y and z. " + adds))


def head_of(options: argparse.Namespace, bound: Fraction, turned: Fraction, factor: Fraction, large: Axes) -> list[str]:
    """The first lines of the show: source, bound and factor, and the settings."""
    names = [os.path.basename(path) for path in options.files]
    source = "".join(it if 32 <= ord(it) < 127 else "?" for it in ", ".join(names[:3]))
    more = f" and {len(names) - 3} more" if len(names) > 3 else ""
    return [f"# Source: {source:.200}{more}, by {program.COMMAND} import.",
            "# Bound: at any instant what is sent is at most %.2f mm (%s) from the source." % (
                bound, "its automatic yaw is left out" if foreign.AUTOMATIC in options.left_out else
                "yaw %.2f degrees" % turned),
            *("# Left out: %s." % what for what in options.left_out),
            "# Factor: %d %d is wanted around the source's curves, and %.4f times that is kept clear." % (
                *options.ellipsoid, factor),
            header(options.form), line_in(options.form, "ellipsoid", *large),
            line_in(options.form, "memory", *options.memory)]


def main(words: list[str]) -> int:
    options = options_of(words)
    paths = paths_of(options)
    say_left_out(options, paths)
    try:
        fit = fit_of(paths, options, options.tolerance)
    except TooLong:
        return stop("no cues were found in %d comparisons: cut the file into several, take a greater --tolerance, or "
                    "allow more with --comparisons" % options.comparisons, FAULTY)
    head = [header(options.form), line_in(options.form, "memory", *options.memory)]
    found = None if options.judge else too_much(fit, head, options.form)
    if found:
        stop_for(paths, options, found, head, fit.crowded)
    if fit.crowded or len(fit.cues) > MOST_JUDGED:
        stop(f"more than {MOST_JUDGED} cues: judge a part of the show, or take a greater --tolerance", FAULTY)
    bounds = fit.bounds()
    bound, turned = max(row[0] for row in bounds), max(row[1] for row in bounds)
    factor, large = grown(options.ellipsoid, bound)
    if max(large) > 2000:
        stop("the ellipsoid would be %d %d, and a show's half axes are at most 2000 mm" % large, FAULTY)
    say_cues(fit, bounds)
    head = head_of(options, bound, turned, factor, large)
    if options.judge:
        print("wanted: ellipsoids %d %d; judged: %d %d, %.4f times as large for %.2f mm of the import" % (
            *options.ellipsoid, *large, factor, bound))
        return judge(fit, head, options.form, options.ellipsoid, bound, options.depth)
    sys.stdout.write(fit.text(head, options.form))
    return 0 if bound <= math.ceil(100 * options.tolerance) / 100 else 1
