"""Judges a flight's log against the curves of its show: how far each drone strayed, and how late it was.

    ./show flown [--stray R] [--late L] [--gap G] [--unsure M2] SHOW LOG.csv

NEVER TRIED with a log of real drones, only with those of `./show fly --simulate`. Each row of the log has
`time,drone,x,y,z`: seconds since the start, the drone's name, metres; a first row with these names may have them in
another order, and more columns. If there is a column `stamp` with the drone's own milliseconds, as `fly` writes it, it
is used for the time, since packets are late by chance and a drone's clock isn't. Rows before the start and after the
end are left out, and counted. A stamp that goes back, or leaps away from `time`, is of a drone that started anew: it is
judged by `time` then, and never kept.

Without the options R and L are those of the show's lines `stray` and `late`. The question: at each sample, was the
drone within R mm of a place of its curve that it should have had at most L / 2 ms earlier or later, all drones by one
clock? Then any two of them were near to their curves at instants at most L ms apart, which is the premise under which
the show keeps its drones apart. The clock is set so that the fewest samples are outside, and the show's
begin and end go with it. A drone's best start is the
one with which the greatest of its distances is least: `late ms` is how much later than the log's zero it is, and `-`
where it doesn't matter. THIS LOOKS AT SAMPLES: between two of them nothing is known, places are those that drones
estimate of themselves, and the time is that of the log.

The verdict is `KEPT` only for a log that covers the show: each drone has at least 5 samples, and none is more than G
ms, 1000 without the option, after the one before, the begin of the show and its end counted as samples. Nor may a log
stop more than 300 ms before the end. For any other log it is `NOT KEPT` or `NOT KNOWN`. So it is where a column
`variance`, as `fly` writes it, says that a drone wasn't sure of its place: above M2 square metres, 0.004 without the
option. Of a sample without a variance nobody knows, so a log that lacks some isn't kept either.

Of the ways up and down only the log's begin and end are looked at. It is `NOT HOME` where a drone that stood below its
first place isn't back there at the end of the log, or is missing then. A log of `fly` ends with a line that begins
with `#`, and says whether the flight was kept, ways and all: where it wasn't, the verdict is `NOT KEPT`. A log with a
place or a time that isn't finite is refused, and so is one of more than 500,000 lines. Status 0: kept. 1: not kept,
not known or not home. 70: no answer.
"""
import argparse
import csv
import sys
from array import array
from contextlib import ExitStack
from functools import lru_cache
from itertools import chain
from math import dist, inf
from operator import itemgetter
from typing import Dict, Iterable, Iterator, List, Optional, Sequence, Set, Tuple

from hemtoghai import texts
from hemtoghai.companion import flown_of, many, parser, stop
from hemtoghai.flying import finite
from hemtoghai.geometry.curves import Curve, curves_of
from hemtoghai.streams import shown

WRAP = 2 ** 24 / 1000  # seconds after which a drone's stamps begin anew
REACH = 1500  # milliseconds within which an offset is looked for
TOLD = 3.0  # millimetres by which an offset has to matter to be told
FLAT = 0.5  # millimetres of the greatest distance below which offsets are as good as each other
GAP, FEWEST = 1000, 5  # milliseconds without a sample, and samples of a drone, with which a log covers a show
LAST = 300  # milliseconds before the end of the show at which a log may stop: three samples of `fly`
RISEN = 100.0  # millimetres above its pad at least at which the first place of a drone that rose is
ASIDE, ABOVE = 300.0, 120.0  # millimetres beside its pad, and above or below it, within which it is home
LEAP = 5.0  # seconds by which a drone's clock may differ from the log's at some samples more than at others
LONGEST = 1e6  # seconds of a log, before and after its zero
MOST_LINES = 500000  # of a log: those of 32 drones in 26 minutes, ten times a second
LONGEST_ROW = 1 << 16  # bytes

Place = Tuple[float, ...]  # in mm
# Seconds, a place, the drone's seconds or None, and the estimate's variance or None.
Row = Tuple[float, Place, Optional[float], Optional[float]]
# Milliseconds by the drone's clock, a place, milliseconds by the log's, and the variance.
Sample = Tuple[float, Place, float, Optional[float]]


def lines_of(path: str, marks: Set[str]) -> Iterator[str]:
    """The lines of a log, one after the other, but for those that begin with `#`: of these, the mark of a flight that
    wasn't kept is added to the marks. `-` is standard input. A log that is too long ends the tool."""
    left, number = texts.LOG, 0
    try:
        with ExitStack() as stack:
            file = sys.stdin.buffer if path == "-" else stack.enter_context(open(path, "rb"))
            while line := file.readline(LONGEST_ROW + 1):
                left, number = left - len(line), number + 1
                if len(line) > LONGEST_ROW:
                    stop(f"{path}: this is no CSV file: a row has more than {LONGEST_ROW} bytes")
                if left < 0:
                    stop(f"{path}: more than {texts.LOG} bytes")
                if number > MOST_LINES:
                    stop(f"{path}: more than {MOST_LINES} lines: judge a shorter part, or every second sample")
                words = line.decode(errors="replace").removesuffix("\n")
                if not words.startswith("#"):
                    yield words
                elif words.strip() == finite.FAULT:
                    marks.add(finite.FAULT)
    except (OSError, ValueError) as error:
        stop("%s: %s" % (path, getattr(error, "strerror", None) or error))


def rows_of(path: str, marks: Set[str]) -> Iterator[List[str]]:
    """The rows of a log that have cells."""
    try:
        yield from filter(None, csv.reader(lines_of(path, marks)))
    except csv.Error as error:
        stop("%s: this is no CSV file: %s" % (path, error))


def read_log(path: str, marks: Set[str]) -> Dict[str, List[Row]]:
    """The samples by drone; the mark of a flight that wasn't kept is added to the marks."""
    names, rows, out = ["time", "drone", "x", "y", "z"], rows_of(path, marks), dict[str, List[Row]]()
    first: List[str] = next(rows, [])
    if set(names) <= {cell.strip() for cell in first}:
        names = [cell.strip() for cell in first]
    else:
        rows = chain(filter(None, [first]), rows)
    at = {name: names.index(name) for name in names}
    for number, row in enumerate(rows, 1):
        try:
            place = tuple([1000 * finite.number(row[at[axis]], -finite.FAR, finite.FAR) for axis in "xyz"])
            stamp = finite.number(row[at["stamp"]], 0, 2 ** 32) / 1000 if "stamp" in at else None
            seconds = finite.number(row[at["time"]], -LONGEST, LONGEST)
            variance = variance_of(row[at["variance"]]) if "variance" in at else None
            out.setdefault(row[at["drone"]].strip(), []).append((seconds, place, stamp, variance))
        except (ValueError, IndexError):
            stop("%s: row %d of the samples isn't time,drone,x,y,z in seconds and metres: %s" % (
                path, number, ",".join(row)[:60]))
    return out


@lru_cache(1000)  # many are the same word, and are then the same number in memory
def variance_of(word: str) -> Optional[float]:
    """The variance of a word, in square metres; None where there is none. One that is no number is infinite."""
    variance = float(word) if word.strip() else None
    return inf if variance is not None and not 0 <= variance < inf else variance


def lives_of(rows: Sequence[Row]) -> Optional[List["array[float]"]]:
    """The drone's seconds of all samples, in a list for each time that it was switched on: its stamps go back then, and
    not by what they wrap at. None where not all samples have one, or its clock leaps away from the log's."""
    lives: List["array[float]"] = []
    turns, lags = 0.0, [0.0, 0.0]
    for seconds, _, stamp, _ in rows:
        if stamp is None:
            return None
        if lives and stamp + turns < lives[-1][-1] - WRAP / 2:
            turns += WRAP
        lag = seconds - stamp - turns
        if not lives or stamp + turns < lives[-1][-1]:
            turns, lag = 0.0, seconds - stamp
            lives.append(array("d"))
            lags = [lag, lag]
        lags = [min(lags[0], lag), max(lags[1], lag)]
        if lags[1] - lags[0] > LEAP:
            return None
        lives[-1].append(stamp + turns)
    return lives


def by_own_clock(rows: Sequence[Row], end: float) -> Tuple[List[Sample], Optional[str]]:
    """The samples by the drone's own clock if known, set so that no packet came early. And what is wrong with it, in
    words, where the drone started anew between the begin and the end in milliseconds: then the log's clock counts."""
    out = [(ms := 1000 * t, place, ms, variance) for t, place, _, variance in rows]
    if all(row[2] is None for row in rows):
        return out, None
    lives, at = lives_of(rows), 0
    if lives is None:
        return out, "a clock that leaps"
    own: List[Sample] = []
    for number, life in enumerate(lives):
        first, at = at, at + len(life)
        if number and out[first][2] > 0 and out[first - 1][2] < end:
            return out, f"a new life from {out[first][2] / 1000:.2f} s on"
        early = min(row[0] - stamp for row, stamp in zip(rows[first:at], life))
        own += [(1000 * (stamp + early), *row[1:]) for stamp, row in zip(life, out[first:at])]
    return own, None


def farthest(samples: Iterable[Sample], curve: Curve, late: float, bound: float = inf) -> float:
    """The greatest distance where the drone is so late; where that is above the bound, any distance above it."""
    far = 0.0
    for t, place, *_ in samples:
        far = max(far, dist(place, curve.at(t - late)))
        if far > bound:
            break
    return far


def offset_of(samples: Sequence[Sample], curve: Curve) -> Optional[int]:
    """How late a drone was, in milliseconds: the middle of the offsets at which its greatest distance is least, but
    for FLAT. None where that hardly depends on it."""
    # Samples at speed tell most, so they come first.
    samples = sorted(samples, key=lambda row: -dist(curve.at(row[0] + Curve.STEP), curve.at(row[0] - Curve.STEP)))
    few, rows, least = samples[::max(1, len(samples) // 100)], [], inf
    for late in sorted(range(-REACH, REACH + 1, 50), key=abs):
        rows.append((farthest(few, curve, late, least + TOLD), late))
        least = min(least, rows[-1][0])
    rows.sort()
    if rows[-1][0] - rows[0][0] < TOLD:
        return None
    best, near = (inf, 0), [late for _, late in rows[:3]]
    for step in (25, 10, 3, 1, 0):  # the first look is at the offsets that were found
        for late in near:
            best = min(best, (farthest(samples, curve, late, best[0]), late))
        near = [best[1] + k * step for k in range(-3, 4)]
    return round((edge(samples, curve, best, -1) + edge(samples, curve, best, 1)) / 2)


def edge(samples: Sequence[Sample], curve: Curve, best: Tuple[float, int], way: int) -> int:
    """How far an offset may go one way from the best, to a millisecond, until the distance is FLAT above the least."""
    def is_good(by: int) -> bool:
        return farthest(samples, curve, best[1] + way * by, best[0] + FLAT) <= best[0] + FLAT
    near, far = 0, 1
    while far < REACH and is_good(far):
        near, far = far, 2 * far
    while far - near > 1:
        middle = (near + far) // 2
        near, far = (middle, far) if is_good(middle) else (near, middle)
    return best[1] + way * near


class Judged:
    """A drone's flight: `late` is its offset, `own` the greatest distance at that offset, `worst` the greatest
    distance from the places within the window, each with its time, `samples` those of the show by the clock that was
    found, `outside` those that are farther than `stray`, `unsure` those whose variance is too great, `gap` the longest
    time without one in the show, with when it began, `stops` how long before its end the last one is, `begin` the
    instant of the show's begin, and `wrong` what is wrong with its clock."""

    def __init__(self, samples: Sequence[Sample], wrong: Optional[str], curve: Curve) -> None:
        self.all, self.curve, self.wrong, self.begin = samples, curve, wrong, 0.0
        self.samples = self.within(0.0)
        self.late = offset_of(self.samples, curve) if self.samples else None
        self.own = max(((dist(place, curve.at(t - (self.late or 0))), t) for t, place, *_ in self.samples),
                       default=(0.0, 0.0))

    def within(self, middle: float) -> List[Sample]:
        """The samples of the show where it begins at an instant, by the drone's clock or the log's; and those between
        the log's zero and the show's end by that."""
        low, high = min(0.0, middle), self.curve.end + max(0.0, middle)
        return [row for row in self.all if low <= row[0] <= high or 0 <= row[2] <= self.curve.end]

    def lacks(self, longest: float) -> Optional[str]:
        """What keeps the samples from covering the show, or None."""
        if self.wrong:
            return self.wrong
        if self.gap > longest:
            return "no sample from %.2f to %.2f s" % (self.gap_at / 1000, (self.gap_at + self.gap) / 1000)
        if self.stops > LAST:
            return f"no sample in the last {self.stops:.0f} ms"
        return "%s in all" % many(len(self.samples), "sample") if len(self.samples) < FEWEST else None

    def away(self, last: float, longest: float) -> Optional[str]:
        """What keeps the drone from being home at the last instant of the log, in words, or None. One that never stood
        below its first place has no home in the log, and only has to be in it to its end."""
        first, final = min(self.all, key=itemgetter(2)), max(self.all, key=itemgetter(2))
        rose = first[0] < self.begin and self.curve.at(0)[2] - first[1][2] > RISEN
        aside, above = dist(final[1][:2], first[1][:2]), final[1][2] - first[1][2]
        if rose and aside <= ASIDE and abs(above) <= ABOVE:
            return None
        if last - final[2] > longest:
            return f"missing from {final[2] / 1000:.2f} s on"
        return f"{aside:.0f} mm beside where it stood, and {above:.0f} mm above that" if rose else None

    def judge(self, middle: float, window: float, stray: float, unsure: float) -> None:
        """Looks at the places within half a window around each sample's time, where the show begins at an instant."""
        self.worst, self.outside, self.samples, self.begin = (0.0, 0.0), [], self.within(middle), middle
        end = self.curve.end + middle
        times = [middle, *sorted(t for t, *_ in self.samples if middle <= t <= end), end]
        self.gap, self.gap_at = max((b - a, a) for a, b in zip(times, times[1:]))
        self.stops = end - max(row[0] for row in self.all)
        self.unsure = [(t, variance) for t, *_, variance in self.samples if variance is not None and variance > unsure]
        for t, place, *_ in self.samples:
            near, _ = self.curve.nearest(place, t - middle - window / 2, t - middle + window / 2,
                                         min(stray, self.worst[0]))
            self.worst = max(self.worst, (near, t))
            if near > stray:
                self.outside.append(t)


def judge_all(judged: Dict[str, Judged], offsets: Sequence[int], options: argparse.Namespace) -> None:
    """Judges all drones by the setting of the common clock, between the least and the greatest offset, that leaves
    the fewest samples outside."""
    def outside(middle: float) -> int:
        for it in judged.values():
            it.judge(middle, options.late, options.stray, options.unsure)
        return sum(len(it.outside) for it in judged.values())
    low, high, counts = offsets[0], offsets[-1], dict[float, int]()
    for middle in [offsets[len(offsets) // 2], *(low + (high - low) * k / 8 for k in range(9))]:
        counts[middle] = outside(middle)
        if counts[middle] == 0:
            return
    outside(min(counts, key=lambda middle: (counts[middle], middle)))


def print_table(judged: Dict[str, Judged]) -> None:
    print("%-16s %7s %7s %9s  %-24s %-24s %s" % (
        "drone", "samples", "gap ms", "late ms", "greatest mm, so late", "greatest mm in window", "outside"))
    for name, it in judged.items():
        print("%-16s %7d %7.0f %9s  %-24s %-24s %d" % (
            name, len(it.samples), it.gap, "-" if it.late is None else it.late,
            "%.1f at %.2f s" % (it.own[0], it.own[1] / 1000),
            "%.1f at %.2f s" % (it.worst[0], it.worst[1] / 1000), len(it.outside)))


def print_left_out(judged: Dict[str, Judged]) -> None:
    """Says how many samples aren't of the show."""
    left = sum(len(it.all) - len(it.samples) for it in judged.values())
    before = sum(sum(row[0] < 0 for row in it.all) - sum(row[0] < 0 for row in it.samples) for it in judged.values())
    if left:
        print(f"left out: {many(before, 'sample')} before the start and {left - before} after the end")


def away_at_the_end(judged: Dict[str, Judged], longest: float) -> Dict[str, str]:
    """By its name what keeps a drone from being home at the end of the log."""
    last = max(row[2] for it in judged.values() for row in it.all)
    found = {name: it.away(last, longest) for name, it in judged.items()}
    return {name: words for name, words in found.items() if words}


def print_verdict(judged: Dict[str, Judged], options: argparse.Namespace, marks: Set[str]) -> bool:
    """Prints what the log says, and whether that is enough; whether all was kept."""
    count, outside = sum(len(it.samples) for it in judged.values()), sum(len(it.outside) for it in judged.values())
    lacking = {name: it.lacks(options.gap) for name, it in judged.items() if it.lacks(options.gap)}
    name = max(judged, key=lambda it: judged[it].worst)
    unsure = {name: it.unsure for name, it in judged.items() if it.unsure}
    bare = {name: sum(row[3] is None for row in it.samples) for name, it in judged.items()}
    bare = {name: count for name, count in bare.items() if count}
    away = away_at_the_end(judged, options.gap)
    word = "NOT KEPT" if outside or marks else "NOT KNOWN" if lacking or unsure or bare else \
        "NOT HOME" if away else "KEPT"
    print("%s: %d of %s within %g mm of the curve at an instant within %g ms of the others'; the farthest is %s, "
          "%.1f mm at %.2f s"
          % (word, count - outside, many(count, "sample"), options.stray, options.late,
             name, judged[name].worst[0], judged[name].worst[1] / 1000))
    if lacking:
        print("the log doesn't cover the show: %s" % "; ".join("%s has %s" % it for it in lacking.items()))
    if unsure:
        print("not sure of their places: %s" % "; ".join(
            f"{name} at {many(len(rows), 'sample')}, first at {rows[0][0] / 1000:.2f} s, variance up to "
            f"{max(variance for _, variance in rows):.3g} m^2" for name, rows in unsure.items()))
    if bare:
        print("no variance says how sure they were of their places: %s" % "; ".join(
            f"{name} at {many(count, 'sample')}" for name, count in bare.items()))
    if marks:
        print("by the log's last line `fly` ended this flight with a fault")
    if away:
        print("not home at the end of the log: %s" % "; ".join("%s is %s" % it for it in away.items()))
    if word == "KEPT":
        print("that is of the show: of the ways up and down it was only looked at who is home at the end of the log")
    return word == "KEPT"


def options_of(words: list[str]) -> argparse.Namespace:
    reader = parser(__doc__)
    reader.add_argument("--stray", type=finite.option(0, 100000), metavar="R",
                        help="millimetres from the curve; without it the show's")
    reader.add_argument("--late", type=finite.option(0, 100000), metavar="L",
                        help="milliseconds between drones; without it the show's")
    reader.add_argument("--gap", type=finite.option(1, 100000), default=GAP, metavar="G",
                        help="the longest gap between samples in milliseconds; without it %d" % GAP)
    reader.add_argument("--unsure", type=finite.option(0, 100), default=finite.UNSURE, metavar="M2",
                        help="the greatest variance of a place that is known; without it %g" % finite.UNSURE)
    reader.add_argument("show", metavar="SHOW", help="a file with a show, or - for standard input")
    reader.add_argument("log", metavar="LOG", help="the flight's log, a CSV file")
    return reader.parse_args(words)


def main(words: list[str]) -> int:
    options = options_of(words)
    _, flown = flown_of(options.show)
    for name in ("stray", "late"):
        if getattr(options, name) is None:
            setattr(options, name, float(flown.show.settings[name][0]))
    marks: Set[str] = set()
    log, curves, judged = read_log(options.log, marks), curves_of(flown), {}
    strangers = sorted(set(log) - set(flown.names))
    if strangers:
        print("not of the show, and left out: %s" % shown(", ".join(strangers)))
    for name, curve in curves.items():
        it = Judged(*by_own_clock(log.pop(name, []), curve.end), curve)  # a log of many samples takes much memory
        if it.samples:
            judged[name] = it
    missing = [name for name in flown.names if name not in judged]
    if missing:
        stop("%s: no sample during the show of %s" % (options.log, ", ".join(missing)))
    offsets = sorted(it.late for it in judged.values() if it.late is not None) or [0]
    judge_all(judged, offsets, options)
    print_table(judged)
    print_left_out(judged)
    if options.stray == 0:
        print("stray is 0, which no drone keeps: write the show's line `stray`, or give --stray")
    far = max(judged, key=lambda it: judged[it].own)
    print("best starts from %d to %d ms by the log's clock, %d ms apart; so late the farthest is %s, %.1f mm at %.2f s"
          "; greatest gap between samples %.0f ms" % (
              min(offsets), max(offsets), max(offsets) - min(offsets), far, judged[far].own[0],
              judged[far].own[1] / 1000, max(it.gap for it in judged.values())))
    return 0 if print_verdict(judged, options, marks) else 1
