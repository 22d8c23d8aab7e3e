"""Sums a show up: room, cue sheet, speeds, accelerations, jumps of speed, box of the flight, nearest pairs, ways up and
down, settings.

Bounds on acceleration and jumps of speed are those of the program's `dynamics`, on x, y and z; without the program
there are none. Speeds are sampled at 32 instants of each cue, from the curves that are sent, and prove nothing; what is
left out of a long show is said. With
--margin the ellipsoid, the stray and the lateness are each increased as far as `check` accepts the show, with the other
two as they are set. The status is 0, or that of a faulty show. 70: no answer.
"""
from __future__ import annotations

from collections.abc import Iterable
from math import hypot

from hemtoghai.companion import (add_depth, ask_dynamics, begins, many, missing, Motion, no_program, parser, place,
                                 seconds, words_and_show)
from hemtoghai.flying import legs
from hemtoghai.geometry.nearest import nearest_pairs
from hemtoghai.language.choreo import Flown
from hemtoghai.language.lines import line_in
from hemtoghai.program import COMMAND
from hemtoghai.seeing.sampling import look, PLACES, places_in
from hemtoghai.writing.flyable import MOST
from hemtoghai.writing.margins import margins_of

MOST_ASKED = 1000  # questions to `check` in a search for a way
LEAST = MOST["jump"] / 1000  # metres a second: what a jump is at most that comes of rounding, as `check` has it


def triple(numbers: Iterable[float]) -> str:
    return ", ".join(f"{v:.2f}" for v in numbers)


def print_drones(flown: Flown, motions: dict[str, Motion] | None) -> None:
    room, places = flown.room(), places_in(flown)
    print("drone             bytes     of pieces      m/s  m/s2: x, y, z       jump m/s: x, y, z   in cues  box in mm: "
          "x, y, z")
    most = 0.0
    for k, (name, data, segments) in enumerate(zip(flown.names, flown.data(), flown.sent)):
        speed, box = look(flown, k, places)
        forces, jumps, cues = motions[name] if motions else ((), (), ())
        most = max(most, *jumps, 0)
        where = ", ".join(str(cue) for jump, cue in zip(jumps, cues) if jump > LEAST)
        print("%-16s %6d %6d %6d %8.2f  %-19s %-19s %-8s %s" % (
            name, len(data), room, len(segments), speed, triple(forces) or "-", triple(jumps) or "-", where or "-",
            ", ".join(f"{round(low)} to {round(high)}" for low, high in box)))
    if places < PLACES:
        print(f"Speeds and boxes are of {places} instants of each cue: the show is long.")
    if not motions:
        print("Accelerations and jumps were not asked: the program isn't built, or refuses the show.")
    if most > LEAST:
        print("A jump of speed can't be flown: the drone leaves its curve there, and the promise of distance is about")
        print(f"curves. Cue {len(flown.cues) + 1} is the end of the show. `line`, `arc` and a `curve` whose first "
              "point isn't `here` begin")
        print("at speed: use `move`, or `curve` from rest to rest.")
        print("docs/LANGUAGE.md, How fast, says more.")


def print_cues(flown: Flown) -> None:
    print("  cue         from           to  line         who does what")
    times = begins(flown)
    for k, cue in enumerate(flown.cues):
        by_act: dict[str, list[str]] = {}
        for name, (_, act, _) in cue.acts.items():
            by_act.setdefault(act, []).append(name)
        words = ["%s %s" % (act, ", ".join(names[:6]) + (" .." if len(names) > 6 else ""))
                 for act, names in by_act.items()]
        print("%5d %12s %12s  %-12d %s" % (
            k + 1, seconds(times[k]), seconds(times[k + 1]), cue.number, "; ".join(words) or "all hold"))


def print_nearest(flown: Flown, most: int) -> None:
    times = begins(flown)
    rows, more = nearest_pairs(flown)
    if more:
        print(f"{many(more, 'pair')} may come nearer than is said here: cues were left out, since the show is long.")
    for share, i, j, cue, u in rows[:most]:
        at, other = place(flown, i, cue, u), place(flown, j, cue, u)
        words = "%s and %s: %.0f %% of the distance at which their ellipsoids touch, %.0f mm to the side and %.0f " \
                "up, at %s in cue %d"
        print(words % (
            flown.names[i], flown.names[j], 100 * share, hypot(at[0] - other[0], at[1] - other[1]),
            abs(at[2] - other[2]), seconds(times[cue] + flown.cues[cue].milliseconds * u), cue + 1))


def in_words(flown: Flown, word: str, *numbers: int) -> str:
    """What stands after a setting's word in the show's form of the language."""
    return line_in(flown.show.form, word, *numbers).partition(" ")[2]


def print_margin(flown: Flown, text: bytes, deep: int) -> None:
    """Prints by how much the ellipsoid can grow, in percent, and stray and lateness, in whole mm and ms."""
    if no_program():
        return print("no margin: " + missing())
    r, h = flown.show.settings["ellipsoid"]
    for word, most, above in margins_of(flown, text, deep):
        other, unit = ("late", "mm") if word == "stray" else ("stray", "ms")
        others = "%s %s" % (other, in_words(flown, other, *flown.show.settings[other]))
        and_above = "; above that " + above if above else ""
        if most is None and word == "ellipsoid":
            return print("no margin: refused even with the least ellipsoid: " + above)
        if most is None:
            print(f"refused with {others}, even with {word} 0: {above}")
        elif word == "ellipsoid":
            print("accepted at depth %d with up to %d %% of the ellipsoid %s, which is %s%s" % (
                deep, most, in_words(flown, "ellipsoid", r, h), in_words(
                    flown, "ellipsoid", max(1, r * most // 100), max(1, h * most // 100)), and_above))
        else:
            print("accepted with %s up to %d %s, and %s as it is%s" % (
                word, most, unit, others, and_above or ", which is the most there is"))


class Bounded(legs.Rules):
    """What a leg is judged by, where a search for it asks so many questions to `check` and no more."""
    left = MOST_ASKED

    def spend(self, questions: int) -> None:
        self.left -= questions
        if self.left < 0:
            raise legs.NoWay(f"looked for by {MOST_ASKED} questions to `check`, and no further; {COMMAND} legs goes on")


def print_ways(flown: Flown) -> None:
    """Prints the ways up from pads straight below the first places, and down to them, or why there are none."""
    pads = legs.below(legs.places_of(flown)[0])
    for name in ("up", "down"):
        rules = Bounded({**flown.show.settings})
        try:
            leg = legs.way_of(name, flown, pads, rules)
            print("way %s with pads below the first places: %s, %.1f s, judged %s; %s legs has the rest" % (
                name, many(len(leg.stages), "stage"), leg.milliseconds() / 1000,
                "as a whole" if leg.whole else "stage by stage", COMMAND))
        except legs.NoWay as why:
            begin = "no" if rules.left >= 0 else "no answer on a"
            print(f"{begin} way {name} with pads below the first places: {why}")


def main(words: list[str]) -> int:
    reader = parser(__doc__)
    add_depth(reader, "for --margin, as for check: 0 to 8, without it 6")
    reader.add_argument("--margin", action="store_true", help="how far ellipsoid, stray and lateness can grow")
    reader.add_argument("--pairs", type=int, default=6, metavar="N", help="the N nearest pairs, without it 6")
    reader.add_argument("--cues", action="store_true",
                        help="the cue sheet: the time of each cue, its line, and the drones that move")
    reader.add_argument("--program", metavar="PATH", help="the program to ask, if not the one that is built here")
    options, text, flown = words_and_show(reader, words)
    settings = flown.show.settings
    print(f"{many(len(flown.names), 'drone')}, {many(len(flown.cues), 'cue')}, {seconds(flown.milliseconds)}")
    print("memory %d at offset %d, trajectory %d, ellipsoid %d mm to the side and %d mm up and down" % (
        *settings["memory"], *settings["trajectory"], *settings["ellipsoid"]))
    if any(settings["stray"] + settings["late"]):
        print("stray %d mm, late %d ms" % (*settings["stray"], *settings["late"]))
    print()
    print_drones(flown, ask_dynamics(text, options.program))
    if options.cues:
        print()
        print_cues(flown)
    if len(flown.names) > 1 and options.pairs > 0:
        print()
        print_nearest(flown, options.pairs)
    if not no_program():
        print()
        print_ways(flown)
    if options.margin:
        print()
        print_margin(flown, text, options.depth)
    return 0
