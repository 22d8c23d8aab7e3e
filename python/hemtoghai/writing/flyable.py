"""What of an accepted show no drone flies: one line for ./show, with lines of the text. Accelerations and jumps are
those of the program's `dynamics`, places those of the tools' own reader."""
from __future__ import annotations

import re
from math import hypot

from hemtoghai import program as proved
from hemtoghai.geometry.curves import powers, value_of
from hemtoghai.language import choreo
from hemtoghai.language.choreo import Flown

MOST = {"accel": 10000, "jump": 30}  # millimetres per second squared, and per second: less comes of rounding
AT_SPEED = ": `line`, `arc`, and a `curve` that begins or ends at speed, do so"
PLACES = 32  # of a cue, where heights are looked at
SMALL = 40  # millimetres: a show that was written in millimetres lies within 33, which are 33 m then
GROUND, LIFT = 50, 200  # millimetres, as flying/routes.py has them: on the floor, and where a way up may lead


class NoAnswer(Exception):
    """The program didn't say what a show wants of a drone."""


def line_of_cue(flown: Flown, cue: int) -> int:
    """The line of a cue, which counts from 1; the end of the show is that of the last one."""
    return flown.cues[min(cue, len(flown.cues)) - 1].number


def motion(program: str, flown: Flown, text: bytes, most: dict[str, int] | None = None) -> str | None:
    """What `dynamics` refuses with limits, those of MOST where none are given, or None; raises NoAnswer if it neither
    accepts nor refuses the show."""
    most = most or MOST
    words = ["dynamics", "--accel", str(most["accel"]), "--jump", str(most["jump"])]
    try:
        status, output = proved.ask(words, text, program)
    except proved.Unusable as why:
        raise NoAnswer(f"`dynamics` can't be asked: {why}") from None
    if status not in (0, 18):
        raise NoAnswer(f"`dynamics` ended with {status}")
    found = re.match(rb"error 18 drone (\S+) cue (\d+) (accel|jump) ([xyz]) (\d+)\n", output)
    if not found:
        return None
    name, cue, what, axis, number = (word.decode() for word in found.groups())
    said = "needs up to %.2f m/s^2 on %s, more than %g" if what == "accel" else "jumps by %.2f m/s on %s, more than %g"
    when = f"cue {cue}" if int(cue) <= len(flown.cues) else "the end"
    return f"line {line_of_cue(flown, int(cue))}, {when}: {name} {said % (int(number) / 1e6, axis, most[what] / 1000)}"


def below(flown: Flown) -> str | None:
    """The first drone, and its first cue, in which it goes below z 0, or None."""
    for name, flight in zip(flown.names, flown.by_cue):
        for cue, (_, elements) in enumerate(flight, 1):
            heights = powers(elements[2])
            if min(elements[2]) < 0 and min(value_of(heights, at / PLACES) for at in range(PLACES + 1)) < 0:
                return "line %d, cue %d: %s goes below z 0" % (line_of_cue(flown, cue), cue, name)
    return None


def small(flown: Flown) -> str | None:
    """That all places are within some millimetres of the origin, where it is so, or None."""
    rows = (row for flight in flown.by_cue for _, elements in flight for row in elements[:3])
    if all(abs(v) <= SMALL for row in rows for v in row):
        cure = "a metre is 1m" if flown.show.form == 2 else "lengths are micrometres, so a metre is 1000000"
        return f"all places lie within {SMALL} mm of the origin: {cure}"
    return None


def small_text(text: bytes) -> str | None:
    """The same of a show's text, which may be refused for nearness."""
    try:
        return small(choreo.flown_of(choreo.parts_of(text)[0]))
    except choreo.Refused:
        return None


def on_floor(flown: Flown) -> str | None:
    """The first drone that begins lower above z 0 than a way up leads, or ends on the floor, or None; `./show fly`
    brings none of these up and down, if its pad is at z 0."""
    for line, name, flight in zip(flown.show.drones, flown.names, flown.sent):
        begin, end = flight[0][1][2][0], flight[-1][1][2][-1]
        where = ("line %d, cue 1: %s begins %d mm above z 0" % (line.number, name, begin) if begin < LIFT else
                 "line %d, the end: %s ends %d mm above z 0" % (line_of_cue(flown, len(flown.cues)), name, end)
                 if end <= GROUND else None)
        if where:
            return f"{where}: {proved.COMMAND} fly takes a show that is at least {LIFT} mm above the pads there"
    return None


def stacked(flown: Flown) -> str | None:
    """The first two drones that begin so near to each other from above that they can't go up below their places, or
    None; `./show legs` plans their ways, and judges them."""
    (radius, _), (stray,) = flown.show.settings["ellipsoid"], flown.show.settings["stray"]
    for k, (name, flight) in enumerate(zip(flown.names, flown.sent)):
        for other, second in zip(flown.names[:k], flown.sent):
            far = hypot(*(flight[0][1][axis][0] - second[0][1][axis][0] for axis in (0, 1)))
            if far <= 2 * (radius + stray):
                return ("%s and %s begin %.0f mm apart from above: %s legs SHOW PADS says from which pads they can "
                        "go up" % (other, name, far, proved.COMMAND))
    return None


def still(flown: Flown) -> str | None:
    """The first drone and cue in which it shall fly a quarter circle around the place where it is, and so stays there;
    or None."""
    for number, cue in enumerate(flown.cues, 1):
        for name, (line, act, to) in cue.acts.items():
            if act in choreo.ARCS and list(to[1:3]) == flown.places[flown.names.index(name)][number - 1][:2]:
                return (f"line {line}, cue {number}: {name} is at the centre of its own `{act}`, so it stays there and "
                        "turns alone: CX and CY are the centre of the circle")
    return None


def motion_if_known(program: str, flown: Flown, text: bytes) -> str | None:
    """What `dynamics` refuses, or None, also where it doesn't answer."""
    try:
        return motion(program, flown, text)
    except NoAnswer:
        return None


def warning(program: str, text: bytes) -> str | None:
    """The line on what no drone flies, or None where nothing of that is found."""
    try:
        flown = choreo.flown_of(text)
    except choreo.Refused:
        return None
    low, little = below(flown), small(flown)
    found = (motion_if_known(program, flown, text), low, little, None if low or little else on_floor(flown),
             None if little else stacked(flown), still(flown))
    if found[0] and " jumps by " in found[0]:
        found = found[0] + AT_SPEED, *found[1:]
    return "; ".join(filter(None, found)) or None
