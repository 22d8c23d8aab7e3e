"""The legs of a flight: the way up from the pads to the first places, and the way down, as shows.

Each leg is a list of stages (flying/stages.py), which is looked for (flying/routes.py) and then judged by the proved
program's `check`: what searches proves nothing, and has not to. Millimetres and milliseconds.
"""
import re
from typing import Dict, Iterable, List, Optional, Sequence, Tuple

from hemtoghai.flying import finite
from hemtoghai.flying.routes import GROUND, LIFT, Planner
from hemtoghai.flying.stages import Leg, NoWay as NoWay, Place, place_of, Rules as Rules
from hemtoghai.language.choreo import Flown


def way_down(names: Sequence[str], pads: Sequence[Place], lasts: Sequence[Place], yaws: Sequence[int], rules: Rules,
             fixed: Iterable[int] = ()) -> Leg:
    """The leg from last places to pads, which is a way up backwards; raises NoWay. Who ends the show at the height of
    its pad stays where it is."""
    pads = [last if abs(last[2] - pad[2]) <= GROUND else pad for pad, last in zip(pads, lasts)]
    leg = Planner(names, pads, lasts, yaws, rules, fixed, 0).plan().reversed()
    refusal = leg.judge({k: place_of(pad) for k, pad in enumerate(pads) if k not in fixed})
    if refusal:
        raise NoWay(refusal)
    return leg


def down(names: Sequence[str], pads: Sequence[Place], lasts: Sequence[Place], yaws: Sequence[int], rules: Rules,
         is_below: bool = False, fixed: Iterable[int] = ()) -> Leg:
    """The leg from last places to the pads, or below them if that is wanted or nothing else accepted; raises NoWay."""
    why: Optional[NoWay] = None
    try:
        if not is_below:
            return way_down(names, pads, lasts, yaws, rules, fixed)
    except NoWay as refusal:
        why = refusal
    try:
        leg = way_down(names, [(*last[:2], pad[2]) for pad, last in zip(pads, lasts)], lasts, yaws, rules, fixed)
    except NoWay as refusal:
        raise why or refusal
    leg.why_below = why
    return leg


def way_of(name: str, flown: Flown, pads: Sequence[Place], rules: Rules, is_below: bool = False) -> Leg:
    """The way up or down of a show; raises NoWay where there is none, or a drone has no move on it, since the show
    begins or ends at its pad: the flight director takes none that doesn't rise and land."""
    firsts, lasts, begin, end = places_of(flown)
    if name == "up":
        leg = Planner(flown.names, pads, firsts, begin, rules).plan()
    else:
        leg = down(flown.names, pads, lasts, begin, rules, is_below)
    still = [leg.names[k] for k in leg.begin if not any(k in stage.to for stage in leg.stages)]
    if still:
        raise NoWay("the show of %s %s on the floor, and each drone has to be brought %s: have it %d mm above its pad "
                    "there" % (", ".join(still), "begins" if name == "up" else "ends", name, LIFT))
    leg.first_yaws = begin if name == "up" else end
    return leg


def places_of(flown: Flown) -> Tuple[List[Place], List[Place], List[int], List[int]]:
    """The first and the last places of a show in whole mm, as they are sent, and its yaws there."""
    firsts = [place_of(row[0] for row in flight[0][1][:3]) for flight in flown.sent]
    lasts = [place_of(row[-1] for row in flight[-1][1][:3]) for flight in flown.sent]
    return firsts, lasts, [flight[0][1][3][0] for flight in flown.sent], [flight[-1][1][3][-1] for flight in flown.sent]


def box_of(flown: Flown) -> List[Tuple[int, int]]:
    """By axis a least and a greatest coordinate in mm between which all curves of a show stay."""
    rows = [[v for flight in flown.sent for _, elements in flight for v in elements[axis]] for axis in range(3)]
    return [(min(row), max(row)) for row in rows]


def top_of(flown: Flown) -> int:
    """A height in mm that no curve of a show leaves upwards."""
    return box_of(flown)[2][1]


def pads_by_name(path: str) -> Dict[str, Place]:
    """The pads of a text with lines `NAME X Y Z` in micrometres, as a show has them, in whole mm; raises ValueError."""
    found: Dict[str, Place] = {}
    for number, words in finite.lines_of(path):
        if len(words) != 4 or words[0] in found or not all(re.fullmatch("-?[0-9]{1,8}", word) for word in words[1:]):
            raise ValueError("%s, line %d: `NAME X Y Z` in micrometres is wanted, each once" % (path, number))
        found[words[0]] = place_of(int(word) / 1000 for word in words[1:])
    return found


def pads_of(path: Optional[str], flown: Flown) -> List[Place]:
    """The pads of a show's drones, by a text, or straight below their first places; raises OSError and ValueError."""
    return finite.in_order(pads_by_name(path), flown.names, path, "pad") if path else below(places_of(flown)[0])


def below(places: Iterable[Place], height: int = 0) -> List[Place]:
    return [(*place[:2], height) for place in places]
