"""The way home of drones that hear nothing any more, for ./show fly.

A trajectory ends in the air: where the radio or its machine dies, drones hover there until they fall. So what is
uploaded goes on after the show: all pause, and then fly the way down, to ABOVE mm above their pads. The show, the
pause and the way down are one show, which `check` judges and `upload` sends. A drone that hears is told something else
long before the pause is over. One that doesn't comes down where the others stand on their pads, or come down as it
does: both are judged. Millimetres and milliseconds.
"""
from math import ceil
from typing import Dict, Mapping, Optional, Tuple

from hemtoghai.flying.stages import judge_stages, LAND, Leg, Place, refusal_of
from hemtoghai.language.choreo import Flown
from hemtoghai.language.lines import line_in

# The flight director begins a way down within some 10 s of the show's end, or has all land. A way home that is looked
# for in flight, beside a drone that hovers at the end, is over when the pause ends, unless it takes more than twice the
# way down with what passes between its stages: the pause is as long as that, and BEFORE.
LEAST, BEFORE, BETWEEN = 60000, 30000, 1500
ABOVE = 50  # above its pad, where a drone ends: no landing is in a trajectory


def pause_before(down: Leg) -> int:
    """How long all pause before a way down, in whole seconds."""
    return max(LEAST, 1000 * ceil((BEFORE + 2 * (down.milliseconds() + BETWEEN * len(down.stages))) / 1000))


def text_of(flown: Flown, text: bytes, down: Leg) -> bytes:
    """The text of a show that goes on with a pause and a way down, whose landings end above the pads."""
    form, pause, rows = flown.show.form, pause_before(down), list[str]()
    for begin in range(0, pause, LEAST):  # in parts that a cue may last
        rows += [line_in(form, "cue", min(LEAST, pause - begin)), "end"]
    for stage in down.stages:
        above = ABOVE * (stage.kind == LAND)
        rows += [line_in(form, "cue", stage.milliseconds)]
        rows += [line_in(form, "act", flown.names[k], "move", 1000 * x, 1000 * y, 1000 * (z + above), down.yaws[k])
                 for k, (x, y, z) in stage.to.items()]
        rows += ["end"]
    return text.rstrip(b"\r\n") + b"\n" + "\n".join(rows).encode() + b"\n"


def alone(down: Leg, drone: int, pads: Mapping[int, Place]) -> Leg:
    """The way down of one drone, where all others stand on their pads."""
    at: Dict[int, Place] = {k: down.begin[k] if k == drone else pads[k] for k in down.begin}
    return down.rest(0, at, set(at) - {drone})


def judged(flown: Flown, text: bytes, down: Leg, pads: Dict[int, Place]) -> Tuple[Optional[bytes], Optional[str]]:
    """The text that is uploaded, or None and why there is none."""
    whole = text_of(flown, text, down)
    why = refusal_of(whole)
    if why:
        return None, why
    for k, name in enumerate(flown.names):
        leg = alone(down, k, pads)
        why = judge_stages(leg, leg.stages, pads, leg.begin)
        if why:
            return None, f"{name} alone, where the others stand: {why}"
    return whole, None
