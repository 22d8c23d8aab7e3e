"""How fast drones fly and how hard they speed up over time, for the charts of ./show studio. It is worked out from the
curves of the text at single instants, and proves nothing; the greatest values that the page says in words are those of
the program's `speed` and `dynamics`."""
from __future__ import annotations

from collections.abc import Sequence
from typing import Any

from hemtoghai.companion import value
from hemtoghai.geometry.curves import derived
from hemtoghai.language import choreo
from hemtoghai.writing.flyable import MOST

MOST_POINTS = 16000  # of all drones together, but for the two that each cue has
LEAST_STEP = 20  # milliseconds from one instant to the next, as far as there is room


def greatest(rows: Sequence[Sequence[float]], u: float) -> int:
    """The greatest size of some curves at a fraction of a cue, in whole units."""
    return round(max(abs(value(row, u)) for row in rows))


def motion_of(flown: choreo.Flown, drones: Sequence[int]) -> dict[str, Any]:
    """For drones by their numbers the speed and the acceleration on that axis on which it is greatest, in millimetres
    a second and a second squared. Each cue has its own instants from its begin to its end, so that a jump is one."""
    parts = [max(1, cue.milliseconds // LEAST_STEP) for cue in flown.cues]
    room, whole = MOST_POINTS // max(1, len(drones)) - len(parts), sum(parts)  # a cue has one more instant than parts
    if whole > room:
        parts = [max(1, part * room // whole) for part in parts]
    times = [begin + cue.milliseconds * k / part for begin, cue, part in zip(flown.begins, flown.cues, parts)
             for k in range(part + 1)]
    speeds: dict[int, list[int]] = {k: [] for k in drones}
    forces: dict[int, list[int]] = {k: [] for k in drones}
    for k in drones:
        for (lasts, elements), part in zip(flown.by_cue[k], parts):
            first = [derived(row, lasts) for row in elements[:3]]
            second = [derived(row, lasts) for row in first]
            for at in range(part + 1):
                speeds[k].append(greatest(first, at / part))
                forces[k].append(greatest(second, at / part))
    return {"times": [round(ms) for ms in times], "speed": speeds, "force": forces, "limit": MOST["accel"]}
