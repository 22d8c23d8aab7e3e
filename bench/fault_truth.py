"""What is true of simulated drones in a flight of bench/flights: who was out of its stray, and since when. It looks at
their true places, and at what they were told; what they believe isn't asked.

In the show a drone is out where no instant within half of `late` has its curve within `stray` of it. On the ways it is
out as the director has it (docs/PROMISES.md, `watched`): no instant from the leg's lateness before this one on, counted
from when the leg began, has the leg's move within the leg's stray of it.
"""
import math
import re
from typing import Any, Dict, List, Optional, Set

# Millimetres that the ways have more than the show's stray, and least ones of it, by the defaults of `fly`; milliseconds
# of the ways' lateness at least, and between the instants that are looked at.
ROOM, LEAST, LATE, FINE = 30, 80, 300, 5
STAGE = 1.0  # seconds within which all hear of one leg


class Truth:
    """Where drones of a show are, beside where they should be. `left` is when each was first out of its stray, in
    seconds of the clock, as far as nobody was told to land before that wasn't a landing of the way down; `in_show` who
    was so in the show; `is_wrong` whether a fault was said, and `landed` when the first landing after that was
    commanded."""

    def __init__(self, air: Any, clock: Any, plan: Dict[str, Any], curves: List[Any], milliseconds: float) -> None:
        self.air, self.clock, self.names = air, clock, plan["names"]
        self.curves, self.ms = curves, milliseconds
        found = {word: int(number) for word, number in re.findall("(?m)^(stray|late) ([0-9]+)", plan["text"])}
        self.stray, self.late = found["stray"], found["late"]
        self.leg_stray, self.leg_late = max(self.stray + ROOM, LEAST), max(self.late, LATE)
        self.left: Dict[str, float] = {}
        self.in_show: Set[str] = set()
        self.landed: Optional[float] = None
        self.is_wrong = False

    def drones(self) -> List[Any]:
        return [drone for drone in self.air.WORLD.drones.values() if not drone.called]

    def since_start(self, now: float) -> Optional[float]:
        """The milliseconds of the show, which begins in the middle of the starts; None outside of it."""
        starts = [drone.starts[0] for drone in self.drones() if drone.starts]
        if len(starts) < len(self.names):
            return None
        t = 1000 * (now - (min(starts) + max(starts)) / 2)
        return t if 0 <= t <= self.ms else None

    def behind(self, drone: Any) -> float:
        """The seconds after its leg's beginning at which a drone heard of it: others heard before."""
        begins = [it.plan[1] for it in self.drones() if it.plan and it.plan[0] == "way"]
        own = drone.plan[1] if drone.plan and drone.plan[0] == "way" else None
        return 0.0 if own is None else own - min(begin for begin in begins if own - STAGE < begin <= own)

    def off_way(self, drone: Any, here: List[float], now: float) -> float:
        """How far a drone is from its way, in millimetres: from the nearest that this was within the leg's lateness."""
        far, behind = 1000 * math.dist(here, drone.planned(now)), self.behind(drone)
        if far <= self.leg_stray and 1000 * behind <= self.leg_late:
            return far
        instants = (now + behind - ms / 1000 for ms in range(0, self.leg_late + 1, FINE))
        return min(1000 * math.dist(here, drone.planned(at)) for at in instants)

    def look(self) -> None:
        """Looks at all drones, until the first landing."""
        if self.landed is not None:
            return
        now = self.clock.now()
        t = self.since_start(now)
        for name, drone, curve in zip(self.names, self.drones(), self.curves):
            here = drone.is_at(now)
            far, limit = self.off_way(drone, here, now), self.leg_stray
            if t is not None:
                at = [1000 * v for v in here]
                far, limit = curve.nearest(at, t - self.late / 2, t + self.late / 2, self.stray / 4)[0], self.stray
            if far > limit + 0.5:  # bytes have whole millimetres
                self.left.setdefault(name, now)
                self.in_show |= {name} if t is not None else set()

    def hears(self, text: str) -> None:
        """Something was said."""
        self.is_wrong = self.is_wrong or text.startswith(("FAULT", "Ctrl-C", "\nFAULT"))

    def lands(self) -> None:
        """A drone was commanded to land."""
        if self.is_wrong and self.landed is None:
            self.landed = self.clock.now()

    def found(self) -> Dict[str, Any]:
        first = min(self.left.values(), default=None)
        wait = None if first is None or self.landed is None else self.landed - first
        return {"out": sorted(self.left), "out_in_show": sorted(self.in_show), "left": first, "lands_after": wait}
