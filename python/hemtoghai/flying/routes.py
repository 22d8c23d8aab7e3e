"""The search for a way up: from pads to first places, in stages that `check` accepts. For ./show legs and ./show fly.

First all go at once. Where that is refused they go in groups, each drone straight up from its pad, over its place, and
down to it. It crosses at the height of its place, or in a layer above all places. Who stands below the place of another
goes before it. Where that goes round in a circle one of them is parked: it waits above its own pad, over all layers,
and comes to its place last.

Groups are looked for by distances that are computed here, and prove nothing: `check` judges each leg that is found.
Where it refuses all of them, they are looked for anew with more room. No search is ended by a clock: every machine
finds the same. Millimetres and milliseconds.
"""
import re
from math import dist
from typing import Dict, Iterable, List, Optional, Sequence, Tuple

from hemtoghai.flying.stages import (apart, GO_TO, Leg, milliseconds_for, NoWay, off_line, PEAK, Place, place_of, Rules,
                                     Stage, TAKE_OFF)
from hemtoghai.writing import dealing

GROUND, LIFT = 50, 200  # a first place is this near to the pad and flown from there, or at least so high above it
LAYERS = 3  # above all places, in which drones cross
TRIES = 3  # legs that are judged, the shortest first, before they are looked for with more room
ROOMS = 1.08, 1.25  # times the distance that is wanted, since `check` looks along few directions
LONG = 60000  # milliseconds of a way from which on it is said how drones could be dealt over the pads
REFUSED = re.compile("error 5 pair ([a-z0-9_]+) ([a-z0-9_]+) cue ([0-9]+)")

Way = List[Place]


def nearest(one: Sequence[Sequence[float]], two: Sequence[Sequence[float]], sizes: Sequence[float]) -> float:
    """How near two come that go straight in step, each from its first place to its second: 1 is at the sizes."""
    return off_line((0, 0, 0), *([(v - w) / size for v, w, size in zip(*row, sizes)] for row in zip(one, two)))


class Planner:
    """Looks for the way up from pads to places: both by drone, in whole mm. `fixed` are drones that hover at their
    places all the while, and aren't led. A place has to be so far above its pad as `lift` says."""

    def __init__(self, names: Sequence[str], pads: Sequence[Place], firsts: Sequence[Place], yaws: Sequence[int],
                 rules: Rules, fixed: Iterable[int] = (), lift: int = LIFT) -> None:
        self.names, self.yaws, self.rules, self.fixed, self.lift = names, yaws, rules, set(fixed), lift
        self.pads, self.firsts = [place_of(pad) for pad in pads], [place_of(first) for first in firsts]
        self.standing = {k: pad for k, pad in enumerate(self.pads) if k not in self.fixed}
        self.room, self.wide = ROOMS[0], ROOMS[0] * rules.side()
        self.step = 2 * (rules.height + rules.stray) + 100
        self.top = max(first[2] for first in self.firsts)
        self.why = ""

    # ---- who flies, and where

    def flyers(self) -> List[int]:
        """The drones that take off, the highest first; raises where one is neither on its pad nor well above it."""
        out = []
        for k, (pad, first) in enumerate(zip(self.pads, self.firsts)):
            up = first[2] - pad[2]
            if k in self.fixed:
                continue
            if abs(up) <= GROUND:
                if apart(pad, first) > GROUND:
                    raise NoWay("%s begins on the floor, %.0f mm aside of its pad: %d mm at most, or it tilts over as "
                                "it starts" % (self.names[k], apart(pad, first), GROUND))
            elif up < self.lift:
                raise NoWay("%s: its place is %d mm above its pad, and a take-off needs %d: have it %d mm higher, or "
                            "on the floor" % (self.names[k], up, self.lift, self.lift - up))
            else:
                out.append(k)
        return sorted(out, key=lambda k: (-self.firsts[k][2], k))

    def begin(self) -> Leg:
        """A leg with all on their pads, but for the fixed."""
        at = {k: self.firsts[k] if k in self.fixed else self.pads[k] for k in range(len(self.names))}
        return Leg(self.names, at, self.yaws, self.rules)

    def way(self, k: int, height: Optional[int] = None) -> Way:
        """A drone's way from above its pad: at the height of its place, or at another one and then down."""
        pad, first = self.pads[k], self.firsts[k]
        return [(*pad[:2], first[2]), first] if height is None else [(*pad[:2], height), (*first[:2], height), first]

    def stages_of(self, group: Dict[int, Way], at: Dict[int, Place], kind: str = TAKE_OFF) -> List[Stage]:
        """The stages of drones that go together by their ways, from where they are; the first is of a kind."""
        out, at = [], {k: at[k] for k in group}
        for number in range(max(len(way) for way in group.values())):
            to = {k: way[number] for k, way in group.items() if number < len(way)}
            kind = GO_TO if number else kind
            out.append(Stage(kind, milliseconds_for(kind, [dist(at[k], place) for k, place in to.items()]), to))
            at.update(to)
        return out

    # ---- groups

    def sizes_in(self, stage: Stage, at: Dict[int, Place]) -> Tuple[float, float, float]:
        """How far apart two have to be in a stage, aside and in height."""
        late = self.rules.late / stage.milliseconds * PEAK if len(stage.to) > 1 else 0.0
        aside = late * max(apart(at[k], place) for k, place in stage.to.items())
        high = late * max(abs(at[k][2] - place[2]) for k, place in stage.to.items())
        wide, tall = [self.room * 2 * (half + self.rules.stray) for half in (self.rules.radius, self.rules.height)]
        return wide + aside, wide + aside, tall + high

    def seems_apart(self, stage: Stage, at: Dict[int, Place]) -> bool:
        """Whether nobody who moves in a stage seems to come near to another."""
        sizes, looked = self.sizes_in(stage, at), set()
        most = max(sizes)
        for i in stage.to:
            looked.add(i)
            one = at[i], stage.to[i]
            way = dist(*one)
            for j in at:
                if j in looked:
                    continue
                two = at[j], stage.to.get(j, at[j])
                if dist(one[0], two[0]) < most + way + dist(*two) and nearest(one, two, sizes) < 1:
                    return False
        return True

    def seem_apart(self, group: Dict[int, Way], at: Dict[int, Place]) -> bool:
        """Whether a group seems to be able to go from where all are."""
        at = dict(at)
        for stage in self.stages_of(group, at):
            if not self.seems_apart(stage, at):
                return False
            at.update(stage.to)
        return True

    def waits_for(self, k: int, left: Iterable[int]) -> bool:
        """Whether a drone's place is over the pad of one that is left, which has to go before."""
        return any(j != k and apart(self.firsts[k], self.pads[j]) < self.wide for j in left)

    def go(self, leg: Leg, left: List[int], ways: Dict[int, List[Way]], kind: str = TAKE_OFF) -> bool:
        """Lets those go together who seem to be able to, each by the first of its ways that seems free, and takes them
        from those who are left; whether anybody went."""
        at, group = leg.places(), dict[int, Way]()
        for k in left:
            if self.waits_for(k, [j for j in left if j not in group]):
                continue
            for way in ways[k]:
                if self.seem_apart({**group, k: way}, at):
                    group[k] = way
                    break
        if group:
            leg.stages += self.stages_of(group, at, kind)
            left[:] = [k for k in left if k not in group]
        return bool(group)

    # ---- the search

    def park(self, leg: Leg, left: List[int], height: int) -> Optional[int]:
        """Parks one of those who are left above its pad: the one for which most others wait. Which, or None."""
        waiting = {k: sum(self.waits_for(j, [k]) for j in left) for k in left}
        at = leg.places()
        for k in sorted(left, key=lambda k: -waiting[k]):
            group = {k: [(*self.pads[k][:2], height)]}
            if self.seem_apart(group, at):
                leg.stages += self.stages_of(group, at)
                left.remove(k)
                return k
        return None

    def layered(self, drones: Sequence[int], layers: int) -> Optional[Leg]:
        """A leg by groups, with so many layers above all places, which isn't judged yet; None where none is found."""
        leg, left, waiting = self.begin(), list(drones), []
        heights = [self.top + self.step * (number + 1) for number in range(layers + 1)]
        if self.rules.ceiling is not None and heights[max(0, layers - 1)] > self.rules.ceiling and layers:
            return None
        can_park = self.rules.ceiling is None or heights[-1] <= self.rules.ceiling
        ways = {k: [self.way(k), *(self.way(k, height) for height in heights[:layers])] for k in drones}
        while left:
            if not self.go(leg, left, ways):
                one = self.park(leg, left, heights[-1]) if can_park else None
                if one is None:
                    return None
                waiting.append(one)
        last = {k: [[(*self.firsts[k][:2], heights[-1]), self.firsts[k]]] for k in waiting}
        while waiting:
            if not self.go(leg, waiting, last, GO_TO):
                return None
        return leg

    def is_good(self, leg: Leg) -> bool:
        """Whether `check` accepts a leg; the refusal is kept."""
        refusal = leg.judge(self.standing)
        self.why = refusal or self.why
        return refusal is None

    def search(self, drones: Sequence[int]) -> Optional[Leg]:
        """A leg that is judged: all at once, or else the shortest of those by groups; None where none is found."""
        leg = self.begin()
        leg.stages = self.stages_of({k: self.way(k) for k in drones}, leg.begin)
        if self.is_good(leg):
            return leg
        why = self.why
        for room in ROOMS:
            self.room, self.wide = room, room * self.rules.side()
            found = filter(None, [self.layered(drones, layers) for layers in range(LAYERS + 1)])
            for leg in sorted(found, key=Leg.milliseconds)[:TRIES]:
                if self.is_good(leg):
                    return leg
        self.why = why
        return None

    def plan(self) -> Leg:
        """The leg, judged; raises NoWay where there is none."""
        drones = self.flyers()
        leg = self.search(drones) if drones else self.begin()
        if leg is None or not drones and not self.is_good(leg):
            raise NoWay(self.words())
        if leg.milliseconds() > LONG:
            leg.hint = self.dealt()
        return leg

    # ---- where there is none

    def words(self) -> str:
        """What keeps drones from going, and what to change."""
        found = REFUSED.match(self.why)
        if not found:
            return self.why or "no way was found"
        i, j = (self.names.index(name) for name in found.groups()[:2])
        out = "%s and %s come too near: pads %.0f mm apart from above, places %.0f" % (
            self.names[i], self.names[j], apart(self.pads[i], self.pads[j]), apart(self.firsts[i], self.firsts[j]))
        if {i, j} & self.fixed:
            return out
        want, cures = 1.1 * self.rules.side(), []
        dealt = self.dealt()
        if dealt:
            cures.append(dealt)
        if apart(self.pads[i], self.pads[j]) < want:
            cures.append("put their pads %.0f mm apart" % want)
        if apart(self.firsts[i], self.firsts[j]) < want:
            cures.append("have their places %.0f mm apart from above, or the lower one's pad aside of the upper place"
                         % want)
        return out + ("; " + ", or ".join(cures) if cures else "; put their pads below their places")

    def dealt(self) -> Optional[str]:
        """How to deal the drones over the pads so that there is a way, in words; None where that helps nothing."""
        drones = [k for k in range(len(self.names)) if k not in self.fixed]
        ways = dealing.dealt([[round(dist(self.pads[pad], self.firsts[k])) ** 2 for pad in drones] for k in drones])
        pads, moved = list(self.pads), {}
        for number, k in enumerate(drones):
            pad = drones[ways[number]]
            pads[k] = self.pads[pad]
            if pad != k:
                moved[k] = pad
        if not moved:
            return None
        other = Planner(self.names, pads, self.firsts, self.yaws, self.rules, self.fixed, self.lift)
        try:
            found = other.search(other.flyers())
        except NoWay:
            found = None
        if found is None:
            return None
        if len(moved) == 2:
            return "exchange %s and %s on their pads" % tuple(self.names[k] for k in moved)
        return "deal the drones over the pads: %s" % ", ".join(
            "%s to that of %s" % (self.names[k], self.names[pad]) for k, pad in moved.items())
