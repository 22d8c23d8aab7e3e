"""What is known of drones in flight, from the places that they say and the orders that they were given. For ./show fly.

Faults are found here. What is done about them is decided by the proved flight director (flying/bridge.py), and from the
first fault on by flying/home.py.
"""
import math
from typing import Callable, Dict, Iterator, List, Optional, Set, Tuple, TypeVar

from hemtoghai.flying import clock, firmware, landings
from hemtoghai.flying.crazyradio import Silence, Trouble
from hemtoghai.flying.crew import say, Watch
from hemtoghai.flying.descent import Descent
from hemtoghai.flying.director import Director
from hemtoghai.flying.fleet import Fleet
from hemtoghai.flying.routes import LIFT
from hemtoghai.flying.stages import LATE, Place, place_of, Stage
from hemtoghai.flying.ways import Ways
from hemtoghai.geometry.curves import curves_of

FAR_FOR = 0.3  # seconds for which a drone has to be far from where it should be, or to send no numbers
SOONER = 50  # milliseconds by which a sample may be younger than its drone's clock says
GAP = 0.3  # seconds without a sample, or three of its samples' time, after which a drone may not hear of a landing
UNHEARD = 0.5  # seconds that the sample of one that didn't answer may be old
ROOM = 200  # by which a drone may be farther outside of the box of show and ways than it may stray
Found = TypeVar("Found")


class Watched(Descent):
    """Drones in flight. `silent` are drones that are silent and, as it is assumed, fly on to where they were told to;
    `failed` those whose fault was said, and `out` those of them that don't fly any more. `armed` are those that were
    seen armed. `aims` has where each was told to go last, `unheard` who didn't answer that and where it was told to be
    before, and `leg`, `begun`, `stage_began` and `stage_ends` the leg that is flown, its stage, when its orders went
    out, and when it has ended. `moves` are what each flies outside of the show, and `took` after how many seconds it
    answered the order to. `looked` has by which sample each was measured last. `zero` is when the show was started, and
    `slack` the seconds after it within which all have."""
    director: Director
    leads = True  # whether it is the director that finds faults: until the first one

    def __init__(self, fleet: Fleet, ways: Ways, watch: Watch) -> None:
        super().__init__(fleet, [floor / 1000 for floor in ways.floors], ways.options.silence, watch)
        self.ways, self.flown, self.options = ways, ways.flown, ways.options
        self.curves, self.flying, self.in_show = list(curves_of(ways.flown).values()), False, False
        self.zero: Optional[float] = None
        self.strays, self.far = [0.0] * len(self.names), [0.0] * len(self.names)
        self.far_since: Dict[int, float] = {}
        self.looked: Dict[int, float] = {}
        self.silence, self.quiet = Silence(len(self.names)), [0.0] * len(self.names)
        self.armed: Set[int] = set()
        self.silent: Set[int] = set()
        self.failed: Set[int] = set()
        self.out: Set[int] = set()
        self.leg, self.begun, self.stage_ends, self.slack = ways.up, 0, 0.0, 0.0
        self.stage_began: Optional[float] = None
        self.aims: Dict[int, Place] = dict(ways.pads)
        self.unheard: Dict[int, Place] = {}
        self.moves: Dict[int, Tuple[landings.Mover, float]] = {
            k: (landings.Mover(0, (pad, pad, 1)), clock.now()) for k, pad in ways.pads.items()}
        self.took: Dict[int, float] = {}

    # ---- where drones are, in mm, and when

    def at(self, k: int) -> List[float]:
        """Where a drone says that it is."""
        return [1000 * v for v in self.fleet.states[k].where()]

    def speed(self, k: int, axes: int = 3) -> float:
        return 1000 * self.fleet.states[k].speed(axes)

    def since(self, begin: Optional[float]) -> float:
        """The milliseconds since an instant; 0 where it didn't come."""
        return 0.0 if begin is None else 1000 * (clock.now() - begin)

    def ends(self) -> float:
        return (self.zero or 0.0) + self.flown.milliseconds / 1000 + 0.5

    def far_from(self, places: Dict[int, Place], limit: float) -> List[str]:
        """The names of drones that are farther than this from their places."""
        return [self.names[k] for k, place in places.items() if math.dist(place_of(self.at(k)), place) > limit]

    def places_here(self) -> Dict[int, Place]:
        """Where drones are: on their pads, where they say that they are, or, if they say nothing, or what can't be,
        were told to go."""
        out, misled = {}, self.misled()
        for k, pad in self.ways.pads.items():
            place = self.aims[k] if not self.is_fresh(k) or k in misled else place_of(self.at(k))
            out[k] = pad if self.is_down(k) and math.dist(place, pad) < LIFT else place
        return out

    def away(self) -> Set[int]:
        """Who is outside of the room of show and ways, or believes so: nobody waits for it."""
        wide = ROOM + max(self.options.stray, self.ways.rules.stray)
        return {k for k in self.all if self.flying and k not in self.landed and self.fleet.states[k].place and not all(
            low - wide <= v <= high + wide for v, (low, high) in zip(self.at(k), self.ways.box))}

    def misled(self) -> Set[int]:
        """Who believes to be outside of the room, and can't have flown there: it may be where it was."""
        return {k for k in self.away() if self.fleet.states[k].has_leapt}

    def near(self, at: Dict[int, Place]) -> Dict[int, Place]:
        """The places of those who didn't fly out of the room: they alone are judged."""
        gone = self.away() - self.misled()
        return {k: place for k, place in at.items() if k not in gone}

    def hold(self, at: Dict[int, Place]) -> Set[int]:
        """Who isn't led any more: on its pad, landed, silent, away, or not flying."""
        return {k for k in self.all if k not in at or at[k] == self.ways.pads[k] or not self.is_fresh(k)
                } | self.misled() | self.out | self.landed

    def deaf(self) -> Set[int]:
        """Who may not hear of a landing: nothing came from it for a moment. It may land as it is told to, or fly on."""
        gap = max(GAP, 3 * self.options.every / 1000)
        quiet = {k for k, quiet in enumerate(self.quiet) if quiet > gap}
        return (quiet | self.silent | self.misled()) - self.out - self.landed

    def mute(self) -> Set[int]:
        """Who isn't heard, and isn't known to be on its pad: it may land where it is told to, or stay where it is."""
        deaf = self.deaf()
        return {k for k, place in self.near(self.places_here()).items() if (k in deaf or not self.is_fresh(k))
                and k not in self.out and place != self.ways.pads[k]}

    def lost(self) -> List[int]:
        """Who may not have heard where to go and doesn't say now where it is: it is there, or where it was before."""
        times = {k: self.fleet.states[k].measured for k, place in self.unheard.items() if place != self.aims[k]}
        return [k for k, at in times.items() if at is None or clock.now() - at > UNHEARD]

    def off(self) -> Dict[int, landings.Reach]:
        """The drones that aren't on their curves, as far as they are heard, and what they may reach by their own places
        and speeds, told of a landing by packets of their own."""
        limit, out, away = self.ways.rules.show_stray or self.options.stray, {}, self.away()
        for k in self.all:
            if k not in self.silent | away and (k in self.out or self.far[k] > limit):
                out[k] = place_of(self.at(k)), landings.carried(self.speed(k), LATE / 1000)
        return out

    # ---- faults

    def wrong_with(self, k: int) -> Optional[str]:
        """What is wrong with a drone by its last sample: words, or None."""
        name, state = self.names[k], self.fleet.states[k]
        if k in self.landed:
            return None
        if state.is_new and self.flying:
            return f"{name} started anew in flight"
        if state.says(firmware.WRECKED):
            return "%s has tumbled" % name
        if self.is_out(k):
            return "%s is no longer armed" % name
        if state.senseless is not None and clock.now() - state.senseless > FAR_FOR:
            return "%s sends a place that is no number" % name
        if self.flying and state.unsure is not None and clock.now() - state.unsure > FAR_FOR:
            return f"{name} isn't sure of its place any more: variance {state.variance:.3g} m^2"
        if state.is_empty(self.options.sag):
            return "%s has %.2f V left" % (name, state.volts or 0.0)
        if clock.now() - self.far_since.get(k, math.inf) > FAR_FOR and not self.is_led():
            return self.far_words(k)
        return None

    def far_words(self, k: int) -> str:
        return "%s is %.0f mm from its %s" % (self.names[k], self.far[k], "curve" if self.in_show else "way")

    def is_led(self) -> bool:
        """Whether the flight director watches drones on the ways, and says itself who left them."""
        return self.leads and not self.in_show

    def is_out(self, k: int) -> bool:
        """Whether a drone says that it doesn't fly any more."""
        state = self.fleet.states[k]
        return (state.says(firmware.WRECKED) or k in self.armed and state.denies(firmware.IS_ARMED)
                or state.is_new and self.flying)

    def faults(self) -> List[str]:
        """What is wrong with drones that are heard, and wasn't said before; that one is out is said once more."""
        found = {k: self.wrong_with(k) for k in self.all if k not in self.silent | self.out}
        return [words for k, words in found.items() if words and self.is_news(k)]

    def is_news(self, k: int) -> bool:
        """Notes that a drone has a fault; whether that wasn't said before."""
        is_new, is_out = k not in self.failed, self.is_out(k)
        self.failed.add(k)
        self.out |= {k} if is_out else set()
        return is_new or is_out

    def listen(self) -> Iterator[str]:
        """Looks who is silent, says so, and yields it where that is a fault: on the ways, and where it is asked for."""
        self.quiet = self.silence.look([state.heard for state in self.fleet.states])
        self.fleet.revive()
        for k, quiet in enumerate(self.quiet):
            if quiet > self.options.silence and k not in self.silent | self.landed:
                self.silent.add(k)
                if not self.in_show or self.options.on_silence == "land":
                    yield "%s is silent for %.1f s" % (self.names[k], quiet)
                    continue
                say("%s is silent for %.1f s: it flies its curve on, as is assumed, and all fly on" % (
                    self.names[k], quiet))
                if len(self.silent) == len(self.names):
                    say("NO DRONE IS HEARD: is the radio gone? Nothing from here reaches them; there is the other way")
            elif quiet < self.options.silence / 2 and k in self.silent:
                self.silent.discard(k)
                say("%s is heard again" % self.names[k])

    def begin_moves(self, at: Dict[int, Place], stage: Stage) -> None:
        """The orders of a stage go out now, to drones that are at places: what each of them flies from here on."""
        now = clock.now()
        self.moves.update((k, (landings.Mover(0, (at[k], to, stage.milliseconds)), now)) for k, to in stage.to.items())
        self.took = {}

    def far_on_way(self, k: int, measured: float) -> float:
        """How far a drone was from what it flies, in mm, when its last sample was measured. It may have begun at any
        instant from when its order went out to when it was answered, or hasn't yet."""
        mover, began = self.moves[k]
        t = 1000 * (measured - began)
        late = max(float(self.ways.rules.late), 1000 * self.took.get(k, math.inf if k in self.unheard else 0.0))
        return mover.distance(self.at(k), t - late - SOONER, t + SOONER)

    def measure(self) -> None:
        """Looks by each new sample how far drones are from their curves, or from what they fly on the ways."""
        late, now, promised = self.options.late, clock.now(), self.ways.rules.show_stray
        limit = self.options.stray if self.in_show else max(self.options.stray, self.ways.rules.stray)
        for k, (state, curve) in enumerate(zip(self.fleet.states, self.curves)):
            if k in self.silent or state.heard is None or state.measured is None or (
                    now - state.heard > 1 or state.heard == self.looked.get(k)):
                continue
            self.looked[k] = state.heard
            if self.in_show:
                t, enough = 1000 * (state.measured - (self.zero or 0.0)), min(self.options.stray, promised) / 4
                self.far[k] = curve.nearest(self.at(k), t - late - 50 - 1000 * self.slack, t + late, enough)[0]
                self.strays[k] = max(self.strays[k], self.far[k])
            else:
                self.far[k] = self.far_on_way(k, state.measured)
            if self.far[k] <= limit:
                self.far_since.pop(k, None)
            else:
                self.far_since.setdefault(k, now)

    def noted(self) -> List[str]:
        """Looks at all drones, and what is pressed; the faults that are new, and aren't for the director to find."""
        self.watch.look()
        if self.flying:
            self.measure()
        return [*self.listen(), *([] if self.leads else self.faults())]

    # ---- waits in which the crew is heard

    def guard(self) -> None:
        """Raises what is pressed, or the faults of drones that are new."""
        self.raise_all(self.noted())

    def raise_all(self, faults: List[str]) -> None:
        if faults:
            raise Trouble("; ".join(faults))

    def pause(self, until: float, look: Callable[[], None] = lambda: None) -> None:
        """Waits until an instant; a second Ctrl-C ends it, and what a look raises."""
        while clock.now() < until:
            self.attend()
            look()
            clock.wait(min(0.05, max(0.0, until - clock.now())))

    def meanwhile(self, work: Callable[[], Found], seconds: float = math.inf, *late: Found) -> Found:
        """What a function gives that asks `check`, while the crew is heard. Where it takes longer than these
        seconds it goes on, nobody waits for it, and `late` is given."""
        out: List[Found] = []
        failed: List[Exception] = []

        def run() -> None:
            try:
                out.append(work())
            except Exception as error:
                failed.append(error)
        task, until = clock.Task(run), clock.now() + seconds
        while task.is_alive() and clock.now() < until:
            task.join(0.02)
            self.attend()
        if failed:
            raise failed[0]
        return [*out, *late][0]
