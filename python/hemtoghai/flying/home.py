"""What is done from the first fault of a flight on, or from Ctrl-C: all are brought home. For ./show fly.

Landings straight down are judged by `check`, for each instant of the show and of the ways, before anybody takes off.
Where a fault comes at an instant at which such a landing isn't shown apart, all fly on: in the show until it is, on the
ways to the end of the stage that is flown, and then home by a way that is judged. The flight director is told no more
of what happens from the first fault on, so that it gives no orders any more: but for its landing, where that was judged
(flying/bridge.py).
"""
import math
from itertools import combinations
from typing import Callable, Dict, Iterable, Iterator, List, Optional, Set, Tuple

from hemtoghai.companion import many
from hemtoghai.flying import clock, firmware, landings
from hemtoghai.flying.crazyradio import Trouble
from hemtoghai.flying.crew import Interrupted, say
from hemtoghai.flying.descent import LANDING
from hemtoghai.flying.director import Ended, LAND as TO_LAND, Noted, Order, signal, SINK, To, UNCOVERED
from hemtoghai.flying.stages import (apart, GO_TO, judge_stages, LAND, LATE, Leg, milliseconds_for, MOST, PEAK,
                                     Place, place_of, Rules, SAME_FLOOR, Stage)
from hemtoghai.flying.watched import Watched

LEAD = 100  # milliseconds until a landing that is decided is begun
MOST_PAIRS = 10  # that are named where all land
WAYS = 3  # home that are begun, where drones don't answer on them
HEARD_AGAIN = 5.0  # seconds for which one that didn't answer is waited for, before what is left is judged
ANSWERS = 0.4  # seconds in which `check` has to answer where drones fly on meanwhile
OLD = 0.2  # seconds that a sample may be old by which a landing is judged
ORDERED = 0.2  # seconds in which the director has to order a landing
SLOWER = 2.0  # seconds that its landing may take longer than all need
NO_ANSWER: Optional[str] = "`check` didn't answer in time"


class Apart(Exception):
    """All may land at once: the way home isn't flown on."""


class Home(Watched):
    """Brings all home. `doubt` is why a landing that begins now isn't shown apart, `landed_at` the show's time when the
    last one began, `is_said` whether the fault was said, `is_said_homeward` whether it was said that one that isn't heard
    may come home, `told_away` who was said to be outside of the room, `lands_away` who of them was told to land there,
    and `takes` the milliseconds that `check` takes."""
    doubt: Optional[str] = None
    landed_at = 0.0
    told_away: Set[int] = set()
    lands_away: Set[int] = set()
    is_said = is_said_homeward = False
    takes = 200.0

    # ---- the flight director, which isn't told any more of what happens

    def is_landing(self, order: Order) -> bool:
        """Whether an order is of the director's landing of all, and not of its way down."""
        return order.kind == SINK and order.milliseconds == self.ways.descent

    def landing_ordered(self) -> Optional[float]:
        """Has the director order the landing of all, where that is what was judged: from where all are, at once, to one
        height. Its seconds, or None where the director isn't asked, or doesn't answer. It has one time for every
        height, and isn't asked where that is much longer than it takes."""
        floors, seconds = self.ways.floors, self.ways.descent / 1000
        is_landing = self.begun and self.leg.stages[self.begun - 1].kind == LAND
        if (not self.director.is_well or is_landing or max(floors) - min(floors) > SAME_FLOOR
                or len(self.up(self.all)) < len(self.all) or self.deaf() or self.out
                or seconds > self.seconds_down(self.all) + SLOWER):
            return None
        left, until = set(self.all), clock.now() + ORDERED
        self.director.hear(signal(TO_LAND))
        while left:
            said = self.director.wait(max(0.0, until - clock.now()))
            if said is None or isinstance(said, Ended) or isinstance(said, Noted) and said.fault == UNCOVERED:
                say("the flight director doesn't order the landing: it begins without it")
                return None
            if isinstance(said, To) and said.drone is not None and self.is_landing(said.order):
                left.discard(said.drone)
        return seconds

    # ---- in the show

    def refusal(self) -> Optional[str]:
        """Why not all may land now in the show, or None; after a wait for the instant looked at where that wasn't
        judged before. Who wasn't heard for a moment may hear of it, or fly on."""
        t, off, deaf, gone = self.since(self.zero), self.off(), self.deaf(), self.away() - self.misled()
        if not off:
            why = self.ways.landings.now_deaf(t, deaf) or self.ways.landings.now_deaf(t + LEAD, deaf)
            if why != landings.NOT_LOOKED:
                return why
        at, it = t + self.takes + LEAD, self.ways.landings.where(off, self.told_now(), gone)
        why = self.meanwhile(lambda: it.beside_silent(at, deaf - gone))
        self.takes = max(1.2 * (self.since(self.zero) - t), 0.8 * self.takes)
        left = at - LEAD / 2 - self.since(self.zero)
        if why is None and left < -LEAD / 2:
            return "it took too long to look"
        if why is None:
            self.pause(clock.now() + left / 1000)
            if self.deaf() - deaf:
                return f"{self.words_of(self.deaf() - deaf)} may not hear of it"
        return why

    def fly_on(self, fault: BaseException) -> bool:
        """After a fault in the show: flies on until all may land, or to the end; whether it went on to the end."""
        while clock.now() < self.ends():
            why = self.refusal()
            if why is None:
                return False
            if not self.is_said:
                free = self.ways.landings.next(self.since(self.zero))
                say("FAULT: %s; flying on%s: a landing of all now isn't shown apart (%s)" % (
                    fault, "" if free is None or self.deaf() or self.off() else " to %.1f s" % (free / 1000),
                    landings.short(why)))
                self.is_said = True
            self.say_more()
            clock.wait(0.1)
        return True

    # ---- on the ways: a landing

    def refusal_ready(self) -> Optional[str]:
        """Why not all may land from the stage that is flown, by what was judged before take-off, or None. Where a drone
        isn't where the stage has it nothing was judged. After a start that not all took each is somewhere on its curve
        up to this instant."""
        row, t, far = self.ways.landings_at(self.leg, self.begun), self.since(self.zero), self.ways.rules.stray
        deaf, away = self.deaf(), self.away()
        has_started = self.zero is not None and self.leg is self.ways.up
        for k, (curve, state) in enumerate(zip(self.curves, self.fleet.states)):
            if k in away:  # it is gone, or where it was, and deaf then
                continue
            if k in self.out or not self.is_fresh(k) or has_started and k in deaf:
                return NO_ANSWER
            if has_started:
                is_there = curve.nearest(self.at(k), 0, t + 50, far)[0] <= far
            else:
                began = 0.0 if self.stage_began is None or state.measured is None else 1000 * (
                    state.measured - self.stage_began)
                is_there = row is not None and k not in self.unheard and row.has(k, began, self.at(k))
            if not is_there:
                return NO_ANSWER
        if has_started:
            return self.ways.after_start(t)
        return row.now_deaf(self.since(self.stage_began), deaf) if row else NO_ANSWER

    def column(self, k: int, here: Dict[int, Place]) -> landings.Column:
        """What a drone may be above of that is told to land now on the ways: where it is, and how far it is carried on
        aside by its own speed or by the greatest of its move; one that may not have heard an order, or of a landing,
        may be all along its way."""
        mover, _ = self.moves[k]
        if not self.is_fresh(k) or k in self.unheard or k in self.deaf():
            return landings.Column(self.unheard.get(k, here[k]), self.aims[k])
        speed = self.speed(k, 2)
        if self.stage_ends > clock.now():
            speed = max(speed, 1000 * PEAK * apart(mover.first, mover.last) / mover.milliseconds)
        return landings.Column(here[k], here[k], landings.carried(speed, LATE / 1000 + OLD))

    def refusal_aside(self) -> Optional[str]:
        """Why landings from the ways aren't apart for the reason alone that nobody is above or below another, whatever
        each does in its column, or None. It asks nobody."""
        if self.zero is not None and self.leg is self.ways.up:
            return NO_ANSWER  # some may fly their curves
        here = self.places_here()
        columns = {k: self.column(k, here) for k in self.all}
        for i, j in combinations(self.near(here), 2):
            if (here[i] != self.ways.pads[i] or here[j] != self.ways.pads[j]) and columns[i].apart(
                    columns[j]) <= self.ways.rules.side():
                return f"{self.names[i]} and {self.names[j]}"
        return None

    def refusal_now(self) -> Optional[str]:
        """Why not all may land now on the ways, or None: by what was judged beforehand, by columns that are apart, or
        else by `check`, which hasn't long."""
        why = self.refusal_ready()
        is_apart = why is None or self.refusal_aside() is None
        return None if is_apart else self.meanwhile(self.refusal_here, ANSWERS, why)

    def refusal_here(self) -> Optional[str]:
        """Why not all may land straight down from where they are on the ways, or None: with how far they are carried
        on by the speed of their last two samples, and how far they fly until all are told. Who isn't heard stays where
        it is, or is told to land as all are: in each pair both land, or one of them alone."""
        at, is_flown = self.near(self.places_here()), clock.now() < self.stage_ends
        lost = [k for k in self.lost() if k in at]
        if lost and is_flown:
            return "%s may not have heard where to go" % self.words_of(lost)
        for places in (self.aims, self.unheard) if lost else (at,):
            here = {**at, **{k: places[k] for k in lost}}
            land = set(self.all) - self.hold(here)
            moving = [k for k in self.deaf() if k in here and here[k] != self.ways.pads[k]] if is_flown else []
            if moving:
                return "%s silent on the way" % self.words_of(moving)
            mute = {k for k in self.mute() if here[k] != self.ways.pads[k]}
            for drones in [land | mute, *((land | mute) - {k} for k in mute)]:
                why = self.refusal_of(here, drones, is_flown)
                if why:
                    return why
        return None

    def refusal_of(self, at: Dict[int, Place], drones: Set[int], is_flown: bool) -> Optional[str]:
        """The same, where some land from places and all others stay, and a stage may still be flown."""
        to = {k: (*at[k][:2], self.ways.pads[k][2]) for k in drones}
        flown = self.leg.stages[self.begun - 1] if self.begun and is_flown else None
        if flown and flown.kind == LAND and not set(to) <= set(flown.to):
            return "%s on the way down" % self.words_of(flown.to)  # a landing isn't broken off by another
        if not to or flown and flown.kind == LAND:
            return None
        return self.refusal_of_stage(LAND, at, to, [at[k][2] - place[2] for k, place in to.items()])

    def refusal_of_stage(self, kind: str, at: Dict[int, Place], to: Dict[int, Place],
                         ways: List[float]) -> Optional[str]:
        """Why some may not go so far to places from where they fly now, or None."""
        more = landings.carried(max(map(self.speed, to), default=0.0), LATE / 1000 + OLD + ANSWERS)
        if self.ways.rules.stray + more > MOST:
            return landings.TOO_FAR
        leg = Leg(self.names, at, self.ways.yaws, Rules(self.flown.show.settings, self.ways.rules.aim + more))
        return judge_stages(leg, [Stage(kind, milliseconds_for(kind, ways), to)], self.ways.pads, at)

    # ---- on the ways: home by a way that is judged

    def come_home(self, front: str) -> Optional[str]:
        """At a fault on the ways, or a Ctrl-C there: where a landing of all from here isn't shown apart, the stage that is
        flown goes to its end, and all come down from there by a way that is judged: the way that they came, the rest of
        the way down, or a new one. At Ctrl-C those land before, at once, who can. What is left to do is a landing of
        who isn't down: why that isn't shown apart, or None."""
        is_pressed = self.watch.was_pressed
        while True:
            self.watch.lands = is_pressed  # from then on a first Ctrl-C changes nothing any more
            try:
                return self.home(front, is_pressed)
            except Apart:
                return None
            except Interrupted:
                front, is_pressed = "Ctrl-C, once more stops the motors", True

    def land_able(self, front: str, why: str) -> None:
        """Lands those at once who can, as the crew wants it."""
        able = self.able()
        say(f"{front}; a landing of all now isn't shown apart ({landings.short(why)}); "
            f"landing now: {self.words_of(able) or 'nobody'}")
        if able:
            self.bring_down(sorted(able))

    def land_away(self) -> None:
        """Says who is outside of the room, and lands those there who flew out and are clear of all others."""
        away, misled = self.away() - self.told_away, self.misled()
        if not away:
            return
        self.told_away = self.told_away | away
        (left, right), (front, back), _ = self.ways.box
        wide = self.ways.rules.side() + 2 * self.ways.rules.stray
        clear = [k for k in away - misled for x, y, _ in [self.at(k)]
                 if not (left - wide < x < right + wide and front - wide < y < back + wide)]
        say(f"{self.words_of(away)} outside of the room of show and ways: nobody waits for it" + "".join(
            f"; {words} {self.words_of(them)}" for words, them in (
                ("landing there:", clear), ("it may be where it was:", misled & away),
                ("NOT JUDGED beside", away - misled - set(clear))) if them))
        if clear:
            self.lands_away = self.lands_away | set(clear)
            self.fleet.land(self.floors, clear, 0.0, self.watch.look, {k: self.seconds_down([k]) for k in clear})

    def able(self) -> Set[int]:
        """Who may land at once whatever the others do: nobody else who lands, or goes on, comes above or below it. Who
        was told to land away from the others does so already."""
        here = self.places_here()
        columns = {k: self.column(k, here) for k in here}
        tracks = {k: landings.Column(here[k], self.aims[k], columns[k].reach) for k in here}
        able = set(here) - self.hold(here) - self.deaf() - self.lands_away
        while True:
            near = {k: sum(columns[k].apart(columns[j] if j in able else tracks[j]) <= self.ways.rules.side()
                           for j in here if j != k) for k in able}
            worst = max(near, key=lambda k: near[k], default=None)
            if worst is None or not near[worst]:
                return able
            able.discard(worst)

    def home(self, front: str, is_pressed: bool) -> Optional[str]:
        """The same, as far as the crew says nothing more; raises Apart where all may land."""
        self.fleet.radio.drop()
        why = self.refusal_now()
        if why is None:
            return None
        self.land_away()
        self.director.close_input()  # what follows is none of its flight
        self.is_said = True
        if is_pressed:
            self.land_able(front, why)
        gone_back = self.zero is not None and self.leg is self.ways.up
        if gone_back:
            self.break_off(front, why)
        elif self.stage_ends > clock.now():
            say("%s; a landing of all now isn't shown apart (%s): the stage that is flown goes to its end first" % (
                front, landings.short(why)))
            if self.far_since:  # somebody isn't where it should be
                self.pause(self.stage_ends - LEAD / 1000, self.look_apart)
        self.pause(self.stage_ends)
        self.wait_heard()
        why = NO_ANSWER if gone_back else self.refusal_ready()
        if why == NO_ANSWER:  # else what was judged beforehand is as good where all are at rest; `check` may be slow
            why = self.meanwhile(self.refusal_here)
        return self.go_home(front, why) if why else None

    def look_apart(self) -> None:
        """Ends the way home where all may land by now."""
        if self.refusal_now() is None:
            raise Apart

    def go_home(self, front: str, why: str) -> Optional[str]:
        """Flies a judged way home from where all are at rest, and may not land for a reason; why not all may land in
        its end, or None. Who doesn't answer on it may be where it was: what is left is judged anew."""
        planned = self.places_planned()
        leg, words = self.meanwhile(lambda: self.way_home(planned))
        for _ in range(WAYS):
            if leg is None:
                break
            say("%s; a landing of all isn't shown apart (%s): all come down %s" % (front, landings.short(why), words))
            if not any(self.home_stage(stage, self.look_more) for stage in leg.stages):
                return self.meanwhile(self.refusal_here) if self.up(self.all) else None
            self.wait_heard()
            refusal = self.meanwhile(self.refusal_here)
            if refusal is None:
                return None
            why, words, here = refusal, "by a new way", self.near(self.places_here())
            leg = None if self.lost() else self.meanwhile(lambda: self.ways.new_judged(here, self.hold(here)))
        say("NEITHER A LANDING NOR A WAY DOWN is shown apart: %s" % landings.short(why))
        return why

    def look_more(self) -> None:
        """Says what is wrong besides on the way home, which may end it."""
        if self.say_more():
            self.look_apart()

    def say_more(self) -> List[str]:
        """Says what is wrong besides."""
        more = self.noted()
        for words in more:
            say(f"FAULT besides: {words}")
        return more

    def wait_heard(self) -> None:
        """Waits until all say again where they are, but not for long: where it is, is known of nobody else."""
        until = clock.now() + HEARD_AGAIN
        while (self.lost() or self.mute() - self.misled()) and clock.now() < until:
            self.pause(clock.now() + 0.1)

    def places_planned(self) -> Dict[int, Place]:
        """Where drones are, those who are where their leg has them after its stage by the leg's own places: from there
        the ways back were judged beforehand."""
        at, planned = self.near(self.places_here()), self.leg.places(self.begun)
        return {k: planned[k] if k in planned and math.dist(place, planned[k]) <= self.ways.rules.stray else place
                for k, place in at.items()}  # a way beside a wreck has no place of it

    def break_off(self, front: str, why: str) -> None:
        """After a start that not all took: has all go back to their first places, from which the rest is judged."""
        at = self.near(self.places_here())
        to = {k: place for k, place in enumerate(self.ways.firsts) if k in at and at[k] != self.ways.pads[k]}
        ways = [math.dist(at[k], place) for k, place in to.items()]
        mute = [k for k in to if not self.is_fresh(k)]
        doubt = "%s silent, and may fly the show" % self.words_of(mute) if mute else self.meanwhile(
            lambda: self.refusal_of_stage(GO_TO, at, to, ways), ANSWERS, NO_ANSWER)
        say("%s; a landing of all now isn't shown apart (%s): all go back to their first places%s" % (
            front, landings.short(why), ", which is NOT JUDGED: %s" % landings.short(doubt) if doubt else ""))
        self.home_stage(Stage(GO_TO, milliseconds_for(GO_TO, ways), to))

    def way_home(self, at: Dict[int, Place]) -> Tuple[Optional[Leg], str]:
        """A judged way down from places on the ways, and words for it; None where there is none."""
        if self.lost():
            return None, ""  # each is in one of two places
        hold, is_up = self.hold(at), self.leg is self.ways.up
        back = Leg(self.names, self.leg.begin, self.ways.yaws, self.ways.rules)
        back.stages = self.leg.stages[:self.begun]
        again = 1 if self.unheard and self.begun else 0  # the stage that not all heard of is flown once more
        way, count = (back.reversed(), 0) if is_up else (self.leg, self.begun - again)
        rest = self.ways.rest_judged(way, count, at, hold)
        if rest:
            return rest, "the way that they came" if is_up else "by the rest of the way down"
        return self.new_way(way, count, at, hold), "by a new way"

    def new_way(self, leg: Leg, count: int, at: Dict[int, Place], hold: Set[int]) -> Optional[Leg]:
        """A new way down from places; where one lies on a pad, to pads that are dealt anew; else the rest of a leg,
        judged without the drones that don't fly any more: better than to come down on one that lies below. None where
        none of them is accepted."""
        wrecks, new = self.out - self.silent, self.ways.new_judged(at, hold)
        if new or not wrecks:
            return new
        pads = self.ways.dealt_anew(at, hold, wrecks)
        new = self.ways.new_judged(at, hold, pads) if pads and pads != self.ways.pads else None
        if new and pads:
            self.deal(pads)
            return new
        rest = self.ways.rest_judged(leg, count, {k: at[k] for k in at if k not in wrecks}, hold)
        if rest:
            say("NOT JUDGED beside %s: nothing leads clear of where it lies" % self.words_of(wrecks))
        return rest

    def deal(self, pads: Dict[int, Place]) -> None:
        """Who flies goes to another pad from here on."""
        for k, pad in pads.items():
            if pad != self.ways.pads[k]:
                old = next(j for j in self.all if self.ways.pads[j] == pad)
                say(f"PADS ARE DEALT ANEW: {self.names[k]} goes to that of {self.names[old]}")
        self.ways.deal(pads)
        self.floors = [floor / 1000 for floor in self.ways.floors]

    def home_stage(self, stage: Stage, look: Callable[[], None] = lambda: None) -> List[str]:
        """A stage of the way home: it is flown whatever is wrong, but for what a look raises, and a second Ctrl-C stops
        all motors. Who didn't answer, or isn't down, in words."""
        seconds = stage.milliseconds / 1000
        self.say_homeward(seconds)
        before = {k: self.aims[k] for k in stage.to}
        self.begin_moves(self.places_here(), stage)
        self.aims.update(stage.to)
        if stage.kind == LAND:
            up = self.bring_down(list(stage.to), seconds, self.ways.rules.late / 1000)
            self.unheard = {k: before[k] for k in up}
            return ["%s isn't down" % self.names[k] for k in up]
        self.unheard = before

        def go(drone: int) -> None:
            x, y, z = (v / 1000 for v in stage.to[drone])
            yaw = math.radians(self.ways.yaws[drone] / 10)
            self.fleet.command(drone, firmware.go_to(x, y, z, yaw, seconds), "go back")
            self.unheard.pop(drone, None)
            self.took[drone] = clock.now() - self.moves[drone][1]
        mute = [str(why) for why in self.fleet.radio.failures(list(stage.to), go, self.watch.look).values()]
        self.say_late(1000 * max(self.took.values(), default=0.0) if len(stage.to) > 1 else 0.0)
        for words in mute:
            say(words)
        self.pause(clock.now() + seconds + 1, look)
        return mute

    def goes_home(self, drones: Iterable[int]) -> Set[int]:
        """Who of these drones isn't heard, and comes home by itself after a while where it flies."""
        return self.silent.intersection(drones) if self.zero is not None and self.ways.no_home is None else set()

    def say_homeward(self, seconds: float) -> None:
        """Says who may come home by itself before a stage is over: what others fly isn't judged beside that."""
        going = self.goes_home(self.all)
        if going and clock.now() + seconds > self.ends() + self.ways.pause / 1000 - 0.5 and not self.is_said_homeward:
            self.is_said_homeward = True
            say(f"NOT JUDGED beside drones that may come home by themselves by then: {self.words_of(going)}")

    def stay(self, up: List[int]) -> List[int]:
        going = self.goes_home(up)
        if going:
            say(f"keep clear of the pads of drones that come home by themselves, if they fly, from {self.ways.pause / 1000:g} "
                f"s after the show's end on: {self.words_of(going)}")
        return super().stay(up)

    def say_late(self, late: float) -> bool:
        """Says it where a stage's commands were answered later than was judged, in milliseconds; whether they were."""
        is_late = late > self.ways.rules.late
        if is_late:
            say(f"OUTSIDE OF WHAT WAS JUDGED: commands within {late:.0f} ms, and {self.ways.rules.late} were judged")
        return is_late

    # ---- down from the end of the show, where some can't come

    def leave_show(self) -> None:
        """The show is over: what is flown from here on is the way down."""
        self.in_show, self.leg, self.begun, self.stage_began, self.stage_ends = (
            False, self.ways.down, 0, None, clock.now())
        self.begin_moves(dict(enumerate(self.ways.lasts)), Stage(GO_TO, 1, dict(enumerate(self.ways.lasts))))

    def come_down(self) -> None:
        """Flies the way down, which the director isn't led by any more; where some are silent, and hover at the end of
        their curves as is assumed, or don't fly any more, one that keeps clear of them. Raises what is new on it."""
        self.director.close_input()
        hold = self.silent | self.out | self.away()
        self.leg = self.way_beside(hold) if hold else self.ways.down
        for number, whole in enumerate(self.leg.stages, 1):
            stage = whole.without(self.out | self.silent | self.away())
            self.begun, self.stage_began = number, clock.now()
            self.stage_ends = self.stage_began + stage.milliseconds / 1000 + 1
            if not stage.to:
                continue
            self.say_stage(stage)
            wrong = [*self.home_stage(stage, self.guard), *self.noted()]
            far = [] if stage.kind == LAND else self.far_from(stage.to, self.options.at_start)
            if wrong or far:
                raise Trouble("; ".join([*wrong, *("%s isn't at the next place" % name for name in far)]))

    def say_stage(self, stage: Stage) -> None:
        if stage.kind != GO_TO:
            say("%s, %s: %s, %.1f s" % ("landing" if stage.kind == LAND else "taking off", many(len(stage.to), "drone"),
                                        " ".join(self.names[k] for k in stage.to), stage.milliseconds / 1000))

    def way_beside(self, hold: Set[int]) -> Leg:
        """A judged way down from the last places that keeps clear of some; raises Trouble where there is none."""
        say("silent, and hovering at the end of its curve, as is assumed: %s" % self.words_of(self.silent)
            if self.silent else "doesn't fly any more, or is away: %s" % self.words_of(hold))
        at = dict(enumerate(self.ways.lasts))
        at.update((k, place_of(self.at(k))) for k in self.out - self.silent)
        at = self.near(at)
        leg = self.meanwhile(lambda: self.new_way(self.ways.down, 0, at, hold))
        if leg is None:
            raise Trouble("NO WAY DOWN is judged apart from %s" % self.words_of(hold))
        for line in leg.lines():
            say(line)
        return leg

    # ---- landing

    def doubt_now(self) -> Optional[str]:
        """Why a landing that begins now in the show isn't shown apart, by what was judged before, or None."""
        t, over = self.since(self.zero), self.flown.milliseconds
        if t < over and self.off():
            return "not looked at with %s off the curve" % self.words_of(self.off())
        return self.doubt_deaf(t, self.deaf())

    def doubt_deaf(self, t: float, deaf: Set[int]) -> Optional[str]:
        """Why a landing in the show isn't shown apart where some may fly on, by what was judged before."""
        why = self.ways.landings.now_deaf(min(t, self.flown.milliseconds), deaf)
        return f"{why} with {self.words_of(deaf)} flying on" if deaf and why == landings.NOT_LOOKED else why

    def note_quiet(self, quiet: List[int]) -> None:
        """Says where a landing of the show isn't shown apart from those who didn't answer it, and may fly on."""
        why = self.doubt_deaf(self.landed_at, set(quiet)) if self.in_show and self.doubt is None else None
        if why:
            say(f"THIS LANDING ISN'T SHOWN APART from {self.words_of(quiet)}, silent: {landings.short(why)}")

    def warn(self) -> None:
        """Says where the landing that begins now isn't shown apart, and names pairs that may come down on each other.
        Nobody is asked: the landing waits for nothing."""
        self.landed_at = self.since(self.zero)
        if self.doubt is None:
            return
        say("THIS LANDING ISN'T SHOWN APART: %s" % landings.short(self.doubt))
        for pair in list(self.near_pairs(self.since(self.zero)))[:MOST_PAIRS]:
            say("MAY COME DOWN ON EACH OTHER: %s and %s" % pair)

    def told_now(self) -> int:
        """The milliseconds within which all hear of a landing: a broadcast goes out where none is down."""
        return self.ways.landings.told if self.in_show and len(self.up(self.all)) == len(self.all) else LATE

    def near_pairs(self, t: float) -> Iterator[Tuple[str, str]]:
        """The pairs that are nearer from above than their ellipsoids, with how far they may be carried on."""
        columns, deaf = [landings.Column(self.at(k), self.at(k)) for k in self.all], self.deaf()
        for k in self.all if self.in_show else ():
            place = self.curves[k].at(t) if k in deaf else self.at(k)
            speed = math.hypot(*self.ways.landings.speed(k, min(t, self.flown.milliseconds)))
            columns[k] = landings.Column(place, place, landings.carried(speed))
        for j, i in combinations(self.all, 2):
            if columns[i].apart(columns[j]) <= 2 * self.ways.rules.radius and not {i, j} <= self.landed:
                yield self.names[j], self.names[i]

    def words_after(self, why: BaseException) -> str:
        """Does what a fault or a Ctrl-C wants; the words for the landing that follows."""
        self.leads = False
        if isinstance(why, Interrupted):
            words, front = "Ctrl-C: landing all; once more stops the motors", "Ctrl-C, once more stops the motors"
        else:
            words, front = "FAULT: %s; landing all" % why, "FAULT: %s" % why
        self.doubt = None
        if not self.in_show:
            self.doubt = self.come_home(front)
        elif isinstance(why, Interrupted):
            self.doubt = self.doubt_now()
        else:
            try:
                if self.fly_on(why):
                    self.leave_show()
                    self.come_down()
                    return LANDING
            except (Trouble, Interrupted) as more:
                return self.words_after(more)
        return words
