"""What is flown besides the show: the ways up and down, and when all may land. For ./show fly.

Landings from each stage of both ways are judged before anybody takes off, by a thread of their own, and so is the way
back from each stage: at a fault there is no time to ask `check`.
"""
import argparse
from math import dist
from typing import Callable, Dict, Iterable, List, Optional, Sequence, Set, Tuple

from hemtoghai import program
from hemtoghai.flying import clock, director, homeward, legs
from hemtoghai.flying.crazyradio import Trouble
from hemtoghai.flying.crew import say
from hemtoghai.flying.landings import Landings, StageLandings
from hemtoghai.flying.stages import AIM, apart, judge_stages, LAND, Leg, milliseconds_for, NoWay, Place, Rules
from hemtoghai.language.choreo import Flown, flown_of
from hemtoghai.writing.figures import least

STARTS = range(0, 2001, 400)  # milliseconds after a start, at which it is judged as one that not all took
PATIENCE = 120  # seconds for which a take-off waits until landings on the ways are judged
# Why the flight director takes three shows for no flight, by the numbers of its causes and by the way or the seam.
CAUSES = (("isn't the drone of the way up", "isn't the drone of the way down"),
          ("doesn't begin the show where its way up ends", "doesn't begin its way down where the show ends",
           "doesn't end its way down where its way up begins"),
          ("doesn't rest on its way up, in stage %d", "doesn't rest on its way down, in stage %d"),
          ("has no move up", "has no move down"),
          ("doesn't leave its pad straight up", "doesn't come to its pad straight down"),
          ("may stand farther from its pad than its way up is judged for",),
          ("has another ellipsoid on its way up than in the show",
           "has another ellipsoid on its way down than in the show"))


def words_of(cause: director.Cause, names: Sequence[str]) -> str:
    places: Sequence[str] = CAUSES[cause.number] if cause.number < len(CAUSES) else ()
    words = places[cause.where] if cause.where < len(places) else "cause %d" % cause.number
    return "%s %s" % (names[cause.drone] if cause.drone < len(names) else "a drone",
                      words % (cause.cue + 1) if "%d" in words else words)


class Ways:
    """The ways up from pads, in mm, and down, judged, and the landings of the show; raises Trouble where there is no
    way, or the flight director doesn't take them. `text` is what is uploaded and `uploaded` what it flies: the show and
    the way home, which begins `pause` milliseconds after the show's end; or the show alone, where `no_home` says why."""

    def __init__(self, flown: Flown, text: bytes, pads: Sequence[Place], options: argparse.Namespace) -> None:
        self.flown, self.options, self.pads = flown, options, dict(enumerate(pads))
        self.floors = [pad[2] for pad in pads]
        settings = flown.show.settings
        self.rules = Rules(settings, max(AIM, options.wander, options.at_start - settings["stray"][0]), options.ceiling)
        self.firsts, self.lasts, self.yaws, _ = legs.places_of(flown)
        self.up, self.down = self.way("up"), self.way("down")
        if self.down.why_below:
            raise Trouble("not flown: no way down to the pads: %s" % self.down.why_below)
        places = [place for leg in (self.up, self.down) for place in leg.all_places()]
        self.box = [(min(low, *row), max(high, *row)) for (low, high), row in zip(legs.box_of(flown), zip(*places))]
        # The milliseconds of the director's landing of all, from the highest place of the flight. They are no multiple
        # of a hundred, by which it is told from the landings of the way down.
        top = max(self.up.top(), self.down.top(), legs.top_of(flown))
        self.descent = milliseconds_for(LAND, [top - min(self.floors)]) + 1
        # Drones may stand so far aside of their pads as the way up is judged for.
        self.words = ["--near", "%d" % self.rules.stray, "--at", "%d" % options.at_start, "--silence",
                      "%d" % (1000 * options.silence), "--floor", "%d" % max(0, min(self.floors)), "--descent",
                      "%d" % self.descent, "--then", "fly"]
        self.texts = [self.up.text(), text, self.down.text()]
        self.ask_director()
        self.text, self.uploaded = text, flown
        self.pause, self.no_home = homeward.pause_before(self.down), "--no-home"  # type: int, Optional[str]
        self.landings = Landings(flown, self.floors, self.rules)
        self.rows: Dict[int, List[StageLandings]] = {
            id(leg): [StageLandings(leg, number, self.floors) for number in range(len(leg.stages))]
            for leg in (self.up, self.down)}
        self.broken: List[Tuple[int, Optional[str]]] = []
        self.preparing: Optional[clock.Task] = None
        self.is_prepared = self.over = self.flies = False

    def way(self, name: str) -> Leg:
        """The way up or down; raises Trouble."""
        try:
            return legs.way_of(name, self.flown, list(self.pads.values()), self.rules)
        except NoWay as why:
            raise Trouble("not flown: no way %s: %s" % (name, why)) from None

    # ---- the flight director

    def begin_director(self) -> director.Director:
        """The director of this flight, as a process that waits for what happens; raises Trouble."""
        try:
            return director.Director(self.words, self.texts)
        except (program.Unusable, OSError) as why:
            raise Trouble("not flown: the flight director can't be started: %s" % why) from None

    def ask_director(self) -> None:
        """Raises Trouble where the ways and the show are no flight to the director."""
        begin, it = clock.now(), self.begin_director()
        *before, end = director.judged(it)
        self.took = clock.now() - begin
        status = end.status if isinstance(end, director.Ended) else None
        if status == director.NOT_FLOWN:
            return
        words = [words_of(cause, self.flown.names) for cause in before if isinstance(cause, director.Cause)]
        raise Trouble("not flown: the way up, the show and the way down are no flight to `direct`, status %s%s" % (
            status, ": " + "; ".join(words) if words else ""))

    # ---- what is judged before take-off

    def add_home(self) -> None:
        """Adds the way home to what is uploaded, where it is accepted."""
        if not self.options.home:
            return
        whole, self.no_home = homeward.judged(self.flown, self.text, self.down, self.pads)
        if whole is not None:
            self.text, self.uploaded = whole, flown_of(whole)

    def prepare(self) -> None:
        """Has all that a fault on the ways may ask judged, by a thread."""
        self.preparing = clock.Task(self.judge_beforehand)

    def judge_beforehand(self) -> None:
        """Judges the landings from each stage of both ways, and each stage of the ways back, until it is ended."""
        try:
            for leg in (self.up, self.down):
                for row in self.rows[id(leg)]:
                    if self.over:
                        return
                    row.table()
            self.broken = [(t, self.landings.after_start(t)) for t in STARTS]
            for leg in (self.up.reversed(), self.down):
                judge_stages(leg, leg.stages, self.pads, leg.begin)
            self.is_prepared = True
            for it in (*self.rows[id(self.up)], *self.rows[id(self.down)], self.landings):
                it.judge_deaf(lambda: self.over or self.flies)
        except RuntimeError:  # no thread begins any more: the tool ends
            if not self.over:
                raise

    def wait(self, look: Callable[[], None]) -> None:
        """Waits until that is judged, but not for ever."""
        until, until_deaf = (clock.now() + seconds for seconds in (PATIENCE, self.options.patience))
        while self.preparing and self.preparing.is_alive() and clock.now() < (
                until_deaf if self.is_prepared else until):
            look()
            self.preparing.join(0.05)
        if self.is_prepared and self.preparing and self.preparing.is_alive():
            say("LANDINGS BESIDE A DRONE THAT DOESN'T HEAR AREN'T ALL JUDGED: `check` is asked in flight")
        self.flies = True
        if not self.is_prepared:
            say("LANDINGS ON THE WAYS AREN'T ALL JUDGED: at a fault there the stage that is flown goes to its end")

    def landings_at(self, leg: Leg, number: int) -> Optional[StageLandings]:
        """The landings from a stage of a leg, by its number from 1, as far as they are judged; 0 is before them all."""
        rows = self.rows.get(id(leg), ())
        row = rows[min(max(number, 1), len(rows)) - 1] if rows else None
        return row if row and row.rows is not None else None

    def after_start(self, t: float) -> Optional[str]:
        """Why not all may land so long after a start that not all took, or None."""
        return next((why for at, why in self.broken if at >= t), "not looked at so long after the start")

    # ---- ways that are judged in flight

    def rest_judged(self, leg: Leg, count: int, at: Dict[int, Place], hold: Iterable[int]) -> Optional[Leg]:
        """What is left of a leg after so many stages, from where drones are, while some hold; None where that isn't
        accepted, or nothing is left. It is judged stage by stage, as it is flown, and was before take-off."""
        rest = leg.rest(count, at, hold)
        return None if not rest.stages or judge_stages(rest, rest.stages, self.pads, rest.begin) else rest

    def new_judged(self, at: Dict[int, Place], hold: Iterable[int],
                   pads: Optional[Dict[int, Place]] = None) -> Optional[Leg]:
        """A new way down from where drones are, while some hold, to pads that are dealt anew where they are given; None
        where none is found. Who has no place isn't in it."""
        pads = pads or self.pads
        drones = [k for k in pads if k in at]
        if not drones:
            return None
        names, yaws = ([row[k] for k in drones] for row in (self.flown.names, self.yaws))
        try:
            leg = legs.down(names, [pads[k] for k in drones], [at[k] for k in drones], yaws, self.rules, False,
                            [drones.index(k) for k in hold if k in at])
        except NoWay:
            return None
        leg.names, leg.yaws = self.flown.names, self.yaws
        leg.begin = {drones[n]: place for n, place in leg.begin.items()}
        leg.stages = [stage._replace(to={drones[n]: place for n, place in stage.to.items()}) for stage in leg.stages]
        return leg

    def dealt_anew(self, at: Dict[int, Place], hold: Set[int], wrecks: Set[int]) -> Optional[Dict[int, Place]]:
        """Pads for those who fly, where others lie on theirs: of their own and of those who lie elsewhere, as far as
        nobody who holds is near to them from above, those to which the ways are shortest; None where there are too
        few."""
        held = [at[k] for k in hold if k in at]
        flyers = [k for k in self.pads if k in at and k not in hold]
        free = [k for k in self.pads if (k in flyers or k in wrecks) and all(
            apart(self.pads[k], place) > self.rules.side() for place in held)]
        if not flyers or len(free) < len(flyers):
            return None
        rest = [[0] * len(free)] * (len(free) - len(flyers))  # for pads that nobody gets
        chosen = least([*([round(dist(at[k], self.pads[j]) ** 2) for j in free] for k in flyers), *rest])
        return {**self.pads, **{k: self.pads[free[chosen[n]]] for n, k in enumerate(flyers)}}

    def deal(self, pads: Dict[int, Place]) -> None:
        """Drones come down to these pads from here on."""
        self.pads = pads
        self.floors[:] = [pads[k][2] for k in sorted(pads)]

    def tell(self) -> None:
        top = legs.top_of(self.flown)
        for name, leg in (("up", self.up), ("down", self.down)):
            say("way %s: %.1f s, judged %s" % (name, leg.milliseconds() / 1000,
                                               "as a whole" if leg.whole else "stage by stage"))
            for line in leg.lines(top):
                say(line)
        say(f"NO WAY HOME WITHOUT RADIO: {self.no_home}" if self.no_home else
            f"without radio all come home by themselves, from {self.pause / 1000:g} s after the show's end on, "
            f"to {homeward.ABOVE} mm above their pads: {max(map(len, self.uploaded.data()))} bytes at most")
        say("landing of all from the show:")
        for line in self.landings.lines():
            say("  " + line)
