"""Drones that are brought down, whatever happened before, and looked after until they are: for ./show fly."""
from math import inf
from typing import Callable, Iterable, List, Optional, Sequence, Set

from hemtoghai.flying import clock, firmware
from hemtoghai.flying.crew import Cut, say, Watch
from hemtoghai.flying.fleet import Fleet
from hemtoghai.flying.stages import LAND, milliseconds_for

DOWN = 0.12  # metres above or below its pad up to which a drone counts as down
HIGHEST = 40.0  # metres above its floor at which a drone may be, whatever it says: the language ends at 33
UNKNOWN = 2.0  # metres that are taken for the height of drones that never said where they are
STAYS = 4.0  # seconds that a landing may take longer than it should
REPEAT = 5.0  # seconds after which drones are told to land once more where nobody answers
AIRBORNE = 900.0  # seconds that no battery of these drones lasts: one that is silent for longer isn't in the air
EARLY, CUT = 1, 60
LANDING = "landing"  # the words of a landing without a fault


class Descent:
    """Drones that are brought down. `floors` are the heights, in metres, of what they land on, and `silence` the
    seconds without a sample after which nothing is known of a drone. Only what a drone says counts: one is down where
    its last sample, no older than that, says so. `landed` aren't looked after any more, and `rising` were told to take
    off a moment ago: on the floor they aren't down. `still_armed` are the names of those that were told to disarm,
    and didn't."""

    def __init__(self, fleet: Fleet, floors: Sequence[float], silence: float, watch: Watch) -> None:
        self.fleet, self.floors, self.longest, self.watch = fleet, floors, silence, watch
        self.names, self.all = fleet.names, list(range(len(fleet.names)))
        self.landed: Set[int] = set()
        self.still_armed: Set[str] = set()
        self.rising: Set[int] = set()
        watch.stop_motors = fleet.cut

    # ---- what is known

    def quiet_for(self, k: int) -> float:
        """The seconds since anything came from a drone."""
        last = self.fleet.radio.last[k]
        return inf if last is None else clock.now() - last

    def is_fresh(self, k: int) -> bool:
        """Whether a drone's last sample isn't too old."""
        heard = self.fleet.states[k].heard
        return heard is not None and clock.now() - heard <= self.longest

    def stands(self, k: int) -> bool:
        """Whether a drone says that it is on its floor. One that has tumbled lies wherever it is."""
        return self.is_fresh(k) and (self.is_at_floor(k) or self.fleet.states[k].says(firmware.WRECKED))

    def is_at_floor(self, k: int) -> bool:
        """Whether a drone's place is at its floor, and is news."""
        state = self.fleet.states[k]
        return abs(state.where()[2] - self.floors[k]) <= DOWN and not state.same_for()

    def flies(self, k: int) -> bool:
        """Whether a drone says that it flies, or did a moment ago. One that has disarmed itself doesn't."""
        state = self.fleet.states[k]
        return state.says(firmware.IS_FLYING) and not state.denies(firmware.IS_ARMED)

    def is_down(self, k: int) -> bool:
        """Whether a drone says that it is on its floor, and doesn't fly."""
        return self.stands(k) and not self.flies(k)

    def wrecks(self) -> List[int]:
        """Who has tumbled, it says."""
        return [k for k, state in enumerate(self.fleet.states) if state.says(firmware.WRECKED)]

    def up(self, drones: Iterable[int]) -> List[int]:
        """Which of these drones aren't seen to be down: in the air, or silent."""
        return [k for k in drones if not self.is_down(k)]

    def words_of(self, drones: Iterable[int]) -> str:
        return ", ".join(self.names[k] for k in sorted(drones))

    def seconds_down(self, drones: Iterable[int]) -> float:
        """How long a landing of drones takes. None sets the pace of the others by a height that no room has, or from
        where it shouldn't be."""
        drones, away = list(drones), self.away()
        heights = [min(HIGHEST, place[2] - self.floors[k]) for k in drones if k not in away or away.issuperset(drones)
                   for place in [self.fleet.states[k].place] if place]
        return milliseconds_for(LAND, [1000 * height for height in heights or [UNKNOWN]]) / 1000

    def away(self) -> Set[int]:
        """Who is where no drone of this flight can be, or believes so."""
        return set()

    def account(self) -> None:
        for k, (name, state) in enumerate(zip(self.names, self.fleet.states)):
            at = "(%.2f, %.2f, %.2f) m" % tuple(state.place) if state.place else ""
            age = 0.0 if state.measured is None else clock.now() - state.measured
            if not state.place:
                words = "NOT KNOWN: no sample of it came: WHERE IT IS NOBODY KNOWS"
            elif not self.is_fresh(k):
                words = "NOT KNOWN: %s: IT MAY BE IN THE AIR" % (
                    "silent for %.1f s, and was at %s then" % (age, at) if state.senseless is None else
                    "sends a place that is no number, and was at %s %.1f s ago" % (at, age))
            elif not self.is_down(k) and state.same_for():
                words = "said the same place for %.1f s, %s: not known whether it is down" % (state.same_for(), at)
            elif not self.is_down(k) and state.where()[2] < self.floors[k] - DOWN:
                words = "NOT KNOWN: it believes to be below its floor, at %s: IT MAY BE IN THE AIR" % at
            elif not self.is_down(k):
                words = "IN THE AIR, it said %.1f s ago, at %s" % (age, at)
            else:
                # a wreck may lie elsewhere, and may be falling still
                words = "%s, it says, at %s, %s" % (
                    "down" if self.is_at_floor(k) else "doesn't fly any more", at, self.words_armed(k))
            say("end: %s: %s" % (name, words))

    def words_armed(self, k: int) -> str:
        state = self.fleet.states[k]
        words = ("and doesn't say whether it is armed" if state.info is None else
                 "and hasn't said since whether it is armed" if not self.fleet.has_said(k) else
                 "ARMED" if state.says(firmware.IS_ARMED) else "disarmed")
        return words + (", and has tumbled" if state.says(firmware.WRECKED) else "")

    # ---- landing

    def attend(self) -> None:
        """Hears the crew, and has drones that lost their logs send again."""
        self.watch.look()
        self.fleet.revive()

    def wait_down(self, drones: List[int], seconds: float) -> List[int]:
        """Waits as long as a landing takes, and longer where not all are down then, but not for long; who isn't."""
        begin = clock.now()
        while clock.now() < begin + seconds or self.up(drones) and clock.now() < begin + seconds + STAYS:
            self.attend()
            clock.wait(0.05)
        return self.up(drones)

    def bring_down(self, drones: List[int], seconds: Optional[float] = None, told: float = inf) -> List[int]:
        """Lands drones, and waits; who isn't down. Where commands are answered later than in `told` seconds it says so.
        Ctrl-C counts as long as others are still in the air."""
        if not set(self.all) - self.landed - set(drones):
            self.watch.lands = True
        seconds = seconds or self.seconds_down(drones)
        own = {k: self.seconds_down([k]) for k in self.away() & set(drones)}
        late, quiet, refused = self.fleet.land(self.floors, drones, seconds, self.watch.look, own)
        if late > told and len(drones) > 1:
            say("OUTSIDE OF WHAT WAS JUDGED: landings were answered within %.0f ms, and %.0f were judged" % (
                1000 * late, 1000 * told))
        if quiet:
            say("NO ANSWER to the landing: %s" % self.words_of(quiet))
            self.note_quiet(quiet)
        lasting = [words for k, words in refused.items() if not self.is_down(k)]
        if lasting:  # by drones on the floor it may be refused: they have nothing to land from
            say("THE LANDING IS REFUSED: %s" % ", ".join(lasting))
        up = self.wait_down(drones, seconds)
        self.landed |= set(drones) - set(up)
        return up

    def note_quiet(self, quiet: List[int]) -> None:
        """Is told who didn't answer a landing."""

    def land(self, words: str, warn: Callable[[], None] = lambda: None, told: float = inf,
             seconds: Optional[float] = None) -> bool:
        """Lands all drones that aren't down, in these seconds where they are given, and once more those that aren't
        then; disarms those that are down, since a drone that is disarmed in the air falls. A second Ctrl-C stops the
        motors. Says who isn't down, and stays with them. Whether all are down, and nobody has tumbled."""
        self.watch.lands = True
        up = sorted(self.rising | set(self.up(self.all)))
        self.rising = set()
        if up:
            say(words)
            warn()
        for _ in range(2 if up else 0):
            up = self.bring_down(up, seconds, told)
            if not up:
                break
            told, seconds = inf, None
            if self.away().issuperset(up):  # the others needn't wait for it
                self.disarm(set(self.all) - set(up))
            say("NOT SEEN TO BE DOWN: %s; %s" % (self.words_of(up), self.watch.stops() if any(
                self.quiet_for(k) < self.longest for k in up) else "nothing from here reaches them"))
        self.disarm(self.all)
        return self.finish(self.stay(self.up(self.all)))

    def finish(self, up: List[int]) -> bool:
        """Ends the watch, and says where all are; whether all are down, say so since they were told to disarm, and none
        is still armed, nor has tumbled."""
        self.watch.end()
        say("landed" if not up else "landed, but for %s: not disarmed; --only land and --only stop still reach them" %
            self.words_of(up))
        self.account()
        have_said = all(state.info is None or self.fleet.has_said(k) for k, state in enumerate(self.fleet.states))
        return not up and have_said and not self.wrecks() and not self.still_armed

    def stay(self, up: List[int]) -> List[int]:
        """Stays with drones that aren't down: asks what to do with them, and where nobody answers tells them to land
        again and again. It goes on until all are down, until somebody leaves them, or until those who aren't seen to
        be down can't be in the air any more; who isn't down then."""
        while up and not self.watch.answers.ended:
            text = "%s: type land, stop or leave: " % self.words_of(up)
            answer = self.watch.answers.line(text, lambda: self.look_after(up))
            if answer == "stop":
                raise Cut
            if answer == "leave":
                return up
            if answer == "land":
                self.bring_down(up)
            up = self.down_now(up)
        if up:
            say("NOBODY ANSWERS: %s are told to land every %.0f s" % (self.words_of(up), REPEAT))
        while up and any(self.quiet_for(k) < AIRBORNE for k in up):
            self.bring_down(up)
            clock.wait_for(lambda: self.look_after(up) is not None, REPEAT)
            up = self.down_now(up)
        return up

    def look_after(self, up: List[int]) -> Optional[str]:
        """Hears the crew, and looks whether one of these drones is down now."""
        self.attend()
        return None if len(self.up(up)) == len(up) else "down"

    def down_now(self, up: List[int]) -> List[int]:
        """Disarms those of these drones that are down now; the others."""
        down = [k for k in up if self.is_down(k)]
        self.landed |= set(down)
        self.disarm(down)
        return [k for k in up if k not in down]

    def disarm(self, drones: Iterable[int]) -> None:
        """Disarms those of these drones that say at this moment that they are down."""
        drones = [k for k in drones if self.is_down(k)]
        if not drones:
            return
        self.fleet.radio.drop()
        self.fleet.tell(drones, firmware.COMMANDER, 0, firmware.STOP)  # some let motors idle until then
        wrong = self.fleet.disarm(drones)
        self.still_armed = (self.still_armed - {self.names[k] for k in drones}) | set(wrong)
        auto = [k for k in drones if self.fleet.states[k].says(firmware.AUTO_ARM)]
        if wrong:
            say("STILL ARMED: %s" % ", ".join(wrong))
        if auto:
            say("arm by themselves, and are as they were switched on: %s" % self.words_of(auto))

    def cut(self) -> int:
        """Stops all motors; the status."""
        self.watch.over = True
        self.fleet.cut()
        mute = [k for k in self.all if self.quiet_for(k) > self.longest]
        say("MOTORS STOPPED: emergency stop sent to all%s" % (
            "; NOT KNOWN TO HAVE REACHED %s, silent for more than %.1f s" % (self.words_of(mute), self.longest)
            if mute else ""))
        self.account()
        return CUT
