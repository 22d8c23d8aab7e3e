"""The bridge between a fleet and the proved flight director (flying/director.py), from the floor to the floor.

It tells the director how much time passed, what drones say, what they answer and the crew's go, and carries each order
to its drone, repeating it until it is answered. When all arm, rise, go, start, come down, land and are disarmed is the
director's to say alone. Where a drone has a fault, the director refuses to go on, or its process ends, flying/home.py
brings all home. A second Ctrl-C stops all motors, whatever the director says.
"""
import math
from collections import deque
from typing import Callable, Deque, Dict, List, Optional, Set, Tuple

from hemtoghai.companion import many
from hemtoghai.flying import clock, director, firmware, landings
from hemtoghai.flying.crazyradio import Trouble
from hemtoghai.flying.crew import Cut, Interrupted, say, Watch
from hemtoghai.flying.descent import EARLY, LANDING
from hemtoghai.flying.director import Ended, Noted, Order, Over, Said, To
from hemtoghai.flying.fleet import Fleet
from hemtoghai.flying.home import Home
from hemtoghai.flying.stages import Leg, TAKE_OFF
from hemtoghai.flying.ways import Ways

SOON, LOOK = 0.02, 0.05  # seconds between two looks at all drones: at least, and at most
AT_ONCE = 8  # samples that the director is told at once in the show
MOST_TOLD = 200  # milliseconds that it is told at once
TICK = 0.001  # seconds: it is told whole milliseconds
TELLS = 5  # seconds between two lines on how it goes
GOES = 3.0  # seconds for which a go is said again: it counts only where all drones are as they have to be
REPLY, REPLIES = 0.2, 1.0  # seconds in which the director answers a go that it takes, and least ones for all
PLACES = 8.0  # seconds in which all have to be at their first places, once the way up is over
ENDS = 1.0  # seconds in which all is heard that the director said before it ended
MUTE = 255  # the status that the director is told of a drone that refuses, or has no answer


class Bridge(Home):
    """A flight by the director. `told_at` is up to when it was told of the time, `went` the same at the last go, and
    `told` what it was told of each drone last. `ahead` are by drone the stages in which orders come, `to_arm` who was
    told to arm, `sinking` who was told to land on the way down, `refusals` what drones refused, and `came` the answers
    that the director wasn't told yet."""

    def __init__(self, fleet: Fleet, ways: Ways, watch: Watch) -> None:
        super().__init__(fleet, ways, watch)
        self.director = ways.begin_director()
        fleet.stirs = self.director.stir
        self.told_at, self.went = clock.now(), 0.0
        self.over: Optional[Over] = None
        self.told: List[Tuple[Optional[float], int]] = [(None, 0)] * len(self.names)
        self.ahead: List[Deque[Tuple[Leg, int]]] = [deque(self.stages_of(k)) for k in self.all]
        self.came: "clock.Queue[Tuple[int, Optional[str], float, int]]" = clock.Queue()
        self.to_arm: Set[int] = set()
        self.sinking: Set[int] = set()
        self.refusals: Dict[int, str] = {}
        self.is_said_late = False

    def stages_of(self, k: int) -> List[Tuple[Leg, int]]:
        """The stages in which a drone has an order: from its first move up, to its last move down."""
        up, down = ([(leg, number, k in stage.to) for number, stage in enumerate(leg.stages)]
                    for leg in (self.ways.up, self.ways.down))
        first = next(row for row in up if row[2])
        last = next(row for row in reversed(down) if row[2])
        return [row[:2] for row in up[up.index(first):] + down[:down.index(last) + 1]]

    # ---- what the director is told

    def flags(self, k: int) -> int:
        """What a drone says of itself, as the director has it."""
        state = self.fleet.states[k]
        is_armed = k in self.armed if state.info is None else state.says(firmware.IS_ARMED)
        is_ready = not state.denies(firmware.CAN_ARM | firmware.IS_ARMED) and not state.says(firmware.WRECKED)
        return (director.READY * is_ready | director.ARMED * is_armed | director.DOWN * self.stands(k)
                | director.FLYING * self.flies(k) | director.SURE * (state.unsure is None)
                | director.LOST * (self.wrong_with(k) is not None))

    def tell(self) -> None:
        """Tells the director how much time passed, and what is new of drones: in the show, where it compares samples
        with curves, of few at a time, those first of whom it knows the least. Nothing is told while it hasn't read what
        it was told before, or until the show's time begins, in the middle of when drones may have started."""
        states, passed = self.fleet.states, int(1000 * (clock.now() - self.told_at))
        if not self.director.is_free() or passed < 0:
            self.raise_all(self.faults())  # while it doesn't read nobody else finds them
            return
        # A machine that stood still makes that good bit by bit, so that drones aren't late whom it couldn't hear.
        passed = min(passed, MOST_TOLD)
        self.told_at += passed / 1000
        frames, rows = director.clock_frames(passed), [(state.heard, self.flags(k)) for k, state in enumerate(states)]
        new = sorted((k for k in self.all if rows[k] != self.told[k]), key=lambda k: self.told[k][0] or 0.0)
        for k in new[:AT_ONCE if self.zero is not None else None]:
            at = states[k].measured
            # One that was measured after the time that the director knows of would be taken for older than it is.
            if at is not None and at < self.told_at + TICK:
                self.told[k] = rows[k]
                frames += director.sample(k, 1000 * (self.told_at - at), self.at(k), rows[k][1])
        self.director.hear(frames)

    def tell_answers(self) -> None:
        while not self.came.is_empty():
            drone, words, seconds, stage = self.came.get()
            if words is None:
                self.unheard.pop(drone, None)
                if stage and stage == self.begun:
                    self.took[drone] = clock.now() - self.moves[drone][1]  # at most: it may have been answered before
            else:
                self.refusals[drone] = words
            self.director.hear(director.answer(drone, 0 if words is None else MUTE))
            if stage and stage == self.begun and not self.is_said_late:
                self.is_said_late = self.say_late(1000 * seconds)

    def look(self) -> None:
        """Notes who is armed, and who has landed."""
        for k, state in enumerate(self.fleet.states):
            if k in self.to_arm and state.says(firmware.IS_ARMED):
                self.armed.add(k)
            if k in self.sinking and self.is_down(k) and not state.says(firmware.WRECKED):
                self.landed.add(k)

    def step(self) -> None:
        """Looks at all drones, tells the director, and does what it says; raises what is wrong."""
        self.look()
        self.guard()
        self.tell()
        self.tell_answers()
        for said in self.director.says():
            self.take(said)
        while self.over is None and not self.director.is_well:
            said_last = self.director.wait(ENDS)  # what it said before it ended may still be under way
            if said_last is None:
                raise Trouble("the flight director takes nothing any more")
            self.take(said_last)
        self.director.rest(SOON, LOOK)

    # ---- what the director says

    def take(self, said: Said) -> None:
        if isinstance(said, To) and said.drone is not None:
            self.carry(said.drone, said.order)
        elif isinstance(said, To) and said.order.kind == director.START:
            self.start(said.order.group)
        elif isinstance(said, To) and said.order.kind == director.DISARM:
            self.disarm(self.all)
        elif isinstance(said, Noted):
            self.note(said.drone, said.fault)
        elif isinstance(said, Over):
            self.over = said
        elif isinstance(said, Ended) and self.over is None:
            raise Trouble("the flight director ended: status %s" % said.status)

    def note(self, k: int, fault: int) -> None:
        """Raises a fault that the director finds. Who is silent, and in the show who is astray, is for
        flying/watched.py to judge."""
        name = self.names[k] if k < len(self.names) else "a drone"
        if fault == director.REFUSED:
            raise Trouble("; ".join(self.refusals.values()) or "%s refuses an order" % name)
        if fault == director.LATE:
            raise Trouble(k < len(self.names) and self.unfit(k, director.ARMED * (k in self.to_arm)) or
                          "%s isn't as the next step wants it for long enough" % name)
        if fault in (director.WRONG, director.UNSURE):
            self.is_news(k)
            raise Trouble(self.wrong_with(k) or "%s is %s" % (
                name, "lost" if fault == director.WRONG else "not sure of its place any more"))
        if fault == director.OUTSIDE:
            x, y, z = self.fleet.states[k].where()
            raise Trouble(f"{name} is at ({x:.2f}, {y:.2f}, {z:.2f}) m, outside of the room of show and ways")
        if fault == director.UNCOVERED:
            raise Trouble("the flight director waits with the landing: none of its windows covers it")
        if fault == director.ASTRAY and not self.in_show:
            raise Trouble(self.wrong_with(k) or self.far_words(k))
        if fault == director.ASTRAY and self.ways.rules.show_stray:
            say("OUTSIDE OF THE PROMISE since %.1f s: %s is off its curve, and the show's `stray` is %d" % (
                max(0.0, self.since(self.zero) / 1000 - 0.3), name, self.ways.rules.show_stray))

    def unfit(self, k: int, flags: int) -> Optional[str]:
        """How a drone isn't as the next step wants it, which may want some of its flags, or None."""
        name, lacks = self.names[k], flags & ~self.flags(k)
        if not self.is_fresh(k):
            return "%s is silent" % name
        far = math.dist(self.at(k), self.aims[k])
        if far > min(self.options.at_start, self.ways.rules.stray):
            return "%s is %.0f mm from its place" % (name, far)
        return "%s %s" % (name, "isn't armed" if lacks & director.ARMED else "can't be armed") if lacks else None

    def carry(self, k: int, order: Order) -> None:
        if self.is_landing(order):
            raise Trouble("the flight director lands all")
        elif order.kind == director.GROUP:
            group = firmware.group(order.group)
            self.give(k, lambda since: self.fleet.command(k, group, "join the flight's group", since))
        elif order.kind == director.ARM:
            self.to_arm.add(k)
            self.give(k, lambda since: self.fleet.ask_arm(k, since))
        elif self.ahead[k]:
            self.lead(k, order)
        else:
            raise Trouble("the flight director has an order too many for %s" % self.names[k])

    def lead(self, k: int, order: Order) -> None:
        """Carries an order of a way: a rise, a go or a landing."""
        leg, number = self.ahead[k].popleft()
        if leg is not self.leg or number + 1 != self.begun:
            self.begin_stage(leg, number)
        seconds, place = order.milliseconds / 1000, self.aims[k]
        self.unheard[k] = place
        if order.kind == director.GO_TO:
            x, y, z, yaw = order.at
            data = firmware.go_to(x / 1000, y / 1000, z / 1000, math.radians(yaw / 10), seconds)
            word, self.aims[k] = "go to its place", (x, y, z)
        else:
            (z,), lands = order.at, order.kind == director.SINK
            data = (firmware.land if lands else firmware.take_off)(z / 1000, seconds)
            word, self.aims[k] = "land" if lands else "take off", (*place[:2], z)
            self.sinking |= {k} if lands else set()
        if not any(self.ahead):
            self.watch.lands = True  # the last ones land: a first Ctrl-C changes nothing any more
        self.give(k, lambda since: self.fleet.command(k, data, word, since))

    def begin_stage(self, leg: Leg, number: int) -> None:
        """The orders of a stage go out now."""
        if leg is self.ways.down and self.in_show:
            self.leave_show()
        stage, now = leg.stages[number], clock.now()
        seconds = stage.milliseconds / 1000
        self.leg, self.begun, self.stage_began, self.stage_ends = leg, number + 1, now, now + seconds + 1
        self.unheard, self.rising, self.is_said_late = {}, set(), len(stage.to) == 1
        self.begin_moves(leg.places(number), stage)
        if stage.kind == TAKE_OFF:
            self.flying, self.rising = True, set(stage.to)
            self.watch.flies = True
        self.say_stage(stage)

    def give(self, k: int, ask: Callable[[int], object]) -> None:
        """Has an order go to a drone by a thread, until it is answered; nowhere once all questions are dropped."""
        since, begin, stage = self.fleet.radio.asked, clock.now(), self.begun

        def run() -> None:
            words = None
            try:
                ask(since)
            except Trouble as why:
                words = str(why)
            except Exception as error:
                words = "%s: %r" % (self.names[k], error)
            self.came.put((k, words, clock.now() - begin, stage))
        clock.Task(run)

    # ---- the flight

    def ready(self) -> None:
        """Looks, just before anybody takes off, whether drones are still as they were looked over; raises where not.
        Who else is on these channels is taken out of all groups."""
        faults = []
        for k, (name, state) in enumerate(zip(self.names, self.fleet.states)):
            state.is_new = False
            moved = math.dist(self.at(k), self.ways.pads[k])
            if not self.is_fresh(k):
                faults.append("%s is silent" % name)
            elif state.senseless is not None:
                faults.append("%s sends a place that is no number" % name)
            elif moved > self.ways.rules.aim:
                faults.append("%s is %.0f mm from where it stood, and %d were judged" % (
                    name, moved, self.ways.rules.aim))
            elif state.says(firmware.IS_FLYING):
                faults.append("%s says that it flies" % name)
        if not faults:
            memory, data = self.flown.show.settings["memory"], self.ways.uploaded.data()
            held = self.fleet.radio.each(lambda k: self.fleet.holds(k, memory, data[k]), self.watch.look)
            faults = ["%s doesn't hold the show any more: it was started anew since the upload" % name
                      for name, is_held in zip(self.names, held) if not is_held]
        if faults:
            raise Trouble("not flown: " + ", ".join(faults))
        if not self.options.unicast:
            self.fleet.radio.broadcast(firmware.packet(firmware.COMMANDER, 0, firmware.group()), 3)

    def say_go(self, is_taken: Callable[[], bool], least: float = REPLIES) -> None:
        """Says go until the director takes it, but not for long."""
        until, why = clock.now() + max(least, GOES), ""
        while not is_taken():
            flags = director.ARMED if self.to_arm else director.READY
            why = "; ".join(words for words in (self.unfit(k, flags) for k in self.all) if words) or why
            if clock.now() > until:
                raise Trouble(f"the flight director doesn't take the go: {why or 'all seem to be as it wants them'}")
            self.step()
            self.director.hear(director.signal(director.GO))
            self.went = self.told_at
            said = self.director.wait(REPLY)  # without the time of this wait, by which the show would be begun
            if said is not None:
                self.take(said)

    def rise(self) -> None:
        """Has all go up, and waits until they are at their first places, and stay there for a second."""
        self.ready()
        self.told_at = clock.now()
        self.step()
        self.say_go(lambda: bool(self.to_arm), REPLIES + 2 * self.ways.took)  # it may still judge the three shows
        while self.leg is not self.ways.up or self.begun < len(self.ways.up.stages):
            self.step()
        firsts, near = dict(enumerate(self.ways.firsts)), self.options.at_start
        steady, until = clock.now(), self.stage_ends + PLACES
        while clock.now() < steady + 1.1:
            self.step()
            off = self.far_from(firsts, near)
            if clock.now() < self.stage_ends - 1 or off:
                steady = clock.now()
            if off and clock.now() > until:
                raise Trouble("not at the first place: %s" % ", ".join(off))
        self.rising = set()
        say("at the first places: %s" % ", ".join(
            "%s %.0f mm off" % (self.names[k], math.dist(self.at(k), first)) for k, first in firsts.items()))

    def start(self, group: int) -> None:
        """Starts all drones, which are in this group, and says how far apart their starts may be."""
        (trajectory,) = self.flown.show.settings["trajectory"]
        self.zero = clock.now()  # whatever comes of it: a start that isn't known to have gone out may have been taken
        begin, end, answers, mute = self.fleet.start(trajectory, group, self.options.copies, not self.options.unicast)
        self.zero = self.fleet.log.zero = begin
        # Drones start within `late` after it went out: the show's time begins in the middle of that.
        self.told_at += (begin + end + self.ways.rules.show_late / 1000) / 2 - self.went
        for k, name in enumerate(self.names):
            if k in mute:
                self.refusals[k] = f"{name} doesn't answer the start, and may have taken it"
            elif k not in answers:
                self.refusals[k] = "%s didn't take the start" % name
            elif answers[k][1]:
                self.refusals[k] = "%s refuses the start with status %d" % (name, answers[k][1])
            self.director.hear(director.answer(k, MUTE if k in self.refusals else 0))
        if self.refusals:
            raise Trouble(", ".join(self.refusals.values()))
        # A start was taken between when it went out and when it was answered: all may be so much later than the zero.
        answered = max(at for at, _ in answers.values()) - begin
        self.slack = min(0.5, answered)
        self.say_spread(1000 * (end - begin), 1000 * answered)
        self.aims.update(enumerate(self.ways.lasts))
        self.in_show = True

    def say_spread(self, spread: float, answered: float) -> None:
        """Says how far apart starts may be, in milliseconds; raises where that is too far."""
        single = not self.options.unicast and self.options.copies * len(self.fleet.radio.shared) == 1
        say("started: %s; all answered within %.0f ms" % (
            "by one packet to all" if single else "by packets within %.0f ms" % spread, answered))
        if not single and spread > self.options.late:
            raise Trouble("starts may be farther apart than %d ms" % self.options.late)
        if not single and spread > self.ways.rules.show_late:
            say("OUTSIDE OF THE PROMISE: starts went out within %.0f ms, and the show's `late` is %d" % (
                spread, self.ways.rules.show_late))

    def show(self) -> None:
        """Looks after the show until its end, or until the director has the way down begin."""
        told = 0.0
        while self.in_show and clock.now() < self.ends():
            self.step()
            if self.since(self.zero) > 1000 * (told + TELLS):
                told = self.since(self.zero) / 1000
                self.tell_crew(told)
        say("flown: %.1f s; farthest from their curves: %s" % (self.flown.milliseconds / 1000, ", ".join(
            "%s %.0f mm" % it for it in zip(self.names, self.strays))))

    def tell_crew(self, seconds: float) -> None:
        names, states = self.names, self.fleet.states
        far, low = max(zip(self.strays, names)), min((state.volts or 0.0, name) for state, name in zip(states, names))
        quiet = max(zip(self.quiet, names))
        blind = "silent" if self.silent else "off their curves" if self.off() else ""
        why = None if blind else self.ways.landings.now(1000 * seconds)
        say("%6.1f s: farthest %s %.0f mm, lowest %s %.2f V, quietest %s %.1f s; land now: %s" % (
            seconds, far[1], far[0], low[1], low[0], quiet[1], quiet[0],
            "not looked at while some are %s" % blind if blind else "apart" if why is None else
            "not shown apart, %s" % landings.short(why)))

    def down(self) -> None:
        """Has all come down as the director says it; where one is silent, by a way that keeps clear of it, which the
        director hasn't."""
        if self.in_show:
            self.leave_show()
            if self.silent:
                if self.ways.rules.show_stray:
                    say(f"THE PROMISE WAS VOID in this flight: of {self.words_of(self.silent)} it isn't known")
                self.come_down()
                return
        while self.over is None:
            self.step()
        if self.ways.rules.show_stray:
            say("kept: the director found each drone at its curve whenever it looked, by the drones' own estimates"
                if self.over.is_kept else "THE PROMISE WAS VOID in this flight: a drone was off its curve, or silent")

    def fly(self) -> None:
        """From the floor to the floor, as the director has it; raises what is wrong."""
        self.rise()
        self.watch.confirm("All are at their first places. Start?", self.step)
        self.say_go(lambda: self.zero is not None)
        self.show()
        self.down()

    # ---- all of it

    def land_all(self, words: str) -> bool:
        """Lands all that aren't down; whether all are, and nobody has tumbled."""
        if self.over is not None:
            done = self.finish(self.stay(self.up(self.all)))
        else:
            seconds = self.landing_ordered()
            done = self.land(words, self.warn, self.told_now() / 1000, seconds)
        self.flying = False
        return done

    def not_flown(self, why: BaseException) -> int:
        """Ends a flight in which nobody flew; the status."""
        words = "Ctrl-C" if isinstance(why, Interrupted) else str(why)
        say(words if words.startswith("not flown") else "not flown: %s" % words)
        self.watch.over = True
        self.fleet.radio.drop()
        self.disarm(self.all)
        return EARLY

    def whole(self) -> int:
        """Flies from take-off to landing; the status."""
        status, words = 0, LANDING
        try:
            self.fly()
            status = EARLY if self.over is not None and not self.over.is_flown else 0
        except (Trouble, Interrupted) as why:
            if not self.flying:
                return self.not_flown(why)
            status, words = EARLY, self.words_after(why)
            if not self.up(self.all) and not self.is_said:
                say(words)  # all are down by now: else the landing says it
        return status if self.land_all(words) else EARLY

    def run(self) -> int:
        """Flies from take-off to landing, and lands all where this program itself fails; the status."""
        try:
            return self.whole()
        except Cut:
            self.director.hear(director.signal(director.STOP))
            return self.cut()
        except BaseException as error:
            if not self.flying:
                raise
            say("FAULT of this program: %r" % error)
            self.land_anyhow()
            raise
        finally:
            self.director.kill()
            self.fleet.tell(self.all, firmware.COMMANDER, 0, firmware.group())

    def land_anyhow(self) -> None:
        """Lands all after a fault of this program: as always, and where that fails too by bare commands."""
        try:
            try:
                self.land_all("landing all")
            except Exception as error:
                say("FAULT of this program: %r" % error)
                self.fleet.land(self.floors, self.all, self.seconds_down(self.all), self.watch.look)
        except Cut:
            self.cut()
