"""A fleet of drones by radio: what they say of themselves, and the commands of a flight. For ./show fly.

As firmware.py it is from memory, and was run with simulated drones alone.
"""
import contextlib
import csv
import math
import threading
from collections import deque
from functools import partial
from typing import Callable, Deque, Dict, Iterable, List, NamedTuple, Optional, Sequence, Set, TextIO, Tuple

from hemtoghai.flying import clock, finite, firmware
from hemtoghai.flying.crazyradio import ANSWER, Dead, Radio, Trouble
from hemtoghai.flying.stages import LATE, SAME_FLOOR

FLIGHT = 1  # the log block
MARK = 0x5A  # a byte by which the answer to a broadcast is told from others
VARIANCES = ["kalman.varPX", "kalman.varPY", "kalman.varPZ"]
# A block has 26 bytes: three places of four bytes, the volts, two of the supervisor, and four halves.
LOGGED = ["stateEstimate.x", "stateEstimate.y", "stateEstimate.z", "pm.vbat", "supervisor.info", "stateEstimate.yaw",
          *VARIANCES]
HALVES = ("stateEstimate.yaw", *VARIANCES)  # are sent in two bytes
OPTIONAL = ("supervisor.info", *HALVES)  # old firmware hasn't them all
REVIVE = 1.0  # seconds without samples of a drone whose link is heard, after which its blocks are made anew
AGAIN = 0.05  # seconds after which a landing that isn't answered is commanded again
REFUSALS = {2: "no such variable or block: are two drones of one address on?", 7: "too many bytes", 12: "no room",
            17: "the block is there already"}  # statuses of log blocks (70 %)
OBEYS = 2.0  # seconds in which a drone is seen to be disarmed
WRAP = 2 ** 24  # milliseconds after which a drone's stamps begin anew
LEAP, FASTEST = 0.3, 10.0  # metres, and metres a second: what is farther from one sample to the next nobody flew
NEW = 1000  # milliseconds by which stamps go back, without a wrap, of a drone that started anew
HISTORY = 20  # samples that are kept to see whether a drone is settled
STUCK = 1.0  # seconds of samples with one place from which on they are no news

Look = Callable[[], None]  # what looks after a flight while others wait
Table = Dict[str, Tuple[int, int]]  # by an item's name its number and its type


class Started(NamedTuple):
    """A start: when it went out first and last, by drone when it was answered last and with which status, and who
    answered neither it nor what was asked after it."""
    begin: float
    end: float
    answers: Dict[int, Tuple[float, int]]
    quiet: Set[int]


class State:
    """What a drone said of itself last: place in metres, yaw in degrees, volts, the supervisor's bits or None, and the
    estimator's variances, with when it was heard. `low` is since when all samples were below its least voltage,
    `places` are its last ones, and `senseless` is since when its samples have no numbers, or None. `measured` is when
    the place was measured, by the drone's own clock: its packets are late by chance, and the least late one sets that
    clock. `between` are the milliseconds between its last two samples, and `has_leapt` is whether its place was ever
    farther from the one before than a drone flies meanwhile. `variance` is the greatest of its last sample, in m^2, or
    None, and `unsure` since when it is greater than the greatest in flight, or None. `is_new` is whether it started
    anew: its stamps began at 0 again. `estimate` are its last place and variances, and `same_since` is when these were
    heard first."""

    def __init__(self) -> None:
        self.place: Optional[List[float]] = None
        self.places: List[List[float]] = []
        self.variances: List[float] = []
        self.volts: Optional[float] = None
        self.yaw: Optional[float] = None
        self.info: Optional[int] = None
        self.heard: Optional[float] = None
        self.measured: Optional[float] = None
        self.low: Optional[float] = None
        self.senseless: Optional[float] = None
        self.stamp: Optional[int] = None
        self.least: Optional[float] = None
        self.variance: Optional[float] = None
        self.unsure: Optional[float] = None
        self.estimate: List[float] = []
        self.same_since = math.inf
        self.is_new = False
        self.least_volts, self.between, self.has_leapt, self.most_variance = 0.0, 0, False, math.inf

    def take(self, values: Dict[str, float], at: float, stamp: int) -> bool:
        """Takes a sample that came at an instant; whether it has numbers. One that has none changes nothing else, so
        that the drone goes silent."""
        place, info = [values["stateEstimate." + axis] for axis in "xyz"], values.get("supervisor.info")
        yaw, volts = values.get("stateEstimate.yaw", 0.0), values["pm.vbat"]
        if not (finite.is_place(place) and math.isfinite(yaw) and math.isfinite(volts)):
            self.senseless = at if self.senseless is None else self.senseless
            return False
        before = self.place
        self.place, self.info, self.yaw = place, None if info is None else int(info), values.get("stateEstimate.yaw")
        self.senseless, self.places, self.volts = None, (self.places + [place])[-HISTORY:], volts
        spread = [values[name] for name in VARIANCES if name in values]
        self.same_since = self.same_since if self.estimate == [*place, *spread] else at
        self.estimate = [*place, *spread]
        self.variance = max(v if math.isfinite(v) else math.inf for v in spread) if spread else None
        self.variances = (self.variances + ([] if self.variance is None else [self.variance]))[-HISTORY:]
        is_sure = self.variance is None or self.variance <= self.most_variance
        self.unsure = None if is_sure else at if self.unsure is None else self.unsure
        self.low = None if volts >= self.least_volts else self.low if self.low is not None else at
        turns = 0 if self.stamp is None else round((self.stamp - stamp) / WRAP)
        self.between = 0 if self.stamp is None else stamp + turns * WRAP - self.stamp
        self.stamp = stamp + turns * WRAP
        self.is_new = self.is_new or self.between < -NEW
        if before and self.between > 0 and math.dist(before, place) > LEAP + FASTEST * self.between / 1000:
            self.has_leapt = True
        late = at - self.stamp / 1000
        # A drone that started anew counts from 0.
        self.least = late if self.least is None or self.between < 0 else min(self.least, late)
        self.heard, self.measured = at, self.stamp / 1000 + self.least
        return True

    def where(self) -> List[float]:
        """Its last place; each drone that flies has one."""
        assert self.place is not None
        return self.place

    def same_for(self) -> float:
        """For how many seconds its samples have had one place and one set of variances, to the last bit; 0 below STUCK.
        A real estimate always jitters in its last digit, so these samples say nothing of where it is now."""
        seconds = (self.heard or 0.0) - self.same_since
        return seconds if seconds >= STUCK else 0.0

    def is_empty(self, seconds: float) -> bool:
        """Whether the voltage was too low for so long: under thrust single samples sag."""
        return self.low is not None and self.heard is not None and self.heard - self.low >= seconds

    def says(self, bits: int) -> bool:
        """Whether it has a supervisor that says one of these."""
        return self.info is not None and bool(self.info & bits)

    def denies(self, bits: int) -> bool:
        """Whether it has a supervisor that says none of these."""
        return self.info is not None and not self.info & bits

    def speed(self, axes: int = 3) -> float:
        """Its speed on its first axes, in metres a second, by its last two samples, by its own clock."""
        if len(self.places) < 2 or self.between <= 0:
            return 0.0
        return 1000 * math.dist(*(place[:axes] for place in self.places[-2:])) / self.between


class Log:
    """The file to which places go, as ./show flown reads it; before the start, at `zero`, rows wait. A thread writes,
    so that a slow disk holds up nobody: what can't be written is said once, and lost. Opening it raises OSError. The
    last line says whether the flight was kept, ways and all."""

    def __init__(self, path: Optional[str], tell: Callable[[str], None]) -> None:
        self.path, self.tell, self.over = path, tell, clock.Event()
        self.waiting: Deque[Tuple[float, str, Sequence[float], int, Optional[float]]] = deque()
        self.fault: object = None
        self.zero: Optional[float] = None
        self.task: Optional[clock.Task] = None
        self.last = finite.FAULT
        if path:
            file = open(path, "w", newline="", encoding="utf-8")
            file.write("time,drone,x,y,z,stamp,variance\r\n")
            file.flush()
            self.task = clock.Task(lambda: self.run(file))

    def put(self, at: float, name: str, place: Sequence[float], stamp: int, variance: Optional[float] = None) -> None:
        if self.path and self.fault is None:
            self.waiting.append((at, name, place, stamp, variance))

    def run(self, file: TextIO) -> None:
        """Writes what waits, five times a second, until the log is closed or can't be written."""
        try:
            while not self.over.wait(0.2):
                self.write(file)
            self.write(file)
            file.write(self.last + "\n")
            file.close()
        except (OSError, ValueError) as error:
            self.fault = error
            self.tell("THE LOG CAN'T BE WRITTEN any more: %s; all else goes on" % error)

    def write(self, file: TextIO) -> None:
        """Writes what waits, once the instant of the start is known."""
        zero = self.zero
        if zero is None:
            return
        rows = [self.waiting.popleft() for _ in range(len(self.waiting))]
        csv.writer(file).writerows(["%.4f" % (at - zero), name, *("%.5f" % v for v in place), stamp,
                                    "" if variance is None else f"{variance:.3g}"]
                                   for at, name, place, stamp, variance in rows)
        file.flush()

    def close(self, is_kept: bool = False) -> None:
        """Has all written that waits, by the time of its last sample where nothing was started, but not for long. Last
        comes whether the flight was kept."""
        if self.zero is None and self.waiting:
            self.zero = self.waiting[-1][0]
        self.last = finite.KEPT if is_kept else finite.FAULT
        self.over.set()
        if self.task:
            self.task.join(2.0)
            if self.task.is_alive():
                self.fault = "the disk doesn't answer"
                self.tell("THE LOG ISN'T WRITTEN to its end: %s" % self.fault)


class Fleet:
    """The drones of a show by a radio."""

    def __init__(self, radio: Radio, log: Log) -> None:
        self.radio, self.names, self.log = radio, radio.names, log
        self.states = [State() for _ in self.names]
        self.tables: Dict[Tuple[int, int, int], Table] = {}
        self.kinds: List[List[Tuple[str, int]]] = [[] for _ in self.names]
        self.started: Dict[int, Tuple[float, int]] = {}
        self.heard_broadcast: Set[int] = set()
        self.lock = threading.Lock()
        self.every, self.revived = 100, [0.0] * len(self.names)
        self.stirs: Look = lambda: None  # is called for each sample
        self.told_off = [-math.inf] * len(self.names)  # when each was told to disarm, or to stop, last
        radio.listeners.append(self.came)

    # ---- what drones say

    def came(self, drone: int, raw: bytes) -> None:
        """Takes what a drone sends: samples, and answers to starts."""
        port, channel, data = firmware.parts(raw)
        if (port, channel) == (firmware.COMMANDER, 0) and len(data) >= 4 and data[0] == 5:
            with self.lock:
                self.started[drone] = clock.now(), data[3]
        if (port, channel) == (firmware.COMMANDER, 0) and data[:3] == firmware.group() + bytes([MARK]):
            self.heard_broadcast.add(drone)
        kinds, state = self.kinds[drone], self.states[drone]
        if (port, channel, data[:1]) != (firmware.LOGS, 2, bytes([FLIGHT])) or not kinds:
            return
        found = firmware.logged(data, [kind for _, kind in kinds])
        if found is None:
            return
        _, stamp, values = found
        at = clock.now()
        if state.take(dict(zip((name for name, _ in kinds), values)), at, stamp):
            self.log.put(at, self.names[drone], state.where(), stamp, state.variance)
        self.stirs()

    def table(self, drone: int, port: int) -> Table:
        """A drone's table of parameters or logs: numbers and types by name. Equal tables are read once."""
        count, checksum = firmware.table_of(self.radio.ask(drone, port, 0, firmware.ASK_TABLE, least=7))
        key = port, count, checksum
        if key not in self.tables:
            found = {}
            for number in range(count):
                try:
                    name, kind = firmware.item_of(self.radio.ask(drone, port, 0, firmware.ask_item(number), least=5))
                except ValueError:
                    raise Trouble("%s: item %d of its table on port %d has no name" % (
                        self.names[drone], number, port)) from None
                found[name] = number, kind
            self.tables[key] = found
        return self.tables[key]

    def set(self, drone: int, name: str, value: int) -> None:
        """Sets a parameter; nothing is done where a drone hasn't it."""
        found = self.table(drone, firmware.PARAMETERS).get(name)
        if found and found[1] in firmware.PARAMETER_TYPES:
            data = firmware.write_parameter(*found, value)
            self.radio.ask(drone, firmware.PARAMETERS, 2, data, 2)

    def reset_estimator(self, drone: int) -> None:
        """Has a drone's estimator begin anew, where it has one that can."""
        self.set(drone, "kalman.resetEstimation", 1)
        clock.wait(0.1)
        self.set(drone, "kalman.resetEstimation", 0)

    def revive(self) -> None:
        """Makes the logs of drones anew that are heard and send no samples: a link that was gone for two seconds, or a
        drone that started anew, has lost them."""
        now = clock.now()
        for drone, state in enumerate(self.states):
            last = self.radio.last[drone]
            if (last is not None and now - last <= REVIVE and state.heard is not None and now - state.heard >= REVIVE
                    and now - self.revived[drone] >= 3 * REVIVE):
                self.revived[drone] = now
                clock.Task(partial(self.try_logs, drone))

    def try_logs(self, drone: int) -> None:
        """Makes a drone's logs anew, if it lets that be done."""
        with contextlib.suppress(Exception):
            self.begin_logs(drone, self.every)

    def begin_logs(self, drone: int, milliseconds: int, wanted: Sequence[str] = ()) -> None:
        """Has a drone send its places and battery, and the estimator's variances where it has them, or these are
        wanted."""
        self.every = milliseconds
        table = self.table(drone, firmware.LOGS)
        self.radio.ask(drone, firmware.LOGS, 1, firmware.RESET_LOGS, 1)
        missing = [name for name in LOGGED if name not in table and (name in wanted or name not in OPTIONAL)]
        items = [(name, *table[name]) for name in LOGGED if name in table]
        strange = [name for name, _, kind in items if kind not in firmware.LOG_TYPES]
        if missing or strange:
            raise Trouble("%s has no log %s, or of a type that this tool doesn't know: another firmware or "
                          "estimator?" % (self.names[drone], ", ".join(missing + strange)))
        sent = [firmware.HALF if kind == firmware.FLOAT and name in HALVES else kind for name, _, kind in items]
        self.kinds[drone] = [(name, kind) for (name, *_), kind in zip(items, sent)]
        made, begun = (self.radio.ask(drone, firmware.LOGS, 1, data, 2, least=3)[2] for data in (
            firmware.create_block(FLIGHT, [(*it[1:], kind) for it, kind in zip(items, sent)]),
            firmware.start_block(FLIGHT, milliseconds)))
        if made or begun:
            status, what = made or begun, "have a log made" if made else "begin its log"
            raise Trouble(f"{self.names[drone]} refuses to {what}: status {status}, "
                          f"{REFUSALS.get(status, 'which this tool does not know')}")

    def deaf(self) -> List[int]:
        """The drones that answer no broadcast of three, which take all out of every group, as they begin."""
        raw = firmware.packet(firmware.COMMANDER, 0, firmware.group() + bytes([MARK]))
        for _ in range(3):
            self.radio.broadcast(raw)
            clock.wait_for(lambda: len(self.heard_broadcast) == len(self.names), 1)
        return [drone for drone in range(len(self.names)) if drone not in self.heard_broadcast]

    # ---- commands

    def command(self, drone: int, data: bytes, word: str, since: Optional[int] = None, seconds: float = 2.0) -> None:
        """A command to one drone, until it is answered; a go-to is said again for what is left of its time. A take-off
        that is asked for once more, since its answer was lost, is refused: then it was taken. So is a landing of one
        that lands already, or is on the floor. Nothing goes out where all questions were dropped `since`, a count of
        the radio's."""
        begin, lands = clock.now(), data[:1] == firmware.LAND
        status = self.radio.ask(drone, firmware.COMMANDER, 0, data, 3, seconds=seconds, least=4,
                                every=AGAIN if lands else ANSWER, since=since,
                                again=lambda data, passed: firmware.left_of(data, passed, LATE / 1000))[3]
        if status and not (status == 1 and (lands or clock.now() - begin > 0.9 * ANSWER)):
            raise Trouble("%s refuses to %s: status %d" % (self.names[drone], word, status))

    def ask_arm(self, drone: int, since: Optional[int] = None) -> None:
        """Arms a drone; one that says itself whether it is armed needs no answer."""
        try:
            self.radio.ask(drone, firmware.PLATFORM, 0, firmware.arm(True), 1, seconds=2, since=since)
        except Dead:
            if self.states[drone].info is None:
                raise

    def holds(self, drone: int, memory: Sequence[int], data: bytes) -> bool:
        """Whether a drone's memory still begins with these bytes: one that started anew has lost them."""
        data = data[:20]
        return self.radio.ask(drone, firmware.MEMORY, 1, firmware.read(memory[0], memory[1], len(data)), 5, seconds=2,
                              length=6 + len(data))[6:] == data

    def disarm(self, drones: Sequence[int]) -> List[str]:
        """Disarms drones; which of them are armed afterwards, by their own supervisors, or didn't answer where they
        have none. A drone that arms by itself can't be disarmed."""
        quiet = self.radio.failures(drones, lambda drone: self.radio.ask(
            drone, firmware.PLATFORM, 0, firmware.arm(False), 1, seconds=2))
        for drone in drones:
            self.told_off[drone] = clock.now()

        def wrong() -> List[str]:
            return [self.names[k] for k in drones for state in [self.states[k]] if (
                k in quiet if state.info is None else
                state.says(firmware.IS_ARMED) and not state.says(firmware.AUTO_ARM))]
        # a sample of before says nothing of arming
        clock.wait_for(lambda: not wrong() and all(map(self.has_said, drones)), OBEYS)
        return wrong()

    def has_said(self, drone: int) -> bool:
        """Whether the last sample of a drone is of after it was told to disarm, or to stop."""
        measured = self.states[drone].measured
        return measured is not None and measured > self.told_off[drone]

    def tell(self, drones: Iterable[int], port: int, channel: int, data: bytes) -> None:
        """Sends a packet to each of these drones, and waits for no answer."""
        for drone in drones:
            self.radio.send(drone, firmware.packet(port, channel, data))

    def start(self, trajectory: int, group: int, copies: int, by_broadcast: bool) -> Started:
        """Starts a trajectory in all drones of a group, by a broadcast that each hears at once, or one by one. Nobody
        is sent a second start of its own, since it would begin anew. A drone answers in order: one that answers a
        question after the start and not the start didn't take it. That question takes it out of the group again."""
        with self.lock:
            self.started = {}
        begin, drones, data = clock.now(), range(len(self.names)), firmware.start(trajectory, group)
        self.tell([] if by_broadcast else drones, firmware.COMMANDER, 0, data)
        begin, end = (self.radio.broadcast(firmware.packet(firmware.COMMANDER, 0, data), copies) if by_broadcast else
                      (begin, clock.now()))
        mute = self.radio.failures(drones, lambda drone: self.radio.pass_by(drone, 1))
        with self.lock:
            return Started(begin, end, dict(self.started), set(mute) - set(self.started))

    def beside(self, raw: bytes, copies: int) -> None:
        """A broadcast that goes out beside commands to each drone, so that nothing rests on it, nor waits for it."""
        with contextlib.suppress(Exception):
            self.radio.broadcast_beside(raw, copies)

    def land(self, floors: Sequence[float], drones: List[int], seconds: float, look: Optional[Look] = None,
             own: Optional[Dict[int, float]] = None) -> Tuple[float, List[int], Dict[int, str]]:
        """Lands drones where they are within so many seconds, some within their own, each by a command of its own, and
        beside that by a broadcast where all land on floors of one height: the seconds until the last one that obeys
        answered, who didn't answer, and who refused, in words."""
        self.radio.drop()
        begin, answered, times = clock.now(), [0.0], own or {}
        if not own and len(drones) == len(self.names) and 1000 * (max(floors) - min(floors)) <= SAME_FLOOR:
            self.beside(firmware.packet(firmware.COMMANDER, 0, firmware.land(min(floors), seconds)), 2)

        def land(drone: int) -> None:
            self.command(drone, firmware.land(floors[drone], times.get(drone, seconds)), "land", seconds=1.5)
            answered.append(clock.now() - begin)
        failures = self.radio.failures(drones, land, look)
        return (max(answered), [k for k, why in failures.items() if isinstance(why, Dead)],
                {k: str(why) for k, why in failures.items() if not isinstance(why, Dead)})

    def cut(self) -> None:
        """Stops all motors, at once and for good: each drone falls, and has to be started anew."""
        self.radio.drop()
        self.told_off = [clock.now()] * len(self.names)
        for where in ((firmware.PLACES, 1, firmware.EMERGENCY_STOP), (firmware.COMMANDER, 0, firmware.STOP)):
            self.tell(range(len(self.names)), *where)
            self.beside(firmware.packet(*where), 2)
            for _ in range(2):
                self.tell(range(len(self.names)), *where)
        clock.wait(0.5)
