"""UNTESTED with the library, a radio or a drone: a link over Bitcraze's library (cflib), for ./show bridge and
./show fly.

    ./show bridge --radio DRONES SHOW

TRY IT FIRST with one drone, without propellers. DRONES is a text with a line `NAME URI` for each drone of the show,
as in `a radio://0/80/2M/E7E7E7E701`. This file is written from memory of the library, and was run over a stand-in for
it (flying/simulated) that is from the same memory. Read docs/RADIO.md ('What a bridge owes', 'Where real drones may
differ').

What it does besides carrying packets byte for byte:
- it opens all drones or none, and closes what it opened at each failure;
- a drone of which nothing is heard for two seconds is named, when it is opened and at any time later;
- each drone is asked for its memories, and a show whose memory id isn't that of the memory of type 0x12 is refused
  before the first write;
- answers of an earlier upload are waited out: what comes before the answers to two questions of its own is dropped;
- only memory and commander packets (ports 4 and 8) are passed, and only answers to packets that were sent;
- each drone is sent its start once: later copies are dropped, since real firmware begins anew at each (a link may lose
  packets; --repeat-starts sends them).
The library's own classes (Crazyflie, its memories and parameters) stay out of it, since they would write too.
"""
import random
import re
import threading
from collections import Counter
from functools import partial
from typing import Any, Callable, Dict, Iterable, List, Optional, Sequence, Set, Tuple

from hemtoghai.flying import clock, finite, firmware
from hemtoghai.flying.links import COMMAND, Heard, Key, key_of, Link as AnyLink, MEMORY

ANSWER, PATIENCE = 0.3, 5.0  # seconds until a question is put again, and until a drone that is heard counts as mute
QUIET = 2.0  # seconds without any packet until a drone counts as silent
LOOK = 0.05  # seconds between two looks at who is silent
BROADCAST = (0xFF, 0xE7, 0xE7, 0xE7, 0xE7)
RATES = {"250K": 0, "1M": 1, "2M": 2}
URI = re.compile("radio://([0-9]{1,9})/([0-9]{1,9})/(250K|1M|2M)/([0-9A-Fa-f]{10})")
MOST_DONGLES, MOST_CHANNEL = 99, 125  # channels of 1 MHz above 2,400 MHz
LIMIT = 0.8  # seconds in which a dongle has sent a broadcast, or counts as gone
CLOSES = 3.0  # seconds in which all is closed, or left open
MANY = 15  # drones of one dongle above which somebody is to know

Work = Callable[[], None]
Sent = List[Any]  # when the first copy of a broadcast went, and when the last had, or what failed
Job = Tuple[bytes, int, Sent, clock.Event]
Waiting = Optional[Tuple[bytes, Work, Work]]  # a packet, and what is called before and after it is sent
Asked = Tuple[int, int, int, Optional[int], int, bytes]  # drone, port, channel, length, least and the first bytes


def everybody(path: str) -> Dict[str, str]:
    """The drones' URIs by their names, from a text of lines `NAME URI`; raises ValueError where that is none."""
    found: Dict[str, str] = {}
    known: Dict[Tuple[int, str, str], str] = {}
    for number, (name, *words) in finite.lines_of(path):
        if len(words) != 1 or name in found:
            raise ValueError(f"{path}, line {number}: `NAME URI` is wanted, each once")
        uri = words[0][:-10] + words[0][-10:].upper()
        parts = URI.fullmatch(uri)
        if not parts or int(parts[1]) > MOST_DONGLES or int(parts[2]) > MOST_CHANNEL:
            raise ValueError(f"{path}, line {number}: {words[0][:60]} isn't radio://DONGLE/CHANNEL/RATE/ADDRESS with a "
                             f"dongle to {MOST_DONGLES}, a channel to {MOST_CHANNEL}, and 250K, 1M or 2M")
        # Whichever dongle it is heard by, and however its numbers are written, a drone is known by these.
        own = int(parts[2]), parts[3], parts[4]
        if own in known:
            raise ValueError(f"{path}, line {number}: {name} has the channel, rate and address of {known[own]}")
        known[own], found[name] = name, uri
    return found


def addresses(path: str, names: Sequence[str]) -> List[str]:
    """The URIs of these drones, in their order; raises ValueError where one is missing."""
    return finite.in_order(everybody(path), names, path, "address")


class Trouble(Exception):
    """What keeps a flight from going on."""


class Dead(Trouble):
    """Drones that don't answer."""


class Dongle:
    """A dongle with a channel and a rate, opened once more for broadcasts. It is used by a thread of its own: where it
    was pulled out, the library's calls may never return."""

    def __init__(self, number: str, channel: str, rate: str) -> None:
        self.name, self.shared = "dongle %s" % number, None  # type: str, Any
        self.jobs: "clock.Queue[Optional[Job]]" = clock.Queue()
        self.task = clock.Task(lambda: self.run(int(number), int(channel), RATES[rate]))

    def run(self, number: int, channel: int, rate: int) -> None:
        from cflib.crtp.radiodriver import RadioManager
        while True:
            job = self.jobs.get()
            if job is None:
                return
            raw, copies, row, done = job
            try:
                if self.shared is None:
                    # THE LEAST CERTAIN LINES HERE: the library shares one dongle among its drivers in this way (70 %).
                    shared = RadioManager.open(number)
                    shared.set_channel(channel)
                    shared.set_address(BROADCAST)
                    shared.set_data_rate(rate)
                    self.shared = shared
                row.append(clock.now())
                for _ in range(copies):
                    self.shared.send_packet(tuple(raw))
                row.append(clock.now())
            except Exception as error:
                row.append(error)
            done.set()

    def send(self, raw: bytes, copies: int) -> Tuple[Sent, clock.Event]:
        """Has a packet sent; a list that gets when the first copy went and the last had, and an event once it has."""
        row: Sent = []
        done = clock.Event()
        self.jobs.put((raw, copies, row, done))
        return row, done

    def close(self) -> None:
        self.jobs.put(None)
        self.task.join(LIMIT)
        if self.shared is not None and not self.task.is_alive():
            self.shared.close()


class Silence:
    """For how many seconds nothing was heard of each drone. A machine that itself stands still hears nobody: of each
    step between two looks only the first part counts."""

    def __init__(self, count: int, most: float = 4 * LOOK) -> None:
        self.most, self.looked = most, clock.now()
        self.rows: List[Tuple[float, Optional[float]]] = [(0.0, None)] * count

    def look(self, heard: Sequence[Optional[float]]) -> List[float]:
        """The seconds for each drone, by when each was heard last."""
        now = clock.now()
        step, self.looked = min(now - self.looked, self.most), now
        self.rows = [(0.0 if at != last else quiet + step, at) for (quiet, last), at in zip(self.rows, heard)]
        return [quiet for quiet, _ in self.rows]


class Radio:
    """The drivers of all drones, with two threads each: one sends what waits, one hands on what comes. Neither ends
    where a driver or a listener fails: the fault is noted, and the next packet is tried.

    `listeners` are functions of a drone and a packet, called from any thread. `faults` has by drone what its driver
    complained of last, and `last` when it was last heard.
    """

    def __init__(self, names: Sequence[str], uris: Sequence[str], all_wanted: bool = True) -> None:
        try:
            import cflib.crtp  # only here, so that all else runs without the library
            from cflib.crtp.crtpstack import CRTPPacket
        except ImportError as error:
            raise ImportError("%s: Bitcraze's library is needed, pip install cflib" % error) from error
        self.names, self.uris, self.packet_of = names, uris, CRTPPacket
        self.open, self.asked, self.changed = True, 0, clock.used().condition()
        self.listeners: List[Heard] = []
        self.faults: Dict[int, str] = {}
        self.last: List[Optional[float]] = [None] * len(names)
        self.answers: Dict[Asked, List[bytes]] = {}
        self.waiting: "List[clock.Queue[Waiting]]" = [clock.Queue() for _ in names]
        self.drivers: List[Any] = []
        self.tasks: List[clock.Task] = []
        self.shared: Dict[Tuple[str, ...], Dongle] = {}
        try:
            if not getattr(cflib.crtp, "CLASSES", None):
                cflib.crtp.init_drivers()
            self.connect(cflib.crtp.get_link_driver)
            self.wait_for_all(all_wanted)
        except BaseException:
            self.close()
            raise

    def connect(self, driver_of: Callable[..., Any]) -> None:
        for drone, uri in enumerate(self.uris):
            driver = driver_of(uri, None, lambda words, drone=drone: self.faults.update({drone: words}))
            if driver is None:
                raise ValueError("no driver opens %s" % uri)
            self.drivers.append(driver)
        self.tasks = [clock.Task(partial(work, drone)) for work in (self.send_all, self.hear_all)
                      for drone in range(len(self.names))]

    def wait_for_all(self, all_wanted: bool = True) -> None:
        """Waits two seconds at most until each drone was heard; raises where all are wanted, and names the others."""
        silence = Silence(len(self.names), LOOK)
        while None in self.last:
            dead = [drone for drone, last in enumerate(self.last) if last is None]
            self.nudge(dead)
            if max(silence.look(self.last)) > QUIET:
                if not all_wanted:
                    return
                raise Dead("no answer from %s: on, charged, in reach, on its channel?" % ", ".join(
                    self.names[drone] for drone in dead))
            clock.wait(LOOK)

    def nudge(self, drones: Iterable[int]) -> None:
        """Asks drones something, where nothing else waits for them: one that has nothing to say may send nothing."""
        for drone in drones:
            if self.waiting[drone].is_empty():
                self.send(drone, firmware.packet(firmware.MEMORY, 0, firmware.COUNT_MEMORIES))

    def send_all(self, drone: int) -> None:
        while True:
            work = self.waiting[drone].get()
            if work is None:
                return
            raw, before, after = work
            try:
                before()
                self.drivers[drone].send_packet(self.packet_of(raw[0], raw[1:]))
                after()
            except Exception as error:
                self.faults[drone] = "its packets can't be sent: %s" % error

    def hear_all(self, drone: int) -> None:
        while self.open:
            try:
                came = self.drivers[drone].receive_packet(0.05)
            except Exception as error:
                self.faults[drone], came = "nothing can be received from it: %s" % error, None
                clock.wait(0.05)
            if came is None:
                continue
            try:
                raw = bytes([came.header]) + bytes(came.data)
            except Exception as error:  # of the library's own packet
                self.faults[drone] = f"a packet of it can't be read: {error!r}"
                clock.wait(0.05)
                continue
            self.last[drone] = clock.now()
            self.hand_on(drone, raw)
            for listener in list(self.listeners):
                try:
                    listener(drone, raw)
                except Exception as error:
                    self.faults[drone] = "a packet of it can't be read: %r" % error

    def hand_on(self, drone: int, raw: bytes) -> None:
        """Hands a packet on to those who wait for an answer like it."""
        port, channel, data = firmware.parts(raw)
        with self.changed:
            for (*where, length, least, front), found in self.answers.items():
                if where == [drone, port, channel] and data.startswith(front) and (
                        length in (None, len(data))) and len(data) >= least:
                    found.append(data)
                    self.changed.notify_all()

    def send(self, drone: int, raw: bytes, before: Work = lambda: None, after: Work = lambda: None) -> None:
        """Takes a packet for a drone; the functions are called when it goes to the driver and when that has it."""
        self.waiting[drone].put((raw, before, after))

    def ask(self, drone: int, port: int, channel: int, data: bytes, same: Optional[int] = None,
            seconds: float = PATIENCE, length: Optional[int] = None, least: int = 0, every: float = ANSWER,
            since: Optional[int] = None, again: Callable[[bytes, float], bytes] = lambda data, _: data) -> bytes:
        """The answer to a question, which is put again `every` so many seconds until it comes: one that begins with the
        first `same` bytes of the question's data, all where it is None, and has so many bytes where a length is given,
        at least so many where the least is. A question that was dropped isn't put again, and not once where it was
        dropped `since`, a count of drops. What is asked after so many seconds `again` makes of the question's data."""
        key: Asked = (drone, port, channel, length, least, bytes(data[:same]))
        found: List[bytes] = []
        with self.changed:
            self.answers[key] = found
            asked = self.asked if since is None else since
        begun = clock.now()
        try:
            while clock.now() < begun + seconds:
                with self.changed:
                    if asked != self.asked:
                        break
                    self.send(drone, firmware.packet(port, channel, again(data, clock.now() - begun)))
                    self.changed.wait_for(lambda: found or asked != self.asked, every)
                    if found:
                        return found[0]
        finally:
            with self.changed:
                self.answers.pop(key, None)
        raise Dead("%s doesn't answer a question on port %d: %s" % (
            self.names[drone], port, self.faults.get(drone, "packets are lost")))

    def drop(self) -> None:
        """Has all questions end that are still put again, and nothing of them go out any more: they aren't wanted."""
        with self.changed:
            self.asked += 1
            for waiting in self.waiting:
                waiting.clear()
            self.changed.notify_all()

    def each(self, work: Callable[[int], Any], look: Optional[Work] = None) -> List[Any]:
        """What a function gives for each drone, side by side; the first failure is raised once all have ended."""
        out: Dict[int, Any] = {}
        drones = range(len(self.names))
        for why in self.failures(drones, lambda drone: out.update({drone: work(drone)}), look).values():
            raise why
        return [out[drone] for drone in drones]

    def failures(self, drones: Sequence[int], work: Callable[[int], object],
                 look: Optional[Work] = None) -> Dict[int, Trouble]:
        """Does something for these drones, side by side; by drone what kept it from being done. All the while `look` is
        called, where one is given, and what it raises ends the wait. Other faults are raised once all have ended."""
        out: Dict[int, Trouble] = {}
        others: List[Exception] = []

        def run(drone: int) -> None:
            try:
                work(drone)
            except Trouble as why:
                out[drone] = why
            except Exception as error:
                others.append(error)
        for task in [clock.Task(partial(run, drone)) for drone in drones]:
            while task.is_alive():
                task.join(0.02 if look else None)
                if look:
                    look()
        for error in others:
            raise error
        return out

    def memories(self, drone: int) -> List[Tuple[int, int]]:
        """A drone's list of memories: their types and sizes."""
        count = self.ask(drone, firmware.MEMORY, 0, firmware.COUNT_MEMORIES, least=2)[1]
        return [firmware.memory_of(self.ask(drone, firmware.MEMORY, 0, firmware.ask_memory(k), least=7))
                for k in range(count)]

    def pass_by(self, drone: int, seconds: float = PATIENCE) -> None:
        """Waits until a drone has answered all commands before: it does so in order. The question takes it out of all
        groups. It has a mark by chance, which the commander gives back, so that no answer to an earlier one is taken
        for its own."""
        mark = bytes([0x80 | random.randrange(0x80)])
        self.ask(drone, firmware.COMMANDER, 0, firmware.group() + mark, 3, seconds=seconds)

    def fence(self, drone: int, memory: int) -> None:
        """The same of all that a drone was sent before; the mark in the memory's port is a byte that is read, since an
        upload reads more at once."""
        data = firmware.read(memory, random.randrange(MEMORY), 1)
        try:
            self.ask(drone, firmware.MEMORY, 1, data, 5, length=7)
        except Dead as why:
            try:
                status = self.ask(drone, firmware.MEMORY, 1, data, 5, seconds=0.5, length=6)[5]
            except Dead:
                raise why from None
            raise Trouble(f"{self.names[drone]} refuses to have its memory {memory} read: status {status}") from None
        self.pass_by(drone)

    def dongles(self) -> List[Dongle]:
        """The dongles, channels and rates of all drones, opened for broadcasts."""
        for where in sorted({(*uri.split("/")[2:5],) for uri in self.uris} - set(self.shared)):
            self.shared[where] = Dongle(*where)
        return list(self.shared.values())

    def crowded(self) -> List[Tuple[str, int]]:
        """The dongles with more drones than are usual, and how many these are."""
        counts = Counter(uri.split("/")[2] for uri in self.uris)
        return [(number, count) for number, count in sorted(counts.items()) if count > MANY]

    def broadcast_beside(self, raw: bytes, copies: int = 1) -> List[Tuple[Dongle, Sent, clock.Event]]:
        """Has a packet sent to all drones, so many times, by each dongle, and returns at once its row and its event."""
        return [(dongle, *dongle.send(raw, copies)) for dongle in self.dongles()]

    def broadcast(self, raw: bytes, copies: int = 1) -> Tuple[float, float]:
        """Sends a packet to all drones at once, so many times, by each dongle and channel; when the first went out and
        when the last had. It has no answer by itself; drones answer by their own links. A dongle that doesn't send it
        in time is named, after all others have sent it."""
        sent, until, gone = self.broadcast_beside(raw, copies), clock.now() + LIMIT, []
        for dongle, row, done in sent:
            if not done.wait(max(0.0, until - clock.now())):
                gone.append("%s doesn't send" % dongle.name)
            elif isinstance(row[-1], Exception):
                gone.append("%s: %s" % (dongle.name, row[-1]))
        if gone:
            raise Dead("; ".join(gone))
        return min(row[0] for _, row, _ in sent), max(row[1] for _, row, _ in sent)

    def close(self) -> None:
        """Closes all that was opened, as far as it can be closed in time."""
        self.open = False
        for waiting in self.waiting:
            waiting.put(None)
        until = clock.now() + CLOSES
        for task in self.tasks:
            task.join(max(0.01, until - clock.now()))
        until = clock.now() + CLOSES
        closing = [clock.Task(partial(self.close_one, it)) for it in [*self.drivers, *self.shared.values()]]
        for task in closing:
            task.join(max(0.01, until - clock.now()))
        if any(task.is_alive() for task in closing):
            print("radio: closing failed: a dongle doesn't answer")
        self.drivers, self.shared = [], {}

    @staticmethod
    def close_one(driver: Any) -> None:
        try:
            driver.close()
        except Exception as error:
            print("radio: closing failed: %s" % error)


class Link(AnyLink):
    """The link of ./show bridge and ./show fly over a radio, to drones whose trajectory memory has this id. `fault` is
    why it sends no more, or None. `starts` has by drone when its start went out first and was answered last. At its
    end the radio is closed, unless it stays open for more."""

    def __init__(self, names: Sequence[str], heard: Heard, radio: Radio, memory: int, repeat_starts: bool = False,
                 stays_open: bool = False) -> None:
        super().__init__(names, heard)
        self.radio, self.memory, self.repeat_starts, self.stays_open = radio, memory, repeat_starts, stays_open
        self.lock, self.silence = threading.Lock(), Silence(len(names))
        self.fault: Optional[str] = None
        self.asked: Set[Tuple[int, Key]] = set()
        self.starts: Dict[int, List[Optional[float]]] = {}
        self.copies, self.strangers = 0, 0
        wrong = ["%s: memory %d is %s; its trajectory memory is %s" % (
            name, memory, "of type %02X" % rows[memory][0] if memory < len(rows) else "not there",
            " ".join(map(str, trajectory_memories(rows))) or "missing")
            for name, rows in zip(names, radio.each(radio.memories)) if memory not in trajectory_memories(rows)]
        if wrong:
            raise ValueError("%s; the show's line `memory` has to name the drones' memory of type 12, one id for all"
                             % "; ".join(wrong))
        radio.each(lambda drone: radio.fence(drone, memory))
        radio.listeners.append(self.came)

    def send(self, drone: int, packet: bytes) -> None:
        key = key_of(packet, False)
        if key is None or key[0] != COMMAND and packet[1] != self.memory:
            self.fault = "%s: %s is no packet of this upload" % (self.names[drone], packet.hex(" ").upper())
        is_start = key is not None and key[0] == COMMAND and packet[1] == 5
        with self.lock:
            again = is_start and drone in self.starts and not self.repeat_starts
            if self.fault or again:
                self.left, self.copies = self.left + 1, self.copies + again
                return
            if key is not None:
                self.asked.add((drone, key))
            row = self.starts.setdefault(drone, [None, None]) if is_start else [0.0]

        def going() -> None:
            row[0] = clock.now() if row[0] is None else row[0]  # a start isn't taken before

        def gone() -> None:
            with self.lock:
                self.left += 1
        self.radio.send(drone, packet, going, gone)

    def came(self, drone: int, raw: bytes) -> None:
        """A packet came from a drone: an answer to one that was sent is handed on."""
        key = key_of(raw, True)
        if key is None:
            return
        with self.lock:
            known = (drone, key) in self.asked
            self.strangers += not known
        if known:
            if key[0] == COMMAND and key[1][0] == 5 and raw[4] == 0:
                self.starts[drone][1] = clock.now()
            self.heard(drone, raw)

    def ailing(self) -> Optional[str]:
        """Why the upload can't go on, or None."""
        silent = list(enumerate(self.silence.look(self.radio.last)))
        self.radio.nudge([drone for drone, quiet in silent if quiet > QUIET / 2])
        return next(("%s is silent for %.0f s: %s" % (
            self.names[drone], QUIET, self.radio.faults.get(drone, "no packet came"))
            for drone, quiet in silent if quiet > QUIET), self.fault)

    def close(self) -> None:
        if self.came in self.radio.listeners:
            self.radio.listeners.remove(self.came)
        if not self.stays_open:
            self.radio.close()

    def report(self) -> List[str]:
        words = "%d answers came to packets that were not sent, and were dropped" % self.strangers
        return ["trajectory memories: %s" % ", ".join("%s %d" % (name, self.memory) for name in self.names),
                *([words] if self.strangers else []), *start_lines(self.names, self.starts, self.repeat_starts)]


def trajectory_memories(rows: Iterable[Tuple[int, int]]) -> List[int]:
    """The ids of a drone's memories for trajectories, by its list of types and sizes."""
    return [k for k, (kind, size) in enumerate(rows) if kind == firmware.TRAJECTORY_MEMORY and size >= MEMORY]


def start_lines(names: Sequence[str], starts: Dict[int, List[Optional[float]]], repeated: bool = False) -> List[str]:
    """When each drone can have taken its start, between when that went out first and when it was answered last, and
    the spread of all. Milliseconds count from when the first one went out."""
    if not starts:
        return []
    zero = min([sent for sent, _ in starts.values() if sent is not None] or [0.0])
    taken = {drone: (1000 * (sent - zero), 1000 * (heard - zero)) for drone, (sent, heard) in sorted(starts.items())
             if sent is not None and heard is not None}
    quiet = [names[drone] for drone in sorted(starts) if drone not in taken]
    out = ["%s can have taken its start from %.0f to %.0f ms" % (names[drone], *row) for drone, row in taken.items()]
    if quiet:
        return out + ["started, or not: %s: the start %s and wasn't answered" % (
            ", ".join(quiet), "was repeated" if repeated else "went out once")]
    sent_at, heard_at = zip(*taken.values())
    words = "starts were REPEATED, and a drone begins anew at each" if repeated else "each drone was sent one start"
    return out + ["%s; taken within %.0f ms of one another at most, %.0f at least" % (
        words, max(heard_at) - min(sent_at), max(0, max(sent_at) - min(heard_at)))]
