"""An upload by the proved program, over pipes: its process, what goes by, the pace of its ticks, and the loop that
carries packets between it and a link. Shared by ./show bridge and ./show fly; nothing here is proved.
"""
import contextlib
import os
from typing import Any, Callable, Dict, List, Optional, Sequence, Set, Tuple

from hemtoghai import program as proved
from hemtoghai.companion import stop
from hemtoghai.flying import clock
from hemtoghai.flying.links import COMMAND, Heard, Key, key_of, Link, READ, words_of, WRITE
from hemtoghai.flying.piped import Piped
from hemtoghai.language.choreo import Flown

TICK, PACKET, END = 0x54, 0x50, 0x45
LONGEST = 200  # bytes of what is no frame that are kept
GIVES_UP = 20  # ticks for which a packet is in flight; at each but the last it is sent
ENDS = {0: "done: each drone has what it is to fly", 3: "the show is faulty", 4: "the show has no room in a drone",
        5: "two drones of the show come too close", 6: "the program could not read", 8: "stopped before its end",
        9: "given up: a packet had no good answer for twenty ticks", 10: "refused by a drone",
        11: "the program was given a faulty byte", 13: "given up: 4,000,000 frames",
        14: "a drone's memory holds something else"}


Events = clock.Queue[Tuple[Any, ...]]  # what comes: a word, and what belongs to it
Tell = Callable[[str], None]


class Host(Piped):
    """The program's `upload` over pipes. What it sends comes by `events`: ("packet", drone, bytes), ("end", status),
    and ("closed", bytes that are no frame) where it ends without an end frame."""

    def __init__(self, command: List[str], text: bytes, events: Events) -> None:
        self.events, self.held, self.is_through = events, b"", False
        try:
            if os.path.abspath(command[0]) == proved.PROGRAM:
                command = [proved.runs(), *command[1:]]
        except proved.Unusable as why:
            stop(str(why))
        try:
            super().__init__(command)
        except OSError as error:
            stop("%s: %s" % (command[0], error.strerror))
        self.write(text + (b"" if text.endswith(b"\n") or not text else b"\n") + b"%%\n")

    def write(self, data: bytes) -> None:
        """Writes to the program; where it has ended, its end frame is under way."""
        self.was_told = True
        with contextlib.suppress(BrokenPipeError, ValueError):
            while data:
                data = data[self.input.write(data):]

    def tick(self) -> None:
        self.write(bytes([TICK]))

    def hear(self, drone: int, packet: bytes) -> None:
        """A packet that came from a drone; none longer than a packet may be can come."""
        if 1 <= len(packet) <= 31:
            self.write(bytes([PACKET, drone + 1, len(packet)]) + packet)

    def take(self, data: bytes) -> None:
        """Takes frames, and puts them into `events`, to the end."""
        self.held += data
        while self.held[:1] == bytes([PACKET]) and len(self.held) > 2 and len(self.held) >= 3 + self.held[2]:
            size = 3 + self.held[2]
            self.events.put(("packet", self.held[1] - 1, self.held[3:size]))
            self.held = self.held[size:]
        front, is_cut = self.held[:1], not data
        is_none = front not in (b"", bytes([PACKET]), bytes([END])) and len(self.held) >= LONGEST
        if self.is_through:
            return
        if front == bytes([END]) and len(self.held) > 1:
            self.events.put(("end", self.held[1]))
        elif is_cut or is_none:
            self.events.put(("closed", self.held[:LONGEST]))
        else:
            return
        self.is_through = True

    def end(self) -> int:
        """Ends the program's input, so that an upload that is still going ends with 8, and waits for it; its status."""
        self.close_input()
        self.is_over.wait()
        return self.process.wait()


class Traffic:
    """What went by in an upload: each drone's packets by their keys, in the order in which the program first sent
    them, which is that of their numbers; how often each was sent; and which had a good answer. `wanted` is how many
    each is to have, for people. `refused` is the first answer that ended the upload with 10, `differs` that with 14."""

    def __init__(self, names: Sequence[str], wanted: Sequence[int]) -> None:
        self.names, self.wanted = names, wanted
        self.packets: List[Dict[Key, bytes]] = [{} for _ in names]
        self.times: List[Dict[Key, int]] = [{} for _ in names]
        self.good: List[Set[Key]] = [set() for _ in names]
        self.held: List[Dict[int, int]] = [{} for _ in names]
        self.refused: Optional[Tuple[int, Key, int]] = None
        self.differs: Optional[Tuple[int, Key, int, Optional[int], int]] = None
        self.begun: Optional[float] = None
        self.ended: Optional[float] = None

    def sent(self, drone: int, packet: bytes) -> None:
        self.begun = self.begun or clock.now()
        key = key_of(packet, False)
        if key is None:
            return
        self.packets[drone].setdefault(key, packet)
        self.times[drone][key] = self.times[drone].get(key, 0) + 1
        if key[0] == WRITE:
            address = int.from_bytes(packet[2:6], "little")
            self.held[drone].update(enumerate(packet[6:], address))

    def heard(self, drone: int, raw: bytes) -> None:
        """An answer goes to the program, which judges it as docs/RADIO.md says."""
        key = key_of(raw, True)
        packet = None if key is None else self.packets[drone].get(key)
        if packet is None or key is None or key in self.good[drone]:
            return
        status = raw[4] if key[0] == COMMAND else raw[6]
        if key[0] == READ and status == 0:
            if len(raw) - 7 != packet[6]:
                return
            address = int.from_bytes(packet[2:6], "little")
            for at, byte in enumerate(raw[7:], address):
                if byte != self.held[drone].get(at):
                    self.differs = self.differs or (drone, key, at, self.held[drone].get(at), byte)
                    return
        if status:
            self.refused = self.refused or (drone, key, status)
        else:
            self.good[drone].add(key)

    def seconds(self) -> float:
        """How long it took from the first packet to the end, or now."""
        return 0.0 if self.begun is None else (self.ended or clock.now()) - self.begun

    def line(self) -> str:
        return "%.0f s: %s" % (self.seconds(), ", ".join(
            "%s %d/%d" % row for row in zip(self.names, map(len, self.good), self.wanted)))

    def about(self, drone: int, key: Key, words: str = "") -> str:
        """A drone, a packet's number and what it is; after words how often it was sent."""
        times = self.times[drone][key]
        return "%s, packet %d: %s%s" % (
            self.names[drone], list(self.packets[drone]).index(key), words_of(self.packets[drone][key]),
            words and "%s, sent %s" % (words, "once" if times == 1 else "%d times" % times))

    def end_lines(self, status: Optional[int]) -> List[str]:
        """Which drone, packet and address an end is about."""
        if status == 10 and self.refused:
            drone, key, answer = self.refused
            return ["%s was answered with status %d" % (self.about(drone, key), answer)]
        if status == 14 and self.differs:
            drone, key, at, wanted, got = self.differs
            return ["%s: address %d holds %02X, and %s is wanted" % (
                self.about(drone, key), at, got, "nothing" if wanted is None else "%02X" % wanted)]
        rows = [(drone, key) for drone, packets in enumerate(self.packets) for key in packets
                if key not in self.good[drone]]  # without a good answer, in the order of their numbers
        if status == 9 and rows:
            late = [row for row in rows if self.times[row[0]][row[1]] >= GIVES_UP]
            row = late[0] if late else max(rows, key=lambda it: self.times[it[0]][it[1]])
            return [self.about(*row, " had no good answer")]
        firsts = dict(reversed(rows)) if status == 8 else {}  # the first of each drone
        return [self.about(*row, " is open") for row in sorted(firsts.items())]


class Pace:
    """When to tick. A packet that is still in the link, or whose answer may still come, isn't lost, and a tick would
    send it once more. So it is time where all packets have left and nothing came for an answer's time. Where some
    drones go on and one stands still for longer, it is time once eight packets went for each that a tick repeats. A
    link from which nothing leaves any more is ticked all the same, so that the program gives up."""
    STUCK = 10  # answer times after which a packet that is still in the link counts as gone
    ROUNDS, PATIENCE = 8, 5  # packets for each that a tick repeats, and answer times, where only some stand still

    def __init__(self, answer_time: float, traffic: Traffic) -> None:
        now = clock.now()
        self.answer_time, self.traffic, self.ticks = answer_time, traffic, 0
        self.handed, self.at_tick, self.left, self.moved = 0, 0, 0, now
        self.last = [0] * len(traffic.names)
        self.since: List[Optional[float]] = [now] * len(traffic.names)

    def step(self) -> float:
        """The seconds after which to look again."""
        return max(0.001, self.answer_time / 5)

    def gives(self, drone: int) -> None:
        self.handed += 1
        self.last[drone], self.since[drone] = self.handed, None

    def hears(self, drone: int) -> None:
        if self.since[drone] is not None:
            self.since[drone] = clock.now()

    def look(self, left: int) -> None:
        """Notes how many packets have left the link."""
        if left == self.left and None not in self.since:
            return
        now = clock.now()
        if left != self.left:
            self.left, self.moved = left, now
        for drone, since in enumerate(self.since):
            if since is None and (self.last[drone] <= left or now > self.moved + self.STUCK * self.answer_time):
                self.since[drone] = now

    def is_due(self, left: int) -> bool:
        """Whether it is time for a tick, where this many packets have left the link."""
        self.look(left)
        now = clock.now()
        counts = [len(packets) - len(good) for packets, good in zip(self.traffic.packets, self.traffic.good)]
        wait = self.answer_time if any(counts) else self.STUCK * self.answer_time
        still = [0.0 if since is None else now - since for since in self.since]
        rows = [it for it, count in zip(still, counts) if count] or still
        is_enough = self.handed - self.at_tick >= self.ROUNDS * sum(counts) and max(rows) >= self.PATIENCE * wait
        if min(rows) < wait and not is_enough:
            return False
        self.ticks, self.at_tick = self.ticks + 1, self.handed
        self.since = [None if since is None else now for since in self.since]
        return True


class Carrying:
    """Carries packets between the program and a link until the program ends. `status` is that of its end frame, if it
    ended with one, `rest` what else it wrote, and `fault` why the upload was stopped from here, or None."""

    def __init__(self, host: Host, link: Link, events: Events, tick: Optional[float], traffic: Traffic,
                 tell: Optional[Tell] = None) -> None:
        self.host, self.link, self.events, self.traffic, self.tell = host, link, events, traffic, tell
        self.pace = Pace(link.answer_time if tick is None else tick / 1000, traffic)
        self.rest, self.done, self.told, self.next = b"", False, 1, 0.0
        self.status: Optional[int] = None
        self.fault: Optional[str] = None

    def stop(self, why: str) -> None:
        """Ends the upload: the program is told that nothing comes any more, and ends it with 8."""
        if self.fault:
            raise KeyboardInterrupt
        self.fault = why
        self.host.close_input()

    def step(self) -> None:
        what, rest = "nothing", list[Any]()
        with contextlib.suppress(clock.Empty):
            what, *rest = self.events.get(self.pace.step() if self.traffic.begun else None)
        if what in ("end", "closed"):
            self.status, self.rest = (rest[0], b"") if what == "end" else (None, rest[0])
            self.traffic.ended, self.done = clock.now(), True
        elif self.fault:
            return
        elif what == "packet":
            drone, packet = rest
            if drone >= len(self.link.names):
                stop("the program sends to drone %d, and the show has %d" % (drone + 1, len(self.link.names)))
            self.traffic.sent(drone, packet)
            self.pace.gives(drone)
            self.link.send(drone, packet)
        elif what == "heard":
            self.traffic.heard(*rest)
            self.pace.hears(rest[0])
            self.host.hear(*rest)
        self.look()

    def look(self) -> None:
        """Ticks where it is time, looks whether the link is well, and says how far the drones are."""
        now = clock.now()
        if self.done or self.fault or not self.traffic.begun or now < self.next:
            return
        self.next = now + self.pace.step()
        if self.pace.is_due(self.link.left):
            self.host.tick()
        ailing = self.link.ailing()
        if ailing:
            self.stop(ailing)
        if self.tell and self.traffic.seconds() >= self.told:
            self.told = int(self.traffic.seconds()) + 1
            self.tell(self.traffic.line())


def uploaded(command: List[str], text: bytes, link_of: Callable[[Heard], Link], traffic: Traffic,
             tick: Optional[float], tell: Tell) -> Tuple[Carrying, int]:
    """Uploads a show by a program over a link that is made and closed here: what was carried, and the program's own
    status. Ctrl-C stops the upload, the second one this loop."""
    events: Events = clock.Queue()

    def heard(drone: int, packet: bytes) -> None:
        events.put(("heard", drone, packet))
    link, host = link_of(heard), None
    try:
        host = Host(command, text, events)
        carrying = Carrying(host, link, events, tick, traffic, tell)
        while not carrying.done:
            try:
                carrying.step()
            except KeyboardInterrupt:
                carrying.stop("Ctrl-C")
        return carrying, host.end()
    finally:
        if host:
            host.kill()
        link.close()


def wanted_packets(flown: Flown, start: bool, readback: bool) -> List[int]:
    """How many packets each drone is to have: writes, a define, with read-back its reads, and maybe a start."""
    return [-(-len(data) // 24) + 1 + (-(-len(data) // 20) if readback else 0) + bool(start) for data in flown.data()]
