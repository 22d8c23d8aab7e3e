"""Links that ./show bridge carries packets over: what it asks of one, and a simulated one with simulated drones.

A link for real radios is another class with the calls of `Link`: flying/crazyradio.py is one, and says what was never
tried of it. The simulated drones are those of docs/RADIO.md, 'A drone'. Nothing here is proved.
"""
import argparse
import heapq
import random
from typing import Callable, List, Optional, Sequence, Tuple

from hemtoghai.flying import clock

MEMORY = 4096
ENTRIES = 10
READ, WRITE, COMMAND = 0x41, 0x42, 0x80  # ports and channels, without link bits
START = bytes([0, 0, 0x80, 0x3F])  # the one time scale that a drone starts with

Key = Tuple[int, bytes]  # what a packet and its answer have in common
Heard = Callable[[int, bytes], None]


def key_of(raw: bytes, is_answer: bool) -> Optional[Key]:
    """What a packet of an upload and its answer have in common, or None where the bytes are neither."""
    port, data = raw[0] & 0xF3, raw[1:]
    if port in (READ, WRITE) and len(data) >= 6:
        return port, bytes(data[:5])
    if port == COMMAND and (len(data) >= 4 if is_answer else len(data) >= 9 and data[0] in (5, 6)):
        return port, bytes(data[:3])
    return None


def words_of(packet: bytes) -> str:
    """What a packet of an upload does, for people."""
    if packet[0] & 0xF3 == COMMAND:
        return "%s of trajectory %d" % (("start", packet[5]) if packet[1] == 5 else ("define", packet[2]))
    address = int.from_bytes(packet[2:6], "little")
    if packet[0] & 0xF3 == WRITE:
        return "write of %d bytes to address %d of memory %d" % (len(packet) - 6, address, packet[1])
    return "read of %d bytes at address %d of memory %d" % (packet[6], address, packet[1])


class Link:
    """What a bridge asks of a link. Drones are numbered from 0, in the order of the show.

    `answer_time` is the seconds in which an answer comes as a rule, once its packet has left. `left` counts the packets
    that have left, of those that were handed to `send`. `heard`, a function of a drone and its packet, is called for
    each packet that comes from a drone, from any thread. A link may lose, repeat, delay and reorder packets. It may
    neither alter them nor make any up.
    """
    answer_time = 0.1

    def __init__(self, names: Sequence[str], heard: Heard) -> None:
        self.names, self.heard, self.left = names, heard, 0

    def send(self, drone: int, packet: bytes) -> None:
        """Takes a packet for a drone; returns at once."""
        raise NotImplementedError

    def close(self) -> None:
        """Ends the link; nothing is heard after it."""

    def report(self) -> List[str]:
        """Lines on what the link did, for people."""
        return []

    def ailing(self) -> Optional[str]:
        """Why the link can't go on, or None: then the upload is ended at once."""
        return None


class Drone:
    """A drone: its memory's id and bytes, its table of trajectories, (offset, pieces) or None, and what it started."""

    def __init__(self, memory_id: int) -> None:
        self.memory_id, self.memory = memory_id, bytearray(b"\xFF" * MEMORY)
        self.table: List[Optional[Tuple[int, int]]] = [None] * ENTRIES
        self.started: Optional[int] = None

    def take(self, packet: bytes) -> Optional[bytes]:
        """Carries a packet out; the answer, or None where the packet has none."""
        port, payload = packet[0] & 0xF3, packet[1:]
        head = bytes([port | 0x0C])  # the link bits are written as 3
        if port in (READ, WRITE) and len(payload) >= 6:
            address, data = int.from_bytes(payload[1:5], "little"), payload[5:]
            length = len(data) if port == WRITE else data[0]
            is_held = address + length <= MEMORY and (port == WRITE or 1 <= length <= 20)
            status = 2 if payload[0] != self.memory_id else 0 if is_held else 5
            if port == WRITE and status == 0:
                self.memory[address:address + length] = data
            held = self.memory[address:address + length] if port == READ and status == 0 else b""
            return head + payload[:5] + bytes([status]) + held
        if port == COMMAND and len(payload) >= 9 and payload[0] in (5, 6):
            return head + payload[:3] + bytes([self.define(payload) if payload[0] == 6 else self.start(payload)])
        return None

    def define(self, payload: bytes) -> int:
        """Puts an entry into the table; the status."""
        offset = int.from_bytes(payload[4:8], "little")
        if payload[1] >= ENTRIES or payload[2] != 1 or payload[3] != 1:
            return 2
        if offset >= MEMORY:
            return 5
        self.table[payload[1]] = offset, payload[8]
        return 0

    def start(self, payload: bytes) -> int:
        """Starts a trajectory; the status."""
        number = payload[4]
        if any(payload[1:4]) or payload[5:9] != START or number >= ENTRIES or self.table[number] is None:
            return 2
        self.started = number
        return 0


class SimulatedLink(Link):
    """A link to simulated drones that loses, repeats, delays and reorders packets both ways. Each packet takes its turn
    at `rate` packets a second, and then between one and two times `delay` seconds."""

    def __init__(self, names: Sequence[str], heard: Heard, drones: Sequence[Drone],
                 options: argparse.Namespace) -> None:
        super().__init__(names, heard)
        self.drones, self.options, self.chance = drones, options, random.Random(options.seed)
        self.answer_time = max(0.005, 5 * options.delay / 1000, 2 / options.rate)
        self.counts = dict.fromkeys(("down", "up", "lost", "again", "late"), 0)
        self.under_way: List[Tuple[float, int, str, int, bytes]] = []
        self.number, self.free_at, self.open, self.is_new = 0, 0.0, True, False
        self.changed = clock.used().condition()
        self.task = clock.Task(self.run)

    def send(self, drone: int, packet: bytes) -> None:
        with self.changed:
            self.free_at = max(self.free_at, clock.now()) + 1 / self.options.rate
            self.put(self.free_at, "leave", drone, packet)
            self.is_new = True
            self.changed.notify_all()

    def put(self, at: float, what: str, drone: int, packet: bytes) -> None:
        """Notes what happens at an instant; what is noted first comes first among equals."""
        self.number += 1
        heapq.heappush(self.under_way, (at, self.number, what, drone, packet))

    def fly(self, what: str, drone: int, packet: bytes) -> None:
        """Sends a packet through the air: it is lost, or arrives once or more."""
        options, counts = self.options, self.counts
        counts[what] += 1
        if self.chance.random() * 100 < options.loss:
            counts["lost"] += 1
            return
        while True:
            wait = options.delay / 1000 * (1 + self.chance.random())
            if self.chance.random() * 100 < options.late:
                counts["late"] += 1
                wait += 20 * options.delay / 1000 * self.chance.random()
            self.put(clock.now() + wait, what, drone, packet)
            if self.chance.random() * 100 >= options.again:
                return
            counts["again"] += 1

    def run(self) -> None:
        with self.changed:
            while self.open:
                wait, self.is_new = self.under_way[0][0] - clock.now() if self.under_way else None, False
                if wait is None or wait > 0:
                    self.changed.wait_for(lambda: self.is_new or not self.open, wait)
                    continue
                _, _, what, drone, packet = heapq.heappop(self.under_way)
                if what == "leave":
                    self.left += 1
                    self.fly("down", drone, packet)
                elif what == "down":
                    answer = self.drones[drone].take(packet)
                    if answer is not None:
                        self.fly("up", drone, bytes(answer))
                else:
                    self.heard(drone, packet)

    def close(self) -> None:
        with self.changed:
            self.open = False
            self.changed.notify_all()
        self.task.join()

    def report(self) -> List[str]:
        words = "simulated link, seed %d: %d packets to drones, %d answers back; %d of them lost, %d repeated, %d late"
        return [words % (self.options.seed, *(self.counts[it] for it in ("down", "up", "lost", "again", "late")))]
