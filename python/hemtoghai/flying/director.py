"""The proved program's `direct` as a process: it hears what happens, and says what is to be done. For ./show fly.

Its frames are those of docs/PROMISES.md, 'Its frames'. Nothing is decided here: what is written and what is read is
handed on. The process has a group of its own, since Ctrl-C at a terminal ends all that the terminal's group has.
"""
import io
import os
import struct
import subprocess
import threading
from typing import IO, Iterator, List, NamedTuple, Optional, Sequence, Tuple, Union

from hemtoghai import program
from hemtoghai.flying import clock
from hemtoghai.flying.piped import Piped

CLOCK, SAMPLE, ANSWER, SIGNAL = 1, 2, 3, 4  # the first bytes of what it hears
GO, LAND, STOP = 0, 1, 2  # the crew's words
READY, ARMED, LOST, DOWN, FLYING, SURE = 1, 2, 4, 8, 16, 32  # the flags of a sample
TO_ONE, TO_ALL, NOTE, OVER, CAUSE, END = 1, 2, 3, 4, 5, 0x45  # the first bytes of what it says
ARM, RISE, GO_TO, SINK, START, HALT, DISARM, GROUP = range(8)  # orders
# What follows the first byte of a frame, and of an order, in the forms of `struct`.
FRAMES = {TO_ONE: "B", TO_ALL: "", NOTE: "BB", OVER: "B", CAUSE: "BBBH", END: "B"}
ORDERS = {ARM: "", RISE: "hI", GO_TO: "hhhhI", SINK: "hI", START: "B", HALT: "", DISARM: "", GROUP: "B"}
FAULTS = "silent", "astray", "lost", "refused", "late", "unsure", "outside", "uncovered"  # by their numbers
SILENT, ASTRAY, WRONG, REFUSED, LATE, UNSURE, OUTSIDE, UNCOVERED = range(len(FAULTS))  # WRONG is `lost`
NOT_FLOWN = 8  # the status of a flight to whose director nothing happened
MOST_MS, MOST_AGE, MOST_MM = 65535, 65535, 32767
HANGS = 5.0  # seconds for which the process may read nothing of what waits for it
LONGEST = 600.0  # seconds in which it has judged three shows
MARKER = b"%%\n"


class Order(NamedTuple):
    """What a drone is to do; `at` is x, y, z and yaw, or a height alone, in millimetres and tenths of a degree, and
    `group` the mask of the group that a start is for, or a drone is put into."""
    kind: int
    at: Tuple[int, ...] = ()
    milliseconds: int = 0
    group: int = 0


class To(NamedTuple):
    """An order to a drone, or to all where that is None."""
    drone: Optional[int]
    order: Order


class Noted(NamedTuple):
    """A fault of a drone, or with the number of drones of none."""
    drone: int
    fault: int


class Over(NamedTuple):
    """The flight's end: whether it was flown, and whether the show was kept besides."""
    is_flown: bool
    is_kept: bool


class Cause(NamedTuple):
    """Why three shows are no flight: a number, which way or seam, and the drone and the cue."""
    number: int
    where: int
    drone: int
    cue: int


class Ended(NamedTuple):
    """The process's end: the status of its end frame, or None where it ended without one, or said what is no frame."""
    status: Optional[int]


Said = Union[To, Noted, Over, Cause, Ended]


def numbers_of(stream: IO[bytes], form: str) -> Tuple[int, ...]:
    """The numbers that follow in a form of `struct`; raises struct.error where there are fewer."""
    return struct.unpack("<" + form, stream.read(struct.calcsize("<" + form)))


def order_of(stream: IO[bytes]) -> Order:
    """The order that follows; raises struct.error or KeyError where none does."""
    kind, = numbers_of(stream, "B")
    numbers = numbers_of(stream, ORDERS[kind])
    if kind in (START, GROUP):
        return Order(kind, group=numbers[0])
    *at, milliseconds = numbers or (0,)
    return Order(kind, tuple(at), milliseconds)


def said_by(stream: IO[bytes]) -> Said:
    """The next frame of the director; raises struct.error or KeyError where there is none."""
    kind, = numbers_of(stream, "B")
    numbers = numbers_of(stream, FRAMES[kind])
    if kind in (TO_ONE, TO_ALL):
        return To(numbers[0] if numbers else None, order_of(stream))
    if kind == OVER:
        return Over(bool(numbers[0] & 1), bool(numbers[0] & 2))
    if kind == NOTE and numbers[1] >= len(FAULTS):
        raise KeyError(numbers[1])
    return Noted(*numbers) if kind == NOTE else Cause(*numbers) if kind == CAUSE else Ended(*numbers)


def sample(drone: int, age: float, place: Sequence[float], flags: int) -> bytes:
    """The frame of a sample: its age in milliseconds, its place in millimetres."""
    at = [min(MOST_MM, max(-MOST_MM, round(v))) for v in place]
    return struct.pack("<BBHhhhB", SAMPLE, drone, min(MOST_AGE, max(0, round(age))), *at, flags)


def clock_frames(milliseconds: int) -> bytes:
    """The frames of so much time that passed."""
    out = b""
    while milliseconds > 0:
        part = min(MOST_MS, milliseconds)
        out, milliseconds = out + struct.pack("<BH", CLOCK, part), milliseconds - part
    return out


def answer(drone: int, status: int) -> bytes:
    """The frame of a drone's answer: 0 where it obeys."""
    return bytes([ANSWER, drone, status])


def signal(word: int) -> bytes:
    """The frame of a word of the crew."""
    return bytes([SIGNAL, word])


class Director(Piped):
    """The process over its pipes. `is_well` is whether it still takes what is written, and `since` when it last had
    read all of it; what it says waits in a queue."""

    def __init__(self, words: Sequence[str], texts: Sequence[bytes]) -> None:
        """Raises program.Unusable or OSError where it can't be started."""
        self.waiting, self.since, self.is_well, self.lock = b"", clock.now(), True, threading.Lock()
        self.said: "clock.Queue[Said]" = clock.Queue()
        self.held, self.is_through, self.has_news = b"", False, False
        super().__init__([program.runs(), "direct", *words], stderr=subprocess.DEVNULL, start_new_session=True)
        self.writes_to = self.input.fileno()
        # What it has to read before a flight is written however long it judges that.
        self.hear(b"".join(text + (b"" if text.endswith(b"\n") else b"\n") + MARKER for text in texts))
        os.set_blocking(self.writes_to, False)

    def hear(self, frames: bytes) -> None:
        """Writes frames, as far as the process takes them now; the rest waits."""
        with self.lock:
            self.waiting += frames
            try:
                while self.is_well and self.waiting:
                    self.was_told = True
                    self.waiting = self.waiting[os.write(self.writes_to, self.waiting):]
            except BlockingIOError:
                pass
            except (OSError, ValueError):
                self.is_well = False

    def is_free(self) -> bool:
        """Whether it has read all that was written. It isn't well where it hasn't for too long."""
        self.hear(b"")
        if not self.is_well:
            return False
        clock.used().settle()
        if self.unread() or self.waiting:
            self.is_well = self.is_well and clock.now() - self.since < HANGS
            return False
        self.since = clock.now()
        return True

    def says(self) -> Iterator[Said]:
        while not self.said.is_empty():
            yield self.said.get()

    def wait(self, seconds: float) -> Optional[Said]:
        """The next that it says within so many seconds, or None."""
        try:
            return self.said.get(seconds)
        except clock.Empty:
            return None

    def stir(self) -> None:
        """Has somebody look who rests: there is something to tell it."""
        with self.said.changed:
            self.has_news = True
            self.said.changed.notify_all()

    def rest(self, least: float, most: float) -> None:
        """Waits until it says something; after the least of these seconds also until there is something to tell it."""
        with self.said.changed:
            if not self.said.changed.wait_for(lambda: self.said.items, least):
                self.said.changed.wait_for(lambda: self.said.items or self.has_news, most - least)
            self.has_news = False

    def take(self, data: bytes) -> None:
        """Takes frames as far as they are whole. What is none, and what is cut off, is its end."""
        self.held += data
        while not self.is_through:
            stream = io.BytesIO(self.held)
            try:
                said = said_by(stream)
            except (struct.error, KeyError) as fault:
                if data and isinstance(fault, struct.error):
                    return
                said = Ended(None)
            self.held, self.is_through = stream.read(), isinstance(said, Ended)
            self.said.put(said)

    def close_input(self) -> None:
        """Ends its input: it lands nobody then, and ends."""
        self.is_well = False
        super().close_input()


def judged(director: Director) -> List[Said]:
    """What a director says where nothing happens: three texts that are a flight have an end without a cause."""
    out: List[Said] = []
    try:
        director.close_input()
        while not out or not isinstance(out[-1], Ended):
            said = director.wait(LONGEST)
            out.append(Ended(None) if said is None else said)
    finally:
        director.kill()
    return out
