"""The clock of the tools that fly, and all that waits by it: real time with real drones, and a time of its own with
simulated ones (flying/own_clock.py), which goes on only when everybody waits.

Nothing else in the package that flies asks the machine for the time, or waits for it. What waits does so by a condition
here, or by a queue, an event or a task that is made of one.
"""
import contextlib
import os
import select
import threading
import time
from collections import deque
from typing import Callable, Deque, Generic, List, Optional, Protocol, TypeVar

Item = TypeVar("Item")
Work = Callable[[], object]


class Empty(Exception):
    """Nothing came into a queue in time."""


class Condition:
    """What may change, and who waits for it, in real time. In a `with` of it one thread alone is at work."""

    def __init__(self) -> None:
        self.real = threading.Condition()

    def __enter__(self) -> "Condition":
        self.real.__enter__()
        return self

    def __exit__(self, *why: object) -> None:
        self.real.release()

    def wait_for(self, is_so: Callable[[], object], seconds: Optional[float] = None) -> bool:
        """Waits until something is so, but no longer than these seconds; whether it is."""
        return bool(self.real.wait_for(lambda: bool(is_so()), seconds))

    def notify_all(self) -> None:
        """Has all look who wait."""
        self.real.notify_all()


class Process(Protocol):
    """A program over pipes."""

    def listen(self) -> None:
        """Reads what it says, to its end."""

    def settle(self) -> bool:
        """Waits, in real time, until it waits for more; whether it said something."""


class Clock:
    """Real time, and threads as they are."""

    def now(self) -> float:
        return time.monotonic()

    def wait(self, seconds: float) -> None:
        time.sleep(max(0.0, seconds))

    def condition(self) -> Condition:
        return Condition()

    def begin(self, work: Work) -> None:
        """Has a thread do some work."""
        threading.Thread(target=work, daemon=True).start()

    def attend(self, process: Process) -> None:
        """Has what a process says read, to its end."""
        self.begin(process.listen)

    def settle(self) -> bool:
        """Waits until all processes wait for more: in real time they aren't waited for. Whether one said something."""
        return False

    def interrupt(self, call: Work) -> None:
        """Calls what a signal wants, in the first thread."""
        call()

    def is_readable(self, number: int, seconds: float) -> bool:
        """Whether a file has something to read by then."""
        return bool(select.select([number], [], [], seconds)[0])

    def patience(self, seconds: float) -> Optional[float]:
        """For how many real seconds a program is waited for."""
        return seconds

    def owe(self, seconds: float) -> None:
        """Notes that simulated work took so long: real work takes its time by itself."""

    def pay(self, shares: int) -> None:
        """Waits for what is owed, of which so many shares were side by side."""


REAL = Clock()
_used: List[Clock] = [REAL]


def use(clock: Clock) -> None:
    """What is made from now on goes by this clock."""
    _used[0] = clock


def used() -> Clock:
    return _used[0]


def now() -> float:
    """Seconds since some instant."""
    return _used[0].now()


def wait(seconds: float) -> None:
    _used[0].wait(seconds)


def wait_for(is_so: Callable[[], bool], seconds: float) -> None:
    """Waits until something is so, but no longer than these seconds, and looks every 50 ms."""
    until = now() + seconds
    while now() < until and not is_so():
        wait(0.05)


class Queue(Generic[Item]):
    """What is handed from thread to thread, in its order; where `most` is given, no more wait in it."""

    def __init__(self, most: Optional[int] = None) -> None:
        self.items: Deque[Item] = deque()
        self.most, self.changed = most, used().condition()

    def put(self, item: Item, seconds: Optional[float] = None) -> bool:
        """Puts it in, where there is room by then; whether there was."""
        with self.changed:
            if not self.changed.wait_for(lambda: self.most is None or len(self.items) < self.most, seconds):
                return False
            self.items.append(item)
            self.changed.notify_all()
            return True

    def get(self, seconds: Optional[float] = None) -> Item:
        """The next one; raises Empty where none comes by then."""
        with self.changed:
            if not self.changed.wait_for(lambda: self.items, seconds):
                raise Empty
            item = self.items.popleft()
            self.changed.notify_all()
            return item

    def is_empty(self) -> bool:
        return not self.items

    def clear(self) -> None:
        with self.changed:
            self.items.clear()
            self.changed.notify_all()


class Event:
    """What happens once."""

    def __init__(self) -> None:
        self.is_set, self.changed = False, used().condition()

    def set(self) -> None:
        with self.changed:
            self.is_set = True
            self.changed.notify_all()

    def wait(self, seconds: Optional[float] = None) -> bool:
        """Waits for it, but no longer than that; whether it happened."""
        with self.changed:
            return self.changed.wait_for(lambda: self.is_set, seconds)


class Task:
    """Work that a thread of its own does, from now on."""

    def __init__(self, work: Work) -> None:
        self.work, self.over = work, Event()
        used().begin(self.run)

    def run(self) -> None:
        try:
            self.work()
        finally:
            self.over.set()

    def is_alive(self) -> bool:
        return not self.over.is_set

    def join(self, seconds: Optional[float] = None) -> None:
        """Waits until it is done, but no longer than that."""
        self.over.wait(seconds)


class Bell:
    """What a signal's handler may ring, once, whatever its thread was doing."""

    def __init__(self) -> None:
        self.event, self.pipe = Event(), os.pipe() if used() is REAL else None

    def ring(self) -> None:
        if self.pipe:
            os.write(self.pipe[1], b"!")
        else:
            self.event.set()

    def wait(self) -> None:
        """Waits until it is rung."""
        if self.pipe:
            with contextlib.suppress(OSError):
                os.read(self.pipe[0], 1)
        else:
            self.event.wait()


def in_real_time(is_so: Callable[[], bool], seconds: float) -> None:
    """Waits for what is none of a flight, as a terminal is: in real time, until something is so, but not for long."""
    until = time.monotonic() + seconds
    while not is_so() and time.monotonic() < until:
        time.sleep(0.005)
