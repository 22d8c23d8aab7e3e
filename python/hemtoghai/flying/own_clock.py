"""A clock for simulated flights, whose time goes on only when everybody waits: one seed gives one flight, whatever else
the machine does.

Of all threads that are begun by it one runs at a time, until it waits; then the next one does that has something to do,
in the order in which they became ready. Where none has, the programs over pipes are waited for until they have read
what they were told, and said what they say to it. Then time goes on to the next instant for which somebody waits. It
goes at once, or where a speed is given no faster than so many seconds in a real one.
"""
import heapq
import math
import select
import signal
import threading
import time
from collections import deque
from typing import Callable, Deque, List, Optional, Tuple

from hemtoghai.flying import clock
from hemtoghai.flying.clock import Condition, Process, Work

FIRST, TICKS = 10 ** 9, 10 ** 6  # its first instant, in ticks, and how many of them are a second
LONGEST = 1e9  # seconds for which anybody waits
GLANCE = 0.02  # real seconds between two looks at what signals want, while it waits for real time


class Abandoned(BaseException):
    """The clock isn't used any more, and its threads end."""


class Actor:
    """A thread of a clock. It waits at its gate; `ticket` is another number for each time that it waits, by which an
    earlier reason to wake it is known to be none any more."""

    def __init__(self) -> None:
        self.gate, self.ticket, self.waits, self.number = threading.Lock(), 0, True, 0
        self.gate.acquire()


Ticket = Tuple[Actor, int]


class OwnCondition(Condition):
    def __init__(self, owner: "OwnClock") -> None:
        self.clock = owner
        self.waiting: List[Ticket] = []

    def __enter__(self) -> Condition:
        return self  # nobody else runs until this one waits

    def __exit__(self, *why: object) -> None:
        pass

    def wait_for(self, is_so: Callable[[], object], seconds: Optional[float] = None) -> bool:
        until = None if seconds is None else self.clock.after(seconds)
        while not is_so():
            if until is not None and self.clock.at >= until:
                return False
            self.waiting.append((self.clock.runs, self.clock.runs.ticket))
            self.clock.sleep(until)
        return True

    def notify_all(self) -> None:
        woken, self.waiting = self.waiting, []
        self.clock.ready.extend(woken)


class OwnClock(clock.Clock):
    """A time of its own, by whole ticks: `at` is how many there were. `runs` is the thread that runs, `first` the one
    that made the clock, `ready` are those that have something to do, `due` those that wait for an instant, and `calls`
    what signals want of the first one. `owed` is how long the simulated work of other threads takes, for which the one
    that had them do it waits."""

    def __init__(self, speed: float = 0.0) -> None:
        self.at, self.speed, self.real = FIRST, speed, 0.0
        self.first = self.runs = Actor()
        self.first.waits, self.first.number = False, threading.get_ident()
        self.ready: Deque[Ticket] = deque()
        self.due: List[Tuple[int, int, Actor, int]] = []
        self.count, self.owed, self.owing, self.is_over = 0, 0.0, threading.Lock(), False
        self.calls: Deque[Work] = deque()
        self.processes: List[Process] = []
        if threading.current_thread() is threading.main_thread() and (
                signal.getsignal(signal.SIGINT) is signal.default_int_handler):
            signal.signal(signal.SIGINT, lambda number, frame: clock.used().interrupt(
                lambda: signal.default_int_handler(number, frame)))

    # ---- as each clock

    def now(self) -> float:
        return self.at / TICKS

    def after(self, seconds: float) -> int:
        """The instant after these seconds, a tick later at least where they are more than none."""
        return self.at + max(0, math.ceil(min(seconds, LONGEST) * TICKS))

    def wait(self, seconds: float) -> None:
        until = self.after(seconds)
        self.sleep(until)
        while self.at < until:  # a signal wanted something before
            self.sleep(until)

    def condition(self) -> Condition:
        return OwnCondition(self)

    def begin(self, work: Work) -> None:
        actor = Actor()

        def run() -> None:
            actor.number = threading.get_ident()
            actor.gate.acquire()
            try:
                if not self.is_over:
                    work()
            except Abandoned:
                pass
            finally:
                if not self.is_over:
                    self.wake(self.next())
        threading.Thread(target=run, daemon=True).start()
        self.ready.append((actor, actor.ticket))

    def attend(self, process: Process) -> None:
        self.processes.append(process)

    def settle(self) -> bool:
        return any([process.settle() for process in list(self.processes)])

    def interrupt(self, call: Work) -> None:
        self.calls.append(call)

    def is_readable(self, number: int, seconds: float) -> bool:
        """The same. Where no speed is given, time stands still until somebody has written, or a signal came."""
        while not self.speed and not self.calls:
            if select.select([number], [], [], GLANCE)[0]:
                return True
        if not select.select([number], [], [], 0)[0]:
            self.wait(seconds)
        return bool(select.select([number], [], [], 0)[0])

    def patience(self, seconds: float) -> Optional[float]:
        return None  # however busy the machine is

    def owe(self, seconds: float) -> None:
        if threading.get_ident() == self.runs.number:
            self.wait(seconds)
            return
        with self.owing:
            self.owed += seconds

    def pay(self, shares: int) -> None:
        owed, self.owed = self.owed, 0.0
        if owed:
            self.wait(owed / shares)

    # ---- its threads

    def sleep(self, until: Optional[int]) -> None:
        """Has the thread that runs wait, until an instant where one is given, or it is woken before."""
        me = self.runs
        me.waits = True
        if until is not None:
            self.count += 1
            heapq.heappush(self.due, (until, self.count, me, me.ticket))
        other = self.next()
        self.wake(other)
        me.gate.acquire()
        if self.is_over:
            raise Abandoned
        while me is self.first and self.calls:
            self.calls.popleft()()

    def wake(self, actor: Actor) -> None:
        actor.ticket += 1
        actor.waits, self.runs = False, actor
        actor.gate.release()

    def next(self) -> Actor:
        """The thread that runs next, once nobody else does."""
        while True:
            if self.calls and self.first.waits:
                return self.first
            while self.ready:
                actor, ticket = self.ready.popleft()
                if ticket == actor.ticket and actor.waits:
                    return actor
            if self.settle():
                continue
            while self.due and self.due[0][3] != self.due[0][2].ticket:
                heapq.heappop(self.due)
            if not self.due:
                time.sleep(GLANCE)  # a program that says nothing, or a signal, is all that can come
            elif self.goes_to(self.due[0][0]):
                return heapq.heappop(self.due)[2]

    def goes_to(self, at: int) -> bool:
        """Goes on to an instant, unless a signal comes before."""
        if self.speed and at > self.at:
            # What was lost on a busy machine, or while somebody was asked, isn't made good.
            self.real = max(self.real, time.monotonic() - GLANCE)
            ends = self.real + (at - self.at) / TICKS / self.speed
            while time.monotonic() < ends:
                if self.calls:
                    return False
                time.sleep(min(GLANCE, max(0.0, ends - time.monotonic())))
            self.real = ends
        self.at = max(self.at, at)
        return True

    def leap(self, seconds: float) -> None:
        """So much time passes in which nothing here runs, as on a machine that stands still."""
        self.at = self.after(seconds)

    def end(self) -> None:
        """Has its threads end that wait."""
        self.is_over = True
        waiting = {actor for actor, _ in self.ready} | {row[2] for row in self.due}
        for actor in waiting:
            if actor.waits and actor is not self.first:
                actor.waits = False
                actor.gate.release()
