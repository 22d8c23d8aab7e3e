"""The crew at a terminal: lines for it, its answers, and Ctrl-C. For ./show fly.

Nothing here holds up a flight: lines are written by a thread of their own, so that a terminal that stands still
(Ctrl-S, a pager) or is gone keeps nothing from landing.
"""
import atexit
import contextlib
import os
import queue
import signal
import threading
import termios
from typing import Callable, List, Optional

from hemtoghai import streams
from hemtoghai.flying import clock
from hemtoghai.flying.crazyradio import Trouble


class Interrupted(BaseException):
    """Ctrl-C, or another signal that ends programs. No `except Exception` catches it."""


class Cut(BaseException):
    """A second Ctrl-C in flight: all motors are to stop."""


class Watch:
    """What the crew presses and types, and a terminal that is closed.

    On the ground a signal raises `Interrupted` at once, the first time. In flight it is only noted: nothing is broken
    off in the middle, `look` raises it where the flight looks, every 50 ms, and all land; where all land already it
    says so. The second Ctrl-C since take-off stops the motors: `stop_motors` is called by a thread of its own, whatever
    the flight does at that moment, and `look` raises `Cut`. No other signal does: what ends programs sends more than
    one, and none of them may stop motors. Ctrl-Z does nothing, since a program that stands still lands nobody. It is
    told once drones fly, once all land, and once it is `over`: from then on a signal does nothing."""

    def __init__(self, says_yes: bool = False) -> None:
        self.says_yes, self.answers = says_yes, Answers()
        self.flies, self.lands, self.was_pressed, self.presses, self.over = False, False, False, 0, False
        self.is_answered = False  # whether the crew was told what the first signal did
        self.stop_motors: Callable[[], None] = lambda: None
        self.bell = clock.Bell()
        clock.Task(self.wait_for_cut)
        for number in (signal.SIGINT, signal.SIGTERM, signal.SIGHUP, signal.SIGQUIT):
            signal.signal(number, lambda number, _: clock.used().interrupt(lambda: self.pressed(number)))
        for number in (signal.SIGTSTP, signal.SIGTTIN, signal.SIGTTOU):
            signal.signal(number, signal.SIG_IGN)

    def pressed(self, number: int) -> None:
        if self.over:
            return
        before, self.was_pressed = self.was_pressed, True
        if self.flies and number == signal.SIGINT:
            self.presses += 1
            if self.presses == 2:
                self.bell.ring()
        elif not self.flies and not before:
            raise Interrupted

    def wait_for_cut(self) -> None:
        self.bell.wait()
        self.stop_motors()

    def look(self) -> None:
        """Raises what was pressed in flight, as far as it still changes something."""
        if self.over or not self.was_pressed:
            return
        if self.flies and self.presses >= 2:
            raise Cut
        if not self.lands:
            self.is_answered = True
            raise Interrupted
        if not self.is_answered:
            say("the landing goes on; %s" % self.stops())
        self.is_answered = True

    def confirm(self, text: str, look: Optional[Callable[[], None]] = None) -> None:
        """Asks the crew, unless it said yes to all before, and looks after what flies; anything but `yes` ends the
        flight."""
        if not self.says_yes and self.answers.line(text + " Type yes: ", look or self.look) != "yes":
            raise Trouble("nobody said yes")

    def stops(self) -> str:
        return "Ctrl-C%s stops all motors" % ("" if self.presses else " twice")

    def end(self) -> None:
        """Ends the watch over a flight: a second Ctrl-C that came before has stopped the motors, and is raised. One
        that comes now does nothing: handlers run in this thread, so that there is no instant in between."""
        self.over = True
        if self.presses >= 2:
            raise Cut


class Teller:
    """Writes lines to the terminal, by a thread of its own from the first one on, in the order in which they come."""

    def __init__(self) -> None:
        self.lines: "queue.Queue[str]" = queue.Queue()
        self.begins, self.has_begun = threading.RLock(), False

    def put(self, text: str) -> None:
        """Takes a line."""
        with self.begins:
            if not self.has_begun:
                self.has_begun = True
                threading.Thread(target=self.run, daemon=True).start()
        self.lines.put(text)

    def run(self) -> None:
        """Writes what comes; a terminal that is gone loses it, which is noted for the status."""
        while True:
            data = self.lines.get().encode(errors="replace")
            try:
                while data:
                    data = data[os.write(1, data):]
            except OSError as error:
                streams.lost[:] = streams.lost or [error]
            self.lines.task_done()

    def finish(self, seconds: float = 2.0) -> None:
        """Waits until all is written, but not for long."""
        clock.in_real_time(lambda: not self.lines.unfinished_tasks, seconds)


TELLER = Teller()
HEARS: List[Callable[[str], None]] = []  # who hears all that is said, besides the terminal
atexit.register(TELLER.finish)


def put(text: str) -> None:
    TELLER.put(text)
    for hears in HEARS:
        hears(text)


def say(text: str) -> None:
    put(streams.shown(text) + "\n")


class Answers:
    """What the crew types. A terminal's line counts only where it was typed after its question; what comes by a pipe
    is taken line by line. `is_closed` is whether standard input has ended, `others_come` whether others may answer
    still (flying/script.py), and `ended` whether nobody answers any more."""

    def __init__(self) -> None:
        self.waiting, self.is_closed, self.ended = b"", False, False
        self.others_come: Callable[[], bool] = lambda: False

    def flush(self) -> None:
        """Forgets what was typed before."""
        with contextlib.suppress(OSError, termios.error):
            if os.isatty(0):
                self.waiting = b""
                termios.tcflush(0, termios.TCIFLUSH)

    def hear(self, seconds: float) -> bool:
        """Takes what is typed by then; whether there is a line, or there will be none."""
        if b"\n" not in self.waiting and not self.ended:
            is_open = not self.others_come()
            if self.is_closed or not is_open and not clock.REAL.is_readable(0, 0):
                clock.wait(seconds)
            else:
                self.read(seconds)
            self.ended = self.is_closed and is_open
        return b"\n" in self.waiting or self.ended

    def read(self, seconds: float) -> None:
        """Takes what comes by standard input by then."""
        try:
            if clock.used().is_readable(0, seconds):
                came = os.read(0, 4096)
                self.waiting, self.is_closed = self.waiting + came, not came
        except (OSError, ValueError):
            self.is_closed = True

    def line(self, text: str, look: Callable[[], object], every: float = 0.05) -> Optional[str]:
        """The answer to a question, while what flies is looked after; None where nobody answers any more, or where the
        look gives something else than None."""
        TELLER.finish(1.0)
        self.flush()
        put(text)
        while not self.hear(every):
            if look() is not None:
                return None
        if not self.waiting:
            return None
        line, _, self.waiting = self.waiting.partition(b"\n")
        return line.decode(errors="replace").strip()
