"""A program over pipes, whose output is taken as it comes: for the upload and the flight director."""
import contextlib
import fcntl
import os
import struct
import subprocess
import termios
from typing import Any, Sequence

from hemtoghai.flying import clock

GRACE = 0.5  # real seconds after which a process that sleeps, and hasn't read all, counts as one that reads nothing
BLINK, LONGEST_BLINK = 0.0001, 0.002  # real seconds between two looks at a process that is at work and says nothing


class Piped:
    """A process whose output `take` is given as it comes, by a thread of its own or by the clock of a simulated flight,
    and b"" at its end. `was_told` is whether it may have something to say since it was looked at last, and `has_ended`
    whether its output has."""

    def __init__(self, command: Sequence[str], **more: Any) -> None:
        """Raises OSError where it can't be started; `more` are words of subprocess.Popen."""
        self.process = subprocess.Popen(command, stdin=subprocess.PIPE, stdout=subprocess.PIPE, bufsize=0, **more)
        assert self.process.stdin and self.process.stdout
        self.input, self.output = self.process.stdin, self.process.stdout
        self.was_told, self.has_ended, self.hangs = True, False, False
        self.is_over = clock.Event()
        clock.used().attend(self)

    def take(self, data: bytes) -> None:
        raise NotImplementedError

    def listen(self) -> None:
        """Reads until its end."""
        with contextlib.suppress(OSError, ValueError):
            while self.read():
                pass
        self.is_over.set()

    def read(self) -> bool:
        """Takes what it says; whether it goes on."""
        data = os.read(self.output.fileno(), 1 << 16)
        self.take(data)
        if not data:
            self.has_ended = True
            self.is_over.set()
        return not self.has_ended

    # ---- by the clock of a simulated flight

    def settle(self) -> bool:
        """Waits, in real time, until the process waits for more, has ended, or hangs; whether it said something."""
        if not self.was_told or self.has_ended:
            return False
        has_said, blink = False, BLINK
        since = clock.REAL.now()
        while self.was_told and not self.has_ended:
            rests = self.rests()
            if self.has_output():
                self.read()
                has_said, since, blink = True, clock.REAL.now(), BLINK
            elif rests and not self.unread():
                self.was_told = False
            elif rests and (self.hangs or clock.REAL.now() - since > GRACE):
                self.hangs = True
                break
            else:
                clock.REAL.is_readable(self.output.fileno(), blink)
                blink = min(2 * blink, LONGEST_BLINK)
        return has_said

    def has_output(self) -> bool:
        try:
            return self.process.poll() is not None or bool(waiting_in(self.output.fileno()))
        except (OSError, ValueError):
            self.has_ended = True
            return False

    def unread(self) -> bool:
        """Whether it hasn't read all that was written, or that nothing comes any more."""
        try:
            return bool(waiting_in(self.input.fileno()))
        except (OSError, ValueError):
            return True

    def rests(self) -> bool:
        """Whether the process sleeps: one that is woken by what is written doesn't from then on."""
        try:
            with open("/proc/%d/stat" % self.process.pid, encoding="ascii", errors="replace") as file:
                return file.read().rpartition(")")[2].split()[0] in "ST"
        except (OSError, IndexError):
            clock.REAL.wait(0.02)  # no such file on this system: as long as it needs for what it is told
            return True

    # ---- its end

    def close_input(self) -> None:
        self.was_told = True
        with contextlib.suppress(OSError):
            self.input.close()

    def kill(self) -> None:
        """Ends the program where it still runs, and all that belongs to it here."""
        self.process.kill()
        self.process.wait()
        self.close_input()
        self.is_over.wait(1)
        if self.is_over.is_set:
            self.output.close()


def waiting_in(pipe: int) -> int:
    """How many bytes wait in a pipe."""
    count, = struct.unpack("i", fcntl.ioctl(pipe, termios.FIONREAD, bytes(4)))
    return int(count)
