"""Runs the program for ./show: its input is an open file, or texts that are handed to it piece by piece, as far as it
reads them. What ends ./show from outside, as Ctrl-C does, ends the program too.

No more is imported here than there has to be: `subprocess` alone takes longer than ./show may.
"""
from __future__ import annotations

import _signal
import os
import sys

TYPE_CHECKING = False  # of a reader of types, for which `typing` needn't be imported
if TYPE_CHECKING:
    from collections.abc import Iterable, Iterator

CHUNK = 1 << 16
SIGNALS = _signal.SIGINT, _signal.SIGTERM, _signal.SIGHUP, _signal.SIGQUIT
came: list[int] = []  # the signals that came while they were only noted
starting: list[bool] = []  # where a program was started, and nobody waits for it yet: an end then would leave it
noting: list[bool] = []


# ---- signals

def on_signal(number: int, _: object) -> None:
    """Ends the launcher; where signals are only noted, what is going on looks for them."""
    came.append(number)
    if not noting and not starting:
        end_if_told()


def end_if_told() -> None:
    """Ends the launcher where a signal came; what is cleaned up on the way isn't disturbed by a second one."""
    if came:
        for number in SIGNALS:
            _signal.signal(number, _signal.SIG_IGN)
        sys.exit(128 + came[0])


class Noted:
    """Signals are only noted in here."""

    def __enter__(self) -> None:
        noting.append(True)

    def __exit__(self, kind: object, *_: object) -> None:
        noting.pop()
        if kind is None:
            end_if_told()


def watch_signals() -> None:
    """Has signals end the launcher in order. Those that were ignored before, as by nohup, are ignored on."""
    for number in SIGNALS:
        if _signal.getsignal(number) != _signal.SIG_IGN:
            _signal.signal(number, on_signal)


# ---- texts

def pieces_of(path: str, is_first: bool) -> Iterator[bytes]:
    """The bytes of a file, piece by piece; the first of two texts ends with a line feed."""
    last, number = b"\n", 0 if path == "-" else os.open(path, os.O_RDONLY)
    try:
        while piece := os.read(number, CHUNK):
            last = piece[-1:]
            yield piece
    finally:
        if path != "-":
            os.close(number)
    if is_first and last != b"\n":
        yield b"\n"


def joined(files: list[str]) -> Iterator[bytes]:
    yield from pieces_of(files[0], True)
    yield b"%%\n"
    yield from pieces_of(files[1], False)


# ---- the program

def started(file: str, words: list[str], source: int, sink: int = 1) -> int:
    """Starts a program with these words, its standard input and output; its process. That a pipe is closed or a file
    may not grow is for the program to see, as failed writes: the signals for it stay ignored, as Python has them."""
    actions = [(os.POSIX_SPAWN_DUP2, source, 0), (os.POSIX_SPAWN_DUP2, sink, 1)]
    starting.append(True)
    return os.posix_spawn(file, [file, *words], os.environ, file_actions=actions)


def hear() -> None:
    """Has signals end the launcher again, as one does that came since a program was started."""
    starting.clear()
    end_if_told()


def ended(process: int) -> int:
    """The status of a process that was started, once it has ended; it is ended where the launcher is."""
    status = None
    try:
        hear()
        status = os.waitpid(process, 0)[1]
    finally:
        if status is None:
            os.kill(process, _signal.SIGKILL)
            os.waitpid(process, 0)
    return os.WEXITSTATUS(status) if os.WIFEXITED(status) else 128 + os.WTERMSIG(status)


def hand(pieces: Iterable[bytes], number: int) -> None:
    """Writes pieces to a pipe, until it is closed at its other end."""
    try:
        for piece in pieces:
            left = memoryview(piece)
            while left:
                left = left[os.write(number, left):]
    except BrokenPipeError:
        pass


def fed(file: str, words: list[str], pieces: Iterable[bytes], sink: int = 1) -> int:
    """The status of a program over pieces of a text. It is waited for also where they can't be read to their end."""
    source, number = os.pipe()
    try:
        process = started(file, words, source, sink)
    finally:
        os.close(source)
    fault = None
    try:
        hear()
        hand(pieces, number)
    except OSError as error:
        fault = error
    finally:
        if fault or sys.exc_info()[0]:
            os.kill(process, _signal.SIGKILL)  # so that it doesn't take what it has for the whole
        os.close(number)
        status = ended(process)
    if fault:
        raise fault
    return status


def said(file: str, words: list[str], text: bytes, most: int = 4096) -> tuple[int, bytes]:
    """The status of a program over a text, and the first bytes of what it writes."""
    source, number = os.pipe()
    try:
        status = fed(file, words, [text], number)
    finally:
        os.close(number)
    out = os.read(source, most)
    os.close(source)
    return status, out
