"""Where a tool's output and its messages part: standard output has what it writes, standard error what it says, and
neither ever gets into the other, also where one of them is closed. And how a tool ends: with its status, and where it
has no answer with 70 and a line, never with a traceback.
"""
from __future__ import annotations

import io
import os
import sys

TYPE_CHECKING = False  # of a reader of types, for which `typing` needn't be imported
if TYPE_CHECKING:
    from collections.abc import Callable
    from typing import Any

NO_ANSWER = 70
INTERRUPTED, NOBODY_READS = 128 + 2, 128 + 13  # as after SIGINT and SIGPIPE
lost: list[OSError] = []  # why what a command writes past sys.stdout didn't go out, the first time
OPEN_AS = {0: os.O_WRONLY, 1: os.O_RDONLY, 2: os.O_WRONLY}  # a stream that was closed can neither be read nor written


class Heard(io.FileIO):
    """A stream that takes what can't be written too: on a full disk it is lost, and the command goes on."""

    def write(self, data: Any) -> int:
        try:
            return super().write(data)
        except OSError:
            return len(data)


def fill() -> None:
    """Opens the standard streams that were closed, so that no other file gets their numbers. Reading and writing one
    fails as it would, but what is said to a closed standard error is dropped."""
    for number, how in OPEN_AS.items():
        try:
            os.fstat(number)
        except OSError:
            os.open(os.devnull, how)  # the lowest number that is free is this one
            os.set_inheritable(number, True)
    if sys.stdin is None:
        sys.stdin = open(0, closefd=False)
    if sys.stdout is None:
        sys.stdout = open(1, "w", closefd=False)
    sys.stderr = io.TextIOWrapper(io.BufferedWriter(Heard(2, "w", closefd=False)), line_buffering=True,
                                  encoding=sys.stderr.encoding if sys.stderr else None, errors="backslashreplace")


def shown(text: str) -> str:
    """A text as a terminal may have it: a control character, as in the name of a file, by its escape."""
    return text if text.isprintable() else "".join(
        letter if letter == "\n" or letter.isprintable() else letter.encode("unicode_escape").decode()
        for letter in text)


def tell(who: str, text: str) -> None:
    """Says a line on standard error; where that can't be written nothing is said."""
    try:
        if sys.stderr:
            print(f"{who}: {shown(text)}", file=sys.stderr, flush=True)
    except (OSError, ValueError):
        pass


def fault_of(error: BaseException) -> str:
    if isinstance(error, OSError) and error.strerror:
        return "%s: %s" % (error.filename, error.strerror) if error.filename is not None else error.strerror
    if isinstance(error, MemoryError):
        return "out of memory"
    from hemtoghai.program import Unusable
    if isinstance(error, Unusable):
        return str(error)
    at = error.__traceback__
    while at and at.tb_next:
        at = at.tb_next
    place = f" ({os.path.basename(at.tb_frame.f_code.co_filename)}, line {at.tb_lineno})" if at else ""
    words = " ".join(str(error).split())[:200]
    return "no answer: %s%s%s" % (type(error).__name__, ": " + words if words else "", place)


def drop_output() -> None:
    """Has nothing more written to standard output, at the end of Python either."""
    try:
        number = os.open(os.devnull, os.O_WRONLY)
        os.dup2(number, 1)
        os.close(number)
    except OSError:
        pass


def status_of(main: Callable[[], int | None], who: str) -> int:
    """The status of a tool, once all that it wrote has gone out."""
    try:
        try:
            status = main()
        except SystemExit as ended:
            if isinstance(ended.code, str):
                tell(who, ended.code)
                return NO_ANSWER
            status = ended.code
        sys.stdout.flush()
        if lost and not status:
            raise lost[0]  # no yes without its words
        return int(status or 0)
    except KeyboardInterrupt:
        drop_output()
        return INTERRUPTED
    except BrokenPipeError:  # nobody reads on
        drop_output()
        return NOBODY_READS
    except Exception as error:
        fault = fault_of(error)
        drop_output()
        tell(who, fault)
        return NO_ANSWER


def run(main: Callable[[], int | None], who: str | None = None) -> None:
    """Runs a tool, a call that returns its status, and ends the process with that."""
    import _signal
    fill()
    # A program that has ended breaks its pipe, and what it wrote is still to be read.
    _signal.signal(_signal.SIGPIPE, _signal.SIG_IGN)
    if _signal.getsignal(_signal.SIGINT) == _signal.SIG_DFL:  # as ./show has it until now
        _signal.signal(_signal.SIGINT, _signal.default_int_handler)
    # Where that is ignored, as its parent may have had it, a process is told no status of those that it starts.
    _signal.signal(_signal.SIGCHLD, _signal.SIG_DFL)
    status = status_of(main, who or os.path.basename(sys.argv[0]))
    sys.exit(status)
