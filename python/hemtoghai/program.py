"""The proved program: where it is, what is known of its proof, and the file that runs.

The record beside it, or the manifest of a release, has the SHA-256 of the program that was proved. The bytes that were
hashed are the ones that run: where the system has files in memory they are copied into one that nobody can change. A
program that isn't the recorded one is run by no tool. One that a tool was told to take, by `--program`, is run as it
is. Once a proof is demanded, by `--proved`, none runs but the recorded one, and that only where its record has a proof.
"""
from __future__ import annotations

import os
import sys

TYPE_CHECKING = False  # of a reader of types, for which `typing` needn't be imported
if TYPE_CHECKING:
    from typing import Any

PACKAGE = os.path.dirname(os.path.abspath(__file__))
# What lies beside the package in a checkout and in a release lies in it where it is installed.
IS_INSTALLED = os.path.exists(os.path.join(PACKAGE, "MANIFEST.json"))
TOP = PACKAGE if IS_INSTALLED else os.path.dirname(os.path.dirname(PACKAGE))
NAME = "hemtoghai" if IS_INSTALLED else "show"  # of the command, in its messages
COMMAND = "hemtoghai" if IS_INSTALLED else "./show"  # as somebody types it
PROGRAM = os.path.join(TOP, "crates", "show_cli", "out", "show_cli")
UNPROVED = PROGRAM + ".unproved"  # the program as --unproved built it
RECORD = ".built"  # stands after a program's name: what is known of its build, and the stamp of its sources
MANIFEST = os.path.join(TOP, "MANIFEST.json")  # the same, where this is a release: then nothing is built
OLDEST_LIBRARY = 2, 34  # the C library that the program of a release needs
MOST_BYTES = 1 << 28  # of a program, 256 MiB
SEALS, ADD_SEALS = 0x0F, 1033  # of a file in memory: neither these seals, nor its size, nor its bytes change

# What a command writes where it accepts, by docs/COMMANDS.md: its one line, or how its lines begin and end.
ACCEPTED = {
    "check": rb"ok drones \d+ cues \d+ duration_ms \d+\n", "verify": rb"valid depth \d trees \d+\n",
    "boxes": rb"kept regions \d+\n", "compile": rb"(?s)plan 1\n.*\nend\n", "report": rb"\{.*\}\n",
    "certify": rb"(?s)(version 2\n)?certificate \d\n.*", "play": rb"(?s)0 .*\n",
    "speed": rb"(speed \S+( \d+){3}\n)+", "dynamics": rb"(dynamics \S+ acceleration .*\n)+(greatest .*\n)?"}


class Unusable(Exception):
    """Why the program can't be run."""


def absent() -> str:
    """What to do where the program isn't there."""
    if IS_INSTALLED or os.path.exists(os.path.join(TOP, "show")):
        return "the program isn't built; ./show check FILE builds it"
    return ("this copy of the package has no program: install the wheel of a release, which ./show release of the "
            "repository makes, or use ./show there")


# By a program's path what its file, its record and the file that runs looked like, that file, and the last line of its
# proof.
_copies: dict[str, tuple[tuple[tuple[int, ...], ...], str, str | None]] = {}
_kept: dict[str, tuple[str, tuple[int, ...]]] = {}  # by their SHA-256 the files in memory, and what they looked like
as_it_is = [False]  # whether PROGRAM is one that a tool was told to take
demanded = [False]  # whether no program runs but the proved one, also in processes that `words_of` starts


def looks(path: str) -> tuple[int, ...]:
    """What changes where a file is exchanged or written, without reading it; nothing where it isn't there."""
    try:
        return looks_of(os.stat(path))
    except OSError:
        return ()


def looks_of(found: os.stat_result) -> tuple[int, ...]:
    return found.st_dev, found.st_ino, found.st_size, found.st_mtime_ns, found.st_ctime_ns, found.st_mode


def record_of(path: str) -> dict[str, Any]:
    """What is noted of a program's build, or a release's manifest; nothing where there is none, or a damaged one."""
    import json
    try:
        with open(path, encoding="utf-8") as file:
            found = json.loads(file.read(1 << 24))
    except (OSError, ValueError, RecursionError):
        return {}
    return found if isinstance(found, dict) else {}


def digest_of(data: bytes) -> str:
    """The SHA-256 of bytes in hexadecimal digits."""
    import hashlib
    return hashlib.sha256(data).hexdigest()


def record_path(path: str = PROGRAM) -> str:
    return MANIFEST if path == PROGRAM and os.path.exists(MANIFEST) else path + RECORD


def read_program(path: str) -> tuple[bytes, tuple[int, ...]]:
    """A program's bytes and what its file looked like, before they were read and after; raises Unusable."""
    try:
        with open(path, "rb") as file:
            before, data, after = os.fstat(file.fileno()), file.read(MOST_BYTES + 1), os.fstat(file.fileno())
    except OSError as error:
        raise Unusable(f"{path}: {error.strerror}") from None
    if len(data) > MOST_BYTES or looks_of(before) != looks_of(after):
        raise Unusable(f"{path} is written right now, or is no program")
    return data, looks_of(before)


def in_memory(data: bytes) -> str | None:
    """The path of a file in memory with these bytes, which never change, or None where there are no such files. It
    stays as long as this process."""
    if not hasattr(os, "memfd_create") or not os.path.isdir("/proc/self/fd"):
        return None
    import fcntl
    try:
        number = os.memfd_create("program", os.MFD_CLOEXEC | os.MFD_ALLOW_SEALING)
        left = memoryview(data)
        while left:
            left = left[os.write(number, left):]
        os.fchmod(number, 0o555)
        fcntl.fcntl(number, ADD_SEALS, SEALS)
    except OSError:
        return None
    path = f"/proc/{os.getpid()}/fd/{number}"
    return path if os.access(path, os.X_OK) else None


def c_library() -> tuple[str, str]:
    """The name and the number of the C library; both empty where it doesn't say."""
    try:
        name, _, number = (os.confstr("CS_GNU_LIBC_VERSION") or "").partition(" ")
    except (AttributeError, ValueError, OSError):
        return "", ""
    return name, number


def fault_of_machine() -> str | None:
    """Why the program of a release can't run on this machine, or None. A program that was built here runs here."""
    if not os.path.exists(MANIFEST):
        return None
    (name, number), processor = c_library(), os.uname().machine
    parts = tuple(int(part) for part in number.split(".")[:2] if part.isdigit())
    if processor == "x86_64" and name == "glibc" and parts >= OLDEST_LIBRARY:
        return None
    return "this release needs an x86-64 machine with glibc %d.%d or later; here: %s, %s %s" % (
        *OLDEST_LIBRARY, processor, name or "no glibc", number)


def fault(path: str | None = None) -> str | None:
    """Why a program can't be run, or None: it isn't built, not as recorded, or of a release for other machines."""
    try:
        runs(path)
    except Unusable as why:
        return str(why)
    return None


def runs(path: str | None = None) -> str:
    """The path of the file to run for a program, without one for the program that was proved here; raises Unusable."""
    path = os.path.abspath(path) if path else PROGRAM
    if not os.path.isfile(path) or not os.access(path, os.X_OK):
        raise Unusable(absent())
    if path != PROGRAM or as_it_is[0]:
        if demanded[0]:
            raise Unusable(f"{path} isn't the proved program, and --proved runs no other")
        return path
    if fault := fault_of_machine():
        raise Unusable(fault)
    file, proved = copy_of(path)
    if demanded[0] and proved is None:
        record = record_path()
        raise Unusable(f"{os.path.basename(record)} doesn't say that the program was proved"
                       if os.path.exists(record) else
                       "no record of how this program was built: nothing is known of its proof")
    return file


def proof() -> str | None:
    """The last line of the proof of the program that runs, by its record or manifest, or None where none is known;
    raises Unusable where it can't be run."""
    runs()
    return _copies[PROGRAM][2] if PROGRAM in _copies else None


def kept(data: bytes, digest: str) -> str | None:
    """The path of the file in memory with these bytes, or None where there are no such files: each is made once, and
    anew where this process closed it. A file that took its number since then has another inode."""
    path, looked = _kept.get(digest, ("", ()))
    if not looked or looks(path) != looked:
        path = in_memory(data) or ""
        _kept[digest] = path, looks(path)
    return path or None


def copy_of(path: str) -> tuple[str, str | None]:
    """The file to run for a program that has a record, made where that or the program changed since the last time, and
    the last line of its proof or None; raises Unusable where it isn't the recorded one."""
    seen, copy, proved = _copies.get(path, ((), "", None))
    if copy and seen == (looks(path), looks(record_path(path)), looks(copy)):
        return copy, proved
    noted = looks(record_path(path))
    data, read = read_program(path)
    record, digest = record_path(path), digest_of(data)
    known = record_of(record)
    wanted = known.get("sha256")
    if wanted != digest and (wanted is not None or os.path.exists(record)):
        raise Unusable("the program isn't the one of %s: %s" % (os.path.basename(record), (
            "unpack the release anew" if record == MANIFEST else "./show check FILE builds it")))
    line = known.get("rests_on")
    proved = line if wanted and isinstance(line, str) and line.startswith("logic=proved ") else None
    copy = kept(data, digest) or path
    _copies[path] = (read, noted, looks(copy)), copy, proved
    return copy, proved


def words_of(*words: str) -> list[str]:
    """What starts a command of this package in a process of its own, over the same files."""
    front = ["--proved"] * demanded[0] + ["--unproved"] * (PROGRAM == UNPROVED)
    return [sys.executable, "-IS", os.path.join(PACKAGE, "__main__.py"), *front, *words]


def is_answer(words: list[str], status: int, output: bytes) -> bool:
    """Whether a command can give this: it accepts with its own words alone, and none without a byte."""
    import re
    own = ACCEPTED.get("".join(words[:1]), rb"(?s).+")
    return status != 0 or re.fullmatch(own, output) is not None


def need_answer(words: list[str], status: int, output: bytes) -> None:
    """Raises Unusable where what was asked gave no answer of a command: no yes is taken of anything else."""
    if not is_answer(words, status, output):
        raise Unusable(f"what was run isn't the program: it gave no answer of `{' '.join(words[:1])}`")


def status_in(process: int) -> int:
    """The status of a process that was started here, once it has ended, negative where a signal ended it; raises
    Unusable where the system doesn't keep it."""
    try:
        found = os.waitpid(process, 0)[1]
    except ChildProcessError:
        raise Unusable("the program's status is lost: this process ignores SIGCHLD, or waits for all of its children"
                       ) from None
    return os.WEXITSTATUS(found) if os.WIFEXITED(found) else -os.WTERMSIG(found)


def end(process: int) -> None:
    """Ends a process that was started here, unless it was waited for already."""
    try:
        if os.waitpid(process, os.WNOHANG)[0] == 0:
            os.kill(process, 9)
            os.waitpid(process, 0)
    except ChildProcessError:
        pass


def close_but(left: int, numbers: list[int]) -> None:
    """Closes open files and takes them from the list, the last ones first, until so many are left."""
    from collections import deque
    from itertools import repeat
    deque(map(os.close, map(numbers.pop, repeat(-1, len(numbers) - left))), 0)


def carried_out(file: str, words: list[str], text: int) -> tuple[int, bytes]:
    """The status and output of a program over an open file. It is ended where this call is, as by a handler of signals
    that raises."""
    import fcntl
    import functools
    from itertools import chain, repeat, starmap
    numbers: list[int] = []
    started: list[int] = []
    try:
        # By `map` files and processes are in their lists before a signal that came meanwhile is handled.
        numbers += chain.from_iterable(starmap(os.pipe, [()]))
        # The number of a standard stream that this process closed would be taken by another stream of the program.
        numbers += map(fcntl.fcntl, (text, numbers[1]), repeat(fcntl.F_DUPFD_CLOEXEC), repeat(3))
        actions = [(os.POSIX_SPAWN_DUP2, numbers[2], 0), (os.POSIX_SPAWN_DUP2, numbers[3], 1),
                   (os.POSIX_SPAWN_OPEN, 2, os.devnull, os.O_WRONLY, 0)]
        started += map(functools.partial(os.posix_spawn, file, [file, *words], file_actions=actions), [os.environ])
        close_but(1, numbers)
        output = b"".join(iter(lambda: os.read(numbers[0], 1 << 16), b""))
        status = status_in(started[0])
        started.clear()
        return status, output
    finally:
        for process in started:
            end(process)
        close_but(0, numbers)


def ask(words: list[str], text: bytes, path: str | None = None) -> tuple[int, bytes]:
    """The status and output of a program on a text; raises Unusable where there is no answer."""
    import tempfile
    file = runs(path)
    try:
        with tempfile.TemporaryFile() as source:  # and no pipe: a program that refuses early doesn't read on
            source.write(text)
            source.seek(0)
            status, output = carried_out(file, words, source.fileno())
    except OSError as error:
        raise Unusable(f"the program can't be run: {error.strerror}") from None
    except ValueError as error:
        raise Unusable(f"the program can't be run: {error}") from None
    if status < 0:
        raise Unusable(f"the program was ended by signal {-status}")
    need_answer(words, status, output)
    return status, output
