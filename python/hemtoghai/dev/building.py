"""Proves and builds the program, and runs its sources without a proof: for ./show."""
from __future__ import annotations

import contextlib
import fcntl
import json
import os
import re
import shutil
import signal
import subprocess
import sys
import tempfile
import time
from collections.abc import Callable, Iterable
from typing import Any, IO

from hemtoghai.dev.progress import ahead, costs, Crates, Progress
from hemtoghai.launching.launcher import say, stop
from hemtoghai.launching.records import CRATES, crates_below, is_current, LAST, LEFT_OUT, sha256, stamp, write_record
from hemtoghai.launching.running import end_if_told, joined, Noted
from hemtoghai.program import PROGRAM, RECORD, TOP, UNPROVED
from hemtoghai.texts import CERTIFICATE, SHOW

LIBRARY = os.path.join("out", "rlib")  # what rt makes of a proved crate
SPOOLED = SHOW + CERTIFICATE + (1 << 20)  # bytes of two texts, more than any command reads
USAGE = ["no", "such", "command"], b"error 2 usage\n"  # words that every build of the program refuses, and its answer
TRIED = re.compile(r"^run=ended status=\d+ .*proved=no$", re.M)  # what rt says last of a try that came to an answer


def complain(text: str) -> None:
    with contextlib.suppress(OSError):
        sys.stderr.write(text)
        sys.stderr.flush()


# ---- other programs

def start(words: list[str], crate: str, **more: Any) -> subprocess.Popen[bytes]:
    """Starts a command in a crate's folder, in a group of its own with all that it starts."""
    return subprocess.Popen(words, cwd=crate, start_new_session=True, **more)


def end(process: subprocess.Popen[bytes]) -> None:
    """Ends a command and its group, and returns once it has ended."""
    for number, seconds in ((signal.SIGTERM, 20), (signal.SIGKILL, None)):
        with contextlib.suppress(ProcessLookupError):
            os.killpg(process.pid, number)
        with contextlib.suppress(subprocess.TimeoutExpired):
            process.wait(seconds)


def finished(process: subprocess.Popen[bytes], meanwhile: Callable[[], None] = lambda: None) -> tuple[int, bytes, str]:
    """A command's status and output, once it has ended by itself; it is ended where a signal comes."""
    try:
        while True:
            with contextlib.suppress(subprocess.TimeoutExpired):
                said, complained = process.communicate(timeout=0.02)
                return process.returncode, said, complained.decode(errors="replace")
            meanwhile()
            end_if_told()
    finally:
        end(process)


# ---- building

def side_by_side() -> int:
    """How many crates may be proved at a time: one a processor, and 2 GB of memory for each."""
    processors = len(os.sched_getaffinity(0))
    try:
        with open("/proc/meminfo") as lines:
            free = next(int(line.split()[1]) for line in lines if line.startswith("MemAvailable:"))
    except (OSError, StopIteration):
        return processors
    return max(1, min(processors, free // (2 << 20)))


def in_order(below: Crates) -> list[str]:
    """The crates, those first that have the most work above them."""
    chain = ahead(below, costs(below))
    return sorted(below, key=lambda crate: chain[crate], reverse=True)


def link(source: str, target: str) -> None:
    """A second name of a file, or a copy of it where it can have none."""
    try:
        os.link(os.path.realpath(source), target)
    except OSError:
        shutil.copy2(source, target)


def move(source: str, target: str) -> None:
    """Moves a folder, where it is there, to where none is afterwards but it."""
    if os.path.isdir(source):
        shutil.rmtree(target, ignore_errors=True)
        shutil.move(source, target)


def no_sources(folder: str, names: list[str]) -> list[str]:
    """What of a folder isn't copied: `ignore_dangling_symlinks` of Python 3.9 leaves out no links in inner folders."""
    return [name for name in names if name in LEFT_OUT or not os.path.exists(os.path.join(folder, name))]


def crate_of(line: str) -> str:
    """The crate of a line of crates.txt."""
    words = line.partition("#")[0].partition(":")[0].split()
    return words[0] if words else ""


def lay_out(room: str, crate: str) -> str:
    """Puts the sources of a crate and of those below it into a folder, which may have some already; the crate's folder
    there."""
    below, place = crates_below(crate), os.path.join(room, "crates")
    os.makedirs(place, exist_ok=True)
    there = set(os.listdir(place))
    for it in set(below) - there:
        shutil.copytree(os.path.join(CRATES, it), os.path.join(place, it), ignore=no_sources, copy_function=link)
    with open(os.path.join(TOP, "crates.txt"), encoding="utf-8") as lines:
        kept = [line for line in lines if crate_of(line) in there.union(below)]
    with open(os.path.join(room, "crates.txt"), "w", encoding="utf-8") as file:
        file.writelines(kept)
    return os.path.join(place, crate)


def begin_in(room: str, crate: str) -> subprocess.Popen[bytes]:
    """Begins to prove a crate in a folder apart, with the libraries below the crate and what was kept of the crate
    itself. One job is enough also where no other crate is ready: with four, `rt` has copies of the prover check some
    functions each, every copy loads all libraries, and show_run took 477 processor seconds in place of 258."""
    folder = lay_out(room, crate)
    for it in crates_below(crate):
        library, place = (os.path.join(top, it, LIBRARY) for top in (CRATES, os.path.dirname(folder)))
        if it != crate and os.path.isdir(library) and not os.path.isdir(place):
            shutil.copytree(library, place, copy_function=link)
    move(os.path.join(CRATES, crate, "out"), os.path.join(folder, "out"))
    with open(os.path.join(room, "log"), "wb") as log:
        return start(["rt", "lib", "--jobs", "1"], folder, stdin=subprocess.DEVNULL, stdout=log, stderr=log)


class Glimpse:
    """What the sources answer without a proof, found while they are proved: words for standard error, and no more."""

    def __init__(self, words: list[str], path: str, rooms: str, below: Crates) -> None:
        self.room, self.below, self.stamp = os.path.join(rooms, "unproved"), below, stamp(below)
        self.made, self.seen = os.path.join(self.room, "made"), dict[int, str]()
        folder, command = lay_out(self.room, LAST), ["rt", "try", "--", *words]
        if self.is_kept():
            command = [UNPROVED, *words]
        os.mkdir(self.made)
        with open(path, "rb") as source, self.file("said", "wb") as said, self.file("log", "wb") as log:
            self.process: subprocess.Popen[bytes] | None = start(
                command, folder, stdin=source, stdout=said, stderr=log, env={**os.environ, "TMPDIR": self.made})

    def file(self, name: str, mode: str) -> IO[Any]:
        return open(os.path.join(self.room, name), mode)

    def is_kept(self) -> bool:
        """Whether there is a program without a proof of these sources."""
        return is_current(self.below, UNPROVED)

    def look(self) -> str | None:
        """The answer's first line, right after the sources gave it."""
        if self.process is None:
            return None
        link_programs(self.made, self.room, self.seen)
        if self.process.poll() is None:
            return None
        end(self.process)
        self.process = None
        with self.file("said", "rb") as said, self.file("log", "rb") as log:
            line, has_answer = said.readline(200), TRIED.search(log.read().decode(errors="replace"))
        if has_answer:
            keep_unproved(self.seen.values(), self.stamp, self.below)
        return line.decode(errors="replace").strip() if line and (has_answer or self.is_kept()) else None

    def end(self) -> None:
        if self.process is not None:
            end(self.process)


class Watch:
    """Tells how far a build is: when a crate begins, each minute, and when the sources have answered unproved."""

    def __init__(self, progress: Progress, glimpse: Glimpse | None) -> None:
        self.progress, self.glimpse = progress, glimpse

    def begin(self, crate: str) -> None:
        self.progress.begin(crate)
        self.progress.told = time.monotonic()
        say(f"proving {crate}; {self.progress.words()}")

    def look(self) -> None:
        if self.glimpse and (answer := self.glimpse.look()):
            say(f"so far, unproved: {answer}; {self.progress.words()}")
        if self.progress.is_due():
            say(self.progress.words())

    def wait(self, seconds: float) -> None:
        """Looks on meanwhile: a program that is tried is there for a moment alone."""
        until = time.monotonic() + seconds
        while True:
            self.look()
            if time.monotonic() >= until:
                return
            time.sleep(0.02 if self.glimpse and self.glimpse.process else seconds)

    def lanes(self, most: int) -> int:
        """How many crates may be proved beside the try of the sources."""
        return max(1, most - 1) if self.glimpse and self.glimpse.process else most


def prove(below: Crates, most: int, rooms: str, watch: Watch) -> None:
    """Proves all crates but the last, lower ones first, side by side. While `rt` works on a crate it keeps others out
    of its folder and of all below it, so each is proved in a folder apart, which the next one then takes over."""
    waiting, done = [crate for crate in in_order(below) if crate != LAST], set[str]()
    running: dict[str, tuple[subprocess.Popen[bytes], str]] = {}
    free = [os.path.join(rooms, str(number)) for number in range(most)]

    def take_back(crate: str) -> None:
        move(os.path.join(running[crate][1], "crates", crate, "out"), os.path.join(CRATES, crate, "out"))
    try:
        while waiting or running:
            ready = [crate for crate in waiting if done.issuperset(below[crate])]
            for crate in ready[:max(0, watch.lanes(most) - len(running))]:
                waiting.remove(crate)
                watch.begin(crate)
                room = free.pop()
                running[crate] = begin_in(room, crate), room
            watch.wait(0.2)
            end_if_told()
            for crate in [crate for crate in running if running[crate][0].poll() is not None]:
                take_back(crate)
                process, room = running.pop(crate)
                if process.returncode:
                    with open(os.path.join(room, "log"), errors="replace") as log:
                        complain(log.read())
                    stop(f"{crate} was not proved")
                free.append(room)
                watch.progress.end(crate)
                done.add(crate)
    finally:
        for crate, (process, _) in running.items():
            end(process)
            take_back(crate)


def build(words: list[str], files: list[str]) -> None:
    """Proves and builds the program, where it isn't there as these sources make it. The first time the answer to
    `check` of a file is told before that, unproved."""
    below = crates_below(LAST)
    if is_current(below):
        return
    need_rt()
    crates = os.open(CRATES, os.O_RDONLY)
    try:
        fcntl.flock(crates, fcntl.LOCK_EX | fcntl.LOCK_NB)
    except BlockingIOError:
        say("another ./show is building; waiting for it")
        fcntl.flock(crates, fcntl.LOCK_EX)  # it then finds the program built
    if not is_current(below):
        with Noted():
            build_all(below, words, files)
    os.close(crates)


def build_all(below: Crates, words: list[str], files: list[str]) -> None:
    most, before, is_first = side_by_side(), stamp(below), not os.path.exists(PROGRAM)
    say(f"proving and building the program; the first time takes many minutes, {most} crates at a time")
    for file in (PROGRAM, PROGRAM + RECORD):  # so that the last line of the proof is written, even of one that was kept
        with contextlib.suppress(FileNotFoundError):
            os.remove(file)
    with tempfile.TemporaryDirectory(prefix=".proving-", dir=TOP) as rooms:
        asks = is_first and words[:1] == ["check"] and len(files) == 1 and os.path.isfile(files[0])
        glimpse = Glimpse(words, files[0], rooms, below) if asks else None
        watch = Watch(Progress(below, most), glimpse)
        try:
            prove(below, most, rooms, watch)
            watch.begin(LAST)
            # Words that are no command: the program says so, and so the build is seen to have ended well.
            # One job as for the others: four took 487 processor seconds for a crate of 15 lines.
            _, out, said = finished(start(["rt", "run", "--jobs", "1", "--", *USAGE[0]], os.path.join(CRATES, LAST),
                                          stdin=subprocess.DEVNULL, stdout=subprocess.PIPE, stderr=subprocess.PIPE),
                                    watch.look)
        finally:
            if glimpse:
                glimpse.end()
    if out != USAGE[1]:
        complain(said)
        stop("the program was not built")
    if stamp(below) != before:
        stop("the sources were changed while they were proved: run it again")
    write_record(said, before)


def need_rt() -> None:
    if not any(os.access(os.path.join(folder, "rt"), os.X_OK) for folder in os.get_exec_path()):
        stop("no rt on the PATH: the Rattle toolchain is needed to build the program")


# ---- without a proof

def try_sources(words: list[str], number: int | None, files: list[str]) -> int:
    """The status of the sources on an open file, or on two files, without a proof."""
    need_rt()
    if number is not None:
        return try_on(words, number, crates_below(LAST))
    with tempfile.TemporaryFile() as whole:
        for piece in joined(files):
            whole.write(piece)
            if whole.tell() > SPOOLED:
                break
        whole.seek(0)
        return try_on(words, whole, crates_below(LAST))


class Waiting:
    """Tells every quarter of a minute how long the sources are compiled."""

    def __init__(self) -> None:
        self.begun = self.told = time.monotonic()

    def look(self) -> None:
        if (now := time.monotonic()) - self.told >= 15:
            self.told = now
            say("compiling the sources without a proof: %d s so far; some two minutes on an idle machine, and nothing "
                "the next time" % (now - self.begun))


def tried(words: list[str], source: int | IO[bytes], below: Crates) -> tuple[int, bytes]:
    """The status and the output of the sources on an input, without a proof. The program that rt builds for it in its
    own temporary folder is kept, where it is found there; where it isn't, the next call does the same again."""
    before, seen, waiting = stamp(below), dict[int, str](), Waiting()

    def look() -> None:
        link_programs(made, room, seen)
        waiting.look()
    with Noted(), tempfile.TemporaryDirectory(prefix=".proving-", dir=TOP) as room:
        made = os.path.join(room, "made")
        os.mkdir(made)
        status, said, complained = finished(start(
            ["rt", "try", "--", *words], os.path.join(CRATES, LAST), stdin=source, stdout=subprocess.PIPE,
            stderr=subprocess.PIPE, env={**os.environ, "TMPDIR": made}), look)
        if not TRIED.search(complained):
            complain(complained)
            stop("the sources did not run")
        keep_unproved(seen.values(), before, below)
    return status, said


def try_on(words: list[str], source: int | IO[bytes], below: Crates) -> int:
    """The status of the sources on an input, without a proof; their output is written."""
    status, said = tried(words, source, below)
    sys.stdout.buffer.write(said)
    sys.stdout.flush()
    return status


def link_programs(folder: str, room: str, seen: dict[int, str]) -> None:
    """Gives each program in a folder a second name in `room`, noted by its inode, so that it outlives the folder."""
    for inside, _, names in os.walk(folder):
        for path in (os.path.join(inside, name) for name in names):
            with contextlib.suppress(OSError):
                found = os.stat(path)
                if found.st_mode & 0o111 and found.st_ino not in seen:
                    name = os.path.join(room, str(found.st_ino))
                    os.link(path, name)
                    seen[found.st_ino] = name


def keep_unproved(programs: Iterable[str], stamped: str, below: Crates) -> None:
    """Keeps the one of these programs that answers as the program does, if there is one."""
    for program in programs:
        with contextlib.suppress(OSError, subprocess.TimeoutExpired):
            done = subprocess.run([program, *USAGE[0]], stdin=subprocess.DEVNULL, stdout=subprocess.PIPE,
                                  stderr=subprocess.DEVNULL, timeout=10)
            if (done.returncode, done.stdout) == (2, USAGE[1]) and stamp(below) == stamped:
                os.makedirs(os.path.dirname(UNPROVED), exist_ok=True)
                os.replace(program, UNPROVED)
                with open(UNPROVED + RECORD, "w") as file:
                    json.dump({"sha256": sha256(UNPROVED), "stamp": stamped}, file)
