"""What is measured of a command: the least processor time of some runs, least address space and instructions."""
from __future__ import annotations

import os
import re
import resource
import shutil
import subprocess
import sys
import tempfile
from typing import Callable, Sequence

from scripts import TOP

RUNS = 5
MOST_KIB = 1 << 20


def processor_ms() -> float:
    """Milliseconds of processor time of the programs that were run so far."""
    taken = resource.getrusage(resource.RUSAGE_CHILDREN)
    return 1000 * (taken.ru_utime + taken.ru_stime)


def least(fits: Callable[[int], bool], near: int) -> int:
    """The least KiB for which this holds, to so many KiB. The script ends if it doesn't hold for MOST_KIB."""
    if not fits(MOST_KIB):
        sys.exit("%d KiB of address space aren't enough; an unproved program's run-time tests take more" % MOST_KIB)
    low, high = 0, MOST_KIB
    while high - low > near:
        middle = (low + high) // 2
        low, high = (low, middle) if fits(middle) else (middle, high)
    return high


class Run:
    """A command over an input. `ms` is the least processor time of its runs in milliseconds."""

    def __init__(self, words: Sequence[str], text: bytes = b"") -> None:
        self.words, self.ms = list(words), float("inf")
        self.source = tempfile.TemporaryFile()
        self.source.write(text)
        self.source.flush()

    def ended(self, most: int | None = None, sink: int = subprocess.DEVNULL,
              before: Sequence[str] = ()) -> subprocess.CompletedProcess[bytes]:
        """One run with at most this many KiB of address space, after these words. Its output goes to the sink."""
        def limit() -> None:
            if most is not None:
                resource.setrlimit(resource.RLIMIT_AS, (most << 10, most << 10))
        self.source.seek(0)
        return subprocess.run([*before, *self.words], stdin=self.source, stdout=sink,
                              stderr=subprocess.PIPE if before else subprocess.DEVNULL,
                              preexec_fn=None if most is None else limit)

    def answer(self) -> tuple[int, bytes]:
        """The status and the output."""
        done = self.ended(sink=subprocess.PIPE)
        return done.returncode, done.stdout

    def output(self) -> bytes:
        """The output. The script ends if the status isn't 0."""
        status, out = self.answer()
        if status:
            sys.exit("%s ended with %d" % (" ".join(self.words), status))
        return out

    def least_kib(self, near: int = 16) -> int:
        """The least KiB of address space, to so many, with which it has the status that it has with all."""
        usual = self.ended().returncode
        return least(lambda most: self.ended(most).returncode == usual, near)

    def instructions(self) -> tuple[int, int]:
        """The status, and how many instructions valgrind's cachegrind counts, 0 without valgrind."""
        if not shutil.which("valgrind"):
            return self.ended().returncode, 0
        done = self.ended(before=("valgrind", "--tool=cachegrind", "--cache-sim=no", "--cachegrind-out-file=/dev/null"))
        found = re.search(rb"I\s+refs:\s+([\d,]+)", done.stderr)
        return done.returncode, int(found[1].replace(b",", b"")) if found else 0


def timed(*runs: Run) -> None:
    """Runs all of them in turns, so that a load of the machine meets each, and keeps the least time of each."""
    for _ in range(RUNS):
        for run in runs:
            before = processor_ms()
            run.ended()
            run.ms = min(run.ms, processor_ms() - before)


def plain_program(folder: str) -> str:
    """The plain program of bench/plain, built into a folder by rustc alone."""
    if not shutil.which("rustc"):
        sys.exit("no rustc on the PATH: there is nothing to compare with")
    path = os.path.join(folder, "plain")
    source = os.path.join(TOP, "bench", "plain", "shows.rs")
    subprocess.run(["rustc", "--edition", "2021", "-C", "opt-level=3", "-o", path, source], check=True)
    return path


def row(name: object, *cells: object) -> None:
    """Prints a row: its name, and cells of eleven places. Numbers that aren't whole have two digits after the point."""
    words = ("%11.2f" % it if isinstance(it, float) else "%11s" % it for it in cells)
    print("%-24s %s" % (name, " ".join(words)), flush=True)
