"""The program that ./show studio asks, as hemtoghai/program.py finds it: what is known of its proof, and its answers,
in processes that are ended when their answer isn't wanted any more.

Every answer comes from here. A program that has a record or a manifest runs as the bytes that were hashed, and where
these aren't the recorded ones it isn't run; one that `--program` names and that has no record runs as it is, and isn't
called proved."""
from __future__ import annotations

import contextlib
import os
import signal
import subprocess
import tempfile
import threading
from typing import Any, IO, NamedTuple

from hemtoghai import program

NO_RECORD = "there is no record of how the program was built"
NO_PROOF = "the record of the program has no proof: it was built without one"
LIMIT = 120  # seconds for one process


class Cancelled(Exception):
    """A newer text came."""


class Job:
    """The processes that judge one text; all of them are ended where it is cancelled."""

    def __init__(self) -> None:
        self.lock, self.over = threading.Lock(), threading.Event()
        self.running: set[subprocess.Popen[bytes]] = set()

    @property
    def cancelled(self) -> bool:
        return self.over.is_set()

    def adopt(self, process: subprocess.Popen[bytes]) -> subprocess.Popen[bytes]:
        """Notes a process, or ends it where the job is cancelled already."""
        with self.lock:
            if not self.cancelled:
                self.running.add(process)
                return process
        end(process)
        raise Cancelled

    def leave(self, process: subprocess.Popen[bytes]) -> None:
        """Forgets a process, which is ended where it still runs."""
        end(process)
        with self.lock:
            self.running.discard(process)

    def cancel(self) -> None:
        """Ends all that runs for it."""
        with self.lock:
            self.over.set()
            running = list(self.running)
        for process in running:
            end(process)


def begin(words: list[str], source: IO[bytes] | int = subprocess.PIPE) -> subprocess.Popen[bytes]:
    """A process in a group of its own, with pipes."""
    return subprocess.Popen(words, stdin=source, stdout=subprocess.PIPE, stderr=subprocess.PIPE, start_new_session=True)


def end(process: subprocess.Popen[bytes]) -> None:
    """Ends a process and all that it started."""
    if process.poll() is None:
        with contextlib.suppress(ProcessLookupError, PermissionError):
            os.killpg(process.pid, signal.SIGKILL)
    process.wait()


class Answer(NamedTuple):
    """A program's status, which is None where it took too long and negative where a signal ended it, its output, and
    what it said on standard error."""
    status: int | None
    said: bytes
    told: bytes


class Program:
    """The program at a path."""

    def __init__(self, path: str) -> None:
        self.path = os.path.abspath(path)

    def now(self) -> tuple[dict[str, Any], str]:
        """The state and the path to run, both of the same file."""
        try:
            path, proof = program.runs(self.path), None
            recorded = os.path.exists(program.record_path(self.path))
            if recorded:
                path, proof = program.copy_of(self.path)
        except program.Unusable as error:
            return {"program": False, "proved": False, "why": str(error)}, self.path
        why = proof or (NO_PROOF if recorded else NO_RECORD)
        return {"program": True, "proved": proof is not None, "why": why}, path

    @property
    def is_own(self) -> bool:
        """Whether it is the program that the other commands ask, too."""
        return self.path == os.path.abspath(program.PROGRAM)

    def state(self) -> dict[str, Any]:
        """Whether the program can be run (`program`), whether it is known to be proved (`proved`), and what is known of
        it, or why nothing is (`why`)."""
        return self.now()[0]


def answer(job: Job, words: list[str], text: bytes) -> Answer:
    """What a program says of a text, in a process that ends with its job; raises Cancelled where that was cancelled.
    The text is a file, and no pipe: a long one isn't handed over piece by piece."""
    if job.cancelled:
        raise Cancelled
    with tempfile.TemporaryFile() as source:
        source.write(text)
        source.seek(0)
        process = job.adopt(begin(words, source))
    try:
        said, told = process.communicate(timeout=LIMIT)
    except subprocess.TimeoutExpired:
        end(process)
        return Answer(None, b"", b"it took more than %d seconds" % LIMIT)
    finally:
        job.leave(process)
    if job.cancelled:
        raise Cancelled
    return Answer(process.returncode, said, told)


def asked(job: Job, path: str, words: list[str], text: bytes) -> Answer:
    """What the program at a path answers to a command. One that accepts in no words of that command gave no answer: its
    status is None then, and what it said on standard error is why."""
    found = answer(job, [path, *words], text)
    try:
        if found.status is not None:
            program.need_answer(words, found.status, found.said)
    except program.Unusable as why:
        return Answer(None, b"", str(why).encode())
    return found
