"""What answers the questions of `import hemtoghai`: the proved library in this process, or the proved program in a
process for each question. Both have the same contract, and give the same answers.

One of the two is chosen at the first question, for as long as this process lasts: the library, where library/out has it
with its proof and made from the sources of the program that is there; else the program. HEMTOGHAI_BY=library and
HEMTOGHAI_BY=process have that one be taken, and no other.

The library is found as the program is: its manifest has the SHA-256 of its file, and the bytes that were hashed are the
ones that are loaded. In a release the manifest has to be the released one.
"""
from __future__ import annotations

import contextlib
import json
import os
import threading
from typing import Any, NamedTuple, Optional, Union

from hemtoghai import program
from hemtoghai.program import Unusable

CHOICE = "HEMTOGHAI_BY"
FOLDER = "library/out/"  # of a checkout, a release or an installed package
FILE = "lib/libhemtoghai.so.%s"  # in it, with the version
NO_ROOM = 7  # the library's status where the answer has more bytes than there is room for
ROOM = 1 << 16  # bytes that a thread's first answer is given
MOST_ROOM = 1 << 20  # bytes that a thread keeps for its next answer: making them anew takes as long as a small call


class Answer(NamedTuple):
    """What a command gives."""
    status: int  # docs/COMMANDS.md, Statuses and fault lines
    output: bytes
    proof: Optional[str]  # the last line of the proof of what answered, where it is known
    by: str  # "library" or "process"


class Process:
    """The program, started for each question: runs the words of a command over the bytes of its input. Raises Unusable
    where there is no answer. Any number of threads may call it at once."""

    def run(self, words: list[str], text: bytes) -> Answer:
        status, output = program.ask(words, text)
        return Answer(status, output, program.proof(), "process")


def line_of(words: list[str]) -> bytes:
    """Words as one line. A word that can't stand in a line is no word of any command, nor is the one in its place."""
    return b" ".join(word.encode("utf-8", "surrogateescape") if word and min(word) > " " else b"?" for word in words)


class Library:
    """The library, loaded from a file, which runs the same. It has no state; other threads of Python run during a call,
    and each has a room of its own for answers."""

    def __init__(self, path: str, proof: Optional[str]) -> None:
        try:
            import ctypes
            self.call = ctypes.CDLL(path).hemtoghai_run
        except (ImportError, OSError, AttributeError) as error:
            raise Unusable(f"the library can't be loaded: {error}") from None
        self.call.restype = ctypes.c_uint8
        self.call.argtypes = [ctypes.c_char_p, ctypes.c_size_t, ctypes.c_char_p, ctypes.c_size_t,
                              ctypes.c_void_p, ctypes.c_size_t, ctypes.POINTER(ctypes.c_size_t)]
        self.proof, self.rooms = proof, threading.local()

    def run(self, words: list[str], text: bytes) -> Answer:
        import ctypes
        line, size = line_of(words), ctypes.c_size_t()
        given = line, len(line), text, len(text)
        # Taken away for the call: a handler of signals that asks meanwhile finds none, and makes its own.
        output = vars(self.rooms).pop("output", None) or ctypes.create_string_buffer(ROOM)
        while (status := self.call(*given, output, len(output), ctypes.byref(size))) == NO_ROOM:
            output = ctypes.create_string_buffer(size.value)  # the same question has the same answer
        answer = Answer(status, ctypes.string_at(output, size.value), self.proof, "library")
        if len(output) <= MOST_ROOM:
            self.rooms.output = output
        program.need_answer(words, status, answer.output)
        return answer


def manifest() -> dict[str, Any]:
    """The library's manifest; raises Unusable where it isn't the released one, or doesn't say that the library is made
    from the sources of the program that is there."""
    path = os.path.join(program.TOP, FOLDER, "MANIFEST.json")
    if not os.path.exists(path):
        raise Unusable("the library isn't built; ./show library builds it")
    data, _ = program.read_program(path)
    try:
        record = json.loads(data)
    except (ValueError, RecursionError):
        record = None
    if not isinstance(record, dict) or not isinstance(record.get("files"), dict):
        raise Unusable("the library's manifest can't be read")
    beside = program.record_of(program.record_path(program.PROGRAM))
    if os.path.exists(program.MANIFEST):
        files = beside.get("files")
        if not isinstance(files, dict) or files.get(FOLDER + "MANIFEST.json") != program.digest_of(data):
            raise Unusable("the library's manifest isn't as released: unpack the release anew")
    elif beside.get("stamp") not in (None, record.get("program_stamp")):
        raise Unusable("the library isn't of the program's sources; ./show library builds it")
    return record


def library() -> Library:
    """The library that was built here or released; raises Unusable."""
    if fault := program.fault_of_machine():
        raise Unusable(fault)
    record = manifest()
    name = FILE % record.get("version")
    path = os.path.join(program.TOP, FOLDER, name)
    data, _ = program.read_program(path)
    if record["files"].get(name) != program.digest_of(data):
        raise Unusable("the library isn't the one of its manifest")
    line = record.get("rests_on")
    proved = isinstance(line, str) and line.startswith("logic=proved ")
    return Library(program.in_memory(data) or path, line if proved else None)


_lock = threading.Lock()
Runner = Union[Library, Process]
_chosen: Optional[Runner] = None


def choose() -> Runner:
    """The library where it can be taken and has its proof, or the program; or that of HEMTOGHAI_BY. Raises Unusable."""
    by = os.environ.get(CHOICE)
    if by == "library":
        return library()
    if by == "process":
        return Process()
    if by:
        raise Unusable(f"{CHOICE} is library or process, and not {by!r}")
    with contextlib.suppress(Unusable):
        found = library()
        if found.proof is not None:
            return found
    return Process()


def runner() -> Runner:
    """What was chosen at the first question."""
    global _chosen
    with _lock:
        if _chosen is None:
            _chosen = choose()
        return _chosen
