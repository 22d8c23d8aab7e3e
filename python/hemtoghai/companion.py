"""What the tools have in common: reading files, asking `check`, places and times as people read them."""
from __future__ import annotations

import argparse
import re
import sys
from collections.abc import Callable, Sequence
from fractions import Fraction
from typing import Any, NoReturn, TypeVar

from hemtoghai import program as proved, texts
from hemtoghai.language import choreo
from hemtoghai.language.choreo import Flown, Refused
from hemtoghai.language.cures import print_cure
from hemtoghai.program import COMMAND
from hemtoghai.streams import NO_ANSWER, shown, tell

Number = TypeVar("Number", float, Fraction)  # in doubles or exact
PartOfPlan = tuple[str, bytes, int, list[tuple[str, str]]]  # name, bytes, pieces, packets as words and digits
Motion = tuple[list[float], list[float], list[int]]  # accelerations, jumps of speed, and the cues of these
_running = ["hemtoghai"]  # the command, as its messages begin


def set_tool(name: str) -> None:
    _running[0] = name


def tool_name() -> str:
    return _running[0]


def stop(text: str, status: int = NO_ANSWER) -> NoReturn:
    """Ends the tool with a line on standard error."""
    tell(tool_name(), text)
    sys.exit(status)


class Parser(argparse.ArgumentParser):
    """A reader of words that says what is wrong with them as a terminal may have it."""

    def error(self, message: str) -> NoReturn:
        super().error(shown(message))


def parser(text: str | None) -> argparse.ArgumentParser:
    return Parser(prog=f"{COMMAND} {tool_name()}",
                  description=(text or "").replace("./show", COMMAND),
                  formatter_class=argparse.RawDescriptionHelpFormatter)


def whole(what: str, least: int, most: int) -> Callable[[str], int]:
    """What reads a whole number of an option within its limits, which `what` has places for: it is said of others."""
    def read(word: str) -> int:
        if not (word.isdigit() and len(word) < 10 and least <= int(word) <= most):
            raise argparse.ArgumentTypeError(f"{what % (least, most)}, not {word}")
        return int(word)
    return read


def add_depth(words: argparse.ArgumentParser, text: str = "as for check: 0 to 8, without it 6") -> None:
    words.add_argument("--depth", type=whole("the depth is %d to %d", 0, 8), default=choreo.DEPTH, metavar="D",
                       help=text)


def read_front(path: str, most: int) -> bytes:
    """The first bytes of a file, to one more than it may have; `-` is standard input."""
    try:
        return texts.front_of(path, most + 1)
    except (OSError, ValueError) as error:
        return stop("%s: %s" % (path, getattr(error, "strerror", None) or error))


def read_file(path: str, most: int = texts.LOG) -> bytes:
    """The bytes of a file that has at most so many."""
    data = read_front(path, most)
    return data if len(data) <= most else stop(f"{path}: more than {most} bytes")


def read_show(path: str) -> bytes:
    """A show's text, to one more byte than it may have."""
    text = read_front(path, choreo.LONGEST_TEXT)
    if len(text) <= choreo.LONGEST_TEXT and choreo.parts_of(text)[2]:
        stop(f"{path}: a tool reads a show alone, without a marker line")
    return text


def flown_of(path: str) -> tuple[bytes, Flown]:
    """What the drones of a show's file fly; a faulty show ends the tool with the program's status and line."""
    text = read_show(path)
    try:
        return text, choreo.flown_of(text)
    except Refused as refusal:
        if refusal.number:
            print_cure(tool_name(), refusal.number, refusal.outcome.split()[0], text)
        return stop(f"{path}: {refusal}", refusal.status)


def words_and_show(reader: argparse.ArgumentParser, words: list[str]) -> tuple[argparse.Namespace, bytes, Flown]:
    """Reads a tool's words, of which the last is the file of a show, and that show."""
    reader.add_argument("show", metavar="SHOW", help="a file with a show, or - for standard input")
    options = reader.parse_args(words)
    return (options, *flown_of(options.show))


def no_program(program: str | None = None) -> str | None:
    """Why the program can't be run, or None: it isn't built, not as recorded, or of a release for other machines."""
    return proved.fault(program)


def ask(words: list[str], text: bytes, program: str | None = None) -> tuple[int, str] | None:
    """The status and the output of the program on a text, or None where it can't be run."""
    try:
        status, output = proved.ask(words, text, program)
    except proved.Unusable:
        return None
    return status, output.decode(errors="replace")


def ask_check(text: bytes, deep: int = choreo.DEPTH, program: str | None = None) -> tuple[int, str] | None:
    """The status and the line of `check` on a show, or None where it can't be run."""
    answer = ask(["check", "--depth", str(deep)], text, program)
    return answer and (answer[0], answer[1].strip())


def say(words: str) -> None:
    """A line on standard error, beside what the tool writes."""
    tell(tool_name(), words)


def put_show(text: bytes, deep: int = choreo.DEPTH) -> int:
    """Writes a new show, and says what `check` finds; its status, or 70 where it can't be asked."""
    sys.stdout.buffer.write(text)
    sys.stdout.flush()
    answer = ask_check(text, deep)
    say("check: " + answer[1] if answer else "the new show has no verdict: " + missing())
    return answer[0] if answer else NO_ANSWER


def known_names(flown: Flown, names: list[str]) -> list[str]:
    """These names, where they are all of drones of the show; another one ends the tool."""
    if strangers := [name for name in names if name not in flown.names]:
        stop(f"no drone of the show: {', '.join(strangers)}; it has {', '.join(flown.names)}", 2)
    return names


MOTION = re.compile(r"dynamics (\S+) acceleration (\d+) (\d+) (\d+) jump (\d+) cue (\d+) (\d+) cue (\d+) (\d+) "
                    r"cue (\d+) begins (\w+) ends (\w+)$", re.M)


def motions_in(output: str) -> dict[str, dict[str, Any]]:
    """By drone what `dynamics` writes."""
    out = {}
    for name, *numbers, begins, ends in MOTION.findall(output):
        row = [int(number) for number in numbers]
        out[name] = {"acceleration": tuple(row[:3]), "jump": tuple(row[3::2]), "jump_cues": tuple(row[4::2]),
                     "begins_at_rest": begins == "rest", "ends_at_rest": ends == "rest"}
    return out


def ask_dynamics(text: bytes, program: str | None = None) -> dict[str, Motion] | None:
    """What `dynamics` says of a show's drones, by name: bounds on acceleration in m/s^2, jumps of speed in m/s and
    their cues, each on x, y and z; or None where the program can't be run or refuses the show."""
    answer = ask(["dynamics"], text, program)
    return {name: ([v / 1e6 for v in row["acceleration"]], [v / 1e6 for v in row["jump"]], list(row["jump_cues"]))
            for name, row in motions_in(answer[1]).items()} if answer and answer[0] == 0 else None


def speeds_in(output: str) -> dict[str, tuple[int, int, int]]:
    """By drone what `speed` writes."""
    rows = (line.split(" ") for line in output.splitlines() if line.startswith("speed "))
    return {name: (int(x), int(y), int(z)) for _, name, x, y, z in rows}


def missing(program: str | None = None) -> str:
    """What to do where the program can't be run."""
    return "`check` was not asked: %s" % (no_program(program) or "it gave no answer")


def no_verdict(program: str | None = None) -> str:
    """Why a tool that found nothing wrong with a show doesn't accept it: only the program does."""
    return f"no verdict: {missing(program)}; what the tool itself looked at is as it should be"


def without_program(text: bytes, program: str | None = None) -> tuple[int, str]:
    """The status and the line of a refusal for which no program is needed, of a faulty text or for want of room; of all
    others 70, and why there is no verdict."""
    try:
        choreo.judge_room(choreo.flown_of(text))
    except Refused as refusal:
        return refusal.status, str(refusal)
    return NO_ANSWER, no_verdict(program)


def value(row: Sequence[Number], u: Number) -> Number:
    """The place on an axis at a fraction of a cue, by its control values."""
    many_, rest, power, out, share = len(row) - 1, 1 - u, u, row[0], 1
    if not many_:
        return out
    out *= rest
    for k in range(1, many_):
        share = share * (many_ - k + 1) // k
        out = (out + share * power * row[k]) * rest
        power *= u
    return out + power * row[-1]


def place(flown: Flown, drone: int, cue: int, u: float) -> list[float]:
    """Where a drone is at a fraction of a cue, in millimetres."""
    return [value(row, u) for row in flown.by_cue[drone][cue][1][:3]]


def begins(flown: Flown) -> list[int]:
    """The milliseconds at which each cue begins, and the end of the show."""
    return flown.begins


def seconds(milliseconds: float) -> str:
    return f"{milliseconds / 1000:.3f} s"


def cue_words(cue: choreo.Cue) -> str:
    """Where a cue stands in the text: its line, and the repeats and performs that it is played in."""
    out = f"line {cue.number}"
    for kind, line, *rest in reversed(cue.within):
        if kind == "repeat":
            out += ", turn %d of %d of the repeat in line %d" % (*rest, line)
        else:
            out += ", in the figure %s performed in line %d" % (rest[0], line)
    return out


def many(number: int, word: str) -> str:
    """A number and its word, with an s where it isn't one."""
    return "%d %s%s" % (number, word, "" if number == 1 else "s")


def parts_of_plan(text: bytes, path: str) -> list[PartOfPlan]:
    """The drones of a plan's text, which comes from this file: name, bytes, number of pieces and packets each; anything
    but a plan ends the tool."""
    lines = text.decode(errors="replace").split("\n")
    drones: list[PartOfPlan] = []
    name = None
    if lines[:1] != ["plan 1"]:
        stop(f"{path}, line 1: a plan begins with `plan 1`; {COMMAND} compile FILE writes one")
    for number, line in enumerate(lines[1:], 2):
        words = line.split(" ")
        try:
            if words[0] == "drone" and words[2] == "bytes" and words[4] == "pieces":
                name, size, pieces = words[1], int(words[3]), int(words[5])
                if not choreo.is_name(name):
                    raise ValueError
            elif words[0] == "data" and name:
                data = bytes(int(word, 16) for word in words[1:])
                if len(data) != size:
                    raise ValueError
                drones.append((name, data, pieces, []))
                name = None
            elif words == ["end"]:
                return drones
            elif words[0] not in ("write", "define", "start"):
                raise ValueError
            elif drones:
                drones[-1][3].append((words[0], " ".join(words[1:])))
        except (ValueError, IndexError):
            stop(f"{path}, line {number}: this is no line of a plan: {line[:60]}")
    return stop(f"{path}: the plan has no last line `end`")


def decoded(data: bytes, pieces: int) -> tuple[list[int], list[choreo.Segment]] | None:
    """A trajectory's start and its segments as (milliseconds, elements), from its bytes; or None where they aren't one
    of this many segments and the three zero bytes."""
    def number(at: int, signed: bool = True) -> int:
        return int.from_bytes(data[at:at + 2], "little", signed=signed)
    last, at, segments = [number(k) for k in (0, 2, 4, 6)], 8, []
    start = list(last)
    for _ in range(pieces):
        if at + 3 > len(data) or number(at + 1) == 0:
            return None
        header, milliseconds, elements, at = data[at], number(at + 1, False), [], at + 3
        for axis in range(4):
            many_numbers = [0, 1, 3, 7][header >> (2 * axis) & 3]
            elements.append([last[axis]] + [number(at + 2 * k) for k in range(many_numbers)])
            at += 2 * many_numbers
            last[axis] = elements[-1][-1]
        segments.append((milliseconds, elements))
    return (start, segments) if data[at:] == bytes(3) else None
