#!/usr/bin/env python3
"""A second opinion on a certificate, in exact whole numbers, that shares nothing with the program or the other tools.

    ./show judge SHOW PLAN CERTIFICATE

It reads the plan, as docs/TRAJECTORY.md and docs/RADIO.md have its bytes and packets, the show's lines `drone`,
`ellipsoid` (120 300 without one), `stray` and `late` (0 without them), and the certificate of either version, as
docs/SEPARATION.md has it; nothing else. The plan has to be whole: it ends with `end`, its packets bring the bytes that
are judged, and its drones are those of the show, in its order and at its places. The plan joins holds, so a stretch of
time in which all drones hold may be one cue or several: `judge` accepts any way to cut it for which every tree is
right, since each of them shows that all drones are apart at every instant. Status 0: the certificate is right. 12: it
isn't, and the first tree that can't be right is named. 11: it is no certificate. 70: a file can't be read or is no plan
of this show.
"""
from __future__ import annotations

import sys
if __name__ == "__main__" and not sys.flags.isolated:
    sys.path[:1] = []  # Python's own modules alone, whatever lies beside this file
import contextlib
import os
import re
from array import array
from bisect import bisect_right
from collections.abc import Iterable, Iterator, Sequence
from itertools import combinations, islice, product
from math import comb, gcd, isqrt
from typing import NamedTuple, NoReturn

Rows = list[list[str]]  # lines as words
Curve = list[int]  # its control values on an axis
Counts = tuple[dict[str, int], int]
Direction = tuple[int, int, int]
Ruler = tuple[Direction, int]  # a direction's weights, and how far apart drones have to be by them


class Segment(NamedTuple):
    """What a drone flies between two instants in milliseconds, on x, y and z in millimetres, and whether it holds."""
    begin: int
    end: int
    axes: list[Curve]
    holds: bool


class Drone(NamedTuple):
    """A drone of a plan."""
    name: str
    segments: list[Segment]


class Certificate(NamedTuple):
    """A certificate: its depth, its table of directions by their words, and its trees."""
    depth: int
    words: dict[str, Direction]
    trees: Trees
    version: int


LARGEST = {"show": 1048576, "plan": 1 << 22, "certificate": 400000000}  # bytes
LIMITS = {"ellipsoid": (1, 2000), "stray": (0, 1000), "late": (0, 1000)}
PIECE, MOST_KNOWN = 1 << 16, 100000  # bytes of a certificate, and kinds of lines, that are looked at together
NUMBER = re.compile("-?[0-9]+")
QUANTITY = re.compile(r"(-?)([0-9]+)(?:\.([0-9]+))?([a-z]+)")
# What a place of a show counts: the units of `choreo 2`, each as so many of the least one, and so many of that are one.
MICROMETRES, MILLIMETRES, MILLISECONDS, TENTHS = [
    ({"m": 1000000, "cm": 10000, "mm": 1000, "um": 1}, 1), ({"m": 1000000, "cm": 10000, "mm": 1000, "um": 1}, 1000),
    ({"s": 1000, "ms": 1}, 1), ({"deg": 10}, 1)]
COUNTED = {"ellipsoid": MILLIMETRES, "stray": MILLIMETRES, "late": MILLISECONDS}


def stop(text: str, status: int = 70) -> NoReturn:
    """Ends with a line: on standard output where the certificate was judged. A control character, as in the name of a
    file, is written by its escape."""
    stream = sys.stderr if status == 70 else sys.stdout
    text = "".join(letter if letter.isprintable() else ascii(letter)[1:-1] for letter in text)
    try:
        if stream is None:
            raise OSError
        print("judge: " + text, file=stream, flush=True)
    except (OSError, ValueError):
        with contextlib.suppress(OSError):
            os.write(2, b"judge: what was found can't be written\n")
        os._exit(70)  # so that no status speaks of a line that nobody got
    sys.exit(status)


def read(path: str, kind: str) -> bytes:
    """The bytes of a file, if they aren't too many; no more of them are read."""
    try:
        with open(path, "rb") as file:
            data = file.read(LARGEST[kind] + 1)
    except (OSError, ValueError) as error:
        return stop("%s: %s" % (path, getattr(error, "strerror", None) or error))
    return data if len(data) <= LARGEST[kind] else stop(f"{path}: a {kind} of more than {LARGEST[kind]} bytes")


def lines_of_show(path: str) -> Rows:
    """The lines of the show as words, without comments, the first of them its form."""
    lines = read(path, "show").decode("latin-1").split("\n")
    rows = [row for row in (line.partition("#")[0].split() for line in lines) if row]
    if rows[:1] not in ([["choreo", "1"]], [["choreo", "2"]]):
        stop(f"{path}: a show begins with `choreo 1` or `choreo 2`")
    return rows


def value_of(show: Rows, word: str, counts: Counts) -> int | None:
    """The whole number that a word of a show is in a place that counts this; None where it is none."""
    if show[0] == ["choreo", "1"] or NUMBER.fullmatch(word):
        digits = word.lstrip("-").lstrip("0")
        if not NUMBER.fullmatch(word) or len(digits) > 40 or digits and show[0] == ["choreo", "2"]:
            return None  # in `choreo 2` zero alone has no unit
        return int("-" * (word[0] == "-") + (digits or "0"))
    (units, least), found = counts, QUANTITY.fullmatch(word)
    if found is None or found[4] not in units:
        return None
    whole, places = found[2].lstrip("0"), (found[3] or "").rstrip("0")
    if len(whole) > 40 or len(places) > 40:
        return None  # too many, or not a whole one
    size, rest = divmod(int(whole + places or "0") * units[found[4]], least * 10 ** len(places))
    return None if rest else -size if found[1] else size


def setting(show: Rows, word: str, *default: int) -> Sequence[int]:
    """The numbers of the show's line of this word, which stands at most once outside of blocks."""
    low, high = LIMITS[word]
    found = [row[1:] for row in outside(show) if row[0] == word]
    if not found:
        return default
    read = [value_of(show, it, COUNTED[word]) for it in found[0]]
    values = [value for value in read if value is not None and low <= value <= high]
    if len(found) > 1 or not len(read) == len(values) == len(default):
        stop(f"the show's line `{word}` is faulty")
    return values


def outside(show: Rows) -> Iterator[list[str]]:
    """The lines outside of formations, figures, repeats and cues: in these the first word may be a drone's name."""
    depth = 0
    for row in show[1:]:
        if row == ["end"]:
            depth -= 1
        elif depth:
            depth += row[0] in ("cue", "repeat") and len(row) == 2 and row[1][0].isdigit()
        else:
            depth += row[0] in ("formation", "figure", "cue", "repeat")
            yield row


def starts_of(show: Rows) -> list[tuple[str, list[int]]]:
    """The show's drones: their names, and their first places in millimetres with the yaw in tenths of a degree."""
    out = []
    for row in outside(show):
        if row[0] == "drone":
            read = (value_of(show, it, counts) for it, counts in zip(row[2:], [*[MICROMETRES] * 3, TENTHS]))
            values = [value for value in read if value is not None]
            if len(row) != 6 or len(values) != 4:
                stop(f"the show's line `{' '.join(row)[:60]}` is faulty")
            out.append((row[1], [*((v + 500) // 1000 for v in values[:3]), values[3]]))
    return out


def trajectory(data: bytes, pieces: int) -> list[Segment]:
    def number(at: int) -> int:
        return int.from_bytes(data[at:at + 2], "little", signed=True)
    last, at, time, out = [number(k) for k in (0, 2, 4, 6)], 8, 0, []
    if not 1 <= pieces <= 255 or not 8 <= len(data) <= 4096:
        raise ValueError(f"{len(data)} bytes for {pieces} segments")
    for _ in range(pieces):
        header, milliseconds = data[at], int.from_bytes(data[at + 1:at + 3], "little")
        at += 3
        axes = []
        for axis in range(4):
            count = (0, 1, 3, 7)[header >> (2 * axis) & 3]
            axes.append([last[axis]] + [number(at + 2 * k) for k in range(count)])
            at += 2 * count
            last[axis] = axes[-1][-1]
        if milliseconds == 0:
            raise ValueError("a segment of duration 0")
        out.append(Segment(time, time + milliseconds, axes[:3], header == 0))
        time += milliseconds
    if len(data) != at + 3 or any(data[at:]):
        raise ValueError(f"{len(data)} bytes for {pieces} segments")
    return out


def bytes_of(words: list[str]) -> bytes:
    """The bytes of words of two hexadecimal digits."""
    return bytes.fromhex("".join(word if len(word) == 2 else "?" for word in words))


def are_packets_of(data: bytes, pieces: int, packets: list[tuple[str, bytes]]) -> bool:
    """Whether packets bring these bytes into a memory, from their offset on, name them as so many segments, and start
    them: docs/RADIO.md."""
    *writes, (define, named), (start, begun) = packets if len(packets) > 2 else [("", b"")] * 3
    offset = int.from_bytes(named[5:9], "little")
    return (all(word == "write" and packet[:1] == b"\x4E" and packet[1] == writes[0][1][1]
                and packet[2:6] == (offset + 24 * k).to_bytes(4, "little") and len(packet) <= 30
                for k, (word, packet) in enumerate(writes))
            and b"".join(packet[6:] for _, packet in writes) == data
            and define == "define" and named[:2] + named[3:5] == b"\x8C\x06\x01\x01" and named[9:] == bytes([pieces])
            and start == "start" and begun == bytes([0x8C, 5, 0, 0, 0, named[2], 0, 0, 0x80, 0x3F]))


def drone_of(lines: Rows) -> tuple[Drone, list[int]]:
    """A drone of a plan, from its lines as words, and its first place."""
    (_, name, *sizes), (word, *digits), *packets = lines
    if word != "data" or sizes[0::2] != ["bytes", "pieces"] or len(sizes) != 4:
        raise ValueError("this is no drone of a plan")
    data, pieces = bytes_of(digits), int(sizes[3])
    segments = trajectory(data, pieces)
    if int(sizes[1]) != len(data) or not are_packets_of(data, pieces, [(it[0], bytes_of(it[1:])) for it in packets]):
        raise ValueError(f"the packets don't bring the bytes of {name}")
    return Drone(name, segments), [int.from_bytes(data[k:k + 2], "little", signed=True) for k in (0, 2, 4, 6)]


def plan_of(path: str, starts: list[tuple[str, list[int]]]) -> list[Drone]:
    """The drones of a plan, which has to be whole and one of these drones, each with its name and its segments."""
    lines = read(path, "plan").decode("latin-1").split("\n")
    if lines[0] != "plan 1" or lines[-2:] != ["end", ""]:
        stop(f"{path}: this is no plan, or not a whole one: it begins with `plan 1` and ends with `end`")
    words = [line.split(" ") for line in lines[1:-2]]
    edges = [k for k, line in enumerate(words) if line[0] == "drone"] + [len(words)]
    drones = []
    for first, last in zip(edges, edges[1:]):
        try:
            drones.append(drone_of(words[first:last]))
        except (ValueError, IndexError) as error:
            stop(f"{path}, from line {first + 2} on: {error}")
    if edges[0] or [(drone.name, start) for drone, start in drones] != starts:
        stop(f"{path}: its drones, or the places where they start, aren't those of the show")
    if not drones or len({drone.segments[-1].end for drone, _ in drones}) > 1:
        stop(f"{path}: it has no drones, or they fly for different times")
    return [drone for drone, _ in drones]


def intervals_of(drones: list[Drone]) -> list[tuple[list[list[Curve]], bool]]:
    """The stretches between which no drone has an edge; for each all drones' three curves, and whether all hold."""
    edges = sorted({0, *(segment.end for drone in drones for segment in drone.segments)})
    at, out = [0] * len(drones), []
    for begin, end in zip(edges, edges[1:]):
        curves, hold = [], True
        for k, (name, segments) in enumerate(drones):
            while segments[at[k]].end <= begin:
                at[k] += 1
            own = segments[at[k]]
            if (own.begin, own.end) != (begin, end) and not own.holds:
                stop(f"the plan's drones have no common cues: {name} moves from {own.begin} to {own.end} ms")
            curves.append(own.axes)
            hold = hold and own.holds
        out.append((curves, hold))
    return out


def raised(b: Curve) -> Curve:
    """The eight control values of degree seven of 5,040 times a curve."""
    n = len(b) - 1
    return [5040 // comb(7, k) * sum(comb(n, j) * comb(7 - n, k - j) * b[j]
                                     for j in range(n + 1) if j <= k <= 7 - n + j) for k in range(8)]


def halves(b: Curve) -> tuple[Curve, Curve]:
    """Both halves of a curve, each times 2^7, by de Casteljau's rule."""
    left: Curve = []
    right: Curve = []
    for k in range(8):
        left.append(b[0] << 7 - k)
        right.insert(0, b[-1] << 7 - k)
        b = [u + v for u, v in zip(b, b[1:])]
    return left, right


def reach_of(drones: list[Drone], late: int) -> list[int]:
    """How many millimetres any drone moves on each axis in so many milliseconds at most."""
    fastest = [0, 0, 0]
    for own in (segment for drone in drones for segment in drone.segments if late):
        for axis, b in enumerate(own.axes):
            parts = [raised(b)]
            for _ in range(6):
                parts = [half for part in parts for half in halves(part)]
            step = max(abs(v - u) for part in parts for u, v in zip(part, part[1:]))
            fastest[axis] = max(fastest[axis], -(-7000000 * step // (5040 * (own.end - own.begin) << 36)))
    return [min(65536, -(-late * speed // 1000000)) for speed in fastest]


def ruler(n: Direction, r: int, h: int, stray: int, reach: Sequence[int]) -> Ruler:
    """A direction's weights, and how far apart drones have to be by them."""
    w = h * n[0], h * n[1], r * n[2]
    strays = 4 * stray * stray * sum(v * v for v in w)
    return w, (isqrt(4 * r * r * h * h * sum(v * v for v in n)) + 1 + (isqrt(strays - 1) + 1 if strays else 0)
               + sum(abs(v) * far for v, far in zip(w, reach)))


class Trees:
    """The trees of a certificate: its text, and where the lines begin. A great certificate has tens of millions, so
    none is kept as a value of its own: of lines that are a direction alone, and so as long as each other, the first."""

    def __init__(self, text: str, width: int) -> None:
        self.text, self.width, self.count = text, width, 0
        self.numbers, self.places = array("I"), array("I")  # of the first lines, in order

    def __len__(self) -> int:
        return self.count

    def place_of(self, number: int) -> int:
        """Where a line begins, or would, after those that are noted."""
        k = bisect_right(self.numbers, number) - 1
        return self.places[k] + (number - self.numbers[k]) * (self.width + 1)

    def note(self, at: int, many: int, next_: int) -> int:
        """Notes lines from a place on, all but the last of which are a direction alone; where a further line would
        begin if the last were one too. `next_` is that of the lines before."""
        if at != next_:
            self.numbers.append(self.count)
            self.places.append(at)
        self.count += many
        return at + many * (self.width + 1)

    def is_tree(self, at: int, end: int, words: dict[str, Direction]) -> bool:
        """Whether the text between two places is one whole tree: `.` before two trees, and words."""
        owed, text = 1, self.text
        while at < end and owed:
            if text[at] == ".":
                at, owed = at + 1, owed + 1
            elif text[at:at + self.width] in words:
                at, owed = at + self.width, owed - 1
            else:
                return False
        return owed == 0 and at == end

    def add_all(self, at: int, line: int, words: dict[str, Direction]) -> int | None:
        """Adds all lines from a place on, of which the first has this number; the number of one that is no tree."""
        text, next_ = self.text, -1
        known = dict.fromkeys(words, True)  # by short lines whether they are trees
        while at < len(text):
            end = len(text) if len(text) - at <= PIECE else text.rfind("\n", at, at + PIECE) + 1
            if not end:  # a line that is longer than a piece
                (_, last), = islice(lines_in(text, at), 1)
                if not self.is_tree(at, last, words):
                    return line
                next_, at, line = self.note(at, 1, next_), text.find("\n", last) + 1 or len(text), line + 1
                continue
            rows = text[at:end].removesuffix("\n").split("\n")
            if words.keys() >= {*rows}:  # most are a direction alone
                next_, at, line = self.note(at, len(rows), next_), end, line + len(rows)
                continue
            for line, row in enumerate(rows, line):
                last = at + len(row)
                if row not in known:
                    if not self.is_tree(at, last - (row[-1:] == "\r" and last < len(text)), words):
                        return line
                    if len(row) < 40 and row[-1] != "\r" and len(known) < MOST_KNOWN:
                        known[row] = True
                next_, at = self.note(at, 1, next_), last + 1
            line += 1
        return None

    def nodes(self, number: int) -> Iterator[str]:
        """The nodes of a tree in order: `.` and words."""
        at, owed = self.place_of(number), 1
        while owed:
            node = "." if self.text[at] == "." else self.text[at:at + self.width]
            at, owed = at + len(node), owed + (1 if node == "." else -1)
            yield node


def lines_in(text: str, at: int = 0) -> Iterator[tuple[int, int]]:
    """Where the lines of a text begin and end from a place on, without line feeds, nor carriage returns before these.
    """
    while at < len(text):
        end = text.find("\n", at)
        last = len(text) if end < 0 else end
        yield at, last - (0 <= end and at < end and text[end - 1] == "\r")
        at = last + 1


def certificate_of(path: str) -> Certificate:
    text = read(path, "certificate").decode("latin-1")
    lines = lines_in(text)
    first, second = ("".join(text[at:min(end, at + 20)] for at, end in islice(lines, 1)) for _ in range(2))
    version = 2 if first == "version 2" else 1
    entries = range(-version, version + 1)
    table = [n for n in product(entries, entries, entries) if gcd(*n) == 1]
    words = {chr(97 + k) if version == 1 else f"{k:02d}": n for k, n in enumerate(table)}
    head = (first, second)[version - 1]
    if not re.fullmatch("certificate [0-8]", head):
        stop(f"error 11 line {version}", 11)
    trees = Trees(text, version)
    begin = next((at for at, _ in islice(lines_in(text), version, None)), len(text))
    if number := trees.add_all(begin, version + 1, words):
        stop(f"error 11 line {number}", 11)
    return Certificate(int(head[-1]), words, trees, version)


def is_right(nodes: Iterable[str], first: list[Curve], second: list[Curve], depth: int,
             rulers: dict[str, Ruler]) -> bool:
    """Whether a tree shows two drones to be apart while they fly these curves."""
    stack = [([[v - u for u, v in zip(raised(a), raised(b))] for a, b in zip(first, second)], 0)]
    for node in nodes:
        part, level = stack.pop()
        if node == ".":
            if level == depth:
                return False
            cut = [halves(row) for row in part]
            stack += [([right for _, right in cut], level + 1), ([left for left, _ in cut], level + 1)]
            continue
        w, least = rulers[node]
        if any(w[0] * x + w[1] * y + w[2] * z < least * 5040 << 7 * level for x, y, z in zip(*part)):
            return False
    return True


def judge(drones: list[Drone], given: Certificate, rulers: dict[str, Ruler]) -> tuple[str, int]:
    """What is said of a certificate, and the status."""
    depth, _, trees, _ = given
    pairs, intervals = list(combinations(range(len(drones)), 2)), intervals_of(drones)
    if not pairs:
        return ("extra: a show of one drone has no tree", 12) if trees else ("valid: one drone", 0)
    cues = max(len(intervals), len(trees) // len(pairs))
    reached = {-1}  # the last intervals that this many cues can reach
    for cue in range(cues):
        ahead = {k + 1 for k in reached} | {k for k in reached if k >= 0 and intervals[k][1]}
        ahead.discard(len(intervals))
        for p, (i, j) in enumerate(pairs):
            number = p * cues + cue
            name = f"pair {drones[i].name} {drones[j].name} cue {cue + 1}"
            if number >= len(trees):
                return f"missing {name}", 12
            curves = [(k, intervals[k][0][i], intervals[k][0][j]) for k in ahead]
            ahead = {k for k, first, second in curves if is_right(trees.nodes(number), first, second, depth, rulers)}
            if not ahead:
                return f"refused at tree {number + 1}, {name}", 12
        reached = ahead
    if len(intervals) - 1 not in reached or len(trees) != cues * len(pairs):
        return f"{len(trees)} trees for {len(pairs)} pairs and {cues} cues", 12
    return f"valid depth {depth} trees {len(trees)}", 0


def main(words: list[str]) -> int:
    if len(words) != 3 or words[0] in ("-h", "--help"):
        is_help = words[:1] in (["-h"], ["--help"])
        print((__doc__ or "").strip(), file=sys.stdout if is_help else sys.stderr)
        return 0 if is_help else 70
    show = lines_of_show(words[0])
    drones, certificate = plan_of(words[1], starts_of(show)), certificate_of(words[2])
    reach = reach_of(drones, *setting(show, "late", 0))
    (r, h), (stray,) = setting(show, "ellipsoid", 120, 300), setting(show, "stray", 0)
    rulers = {word: ruler(n, r, h, stray, reach) for word, n in certificate.words.items()}
    return stop(*judge(drones, certificate, rulers))


if __name__ == "__main__":
    try:
        sys.exit(main(sys.argv[1:]))
    except (MemoryError, RecursionError) as fault:
        stop(f"no answer: {type(fault).__name__}")
    except KeyboardInterrupt:
        os._exit(130)
