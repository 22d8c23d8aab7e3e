"""Readers of trajectories that other programs write: .skyc of Skybrush, polynomials of uav_trajectories, waypoints.

The readers are WRITTEN FROM MEMORY of the formats, and were tried with files that were made from the same memory, never
with one that another program wrote. What they don't know they refuse. All numbers are taken as they are written.
"""
from __future__ import annotations

import bisect
import csv
import io
import itertools
import json
import posixpath
import re
import struct
import zipfile
import zlib
from collections.abc import Iterable, Iterator, Sequence
from fractions import Fraction
from math import comb
from typing import TypeVar

from hemtoghai.companion import read_front
from hemtoghai.geometry import paths
from hemtoghai.geometry.paths import Budget, part, Path, PI
from hemtoghai.language.choreo import MOST_DRONES
from hemtoghai.language.lines import free_name

Kind = TypeVar("Kind")
Row = list[Fraction]  # numbers of a line, control values, or a place
Piece = paths.Piece[Fraction]
Timed = tuple[Fraction, Row]  # an instant in milliseconds, and a place with its yaw

LARGEST = 1 << 24  # bytes of a file, or of all members of an archive that are read
CELLS = LINES = 1000000  # cells of all CSV files, and lines of one
NUMBERS = 300000  # that are read, of all files together; one with more than twenty places counts as several
BITS = 64  # of a number, for which it counts as one
# An archive is packed less than so many times, and has fewer numbers than bytes: else it isn't a show that flies.
PACKED, SMALLEST = 64, 20000
NUMBER = re.compile(r"([-+]?)(\d+\.?\d*|\.\d+)([eE][-+]?\d{1,3})?")
LARGEST_EXPONENT = 99
TENS = [10 ** k for k in range(200)]
JUMP = 100000  # micrometres that a path may jump on an axis: the polynomials of some files are rounded
LONGEST = 36000000  # milliseconds of a show
SHORTEST = Fraction(1, 1000)  # milliseconds of a piece
FARTHEST, TURNED = 32767000, 32767  # micrometres and tenths of a degree that a trajectory's numbers hold


class Unreadable(Exception):
    """A file that can't be read as what it should be."""


class Counter(Budget):
    """Counts things, up to a limit."""

    def __init__(self, most: int, things: str = "numbers") -> None:
        super().__init__(most, Unreadable(f"more than {most} {things}"))

    def number(self, word: str, tens: int = 0) -> Fraction:
        """A number as it is written, times a power of ten; it counts the more the longer it is."""
        found = NUMBER.fullmatch(word) if len(word) <= 60 else None
        if not found:
            raise Unreadable(f"{word!r:.20} is no number")
        exponent = int(found[3][1:]) if found[3] else 0
        if abs(exponent) > LARGEST_EXPONENT:
            raise Unreadable(f"{word!r:.20} is beyond what is read: an exponent has at most two digits")
        whole, _, rest = found[2].partition(".")
        digits, places = int(found[1] + whole + rest), len(rest) - exponent - tens
        value = Fraction(digits, TENS[places]) if places > 0 else Fraction(digits * TENS[-places])
        self.take(1 + max(value.numerator.bit_length(), value.denominator.bit_length()) // BITS)
        return value

    def numbers(self, line: int, cells: list[str], tens: Sequence[int]) -> Row:
        """The numbers of a row of a table, each times a power of ten."""
        try:
            return [self.number(cell, ten) for cell, ten in zip(cells, tens)]
        except Unreadable as error:
            raise Unreadable(f"line {line}: {error}")


def shortest(rows: Iterable[Row]) -> list[Row]:
    """The control values of a curve on each axis: one, where it stays."""
    return [row[:1] if row.count(row[0]) == len(row) else row for row in rows]


def name_of(word: str, taken: set[str]) -> str:
    """A drone's name in a show, from another program's: unlike all in `taken`, to which it is added."""
    base = re.sub("[^a-z0-9_]", "_", word.lower()).strip("_") or "d"
    base = ("" if base[0].isalpha() else "d") + base + ("_" if base in ("form", "end") else "")
    name = free_name(base, taken) if base[:16] in taken else base[:16]
    taken.add(name)
    return name


def checked(name: str, pieces: list[Piece]) -> Path[Fraction]:
    """A path of these pieces, or a refusal where no drone can be there or get there."""
    if pieces[0][0] < 0:
        raise Unreadable(f"{name} begins before the time 0")
    if pieces[-1][1] > LONGEST:
        raise Unreadable(f"{name} flies for more than {LONGEST // 1000} s")
    for begin, end, rows in pieces:
        if end - begin < SHORTEST:
            raise Unreadable("%s has two instants less than a microsecond apart at %.6f s" % (name, begin / 1000))
        if any(abs(v.numerator) > FARTHEST * v.denominator for row in rows[:3] for v in row):
            raise Unreadable("%s is farther than 32.767 m from the origin on an axis, at %.3f s" % (name, begin / 1000))
        if any(abs(v.numerator) > TURNED * v.denominator for v in rows[3]):
            raise Unreadable("%s is turned by more than 3276.7 degrees, at %.3f s" % (name, begin / 1000))
    path = Path(name, pieces)
    far, when = max(path.jumps(), default=(0, 0))
    if far > JUMP:
        raise Unreadable("%s jumps by %.0f mm at %.3f s" % (name, far / 1000, when / 1000))
    return path


# ---- Skybrush

KINDS: dict[object, str] = {dict: "object", list: "list", str: "text", Fraction: "number"}


def field(node: object, key: str, kind: type[Kind], where: str, default: Kind | None = None) -> Kind:
    """What an object has under a word."""
    found = node.get(key, default) if isinstance(node, dict) else None
    if found is None or not isinstance(found, kind):
        raise Unreadable(f"{where} has no {key}" if found is None else
                         f"{where}: {key} is no {KINDS[kind]}")
    return found


def numbers_of(node: object, count: int, where: str, words: str) -> Row:
    """So many numbers in a list; these words say what it should be."""
    if not (isinstance(node, list) and len(node) == count and all(isinstance(v, Fraction) for v in node)):
        raise Unreadable(f"{where}: {words}")
    return node


def place_of(node: object, where: str) -> Row:
    """A place in micrometres, from three metres."""
    return [v * 1000000 for v in numbers_of(node, 3, where, "a place isn't three numbers")]


def once(pairs: list[tuple[str, object]]) -> dict[str, object]:
    """A JSON object whose keys stand once each: of two, readers differ in which one counts."""
    found = dict(pairs)
    if len(found) < len(pairs):
        key = next(key for k, (key, _) in enumerate(pairs) if key in dict(pairs[:k]))
        raise ValueError(f"the key {key:.60} stands twice in an object")
    return found


class Archive:
    """A zip with JSON texts that refer to one another."""

    def __init__(self, data: bytes) -> None:
        self.texts: dict[str, object] = {}
        self.left = min(LARGEST, PACKED * (SMALLEST + len(data)))
        self.counter = Counter(min(NUMBERS, SMALLEST + len(data)))
        self.flown = Counter(NUMBERS)  # of drones that may refer to one trajectory
        try:
            self.file = zipfile.ZipFile(io.BytesIO(data))
        except (ValueError, NotImplementedError, OverflowError, struct.error, zipfile.BadZipFile, OSError) as error:
            raise Unreadable(f"no zip: {error}")
        names = self.file.namelist()
        if len(set(names)) < len(names):
            raise Unreadable(f"the archive has two members {next(it for it in names if names.count(it) > 1):.60}")

    def names(self) -> list[str]:
        """The names of the members, those of folders left out."""
        return [name for name in self.file.namelist() if not name.endswith("/")]

    def data(self, where: str) -> bytes:
        try:
            about = self.file.getinfo(where)
        except KeyError:
            raise Unreadable(f"the archive has no member {where:.60}")
        self.left -= about.file_size
        if self.left < 0 or about.compress_type not in (zipfile.ZIP_STORED, zipfile.ZIP_DEFLATED):
            raise Unreadable(f"{where:.60} is larger than {self.left + about.file_size} bytes, or packed in an unknown "
                             "way")
        try:
            return self.file.read(about)
        except (ValueError, EOFError, RuntimeError, NotImplementedError, OverflowError, struct.error, zlib.error,
                zipfile.BadZipFile, OSError) as error:
            raise Unreadable("%.60s is damaged: %s" % (where, error or type(error).__name__))

    def text(self, where: str) -> object:
        """The JSON text of a member, its numbers as they are written."""
        if where not in self.texts:
            try:
                text = self.data(where).decode("utf-8")
                read = self.counter.number
                self.texts[where] = json.loads(text, parse_float=read, parse_int=read, parse_constant=read,
                                               object_pairs_hook=once)
            except (ValueError, RecursionError) as error:
                raise Unreadable("%.60s is damaged: %s" % (where, error or type(error).__name__))
        return self.texts[where]

    def follow(self, node: object, base: str = "show.json") -> object:
        """What a node is, or refers to: in another member, or further on in the same one."""
        for _ in range(8):
            if not (isinstance(node, dict) and set(node) == {"$ref"}):
                return node
            target, _, inner = field(node, "$ref", str, base).partition("#")
            if target:
                base = posixpath.normpath(posixpath.join(posixpath.dirname(base), target))
            node = self.text(base)
            for key in filter(None, inner.split("/")):
                if isinstance(node, list) and key.isdigit() and len(key) < 9 and int(key) < len(node):
                    node = node[int(key)]
                else:
                    node = field(node, key, object, base)
        raise Unreadable(f"{base}: references that go round")


def limit_drones(count: int) -> None:
    """Refuses more drones than a show may have."""
    if count > MOST_DRONES:
        raise Unreadable(f"{count} drones, and a show has at most {MOST_DRONES}")


LEFT_OUT = {"lights": "lights", "pyro": "pyrotechnics"}  # what a drone's settings may have, and no show has
AUTOMATIC = "automatic yaw"


def read_skyc(path: str, left_out: dict[str, int]) -> list[Path[Fraction]]:
    """The paths of a .skyc of Skybrush: a zip with show.json, version 1. `left_out` gets by what isn't read, in words,
    how many drones have it."""
    archive = Archive(limited(path))
    show = archive.text("show.json")
    version = field(show, "version", Fraction, "show.json")
    if version != 1:
        raise Unreadable(f"show.json is of version {version}, and 1 is known")
    drones = field(archive.follow(field(show, "swarm", dict, "show.json")), "drones", list, "the swarm")
    if not drones:
        raise Unreadable("show.json has no drone")
    limit_drones(len(drones))
    taken: set[str] = set()
    found: dict[str, Path[Fraction]] = {}
    for k, drone in enumerate(drones, 1):
        where = f"drone {k}"
        settings = archive.follow(field(archive.follow(drone), "settings", dict, where))
        word = field(settings, "name", str, where, where)
        if word in found:
            raise Unreadable(f"two drones have the name {word!r:.40}")
        found[word] = skyc_path(archive, f"{where}, {word!r:.40}", settings, name_of(word, taken))
        for what in left_out_of(archive, settings):
            left_out[what] = left_out.get(what, 0) + 1
    return list(found.values())


def left_out_of(archive: Archive, settings: object) -> Iterator[str]:
    """What a drone of a .skyc has that isn't read."""
    known = settings if isinstance(settings, dict) else {}
    for key, words in LEFT_OUT.items():
        node = archive.follow(known.get(key))
        if node and not (isinstance(node, dict) and not any(node.get(it) for it in node if it != "version")):
            yield words
    yaw = archive.follow(known.get("yawControl"))
    if isinstance(yaw, dict) and yaw.get("autoYaw") not in (None, False):
        yield AUTOMATIC


def skyc_path(archive: Archive, where: str, settings: object, name: str) -> Path[Fraction]:
    trajectory = archive.follow(field(settings, "trajectory", dict, where))
    version = field(trajectory, "version", Fraction, where, Fraction(1))
    if version != 1:
        raise Unreadable(f"{where}: a trajectory of version {version}, and 1 is known")
    late = field(trajectory, "takeoffTime", Fraction, where, Fraction(0)) * 1000
    listed = field(trajectory, "points", list, where)
    archive.flown.take(4 * len(listed))
    points = [point_of(point, where) for point in listed]
    if not points:
        raise Unreadable(f"{where}: a trajectory without a point")
    pieces: list[Piece] = []
    for (begin, before, _), (end, after, inner) in zip(points, points[1:]):
        if end < begin or (end == begin and before != after):
            raise Unreadable("%s: the time goes back, or a place jumps, at %.3f s" % (where, begin / 1000))
        if end > begin:
            pieces.append((late + begin, late + end, [list(row) for row in zip(before, *inner, after)]))
    if not pieces:
        pieces = [(late + points[0][0], late + points[0][0] + 1, [[v] for v in points[0][1]])]
    yaw = archive.follow(field(settings, "yawControl", dict, where, {"setpoints": []}))
    archive.flown.take(2 * len(field(yaw, "setpoints", list, where)))
    setpoints = []  # of yaw: milliseconds and tenths of a degree
    for node in field(yaw, "setpoints", list, where):
        t, degrees = numbers_of(node, 2, where, "a setpoint of yaw isn't a time and an angle")
        setpoints.append((late + t * 1000, degrees * 10))
    for (a, p), (b, q) in zip(setpoints, setpoints[1:]):
        if b < a or (a == b and p != q):
            raise Unreadable("%s: the time of yaw goes back, or yaw jumps, at %.3f s" % (where, a / 1000))
    return checked(name, with_yaw(pieces, setpoints or [(Fraction(0), Fraction(0))]))


def point_of(point: object, where: str) -> tuple[Fraction, Row, list[Row]]:
    """A point of a trajectory: milliseconds, the place, and the points between it and the one before, none or two."""
    if not (isinstance(point, list) and len(point) in (2, 3) and isinstance(point[0], Fraction)):
        raise Unreadable(f"{where}: a point isn't a time, a place and inner points")
    inner = point[2] if len(point) == 3 else []
    if not isinstance(inner, list) or len(inner) not in (0, 2):
        raise Unreadable("%s: inner points at %.3f s, and none or two are known" % (where, point[0]))
    return point[0] * 1000, place_of(point[1], where), [place_of(it, where) for it in inner]


def with_yaw(pieces: list[Piece], setpoints: list[tuple[Fraction, Fraction]]) -> list[Piece]:
    """Pieces, cut where a yaw that goes evenly between setpoints has them, with that yaw."""
    times = [t for t, _ in setpoints]

    def yaw(t: Fraction) -> Fraction:
        k = bisect.bisect_left(times, t)
        if k == 0 or k == len(times):
            return setpoints[min(k, len(times) - 1)][1]
        (a, p), (b, q) = setpoints[k - 1:k + 1]
        return p + (q - p) * (t - a) / (b - a)
    out = []
    for begin, end, rows in pieces:
        inner = times[bisect.bisect_right(times, begin):bisect.bisect_left(times, end)]
        cuts = [begin, *sorted(set(inner)), end]
        for low, high in zip(cuts, cuts[1:]):
            u, v = (low - begin) / (end - begin), (high - begin) / (end - begin)
            out.append((low, high, [part(row, u, v) for row in rows] + [[yaw(low), yaw(high)]]))
    return out


# ---- CSV

def limited(path: str) -> bytes:
    """The bytes of a file, if they aren't too many."""
    data = read_front(path, LARGEST)
    if len(data) > LARGEST:
        raise Unreadable(f"more than {LARGEST} bytes")
    return data


def separator_of(text: str) -> str:
    """What parts the cells of a text: a semicolon or a tab, if its first row has one outside of quotes, or a comma."""
    for line in itertools.islice(io.StringIO(text, newline=None), LINES):
        if line.strip() and not line.lstrip().startswith("#"):
            bare = "".join(line.split('"')[::2])
            return next((sign for sign in ";\t" if sign in bare), ",")
    return ","


def with_point(cell: str) -> str:
    whole, comma, rest = cell.partition(",")
    return whole + "." + rest if comma and NUMBER.fullmatch(whole + "." + rest) else cell


class Table:
    """The bytes of a CSV file: the words of its head, which is a first row without a number, and its `rows` as (line,
    cells), each when it is asked for. Where semicolons or tabs part the cells, numbers may have a decimal comma."""

    def __init__(self, data: bytes) -> None:
        try:
            text = data.decode("utf-8-sig")
        except UnicodeDecodeError as error:
            raise Unreadable(f"no CSV: {error}")
        rows = self.rows_of(text)
        first = next(rows, None)
        self.head: list[str] = []
        if first and not any(NUMBER.fullmatch(cell) for cell in first[1]):
            self.head = [cell.lower() for cell in first[1]]
            first = next(rows, None)
        if first is None:
            raise Unreadable("no row of numbers")
        self.first = first[1]
        self.rows = itertools.chain([first], rows)

    @staticmethod
    def rows_of(text: str) -> Iterator[tuple[int, list[str]]]:
        """The rows of a text that have cells, without comments and empty cells at their ends."""
        separator, lines = separator_of(text), Counter(LINES, "lines")
        try:
            for line, row in enumerate(csv.reader(io.StringIO(text, newline=""), delimiter=separator), 1):
                lines.take()
                cells = [cell.strip() for cell in row]
                if not any(cells) or cells[0].startswith("#"):
                    continue
                while not cells[-1]:
                    cells.pop()
                yield line, cells if separator == "," else [with_point(cell) for cell in cells]
        except csv.Error as error:
            raise Unreadable(f"no CSV: {error}")


OVER = 105  # what the binomials of seven divide
WEIGHTS = [[comb(j, k) * (OVER // comb(7, k)) for k in range(j + 1)] for j in range(8)]


def control_values(coefficients: Row, length: Fraction) -> Row:
    """The control values of a polynomial of degree seven between 0 and a length; in whole numbers to the last step."""
    if not any(coefficients[1:]):
        return coefficients[:1]
    (whole, over), a, b = paths.in_whole_numbers(coefficients), length.numerator, length.denominator
    terms = [c * a ** k * b ** (7 - k) for k, c in enumerate(whole)]
    return [Fraction(sum(weight * term for weight, term in zip(row, terms)), OVER * over * b ** 7) for row in WEIGHTS]


POLYNOMIAL = [0] + [6] * 24 + [0] * 8  # powers of ten: seconds, then micrometres, then radians


def read_polynomials(table: Table, start: Row, counter: Counter) -> list[Piece]:
    """The pieces in a file of uav_trajectories: in each row a duration and eight coefficients an axis, in metres and
    radians. The start is in micrometres."""
    t = Fraction(0)
    pieces: list[Piece] = []
    for line, cells in table.rows:
        if len(cells) != 33:
            counter.numbers(line, cells, [0] * len(cells))
            raise Unreadable(f"line {line}: {len(cells)} numbers, and 33 are wanted, a duration first")
        row = counter.numbers(line, cells, POLYNOMIAL)
        if row[0] <= 0:
            raise Unreadable(f"line {line}: a duration of {cells[0]} s")
        axes = [row[k:k + 8] for k in (1, 9, 17)]
        for axis, place in zip(axes, start):
            axis[0] += place
        axes.append([c * 1800 / PI if c else c for c in row[25:]])
        begin, t = t, t + row[0] * 1000
        pieces.append((begin, t, shortest(control_values(axis, row[0]) for axis in axes)))
    return pieces


COLUMNS = {"t": "t", "time": "t", "time [s]": "t", "t [s]": "t", "time [msec]": "ms", "time [ms]": "ms", "t [ms]": "ms",
           "x": "x", "y": "y", "z": "z", "x [m]": "x", "y [m]": "y", "z [m]": "z", "yaw": "yaw", "yaw [deg]": "yaw",
           "drone": "drone", "name": "drone", "id": "drone"}


def columns_of(head: list[str], first: list[str]) -> dict[str, int]:
    """Where a table of waypoints has what: by its head, or by its first row."""
    if not head:
        named = not NUMBER.fullmatch(first[0])
        words = (["drone"] if named else []) + ["t", "x", "y", "z", "yaw"][:max(4, len(first) - named)]
        if len(words) != len(first):
            raise Unreadable(f"a row has {len(first)} cells, and t,x,y,z and maybe yaw are wanted")
        return {word: k for k, word in enumerate(words)}
    found: dict[str, int] = {}
    for k, cell in enumerate(head):
        word = COLUMNS.get(cell)
        if word in found:
            raise Unreadable(f"two columns are called {word}")
        if word is None and re.match(r"(t|time|x|y|z|yaw)\b", cell):
            raise Unreadable(f"a column {cell!r:.20}, whose unit isn't known")
        if word:
            found[word] = k
    if not {"x", "y", "z"} <= set(found) or ("t" in found) == ("ms" in found):
        raise Unreadable("the head has to name t, x, y and z")
    return found


POWERS = {"t": 3, "ms": 0, "x": 6, "y": 6, "z": 6, "yaw": 1}  # of ten, to milliseconds, micrometres, tenths


def read_waypoints(table: Table, stem: str, smooth: bool, counter: Counter) -> dict[str, list[Piece]]:
    """The paths in a file of waypoints by the names of their drones, as lists of pieces: t,x,y,z and maybe yaw in each
    row (seconds, metres, degrees; or Skybrush's CSV, with milliseconds and colours), and maybe a column of drones."""
    columns, head = columns_of(table.head, table.first), table.head
    words = [word for word in POWERS if word in columns]
    places, tens, last = [columns[word] for word in words], [POWERS[word] for word in words], max(columns.values())
    points: dict[str, list[Timed]] = {}
    for line, cells in table.rows:
        if len(cells) <= last or (not head and len(cells) > len(columns)):
            raise Unreadable(f"line {line}: {len(cells)} cells, and {len(columns)} are wanted")
        row = counter.numbers(line, [cells[place] for place in places], tens)
        own = points.setdefault(cells[columns["drone"]] if "drone" in columns else stem, [])
        limit_drones(len(points))
        own.append((row[0], row[1:4] + (row[4:] or [Fraction(0)])))
        if len(own) > 1 and own[-2][0] >= own[-1][0]:
            raise Unreadable(f"line {line}: the time doesn't grow")
    return {word: joined(own, smooth) for word, own in points.items()}


def joined(points: list[Timed], smooth: bool) -> list[Piece]:
    """Pieces through waypoints: lines, or a smooth spline."""
    def slope(k: int) -> Row:
        if k in (0, len(points) - 1):
            return [Fraction(0)] * 4
        (a, p), (b, q) = points[k - 1], points[k + 1]
        return [(y - x) / (b - a) for x, y in zip(p, q)]
    if len(points) == 1:
        return [(points[0][0], points[0][0] + 1, [[v] for v in points[0][1]])]
    pieces: list[Piece] = []
    for k, ((begin, p), (end, q)) in enumerate(zip(points, points[1:])):
        if smooth:
            third = (end - begin) / 3
            rows = [[x, x + third * u, y - third * v, y] for x, y, u, v in zip(p, q, slope(k), slope(k + 1))]
        else:
            rows = [[x, y] for x, y in zip(p, q)]
        pieces.append((begin, end, shortest(rows)))
    return pieces


def read_starts(path: str) -> dict[str, Row]:
    """Places in micrometres by names, from name,x,y,z a row, in metres; or those of Crazyswarm2's list of robots."""
    if path.lower().endswith(FLEET):
        return read_fleet(path)
    out: dict[str, Row] = {}
    counter = Counter(NUMBERS)
    for line, cells in Table(limited(path)).rows:
        if len(cells) != 4 or cells[0] in out:
            raise Unreadable(f"line {line}: name,x,y,z are wanted, once for each drone")
        out[cells[0]] = counter.numbers(line, cells[1:], [6] * 3)
    return out


FLEET = (".yaml", ".yml")  # how the name of Crazyswarm2's list of robots ends
LIST = re.compile(r"\[([^]]*)\]")


def fleet_rows(text: str) -> Iterator[tuple[int, str, str, str]]:
    """Of Crazyswarm2's crazyflies.yaml what stands below `robots`: the line, the robot, a key of it and its value.
    Values over several lines, as a list with a line an item, are put together."""
    robots, names, name, key, value, begun = -1, -1, "", "", "", 0
    for number, whole in enumerate([*text.splitlines(), "end:"], 1):
        line = re.sub(r"(^|\s)#.*", "", whole).rstrip()
        indent = len(line) - len(line.lstrip(" "))
        word, colon, rest = line.strip().partition(":")
        if not word and not colon:
            continue
        if line[indent] == "\t":
            raise Unreadable(f"line {number}: a tab, which YAML doesn't allow there")
        if key and (word.startswith("-") or not colon):
            value += "," * (value != "") + line.strip().lstrip("- ")
            continue
        if key:
            yield begun, name, key, value if LIST.fullmatch(value) or "," not in value else f"[{value}]"
            key = ""
        if robots >= 0 and indent <= robots:
            robots = -1
        if robots < 0:
            robots, names = (indent, -1) if line.strip() == "robots:" else (-1, -1)
        elif names < 0 or indent == names:
            names, name = indent, word.strip("'\"")
        else:
            key, value, begun = word, rest.strip(), number


def read_fleet(path: str) -> dict[str, Row]:
    """The first places in micrometres by robot, of Crazyswarm2's crazyflies.yaml; without those that aren't enabled."""
    out: dict[str, Row] = {}
    off: set[str] = set()
    counter = Counter(NUMBERS)
    for number, name, key, value in fleet_rows(limited(path).decode("utf-8", "replace")):
        if key == "enabled" and value.lower() == "false":
            off.add(name)
        if key == "initial_position":
            found = LIST.fullmatch(value)
            cells = [cell.strip() for cell in found[1].split(",")] if found else []
            if len(cells) != 3:
                raise Unreadable(f"line {number}: initial_position of {name:.40} is x, y and z, as [0.0, 0.5, 0.0]")
            out[name] = counter.numbers(number, cells, [6] * 3)
    if not out:
        raise Unreadable("no robot has an initial_position below `robots`")
    return {name: place for name, place in out.items() if name not in off}


def is_archive(data: bytes) -> bool:
    return data[:2] == b"PK"


def members_of(path: str, stem: str) -> list[tuple[str, str, bytes]]:
    """The CSV files that a path leads to, as (where, stem, bytes): itself, under this stem, or those of a zip."""
    data = limited(path)
    if not is_archive(data):
        return [(path, stem, data)]
    archive = Archive(data)
    names = [name for name in sorted(archive.names()) if name.lower().endswith(".csv")]
    if not names:
        raise Unreadable(f"{path}: a zip without a CSV file, and without a show.json")
    return [(f"{path}, {name:.60}", stem, archive.data(name)) for name, stem in zip(names, stems_of(names))]


def stems_of(files: Sequence[str]) -> list[str]:
    """The names of files without their endings; of those that have one name, the names of their folders."""
    stems = [posixpath.splitext(posixpath.basename(path))[0] for path in files]
    folders = [posixpath.basename(posixpath.dirname(posixpath.abspath(path))) for path in files]
    out = list(stems)
    for stem in set(stems):
        own = [k for k, it in enumerate(stems) if it == stem]
        if len(own) > 1 and len({folders[k] for k in own}) == len(own):
            for k in own:
                out[k] = folders[k] or stem
    return out


def read_csv(files: Sequence[str], waypoints: bool, smooth: bool = False,
             starts: str | None = None) -> list[Path[Fraction]]:
    """The paths of CSV files, or of zips of them: polynomials, a drone a file, or waypoints."""
    taken: set[str] = set()
    found: dict[str, Path[Fraction]] = {}
    cells, counter = Counter(CELLS, "cells"), Counter(NUMBERS)
    places = read_starts(starts) if starts else None

    def paths_in(data: bytes, stem: str) -> dict[str, list[Piece]]:
        table = Table(data)
        words = {COLUMNS.get(cell) for cell in table.head}
        if waypoints or {"x", "y", "z"} <= words and {"t", "ms"} & words:
            return read_waypoints(table, stem, smooth, counter)
        if places is not None and stem not in places:
            raise Unreadable(f"the file of --starts has no place for {stem:.40}")
        return {stem: read_polynomials(table, (places or {}).get(stem, [Fraction(0)] * 3), counter)}
    members = (member for path, stem in zip(files, stems_of(files)) for member in members_of(path, stem))
    for where, stem, data in members:
        try:
            cells.take(data.count(b",") + data.count(b";") + data.count(b"\t"))
            for word, pieces in paths_in(data, stem).items():
                if word in found:
                    raise Unreadable("two drones have the name %.40r: name the files or their folders otherwise" % word)
                found[word] = checked(name_of(word, taken), pieces)
                limit_drones(len(found))
        except Unreadable as error:
            raise Unreadable(f"{where}: {error}")
    if not (starts or "").lower().endswith(FLEET) and (lost := [word for word in places or () if word not in found]):
        raise Unreadable(f"{starts}: no file is called {lost[0]!r:.40}")
    return list(found.values())
