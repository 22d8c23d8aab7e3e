"""What is bounded: the places that are blocked, what helps in them, and the judgement of long certificates. Processor
seconds and memory of whole commands, with room for a slow machine; and the same answers as by the simple way."""
import contextlib
import io
import os
import random
import subprocess
import tempfile
import unittest
from itertools import chain, islice
from unittest import mock

import common
from common import TOP
from hemtoghai.commands import flown, judge
from hemtoghai.companion import value
from hemtoghai.language import choreo
import separation
from plans import plan_of

DRONES = 32
HEAD = "choreo 1\n" + "".join("drone d%d 0 0 1000000 0\n" % k for k in range(DRONES))
ALL = HEAD + "repeat 1000\ncue 1000\n" + "".join("d%d move 1000000 0 1000000 0\n" % k for k in range(DRONES)) + "end\nend\n"
COMMANDS = [["check", "--json"], ["why"], ["why", "--json"], ["why", "--force", "--cured", os.devnull], ["summary"],
            ["summary", "--json"], ["picture"]]
SECONDS = 12.0  # six times what is promised of a machine with nothing else to do
MIB = 286  # 300 MB


def used(words, place):
    """The status, the output, processor seconds and MiB of a command."""
    with open(os.path.join(place, "said"), "w+b") as said:
        process = subprocess.Popen(words, stdin=subprocess.DEVNULL, stdout=said, stderr=subprocess.DEVNULL)
        _, status, times = os.wait4(process.pid, 0)
        process.returncode = os.waitstatus_to_exitcode(status)
        said.seek(0)
        return process.returncode, said.read().decode(), times.ru_utime, times.ru_maxrss >> 10


class Blocked(common.Folder, unittest.TestCase):
    @common.wants_program
    def test_all_in_one_place(self):
        with tempfile.TemporaryDirectory() as self.place:
            self.write("show", ALL)
            for words in COMMANDS:
                status, said, seconds, _ = used([*common.AS_BUILT, *words, self.path("show")], self.place)
                self.assertIn(status, (0,) if words in (["picture"], ["summary"]) else (5,), words)
                self.assertLess(seconds, SECONDS, words)
            self.assertIn("more may be blocked than the 200 places that are marked", said)

    def test_counts(self):
        flown, before = choreo.flown_of(ALL.encode()), separation.looked[0]
        places = list(islice(separation.blocked_places(flown, 6), 201))
        # Of each pair the first of the parts of depth 6 is blocked, after one part of each depth from 0 on.
        self.assertEqual((len(places), separation.looked[0] - before), (201, 7 * 201))
        self.assertEqual(places[0], (0, 1, 0, 0))

    def test_what_a_repeat_flies_is_worked_out_once(self):
        flown = choreo.flown_of(ALL.encode())
        self.assertEqual(len({id(elements) for flight in flown.by_cue for _, elements in flight}), 2)  # there, and staying
        self.assertEqual(flown.by_cue[5][0][1][0], [0] * 4 + [1000] * 4)
        self.assertEqual(flown.by_cue[5][1][1], [[1000], [0], [1000], [0]])

    def test_any_direction(self):
        # By one end first, or by all eight values of each direction: the same.
        chance, ruler, seen = random.Random(7), separation.Ruler(120, 300), set()
        for _ in range(400):
            far, depth = chance.choice((300, 600, 900, 1500)), chance.randint(0, 3)
            part = [[5040 * chance.randint(-far, far) << 7 * depth for _ in range(8)] for _ in range(3)]
            row = chance.randrange(3)
            part[row] = [v + (5040 * 1000 << 7 * depth) for v in part[row]]
            by_all = any(ruler.separates(part, depth, number) for number in range(98))
            self.assertEqual(ruler.has_direction(part, depth), by_all)
            seen.add(by_all)
        self.assertEqual(seen, {True, False})

    def test_value(self):
        # The curve's value by halving the way between neighbours again and again.
        chance = random.Random(3)
        for _ in range(200):
            row, u = [chance.uniform(-4000, 4000) for _ in range(chance.choice((1, 2, 4, 8)))], chance.choice((0, 1, chance.random()))
            left = list(row)
            while len(left) > 1:
                left = [a + (b - a) * u for a, b in zip(left, left[1:])]
            self.assertAlmostEqual(value(row, u), left[0], 7)
        self.assertEqual((value([3, 5, 9, 7], 0), value([3, 5, 9, 7], 1), value([0] * 4 + [1000] * 4, 0.5)), (3, 7, 500))


class Certificates(common.Folder, unittest.TestCase):
    WORDS = {"%02d" % k: (1, 0, 0) for k in range(98)}

    def simple(self, text):
        """Where the lines after the first begin, letter by letter; or the number of one that is no tree."""
        begins, at = [], text.index("\n") + 1
        for number, line in enumerate(text[at:].split("\n"), 2):
            if at == len(text):
                break
            tree, owed, k = line[:-1] if line.endswith("\r") and at + len(line) < len(text) else line, 1, 0
            while k < len(tree) and owed:
                size = 1 if tree[k] == "." else 2
                if size == 2 and tree[k:k + 2] not in self.WORDS:
                    return number
                k, owed = k + size, owed + (1 if size == 1 else -1)
            if owed or k != len(tree):
                return number
            begins.append(at)
            at += len(line) + 1
        return begins

    def test_as_letter_by_letter(self):
        chance, good = random.Random(1), 0
        kinds = ["49", "58", ".4958", "..495800", "49", "49", "49\r", ".4958\r", "49\r\r", "", "5", ".", ".49", "98",
                 "." * 60 + "00" * 61, "4958"]
        before = judge.PIECE, judge.MOST_KNOWN
        try:
            for _ in range(3000):
                judge.PIECE, judge.MOST_KNOWN = chance.choice((5, 40, 1000)), chance.choice((98, 100, 1000))
                some = kinds[:chance.choice((3, 6, 8, 16))]
                text = "certificate 6\n" + "\n".join(chance.choice(some) for _ in range(chance.randrange(30))) + chance.choice(
                    ["", "\n", "\r\n", "\r", "\n\n"])
                trees = judge.Trees(text, 2)
                number = trees.add_all(len("certificate 6\n"), 2, self.WORDS)
                found = [trees.place_of(k) for k in range(len(trees))]
                self.assertEqual(number or found, self.simple(text), text)
                good += number is None
        finally:
            judge.PIECE, judge.MOST_KNOWN = before
        self.assertGreater(good, 300)

    def test_long(self):
        # 21 MB: seven million trees of a word, or one line; the memory is some four times the text, and not each tree's.
        with tempfile.TemporaryDirectory() as self.place:
            self.write("plan", plan_of(common.example("crossing_cured")[1]))
            for text, status, said in ((b"49\n" * 7000000, 12, "judge: refused at tree 1, pair a b cue 1\n"),
                                       (b"." + b"49" * 10500000, 11, "judge: error 11 line 3\n"),
                                       (b".4958\n49\n" * 500000, 12, "judge: refused at tree 1, pair a b cue 1\n")):
                self.write("certificate", b"version 2\ncertificate 6\n" + text)
                words = [common.SHOW, "judge", os.path.join(TOP, "examples", "crossing_cured.choreo"), self.path("plan"),
                         self.path("certificate")]
                ended, out, seconds, mib = used(words, self.place)
                self.assertEqual((ended, out), (status, said))
                self.assertLess(mib, 120)
                self.assertLess(seconds, SECONDS)

    def test_105_megabytes(self):
        # 35 million trees of a word, and trees of several lengths by turns: in 300 MB.
        with tempfile.TemporaryDirectory() as self.place:
            self.write("plan", plan_of(common.example("crossing_cured")[1]))
            for text, said in ((b"58\n", "judge: refused at tree 2, pair a b cue 2\n"),
                               (b".4958\n49\n.49.5800\n", "judge: refused at tree 1, pair a b cue 1\n")):
                with open(self.path("certificate"), "wb") as file:
                    file.write(b"version 2\ncertificate 6\n")
                    for _ in range(105):
                        file.write(text * (1000000 // len(text)))
                words = [common.SHOW, "judge", os.path.join(TOP, "examples", "crossing_cured.choreo"), self.path("plan"),
                         self.path("certificate")]
                ended, out, seconds, mib = used(words, self.place)
                self.assertEqual((ended, out), (12, said))
                self.assertLess(mib, MIB)
                self.assertLess(seconds, 8 * SECONDS)


class Logs(common.Folder, unittest.TestCase):
    def judged(self, parts, show=os.path.join(TOP, "examples", "crossing_cured.choreo")):
        """How `flown` ends over a log of these bytes, each part so often: status, output, seconds and MiB."""
        with open(self.path("log"), "wb") as file:
            for data, count in parts:
                for _ in range(count):
                    file.write(data)
        return used([common.SHOW, "flown", self.path(show), self.path("log")], self.place)

    def test_long(self):
        # 105 MB each: 3.3 million good samples, samples of which one is bad, one row, and empty rows.
        head, row = b"time,drone,x,y,z,variance\n", b"0.125,a,0.001,0.002,1.000,2e-05\n"
        many = 105000000 // len(row)
        with tempfile.TemporaryDirectory() as self.place:
            for parts in ([(head, 1), (row, many)], [(head, 1), (row, 400000), (b"x,a,0,0,0,0\n", 1), (row, many)],
                          [(b"1" * 1000000, 105)], [(head, 1), (b"\n" * 1000000, 105)]):
                ended, said, seconds, mib = used_of = self.judged(parts)
                self.assertEqual((ended, said), (70, ""), used_of)
                self.assertLess(mib, MIB)
                self.assertLess(seconds, 3 * SECONDS)

    def test_taken(self):
        # 105 MB that are judged to their end: 450,000 lines of one drone, each with another time, place and stamp.
        with tempfile.TemporaryDirectory() as self.place:
            rows = ((b"%d.%03d,a,0.%05d,0,1.0%05d,%d,%d.5e-05" % (
                k // 1000, k % 1000, k % 977, k, k, k % 9) + b" " * 200 + b"\n", 1) for k in range(450000))
            self.write("show", "choreo 1\ndrone a 0 0 1000000 0\ncue 2000\nend\n")
            ended, said, seconds, mib = self.judged(chain([(b"time,drone,x,y,z,stamp,variance\n", 1)], rows), "show")
            self.assertGreater(os.path.getsize(self.path("log")), 105000000)
            self.assertEqual((ended, "left out: 0 samples before the start and 447999 after the end\n" in said), (1, True))
            self.assertLess(mib, MIB)
            self.assertLess(seconds, 3 * SECONDS)

    def test_most(self):
        # As many lines as there may be are read, and one more isn't; a head and empty lines count too.
        names = ["time,drone,x,y,z"]
        rows = ["%d,%s,%g,0,1" % (t, name, x) for t in range(8) for name, x in (("a", 0), ("b", 1))]
        for lines in (rows, names + rows, names + ["", *rows, "", ""]):
            with tempfile.TemporaryDirectory() as self.place, mock.patch.object(flown, "MOST_LINES", len(lines)):
                self.write("log", "\n".join(lines) + "\n")
                found = flown.read_log(self.path("log"), set())
                self.assertEqual({name: len(it) for name, it in found.items()}, {"a": 8, "b": 8})
                self.assertEqual(found["b"][7], (7.0, (1000.0, 0.0, 1000.0), None, None))
                for more in ("8,a,0,0,1", "\n"):
                    self.write("log", "\n".join([*lines, more]))
                    with self.assertRaises(SystemExit) as ended, contextlib.redirect_stderr(io.StringIO()) as told:
                        flown.read_log(self.path("log"), set())
                    self.assertEqual(ended.exception.code, 70)
                    self.assertIn("more than %d lines" % len(lines), told.getvalue())

    def test_bytes(self):
        with tempfile.TemporaryDirectory() as self.place, mock.patch.object(flown.texts, "LOG", 60):
            for count, wanted in ((5, None), (6, "more than 60 bytes")):
                self.write("log", "1,a,0,0,1\n" * count + "\n" * 10)
                with contextlib.redirect_stderr(io.StringIO()) as told:
                    try:
                        self.assertEqual(len(flown.read_log(self.path("log"), set())["a"]), 5)
                    except SystemExit:
                        self.assertIn(wanted or "?", told.getvalue())
                    else:
                        self.assertIsNone(wanted)


if __name__ == "__main__":
    unittest.main()
