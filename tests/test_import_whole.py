"""./show import and ./show export skyc: round trips, what is judged, and an imported show in the memories of simulated
drones. No file here was written by another program, and no other program read one."""
import json
import math
import os
import re
import subprocess
import sys
import unittest
import zipfile
from fractions import Fraction

import common
import foreign_files as files
from hemtoghai.language import choreo
from hemtoghai import program
from hemtoghai.exchange import foreign
from foreign_files import Case, squared
from plans import plan_of

EXAMPLES = os.path.join(common.TOP, "examples")
FOREIGN = {"rising.skyc": [], "relay.csv": ["--smooth"], "eight_left.csv": []}


def bound_of(said):
    """The bound that a tool prints, in millimetres."""
    return Fraction(re.search(r"at most (\S+) mm", said)[1])


def edges_of(*flights):
    """The instants at which segments of some flights, or pieces of some paths, end: milliseconds."""
    out = {Fraction(0)}
    for flight in flights:
        t = Fraction(0)
        for length, *_ in flight:
            t += length
            out.add(t)
    return sorted(out)


def between(edges, parts):
    """Instants between edges, and these."""
    return [a + (b - a) * n / parts for a, b in zip(edges, edges[1:]) for n in range(parts + 1)]


class RoundTrips(Case):
    def exported(self, flown, *words):
        """The paths in the .skyc of what is flown, its place, and its bound."""
        path = self.file("o.skyc")
        status, out, said = self.run_tool("export skyc", "--force", *words, self.file("plan", plan_of(flown)), path)
        self.assertEqual(status, 0, said)
        self.assertIn("are their own bytes: nothing is promised of those", out)
        return foreign.read_skyc(path, {}), path, bound_of(out)

    def both(self, name, flown, tolerance):
        """To .skyc and back: each within its bound, and both within the sum, by exact comparison."""
        parts = 4 if len(flown.names) < 4 else 1
        paths, path, far = self.exported(flown, "--tolerance", "0.5")
        self.assertLessEqual(far, Fraction(1, 2))
        again, _, bound, _ = self.show_of("--tolerance", tolerance, path)
        self.assertEqual((again.names, abs(again.milliseconds - flown.milliseconds) <= 1), (flown.names, True), name)
        for k, way in enumerate(paths):
            pieces = [(b - a,) for a, b, _ in way.pieces]
            for t in between(edges_of(flown.by_cue[k], pieces), 2 * parts):
                first, there = files.flown_at(flown, k, t / 1000), [v / 1000000 for v in way.at(t)[:3]]
                self.assertLessEqual(squared(first, there), (far / 1000) ** 2, (name, k, t))
            for t in between(edges_of(flown.by_cue[k], again.by_cue[k]), parts):
                first, last = (files.flown_at(it, k, t / 1000) for it in (flown, again))
                self.assertLessEqual(squared(first, last), (far / 1000 + bound) ** 2, (name, k, t))

    def test_examples(self):
        for name in sorted(os.listdir(EXAMPLES)):
            # grid_to_ring is the same as grid_to_ring_dealt, with other names on its places.
            if name.endswith(".choreo") and name != "grid_to_ring.choreo":
                self.both(name, common.example(name[:-7])[1], 10)

    def test_foreign(self):
        for name, words in FOREIGN.items():
            flown = self.show_of(*words, os.path.join(EXAMPLES, name))[0]
            self.both(name, flown, 5)

    def test_numbers_written(self):
        # By hand: a metre and back by lines and a quarter turn, in whole numbers; and the place at which each ends.
        text = b"choreo 1\ndrone a 0 0 1000000 0\ncue 2000\na line 1000000 0 1000000 0\nend\ncue 500\nend\n" \
               b"cue 1000\na curve 1000000 0 1000000 1000000 1000000 1000000 1000000 1000000 1000000 900\nend\n"
        path, far = self.exported(choreo.flown_of(text))[1:]
        with zipfile.ZipFile(path) as archive:
            (drone,) = json.loads(archive.read("show.json"))["swarm"]["drones"]
        settings = drone["settings"]
        self.assertEqual((settings["name"], settings["home"], settings["landAt"], far), ("a", [0, 0, 1], [1, 1, 1], 0))
        self.assertEqual(settings["trajectory"], {"version": 1, "takeoffTime": 0, "points": [
            [0, [0, 0, 1], []], [2, [1, 0, 1], []], [2.5, [1, 0, 1], []], [3.5, [1, 1, 1], [[1, 0, 1], [1, 1, 1]]]]})
        self.assertEqual(settings["yawControl"], {"version": 1, "setpoints": [[0, 0], [2, 0], [2.5, 0], [3.5, 90]],
                                                  "autoYaw": False})

    def test_yaw(self):
        # A turn of 90 degrees from rest to rest: at half its time 45; what is printed holds at 65 instants.
        text = b"choreo 1\ndrone a 0 0 1000000 0\ncue 2000\na turn 900\nend\n"
        (path,), where, _ = self.exported(choreo.flown_of(text))
        said = self.run_tool("export skyc", "--force", self.file("plan"), where)[1]
        bound = 10 * Fraction(re.search(r"and (\S+) degrees", said)[1])
        own = [0, 0, 0, 0, 900, 900, 900, 900]
        way = [[Fraction(v)] for v in own]
        worst = max(abs(files.bezier(way, Fraction(n, 64))[0] - path.at(Fraction(2000 * n, 64))[3]) for n in range(65))
        self.assertTrue(bound / 2 < worst <= bound, (worst, bound))
        self.assertEqual(path.at(Fraction(1000))[3], 450)

    @common.wants_program
    def test_refused(self):
        for data, status, words in ((b"plan 1\nx\n", 70, "line 2"), (b"", 3, "header"),
                                    (b"choreo 1\ncue 1.5\n", 3, "bad-")):
            came, out, said = self.run_tool("export skyc", self.file("it", data), self.file("o.skyc"))
            self.assertEqual((came, out), (status, ""), said)
            self.assertIn(words, said)
        for words, status, line in (([self.file("none"), "o"], 70, "No such file"),
                                    (["--tolerance", "nan", "a", "b"], 2, ""),
                                    ([os.path.join(EXAMPLES, "crossing.choreo"), "o"], 5, "error 5 pair a b"),
                                    ([os.path.join(EXAMPLES, "solo.choreo"), self.file("no/o")], 70, "No such file")):
            came, out, said = self.run_tool("export skyc", *words)
            self.assertEqual((came, out), (status, ""), said)
            self.assertIn(line, said)
        path = self.file("solo.skyc")
        self.assertEqual(self.run_tool("export skyc", os.path.join(EXAMPLES, "solo.choreo"), path)[0], 0)
        self.assertEqual([way.name for way in foreign.read_skyc(path, {})], ["solo"])


class Judged(Case):
    def judged(self, *words):
        """The status, and what --judge says."""
        status, out, said = self.run_tool("import", "--judge", *words)
        self.assertNotIn("Traceback", said)
        return status, out

    def crossing(self, aside, wave=0):
        """Two drones that pass each other, so far aside in metres: in the middle at two seconds. Ways may be wavy."""
        def way(y, begin, end):
            return [[t / 20, [begin + (end - begin) * t / 80, y, 1 + round(wave * math.sin(t / 4), 4)], []]
                    for t in range(81)]
        return self.file("a.skyc", files.skyc([way(0, 0, 2), way(aside, 2, 0)]))

    @common.wants_program
    def test_apart(self):
        status, out = self.judged(self.file("a.skyc", files.skyc([files.wild(k, 8) for k in range(3)])))
        self.assertEqual(status, 0)
        self.assertIn("APART: at every instant, by the file's own curves, ellipsoids 120 300", out)

    @common.wants_program
    def test_too_near(self):
        # 200 mm aside of the 240 that two ellipsoids need: 83.3 %.
        status, out = self.judged(self.crossing(0.2))
        self.assertEqual(status, 5)
        self.assertIn("TOO NEAR: at this instant, by the file's own curves, two ellipsoids 120 300 share a point", out)
        self.assertIn("at 2.000 s of the file, with 83.3 % of the distance", out)
        self.assertIn("drone_1 at (1000, 0, 1000) mm by the file\n  drone_2 at (1000, 200, 1000) mm by the file", out)
        self.assertIn("./show why, of the import", out)
        self.assertIn("TOO NEAR: no depth helps", out)

    @common.wants_program
    def test_above(self):
        # Half a metre above one another, of the 600 mm that two ellipsoids need: 83.3 %. With 700 mm they are apart.
        for height, status, words in ((1.5, 5, "with 83.3 % of the distance"), (1.7, 0, "APART")):
            path = self.file("a.csv", "a,0,0,0,1\nb,0,-1,0,%g\nb,4,1,0,%g\n" % (height, height))
            came, out = self.judged("--waypoints", path)
            self.assertEqual((came, words in out), (status, True), out)

    @common.wants_program
    def test_not_shown(self):
        # 250 mm aside: 104 %, but the import is some millimetres off, and its ellipsoids are larger by that.
        path = self.crossing(0.25, wave=0.02)
        status, out = self.judged("--tolerance", "12", path)
        self.assertEqual((status, "NOT SHOWN" in out, "104.2 % of the distance" in out), (5, True, True), out)
        self.assertEqual(self.judged("--tolerance", "1", path)[0], 0)

    @common.wants_program
    def test_wanted(self):
        # The same two drones, by other ellipsoids: 2 * 85 and some millimetres are less than 200, and 2 * 101 are more.
        path = self.crossing(0.2)
        self.assertEqual(self.judged("--ellipsoid", "85 300", path)[0], 0)
        self.assertEqual(self.judged("--ellipsoid", "101 300", path)[0], 5)

    @common.wants_program
    def test_depth(self):
        # b flies half around a: no direction shows it for the whole cue.
        around = [[0, [1, 0, 1], []], [4, [-1, 0, 1], [[1, 1.3, 1], [-1, 1.3, 1]]]]
        path = self.file("a.skyc", files.skyc([[[0, [0, 0, 1], []]], around]))
        self.assertEqual([self.judged("--depth", depth, path)[0] for depth in (0, 6)], [5, 0])

    @common.wants_program
    def test_stretches(self):
        # 200 steps are more than a stretch, and too long for a memory of 4,096 bytes; b comes by at 205 s.
        rows = "".join("%d,%g,0,1\n" % (t, 0.1 * (t % 2)) for t in range(201))
        words = ["--waypoints", self.file("a.csv", rows), self.file("b.csv", "0,0,5,1\n200,0,5,1\n208,0,-3,1\n")]
        status, out = self.judged(*words)
        self.assertEqual((status, out.count("check, from")), (5, 2), out)
        self.assertIn("at 205.000 s of the file, with 0.0 % of the distance", out)
        self.assertIn("nearest at 205.000 s: a at (0, 0, 1000), b at (0, 0, 1000) mm", out)
        self.file("b.csv", "0,0,5,1\n200,0,5,1\n208,0,3,1\n")
        status, out = self.judged(*words)
        self.assertEqual((status, out.count("check, from"), "APART" in out), (0, 2, True), out)

    def test_no_program(self):
        before, program.PROGRAM = program.PROGRAM, self.file("none")
        self.addCleanup(setattr, program, "PROGRAM", before)
        status, out = self.judged(self.crossing(1))
        self.assertEqual((status, "APART" in out), (70, False))


class Whole(Case):
    def test_examples_are_as_their_script_writes_them(self):
        subprocess.run([sys.executable, os.path.join(EXAMPLES, "foreign.py"), self.room], check=True, timeout=60)
        self.assertEqual(len(os.listdir(self.room)), 4)
        for name in os.listdir(self.room):
            with open(self.file(name), "rb") as one, open(os.path.join(EXAMPLES, name), "rb") as other:
                self.assertEqual(one.read(), other.read(), name)

    @common.wants_program
    def test_examples_are_apart(self):
        for name, words in FOREIGN.items():
            names = [os.path.join(EXAMPLES, it) for it in (name, "eight_right.csv")[:1 + (name == "eight_left.csv")]]
            status, out, said = self.run_tool("import", *words, *names)
            self.assertEqual((status, "corners" in said), (0, False), said)
            done = subprocess.run([common.PROGRAM, "check"], input=out.encode(), stdout=subprocess.PIPE, timeout=60)
            self.assertEqual(done.returncode, 0, done.stdout)

    @common.wants_program
    def test_uploaded(self):
        # The whole way: a .skyc, its show, an upload over a link that loses a fifth, and what the memories then hold.
        flown, text, _, _ = self.show_of(os.path.join(EXAMPLES, "rising.skyc"))
        os.mkdir(self.file("memories"))
        spoilt = ["--loss", "20", "--again", "5", "--late", "5", "--seed", "7"]
        status, out, said = common.run("bridge", *spoilt, "--start", "--memory", self.file("memories"),
                                       self.file("rising.choreo", text))
        self.assertEqual(status, 0, out + said)
        self.assertIn("trajectory 0 started", out)
        for name, data in zip(flown.names, flown.data()):
            with open(self.file("memories/%s.memory" % name), "rb") as file:
                self.assertEqual(file.read(), data.ljust(4096, b"\xFF"), name)


if __name__ == "__main__":
    unittest.main()
