"""./show import: what it reads, that its bound holds, and what it keeps. No file here was written by another program:
all are made from memory of the formats."""
import io
import math
import random
import unittest
import zipfile
from fractions import Fraction

import foreign_files as files
from hemtoghai.commands import importing
from hemtoghai.geometry import paths
from hemtoghai.language import choreo
from hemtoghai.language.converting import converted
from foreign_files import Case, squared

ROOT = Fraction(1733, 1000)  # above the root of three


ROWS = ["0;0,5;0;1", "2;1,5;0,25;1", "3;1,5;0,25;1,125"]


class Forms(Case):
    """The same flight in the forms that programs and spreadsheets write."""

    def body(self, *words):
        """The show's lines but the first comment, and what is said."""
        status, out, said = self.run_tool("import", *words)
        self.assertEqual(status, 0, said)
        return out.split("\n", 1)[1], said

    def test_separators(self):
        plain = "".join(row.replace(",", ".").replace(";", ",") + "\n" for row in ROWS)
        wanted, _ = self.body("--waypoints", self.file("a.csv", plain))
        self.assertIn("\na line 1.5m 0.25m 1m 0\n", wanted)
        for text in ("".join(row + "\r\n" for row in ROWS), "t;x;y;z\n" + "\n".join(ROWS),
                     "\ufefft;x;y;z\n" + "\n".join(ROWS),
                     "# a; comment, first\n" + plain, "\n".join(row.replace(";", "\t") for row in ROWS),
                     "\n".join(row.replace(",", ".") for row in ROWS)):
            self.assertEqual(self.body("--waypoints", self.file("a.csv", text.encode()))[0], wanted, text)
        # A head that names t, x, y and z is that of waypoints.
        self.assertEqual(self.body(self.file("a.csv", "t,x,y,z\n" + plain))[0], wanted)

    def test_form_of_the_language(self):
        """The same show in both forms, with the same comments; in `choreo 2` where no form is named."""
        rows = "0,0,0,0\n0.25,0.0004,-0.001,1\n2.001,0.1234,0,1\n4,1,0,1\n"
        beside = "".join("%d,%g,3,1\n" % (2 * k, 0.5 * k * k) for k in range(4))
        words = "--smooth", "--tolerance", "30", self.file("a.csv", rows), self.file("b.csv", beside)
        second, first = self.body(*words)[0].encode(), self.body("--form", "1", *words)[0].encode()
        self.assertEqual((choreo.form_of(first), choreo.form_of(second)), (1, 2))
        self.assertEqual((converted(first, 2), converted(second, 1)), (second, first))
        self.assertEqual(self.body("--form", "2", *words)[0].encode(), second)
        self.assertEqual(self.run_tool("import", "--form", "3", *words)[:2], (2, ""))

    def test_zip_of_csv(self):
        one, two = "t,x,y,z\n0,0,0,1\n2,1,0,1\n", "Time [msec];x [m];y [m];z [m];Red\n0;0;2,5;1;255\n2000;1;2,5;1;255\n"
        names = [self.file("one.csv", one), self.file("two.csv", two)]
        wanted, _ = self.body(*names)
        self.assertIn("\ndrone two 0 2.5m 1m 0\n", wanted)
        data = io.BytesIO()
        with zipfile.ZipFile(data, "w", zipfile.ZIP_DEFLATED) as archive:
            archive.writestr("show/", "")
            archive.writestr("show/one.csv", one)
            archive.writestr("show/two.CSV", two)
            archive.writestr("show/read me.txt", "no drone")
        self.assertEqual(self.body(self.file("a.zip", data.getvalue()))[0], wanted)
        # A zip with a show.json is Skybrush's, whatever its name.
        skyc = files.skyc([[[0, [0, 0, 1], []], [2, [1, 0, 1], []]]])
        self.assertEqual(self.body(self.file("b.zip", skyc))[0], self.body(self.file("b.skyc", skyc))[0])

    def test_left_out(self):
        points, none = [[0, [0, 0, 1], []], [2, [1, 0, 1], []]], {"version": 1, "data": ""}

        def show(**more):
            return self.file("a.skyc", files.archive({"show.json": files.show([files.drone("a", points, **more)])}))
        out, said = self.body(show(lights=none, yawControl={"version": 1, "setpoints": [[0, 0]], "autoYaw": False}))
        self.assertIn("(yaw 0.00 degrees)", out)
        self.assertNotIn("left out", (out + said).lower())
        out, said = self.body(show(lights={"version": 1, "data": "Bv//AA=="}))
        self.assertIn("LEFT OUT: lights, of 1 drone\n", said)
        self.assertIn("\n# Left out: lights.\n", out)
        out, said = self.body(show(yawControl={"version": 1, "setpoints": [], "autoYaw": True}))
        self.assertIn("LEFT OUT: automatic yaw, of 1 drone; drones turn by the setpoints alone", said)
        self.assertIn("\n# Left out: automatic yaw.\n", out)
        self.assertNotIn("(yaw 0.00 degrees)", out)  # nothing is claimed of it
        self.assertIn("its automatic yaw is left out", out)

    def test_one_place(self):
        # Two that begin in one place: what --starts is. With it, and where they begin apart, nothing is said.
        zero = "2," + ",".join(["0"] * 32) + "\n"
        names = [self.file("a.csv", zero), self.file("b.csv", zero)]
        said = self.body(*names)[1]
        self.assertIn("all 2 drones begin in one place", said)
        self.assertIn("--starts FILE adds it", said)
        starts = self.file("starts.csv", "a,0,0,1\nb,1,0,1\n")
        high = "2," + ",".join(["1"] + ["0"] * 15 + ["1"] + ["0"] * 15) + "\n"  # from (1, 0, 1)
        for words in (["--starts", starts, *names], [self.file("c.csv", high)]):
            self.assertNotIn("--starts", self.body(*words)[1])
        # One at z 0, and one of two: that it is on the floor.
        for words in (names[:1], [names[0], self.file("d.csv", high)]):
            self.assertIn("a begins at z 0, on the floor", self.body(*words)[1])


class Bound(Case):
    def test_holds(self):
        # At 17 exact instants of each piece between two edges of file or cues; and the tolerance is made use of.
        ways = [files.wild(k, 7) for k in range(3)]
        for tolerance in (2, 20):
            flown, text, bound, _ = self.show_of("--tolerance", tolerance, self.file("a.skyc", files.skyc(ways)))
            edges, t = {Fraction(0)}, Fraction(0)
            for cue in flown.cues:
                t += Fraction(cue.milliseconds, 1000)
                edges.add(t)
            worst = Fraction(0)
            for k, way in enumerate(ways):
                own = sorted(edges | {Fraction(repr(point[0])) for point in way})
                for a, b in zip(own, own[1:]):
                    for n in range(17):
                        t = a + (b - a) * n / 16
                        worst = max(worst, squared(files.flown_at(flown, k, t), files.where(way, t)))
            self.assertLessEqual(worst, bound ** 2)
            self.assertGreater(worst, (Fraction(97, 100) * bound) ** 2)
            self.assertTrue(Fraction(7, 10000) * tolerance < bound <= Fraction(tolerance, 1000))

    def test_includes_rounding(self):
        # 0.4 mm on each axis are rounded away: 0.693 mm in space, by hand. The texts' numbers are whole millimetres.
        path = self.file("a.skyc", files.skyc([[[0, [0.0004, 0.0004, 1.0004], []], [2, [0.0004, 0.0004, 1.0004], []]]]))
        flown, text, bound, _ = self.show_of(path)
        self.assertEqual((bound, flown.starts), (Fraction(70, 100000), [[0, 0, 1000000, 0]]))
        flown = self.show_of(self.file("b.skyc", files.skyc([files.wild(1, 3)])))[0]
        for cue in flown.cues:
            for _, act, goal in cue.acts.values():
                numbers = [v for p in goal[:-1] for v in (p if isinstance(p, list) else [p])]
                self.assertTrue(all(v % 1000 == 0 for v in numbers), goal)

    def test_yaw(self):
        # A quarter turn that begins and ends in the middle of a curve, of a drone that takes off after a second.
        points = [[0, [0, 0, 1], []], [4, [1, 0, 1], [[0, 0, 1], [1, 0, 1]]]]
        settings = {"late": 1, "yaw": [[0, 0], [1, 0], [3, 90], [4, 90]]}
        path = self.file("a.skyc", files.archive({"show.json": files.show([files.drone("a", points, **settings)])}))
        for degrees in (1, 5):
            flown, _, _, said = self.show_of("--yaw-tolerance", degrees, path)
            bound, t, worst = Fraction(said.split("yaw ")[1].split()[0]), 0, 0
            for milliseconds, elements in flown.by_cue[0]:
                for n in range(9):
                    u = Fraction(n, 8)
                    instant = (t + milliseconds * u) / 1000
                    wanted = min(max(45 * (instant - 2), 0), 90)
                    row = elements[3]
                    worst = max(worst, abs(wanted - (row[0] + (row[-1] - row[0]) * u) / 10))
                t += milliseconds
            self.assertTrue(worst <= bound <= degrees)

    def test_before_and_after(self):
        # From 1 to 2 s a path leads a millimetre along x: the drone waits before it, and stays after it. By hand.
        rows = [[Fraction(0), Fraction(1000)], *[[Fraction(0)]] * 3]
        path = paths.Path("a", [(Fraction(1000), Fraction(2000), rows)])
        for begin, end, x, square in ((0, 1000, 30, 2500), (0, 500, 30, 2500), (2000, 3000, 1030, 2500),
                                      (2500, 3000, 1030, 2500), (0, 2000, 0, 1001600), (500, 3000, 1000, 1001600)):
            held = [[Fraction(v)] for v in (x, 40, 0, 2)]
            found = path.leaves(Fraction(begin), Fraction(end), held, 6, (Fraction(0), Fraction(0)))
            self.assertEqual(found, (square, 4), (begin, end))

    def test_farthest(self):
        chance = random.Random(3)
        for _ in range(16):
            rows = [[Fraction(chance.randint(-9, 9), chance.randint(1, 9)) for _ in range(chance.choice((2, 4, 8)))]
                    for _ in range(3)]
            rows = [paths.raised(row, max(map(len, rows)) - 1) for row in rows]
            bound = paths.farthest(rows, 5, 0)
            worst = max(sum(v * v for v in files.bezier(list(zip(*rows)), Fraction(k, 32))) for k in range(33))
            self.assertTrue(worst <= bound <= worst * Fraction(103, 100) + Fraction(1, 10))
        # x goes from -1 to 1 and y is 1 - x^2: farthest in the middle is 1, at the ends 1.
        bound = paths.farthest([[Fraction(v) for v in row] for row in ([-1, 0, 1], [0, 2, 0])], 8, 0)
        self.assertTrue(1 <= bound < Fraction(10001, 10000))

    def test_root(self):
        for square, root in ((0, 0), (2, 1.42), (Fraction(1, 10 ** 9), 0.01), (4, 2), (Fraction(40001, 10000), 2.01)):
            self.assertEqual(paths.root_up(Fraction(square)), Fraction(str(root)))


class Kept(Case):
    def test_lines_and_holds(self):
        points = [[0, [0, 0, 1], []], [2, [0, 0, 1], []], [4, [1, 0, 1], []], [7, [1, 0, 1], []]]
        text = self.show_of("--tolerance", 1, "--ellipsoid", "100 200", self.file("a.skyc", files.skyc([points])))[1]
        self.assertEqual(text.split("\n")[3:], [
            "choreo 2", "ellipsoid 100mm 200mm", "memory 2 0", "drone drone_1 0 0 1m 0",
            "cue 2s   # from 0.000 s", "end",
            "cue 2s   # from 2.000 s", "drone_1 line 1m 0 1m 0", "end",
            "cue 3s   # from 4.000 s", "end", ""])

    def test_rest_is_pinned(self):
        points = [[0, [0, 0, 0], []], [2, [0, 0, 0], []], [4, [0, 0, 1], []], [6, [0, 0, 1], []], [8, [0, 0, 0], []],
                  [9, [0, 0, 0], []]]
        smooth = [[t, [1, 0, 0.5 - 0.5 * math.cos(max(0.0, t - 1))], []] for t in (k / 4 for k in range(37))]
        flown = self.show_of(self.file("a.skyc", files.skyc([points, smooth])))[0]
        self.assertTrue(all(0 <= v <= 1000 for _, elements in flown.by_cue[0] for v in elements[2]), flown.by_cue[0])
        begin = 0
        for (milliseconds, elements), (_, others) in zip(*flown.by_cue):
            if begin < 2000 or 4000 <= begin < 6000 or begin >= 8000:
                self.assertEqual([len(row) for row in elements], [1] * 4)
            self.assertTrue(begin >= 1000 or len(others[2]) == 1)
            # Samples don't say so, but the other one leaves its rest without a jump of speed.
            self.assertTrue(begin != 1000 or others[2][0] == others[2][1] < others[2][2], others)
            begin += milliseconds
        flown = self.show_of("--loose", self.file("a.skyc"))[0]
        self.assertLess(min(v for _, elements in flown.by_cue[1][:3] for v in elements[2]), 0)

    def test_joins(self):
        # Where the file has no jump of speed there is none but by rounding: a millimetre in a third of a cue, or 1.5.
        for way in (files.wild(1, 8), [[k / 10, [math.sin(k / 8), math.cos(k / 8), 1], []] for k in range(81)]):
            flown = self.show_of("--loose", self.file("a.skyc", files.skyc([way])))[0]
            for (a, before), (b, after) in list(zip(flown.by_cue[0], flown.by_cue[0][1:]))[1:]:
                for p, q in zip(before[:3], after[:3]):
                    left = Fraction((len(p) - 1) * (p[-1] - p[-2]), a) if len(p) > 1 else 0
                    right = Fraction((len(q) - 1) * (q[1] - q[0]), b) if len(q) > 1 else 0
                    self.assertLessEqual(abs(left - right), Fraction(9, 2) * (Fraction(1, a) + Fraction(1, b)))

    def test_corners(self):
        # Lines stay lines: cues end at the corners, of all drones, and are nowhere off. By hand.
        text = self.show_of("--waypoints", self.file("a.csv", "0,0,0,0\n2,0,0,1\n4,1,0,1\n6,1,1,1\n8,1,1,0\n"),
                            self.file("b.csv", "0,5,0,1\n3,5,0,1\n5,5,0,2\n8,5,3,2\n"))[1]
        lines = text.split("\n")[8:]
        lengths = [line.split()[1] for line in lines if line.startswith("cue ")]
        self.assertEqual(lengths, ["2s", "1s", "1s", "1s", "1s", "2s"])
        self.assertEqual([line for line in lines if line.startswith("b")], [
            "b line 5m 0 1.5m 0", "b line 5m 0 2m 0", "b line 5m 1m 2m 0", "b line 5m 3m 2m 0"])
        self.assertIn("at most 0.00 mm", text)

    def test_corners_between_milliseconds(self):
        # The cue ends at the nearest whole millisecond: half a metre a second for a third of a millisecond is 0.17 mm.
        _, text, bound, said = self.show_of("--waypoints", self.file("a.csv", "0,0,0,1\n2.000333,1,0,1\n4,0,0,1\n"))
        self.assertEqual([line[:7] for line in text.split("\n") if line.startswith("cue ")], ["cue 2s "] * 2)
        self.assertTrue(Fraction(1, 10000) < bound <= Fraction(2, 1000), bound)
        self.assertIn("a jumps by 1.00 m/s at 2.000 s", said)

    def test_crowded_corners(self):
        # Corners nearer to each other than the least cue are led around within the tolerance, or told.
        rows = "".join("%g,%g,0,1\n" % (0.02 * k, 0.02 * (k % 2)) for k in range(19))
        status, _, said = self.run_tool("import", "--waypoints", "--tolerance", "2", self.file("a.csv", rows))
        self.assertEqual((status, "could not be fitted" in said), (1, True), said)
        self.assertEqual(self.run_tool("import", "--waypoints", "--tolerance", "25", self.file("a.csv"))[0], 0)

    def test_long_rest(self):
        text = self.show_of("--waypoints", self.file("a.csv", "0,0,0,1\n70,0,0,1\n"))[1]
        self.assertEqual([line.split()[1] for line in text.split("\n") if line.startswith("cue ")], ["65.535s", "4.465s"])

    def test_no_sliver(self):
        # Drones that rest at the end. Cut greedily, the last cues before that would last 25 and 15 ms.
        for number, seconds, tolerance in ((6, 2 + 33 / 7, 20), (2, 2 + 38 / 7, 5), (1, 4, 5)):
            points = files.wild(number, seconds)
            points.append([points[-1][0] + 1, points[-1][1], []])
            flown = self.show_of("--tolerance", tolerance, self.file("a.skyc", files.skyc([points])))[0]
            self.assertGreaterEqual(min(cue.milliseconds for cue in flown.cues), 50)

    def test_head(self):
        # 0.4 mm off on each axis is 0.70 mm; 1 + 0.7 / 100 is 1.007; 100.7 and 251.75 rounded up. By hand.
        path = self.file("caf\u00e9\nchoreo 1.csv", "0,0.0004,0.0004,1.0004\n3,0.0004,0.0004,1.0004\n")
        text = self.show_of("--waypoints", "--ellipsoid", "100 250", "--memory", "3 64", path)[1]
        self.assertEqual(text.split("\n")[:6], [
            "# Source: caf??choreo 1.csv, by ./show import.",
            "# Bound: at any instant what is sent is at most 0.70 mm (yaw 0.00 degrees) from the source.",
            "# Factor: 100 250 is wanted around the source's curves, and 1.0070 times that is kept clear.",
            "choreo 2", "ellipsoid 101mm 252mm", "memory 3 64"])

    def test_factor(self):
        grown = importing.grown
        # By hand: 1 + 10 / 120 = 1.08333.., rounded up 1.0834; 130.008 and 325.02, rounded up.
        self.assertEqual(grown((120, 300), Fraction(10)), (Fraction(10834, 10000), (131, 326)))
        self.assertEqual(grown((300, 120), Fraction(12)), (Fraction(11, 10), (330, 132)))
        self.assertEqual(grown((100, 100), Fraction(0)), (1, (100, 100)))


class Read(Case):
    def place(self, flown, k, t):
        """A place in whole millimetres."""
        return [round(1000 * v) for v in files.flown_at(flown, k, t)]

    def test_skyc(self):
        # References to other members, to a place in one and in the same; takeoff at different times; one point.
        late = files.drone("a", [], 0)
        late["settings"]["trajectory"] = {"$ref": "./drones/a.json#/way/1"}
        own = files.drone("Drone-B", [], 0)
        own["settings"]["trajectory"] = {"$ref": "#/more"}
        away = files.drone("drone b", [[0, [3, 0, 0.5], []]])
        members = {"drones/a.json": {"way": [0, {"$ref": "../a2.json"}]},
                   "a2.json": {"version": 1, "takeoffTime": 1.5, "points": [[0, [0, 0, 0]], [2, [0, 0, 1], []]]},
                   "show.json": files.show([late, own, away], more={"points": [[0, [1, 0, 0], []], [
                       2, [1, 0, 1], [[1, 0, 0], [1, 0, 1]]]], "takeoffTime": 0.5})}
        flown, text, _, _ = self.show_of("--tolerance", 1, self.file("a.skyc", files.archive(members)))
        self.assertEqual((flown.names, flown.milliseconds), (["a", "drone_b", "drone_b_2"], 3500))
        for t, first, second in ((0, 0, 0), (1.5, 0, 500), (2.5, 500, 1000), (3.5, 1000, 1000)):
            for k, place in enumerate(([0, 0, first], [1000, 0, second], [3000, 0, 500])):
                self.assertLessEqual(squared(self.place(flown, k, t), place), 1, (t, k))

    def test_polynomials(self):
        # One metre along x in two seconds at even speed, then back; half a turn.
        pi = math.pi
        path = self.file("cf.csv", "Duration,x^0\n2,%s,0,0,0,0,0,0,%s\n2,%s,1,0,0,0,0,0,0,0,%s\n" % (
            "0,0.5,0,0,0,0,0,0," + "0," * 8 + "1,0", "0,%.17g,0,0,0,0,0,0" % (pi / 2),
            "1,-0.5,0,0,0,0,0,0," + "0," * 7 + "0", "%.17g,0,0,0,0,0,0,0" % pi))
        flown, _, bound, said = self.show_of("--tolerance", "8", path)
        for t, x in ((0, 0), (1, 500), (3, 500), (4, 0)):
            self.assertLessEqual(squared(self.place(flown, 0, t), [x, 0, 1000]), (1000 * bound + 1) ** 2)
        self.assertEqual(flown.by_cue[0][-1][1][3][-1], 1800)
        self.assertIn("corners at speed: cf jumps by 1.00 m/s at 2.000 s", said)

    def test_powers(self):
        # z = t^7 / 128 + 1 and x = t^3 / 8 in two seconds: 1 and 2 m at the ends, by hand 1 + 1 / 128 in the middle.
        row = "2," + "0,0,0,0.125,0,0,0,0," + "0," * 8 + "1,0,0,0,0,0,0,0.0078125," + "0,0,0,0,0,0,0,0\n"
        flown, _, bound, _ = self.show_of("--tolerance", 2, "--starts", self.file("starts", "cf,0.5,-1,0\n"),
                                          self.file("cf.csv", row))
        for t, place in ((0, [500, -1000, 1000]), (1, [625, -1000, 1007.8125]), (2, [1500, -1000, 2000])):
            self.assertLessEqual(squared(files.flown_at(flown, 0, t), [Fraction(v) / 1000 for v in place]), bound ** 2)

    def test_waypoints(self):
        wanted = {"a": [[0, 0, 1000], [1000, 0, 1000]], "b": [[0, 1000, 1000], [0, 1000, 1000]]}
        rows = "a,0,0,0,1,0\na,2,1,0,1,90\nb,0,0,1,1,0\n"
        for text in (rows, "Name, t ,x,y,z,yaw\n" + rows,
                     "# said\n\ndrone,time [msec],x [m],y [m],z [m],yaw\n" + rows.replace("a,2,", "a,2000,"),
                     "\ufeffyaw,z,y,x,t,id\n0,1,0,0,0,a\n90,1,0,1,2,a\n0,1,1,0,0,b\n"):
            flown = self.show_of("--waypoints", self.file("w.csv", text))[0]
            self.assertEqual((flown.names, flown.milliseconds), (["a", "b"], 2000))
            for k, name in enumerate(flown.names):
                self.assertEqual([self.place(flown, k, t) for t in (0, 2)], wanted[name])
            self.assertEqual([flight[-1][1][3][-1] for flight in flown.by_cue], [900, 0])
        names = self.file("Cf-1.csv", "0,0,0,1\n2,1,0,1\n"), self.file("end.csv", "0,0,1,1\n")
        one = self.show_of("--waypoints", *names)[0]
        self.assertEqual((one.names, one.milliseconds), (["cf_1", "end_"], 2000))
        self.assertEqual(one.starts[1], [0, 1000000, 1000000, 0])

    def test_skybrush_csv(self):
        path = self.file("a.csv", "Time [msec],x [m],y [m],z [m],Red,Green,Blue\n0,0,0,1,9,9,9\n2000,1,0,1,9,9,9\n")
        flown = self.show_of("--waypoints", path)[0]
        self.assertEqual((flown.milliseconds, flown.by_cue[0][-1][1][3]), (2000, [0]))
        self.assertEqual([self.place(flown, 0, t) for t in (0, 1, 2)], [[0, 0, 1000], [500, 0, 1000], [1000, 0, 1000]])

    def test_smooth(self):
        flown, _, bound, said = self.show_of("--smooth", self.file("a.csv", "0,0,0,1\n1,1,0,1\n2,1,1,1\n3,0,1,1\n"))
        self.assertNotIn("corners", said)
        for t, place in ((0, (0, 0, 1)), (1, (1, 0, 1)), (2, (1, 1, 1)), (3, (0, 1, 1))):
            self.assertLessEqual(squared(files.flown_at(flown, 0, t), place), bound ** 2)


if __name__ == "__main__":
    unittest.main()
