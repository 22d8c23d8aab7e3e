"""./show import: damaged files, and what is too much of something. Each ends with a line and a status, and none with a
traceback; nothing is written. No file here was written by another program."""
import io
import json
import os
import random
import re
import struct
import time
import unittest
import zipfile

import common
from hemtoghai.exchange import foreign
import foreign_files as files
from foreign_files import Case, drone, show

POINTS = [[0, [0, 0, 1], []], [2, [1, 0, 1], [[0, 0, 1], [1, 0, 1]]], [3, [1, 0, 1], []]]
DURATION = "2," + ",".join(["0"] * 32) + "\n"


def one(node, *where):
    """A .skyc of one drone in which something is replaced."""
    whole = show([drone("a", [list(point) for point in POINTS], yaw=[[0, 0], [3, 90]])])
    at = whole
    for key in where[:-1]:
        at = at[key]
    at[where[-1]] = node
    return files.archive({"show.json": whole})


def settings(node, *where):
    """The same in the settings of the drone."""
    return one(node, "swarm", "drones", 0, "settings", *where)


def members(texts):
    """A zip with members of these bytes."""
    data = io.BytesIO()
    with zipfile.ZipFile(data, "w") as file:
        for where, text in texts.items():
            file.writestr(where, text)
    return data.getvalue()


TRAJECTORY, POINT = ("trajectory",), ("trajectory", "points", 1)
GOOD = files.archive({"show.json": show([drone("a", POINTS)])})
SKYC = [
    (b"no zip", "no zip"), (b"", "no zip"), (GOOD[:len(GOOD) - 9], "no zip"), (GOOD[:60], "no zip"),
    (GOOD.replace(b"takeoff", b"takeofg"), "show.json is damaged"), (members({"a": "b"}), "no member show.json"),
    (members({"show.json": b"\xff"}), "damaged"), (members({"show.json": "{"}), "damaged"),
    (members({"show.json": '{"version": 1, "version": 1}'}), "the key version stands twice"),
    (members({"show.json": '{"version": 1, "swarm": {"drones": [], "swarm": 1, "drones": [7]}}'}), "the key drones stands twice"),
    (members({"show.json": "{}", "another_1": "{}"}).replace(b"another_1", b"show.json"), "two members show.json"),
    (members({"show.json": "[" * 100000}), "damaged"), (members({"show.json": "3"}), "has no version"),
    (members({"show.json": json.dumps(show([]))}), "no drone"), (one(2, "version"), "version 2, and 1"),
    (one("1", "version"), "version is no number"), (one(None, "swarm"), "no swarm"),
    (one({}, "swarm", "drones"), "drones is no list"), (one(7, "swarm", "drones", 0), "drone 1 has no settings"),
    (settings(7, "name"), "name is no text"), (settings(2, *TRAJECTORY, "version"), "trajectory of version 2"),
    (settings([], *TRAJECTORY, "points"), "without a point"),
    (settings({"$ref": "b.json#"}, *TRAJECTORY), "no member b.json"),
    (settings({"$ref": "#/swarm/drones/1"}, *TRAJECTORY), "no 1"),
    (settings({"$ref": 7}, *TRAJECTORY), "ref is no text"),
    (settings({"$ref": "#/swarm/drones/0/settings/trajectory"}, *TRAJECTORY), "go round"),
    (settings(float("nan"), *TRAJECTORY, "takeoffTime"), "'NaN' is no number"),
    (settings(-1, *TRAJECTORY, "takeoffTime"), "before the time 0"),
    (settings(float("inf"), *POINT, 0), "'Infinity' is no number"), (settings(5, *POINT, 0), "time goes back"),
    (settings(0, *POINT, 0), "a place jumps"), (settings("2", *POINT, 0), "a time, a place"),
    (settings([1, 2], *POINT, 1), "isn't three numbers"), (settings([0, 0, None], *POINT, 1), "isn't three numbers"),
    (settings([[0, 0, 1]], *POINT, 2), "none or two are known"),
    (settings([[0, 0], [0, 0, 0]], *POINT, 2), "three numbers"),
    (settings([33, 0, 0], *POINT, 1), "farther than 32.767 m"), (settings([0, 1e30, 0], *POINT, 1), "farther than"),
    (settings([0, 1e300, 0], *POINT, 1), "an exponent has at most two digits"),
    (settings([[0, 0], [3, 1], [2, 1]], "yawControl", "setpoints"), "yaw goes back"),
    (settings([[0, 0], [2, 1], [2, 9]], "yawControl", "setpoints"), "yaw jumps"),
    (settings([[0, 0, 0]], "yawControl", "setpoints"), "setpoint"),
    (settings([[0, 9e9]], "yawControl", "setpoints"), "3276.7"),
    (settings(1e8, "trajectory", "points", 2, 0), "more than 36000 s"),
    (settings([1.9999999999, [0, 0, 1], []], "trajectory", "points", 0), "microsecond"),
    (files.archive({"show.json": show([drone("a", POINTS), drone("a", POINTS)])}), "two drones have the name 'a'"),
    (members({"show.json": json.dumps(show([])).replace("1", "1" * 70)}), "is no number"),
]
CSV = [
    ((), "", "no row of numbers"), ((), "\n\n", "no row"), ((), "a,b\n", "no row"),
    ((), "1,2,3\n", "line 1: 3 numbers, and 33"), ((), "d\n" + DURATION * 2 + DURATION[:40], "line 4: 20 numbers"),
    ((), DURATION.replace("2", "0"), "a duration of 0 s"), ((), DURATION.replace("2", "-1"), "a duration of -1 s"),
    ((), DURATION.replace(",0", ",nan", 1), "line 1: 'nan' is no number"),
    ((), DURATION.replace(",0", ",1e9999", 1), "is no number"),
    ((), DURATION.replace(",0", ",", 3), "'' is no number"), ((), DURATION.replace(",0", ",1_0", 1), "is no number"),
    ((), DURATION.replace(",0", ",1/0", 1), "is no number"),
    ((), DURATION + DURATION.replace(",0", ",5", 1), "jumps by 5000 mm at 2.000 s"),
    ((), DURATION.replace(",0", ",40", 1), "farther than 32.767 m"),
    ((), DURATION.replace("2", "1e-9"), "microsecond"), ((), b"\xff\xfe1,2", "no CSV"),
    ((), "1,2\0,3\n", "no CSV|is no number|numbers, and"), ((), "1," + "2" * 200000, "no CSV"),
    (("-w",), "1,2,3\n", "a row has 3 cells"), (("-w",), "1,0,0,0\n1,0,0,0\n", "line 2: the time doesn't grow"),
    (("-w",), "1,0,0,0\n0,0,0,0\n", "line 2: the time doesn't grow"),
    (("-w",), "1,0,0,0\n2,0,x,0\n", "line 2: 'x' is no number"),
    (("-w",), "-1,0,0,0\n2,0,0,0\n", "before the time 0"), (("-w",), "0,0,0,0,0,0\n", "6 cells"),
    (("-w",), "t,x,y\n0,0,0\n", "has to name t, x, y and z"),
    (("-w",), "t,x,y,z [mm]\n0,0,0,0\n", "unit isn't known"), (("-w",), "t,x,y,z,x\n0,0,0,0,0\n", "two columns"),
    (("-w",), "t,x,y,z,drone\n0,0,0,0\n", "line 2: 4 cells"), (("-w",), "a,0,0,0,1\na,1,0,0\n", "line 2: 4 cells"),
    (("-w",), "0,0,0,1\nx,1,0,0,1\n", "line 2: 5 cells"), (("-w",), "0,0,0,1\n0.0000001,0,0,1\n", "microsecond"),
    (("-w",), "0,0,0,1\n40000,0,0,1\n", "more than 36000 s"),
]


class Faults(Case):
    def refused(self, *words, status=3):
        """The line that is said where nothing is written."""
        came, out, said = self.run_tool("import", *words)
        self.assertEqual((came, out, said.count("\n")), (status, "", 1), (words, said))
        return said

    def test_skyc(self):
        for data, words in SKYC:
            self.assertRegex(self.refused(self.file("a.skyc", data)), words)

    def test_csv(self):
        for options, text, words in CSV:
            options = ["--waypoints"] if options else []
            self.assertRegex(self.refused(*options, self.file("a.csv", text)), words)

    def test_files(self):
        self.file("b.csv", DURATION)
        os.mkdir(self.file("c"))
        self.assertIn("two drones have the name 'b'", self.refused(self.file("b.csv"), self.file("b.csv")))
        for starts, words in (("a,0,0,0\n", "no place for b"), ("b,0,0\n", "name,x,y,z"), ("b,0,0,0\nc,0,0,0\n", "'c'"),
                              ("b,0,x,0\n", "'x' is no number"), ("b,0,0,0\nb,0,0,0\n", "once")):
            self.assertIn(words, self.refused("--starts", self.file("starts", starts), self.file("b.csv")))
        for name in ("none.csv", "none.skyc"):
            self.assertIn("No such file", self.refused(self.file(name), status=70))

    def test_large(self):
        before, foreign.LARGEST = foreign.LARGEST, 600
        self.addCleanup(setattr, foreign, "LARGEST", before)
        packed = io.BytesIO()
        with zipfile.ZipFile(packed, "w", zipfile.ZIP_DEFLATED) as archive:
            archive.writestr("show.json", " " * 601)
        self.assertIn("larger than 600 bytes", self.refused(self.file("a.skyc", packed.getvalue())))
        self.assertIn("more than 600 bytes", self.refused(self.file("a.csv", DURATION * 20)))

    def test_packed_numbers(self):
        # 40 KB hold twenty million numbers, or as much text; no show does. It is refused before it is read.
        def packed(text):
            data = io.BytesIO()
            with zipfile.ZipFile(data, "w", zipfile.ZIP_DEFLATED) as archive:
                archive.writestr("show.json", text)
            return data.getvalue()
        front = '{"version":1,"swarm":{"drones":[{"settings":{"trajectory":{"points":['
        for text in (front + "1," * 15000000, "[" + "{}," * 9000000, " " * 40000000):
            data = packed(text)
            self.assertLess(len(data), 60000)
            begun = time.process_time()
            self.assertIn("larger than", self.refused(self.file("a.skyc", data)))
            self.assertLess(time.process_time() - begun, 2)  # 90 s before
        # As many numbers as bytes are taken, and no more.
        said = self.refused(self.file("a.skyc", packed(front + "1," * 60000)))
        self.assertRegex(said, "more than 20[0-9]{3} numbers")
        self.assertIn("more than 1000000 cells", self.refused(self.file("a.csv", "1," * 1000001)))

    def test_zips(self):
        self.assertIn("a zip without a CSV file", self.refused(self.file("a.zip", members({"a.txt": "1,2"}))))
        said = self.refused("--waypoints", self.file("a.zip", members({"a.csv": "0,0,0,1\n", "b.csv": "0,0,x,1\n"})))
        self.assertRegex(said, r"a\.zip, b\.csv: line 1: 'x' is no number")
        self.assertIn("no zip", self.refused(self.file("a.zip", b"PK nothing")))

    def test_words(self):
        for words in (["--tolerance", "0"], ["--tolerance", "nan"], ["--tolerance", "1e9"], ["--least", "0"],
                      ["--depth", "9"], ["--ellipsoid", "1"], ["--ellipsoid", "0 300"], ["--ellipsoid", "1 2001"],
                      ["--memory", "2 4096"], ["--memory", "-1 0"], ["--yaw-tolerance", "inf"],
                      ["--starts", "x", "--waypoints"], ["x.skyc"]):
            status, out, said = self.run_tool("import", *words, "a.csv")
            self.assertEqual((status, out), (2, ""), words)
            self.assertNotIn("Traceback", said)
        status, _, said = common.run("import", self.file("none.csv"))
        self.assertEqual((status, said), (70, "import: %s: No such file or directory\n" % self.file("none.csv")))


class Limits(Case):
    def refused(self, status, *words):
        """The line that is said where nothing is written."""
        came, out, said = self.run_tool("import", *words)
        self.assertEqual((came, out, said.count("\n")), (status, "", 1), said)
        return said

    def test_drones(self):
        still = [[[0, [k, 0, 0], []], [1, [k, 0, 0], []]] for k in range(33)]
        self.assertIn("33 drones, and a show has at most 32", self.refused(3, self.file("a.skyc", files.skyc(still))))
        self.assertEqual(self.run_tool("import", self.file("b.skyc", files.skyc(still[:32])))[0], 0)

    def test_memory(self):
        # Without an offset it fits; with one it fits at the tolerance that is named, and at no step below it.
        path = self.file("a.skyc", files.skyc([files.wild(1, 40)]))
        self.assertEqual(self.run_tool("import", path)[0], 0)
        words = ["--memory", "2 3200", path]
        said = self.refused(4, "--tolerance", "5", *words)
        found = re.search(r"drone_1 would take (\d+) bytes of 896, in \d+ segments; the show fits with "
                          r"--tolerance (\d+)", said)
        self.assertGreater(int(found[1]), 896)
        self.assertEqual(self.run_tool("import", "--tolerance", found[2], *words)[0], 0)
        below = {10: 6, 20: 10, 30: 20, 50: 30, 70: 50, 100: 70}[int(found[2])]
        self.refused(4, "--tolerance", below, *words)
        self.assertIn("no tolerance up to 1000 mm helps: cut the show", self.refused(4, "--memory", "2 4080", path))

    def test_corners_take_room(self):
        # Forty corners at whole seconds take more than 196 bytes at any tolerance.
        rows = "".join("%d,%g,0,1\n" % (t, 0.1 * (t % 2)) for t in range(41))
        said = self.refused(4, "--waypoints", "--memory", "2 3900", self.file("a.csv", rows))
        self.assertIn("of 196, in 40 segments; no tolerance up to 1000 mm helps", said)

    def test_segments_and_cues(self):
        def steps(count):
            rows = "".join("%d,%g,0,1\n" % (k, 0.1 * (k % 2)) for k in range(count + 1))
            return self.file("a.csv", rows)
        self.assertIn("in 256 segments", self.refused(4, "--waypoints", "--tolerance", "500", steps(256)))
        self.assertEqual(self.run_tool("import", "--waypoints", "--tolerance", "1", steps(255))[0], 0)
        self.assertIn("more than 1000 cues", self.refused(3, "--waypoints", "--tolerance", "1", steps(1001)))

    def test_row_again_and_again(self):
        # A row of polynomials that stands 300 times more: at each of them the drone jumps by some millimetres, so that
        # no cue fits. A file of 95 KB of this kind took 20 s of processor time.
        with open(os.path.join(common.TOP, "examples", "eight_left.csv")) as file:
            rows = file.read().split("\n")
        path, begun = self.file("a.csv", "\n".join(rows[:3] + rows[3:4] * 300 + rows[3:])), time.process_time()
        said = self.refused(3, "--comparisons", "30000", path)
        self.assertRegex(said, "more than 1000 cues; no tolerance up to 1000 mm helps")
        self.assertLess(time.process_time() - begun, 10)

    def test_comparisons(self):
        # A search that may take few comparisons finds no cues; one that may take more, no tolerance; then it does.
        path, found, most = self.file("a.skyc", files.skyc([files.wild(1, 20)])), [], 100.0
        while "fits with --tolerance" not in "".join(found[-1:]) and most < 10000:
            words = ["--tolerance", "2", "--memory", "2 3600", "--comparisons", str(int(most)), path]
            said, most = self.run_tool("import", *words)[2], 1.2 * most
            if re.sub("[0-9]+", "", said) not in [re.sub("[0-9]+", "", it) for it in found]:
                found.append(said)
        self.assertEqual(len(found), 3, found)
        self.assertIn("no cues were found in 100 comparisons: cut the file into several", found[0])
        self.assertRegex(found[1], r"take \d+ bytes of 496, in \d+ segments; no tolerance that helps was found in \d+")

    def test_corners_are_counted_first(self):
        # Lines with 20,001 corners: no cue is looked for, since none goes over a corner.
        rows = "".join("%d,%d,0,1\n" % (k, k % 2) for k in range(20002))
        said = self.refused(3, "--waypoints", "--comparisons", "1", self.file("a.csv", rows))
        self.assertIn("more than 1000 cues; no tolerance up to 1000 mm helps: cut the show into several", said)
        said = self.refused(3, "--waypoints", "--judge", "--comparisons", "1", self.file("a.csv"))
        self.assertIn("more than 20000 cues: judge a part of the show", said)

    def test_many_rows(self):
        # Empty lines, names, references and long numbers: what is read is bounded, whatever it is.
        for name, most in (("NUMBERS", 3000), ("LINES", 5000)):
            self.addCleanup(setattr, foreign, name, getattr(foreign, name))
            setattr(foreign, name, most)
        path = self.file("a.csv", "0,0,0,1\n" + "\n" * 5000)
        self.assertIn("more than 5000 lines", self.refused(3, "--waypoints", path))
        rows = "".join("%s,0,0,0,1\n" % ("!" * k) for k in range(1, 34))  # names of which a show makes one
        self.assertIn("33 drones, and a show", self.refused(3, "--waypoints", self.file("a.csv", rows)))
        rows = "".join("%d,0,0,1\n" % k for k in range(751))
        self.assertIn("line 751: more than 3000 numbers", self.refused(3, "--waypoints", self.file("a.csv", rows)))
        # 140 places, 134 of them in micrometres, are 446 bits: that counts as seven, and a row as ten.
        rows = "".join("%d,1.%s1e-99,0,1\n" % (k, "0" * 40) for k in range(301))
        self.assertIn("line 301: more than 3000", self.refused(3, "--waypoints", self.file("a.csv", rows)))
        # 32 drones that refer to one trajectory of 24 points fly 3,072 numbers, and the file has a few hundred.
        drones = [files.drone(str(k), []) for k in range(32)]
        for one in drones:
            one["settings"]["trajectory"] = {"$ref": "#/way"}
        whole = files.show(drones, way={"points": [[k, [0, 0, 1]] for k in range(24)], "version": 1})
        path = self.file("a.skyc", files.archive({"show.json": whole}))
        self.assertIn("more than 3000 numbers", self.refused(3, path))

    def test_ellipsoid(self):
        words = ["--ellipsoid", "1 2000", self.file("a.csv", "1,0.0004,0,1\n")]
        self.assertIn("at most 2000 mm", self.refused(3, "--waypoints", *words))

    def test_coordinates(self):
        path = self.file("a.csv", "0,-32.767,0,1\n9,32.767,0,1\n")
        self.assertEqual(self.run_tool("import", "--waypoints", path)[0], 0)
        # All places fit, and a control point between them doesn't: of a curve through samples, and of a spline.
        rows = "".join("%g,%g,0,1\n" % (t / 10, 32.767 - 0.02 * (t / 10 - 5) ** 2) for t in range(101))
        said = self.refused(3, "--waypoints", self.file("a.csv", rows))
        self.assertRegex(said, "the import would be refused: error 3 line [0-9]+ out-of-range x 3[0-9]{7}\n$")
        path = self.file("a.csv", "0,0,0,1\n4,32.7,0,1\n5,32.7,0,1\n")
        self.assertIn("farther than 32.767 m", self.refused(3, "--smooth", path))


def spoilt(chance, data):
    """Bytes with an end cut off, or some bytes changed."""
    if chance.random() < 0.3:
        return data[:chance.randrange(len(data))]
    data = bytearray(data)
    for _ in range(chance.choice((1, 1, 2, 8))):
        data[chance.randrange(len(data))] = chance.choice((chance.randrange(256), *b'0123456789-.,e[]{}":n\n'))
    return bytes(data)


class Spoilt(Case):
    STATUSES = {0, 1, 3, 4}

    def judged(self, words, data):
        """Runs the tool over a file; its status."""
        try:
            status, out, said = self.run_tool("import", "--tolerance", "100", *words[:-1], self.file(words[-1], data))
        except BaseException as fault:
            raise AssertionError("%r ends with %r" % (data, fault)) from fault
        self.assertIn(status, self.STATUSES, said)
        self.assertEqual((out == "", said == ""), (status > 1, False), said)
        self.assertNotIn("Traceback", said)
        return status

    def test_examples(self):
        # Each example, spoilt in a few hundred ways; of the .skyc the zip, and the texts in it before they are packed.
        chance = random.Random(38)
        with open(os.path.join(common.TOP, "examples", "rising.skyc"), "rb") as file:
            whole = file.read()
        with zipfile.ZipFile(io.BytesIO(whole)) as archive:
            texts = {name: archive.read(name) for name in archive.namelist()}
        seen = {}
        for _ in range(45):
            status = self.judged(["a.skyc"], spoilt(chance, whole))
            name = chance.choice(sorted(texts))
            inner = self.judged(["a.skyc"], members({**texts, name: spoilt(chance, texts[name])}))
            for it in (status, inner):
                seen[it] = seen.get(it, 0) + 1
        for options, name, count in (([], "eight_left.csv", 30), (["--smooth"], "relay.csv", 50)):
            with open(os.path.join(common.TOP, "examples", name), "rb") as file:
                whole = file.read()
            for _ in range(count):
                status = self.judged([*options, "a.csv"], spoilt(chance, whole))
                seen[status] = seen.get(status, 0) + 1
        self.assertGreater(min(seen.get(0, 0), seen.get(3, 0)), 10, seen)


if __name__ == "__main__":
    unittest.main()
