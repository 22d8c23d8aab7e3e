"""What Crazyswarm2's users bring and take: trajectories with a list of robots, files of one name in several folders, and a
show as CSV files. The list is from memory of its documents; no file of a laboratory was ever read."""
import contextlib
import csv
import io
import os
import tempfile
import unittest
from unittest import mock

import common
from hemtoghai import program
from hemtoghai.commands import export, importing
from hemtoghai.exchange import foreign

HEAD = "duration," + ",".join("%s^%d" % (axis, k) for axis in ("x", "y", "z", "yaw") for k in range(8)) + "\n"
# A metre along x in two seconds, at constant speed, from where the drone is.
ROW = "2," + ",".join(["0,0.5,0,0,0,0,0,0"] + ["0,0,0,0,0,0,0,0"] * 3) + "\n"
FLEET = """# crazyflies.yaml
fileversion: 3
robots:
  cf231:
    enabled: true
    uri: radio://0/80/2M/E7E7E7E7E7
    initial_position: [1.0, -0.5, 0.75]  # metres
    type: cf21  # see robot_types
  cf5:
    enabled: true
    initial_position:
      - 0.0
      - 2.5
      - 1e-1
    firmware_params:
      commander: {enHighLevel: 1}
  cf6:
    enabled: false
    initial_position: [9, 9, 9]
robot_types:
  cf21:
    initial_position: [7, 7, 7]
"""


class Case(common.Folder, unittest.TestCase):
    def setUp(self):
        folder = tempfile.TemporaryDirectory()
        self.addCleanup(folder.cleanup)
        self.place = folder.name

    def said(self, call, *words):
        """The status of a tool, its output and what it said."""
        out, told, status = io.StringIO(), io.StringIO(), None
        with contextlib.redirect_stdout(out), contextlib.redirect_stderr(told):
            try:
                status = call([*words])
            except SystemExit as ended:
                status = ended.code
        return status, out.getvalue(), told.getvalue()


class Fleet(Case):
    def places(self, text):
        self.write("crazyflies.yaml", text)
        return foreign.read_starts(self.path("crazyflies.yaml"))

    def test_places(self):
        # In micrometres; robots that aren't enabled are left out, and types are no robots.
        wanted = {"cf231": [1000000, -500000, 750000], "cf5": [0, 2500000, 100000]}
        self.assertEqual(self.places(FLEET), wanted)
        # As older versions have it, below two more words; with other blanks, and carriage returns.
        deeper = "/crazyflie_server:\n  ros__parameters:\n" + "".join("    %s\n" % line for line in FLEET.splitlines())
        self.assertEqual(self.places(deeper), wanted)
        self.assertEqual(self.places(FLEET.replace("  ", "    ").replace("\n", "\r\n")), wanted)

    def test_refused(self):
        for text, words in ((FLEET.replace("[1.0, -0.5, 0.75]", "[1.0, -0.5]"), "line 7: initial_position of cf231"),
                            (FLEET.replace("-0.5", "left"), "line 7: 'left' is no number"),
                            (FLEET.replace("  cf5", "\tcf5"), "a tab"), ("robots:\n", "no robot has an initial_position"),
                            ("", "no robot"), ("robots:\n  a:\n    initial_position: 5\n", "line 3: initial_position of a"),
                            (FLEET.replace("      - 1e-1\n", ""), "line 11: initial_position of cf5"),
                            ("- " * 5000 + "robots:", "no robot"), ("robots: {cf1: {initial_position: [0, 0, 0]}}", "no robot")):
            with self.assertRaises(foreign.Unreadable) as refused:
                self.places(text)
            self.assertIn(words, str(refused.exception), text[:80])

    def test_import(self):
        for name in ("cf231", "cf5"):
            self.write(name + ".csv", HEAD + ROW)
        self.write("crazyflies.yaml", FLEET)
        files = [self.path(name + ".csv") for name in ("cf231", "cf5")]
        status, out, _ = self.said(importing.main, "--starts", self.path("crazyflies.yaml"), *files)
        self.assertEqual((status, [line for line in out.splitlines() if line.startswith("drone")]), (
            0, ["drone cf231 1m -0.5m 0.75m 0", "drone cf5 0 2.5m 0.1m 0"]))
        # A file of which the list has no robot, or one that isn't enabled.
        self.write("cf6.csv", HEAD + ROW)
        status, out, told = self.said(importing.main, "--starts", self.path("crazyflies.yaml"), self.path("cf6.csv"))
        self.assertEqual((status, out), (3, ""))
        self.assertIn("the file of --starts has no place for cf6", told)


class Names(Case):
    def test_folders(self):
        for folder in ("left", "right"):
            self.write(folder + "/traj.csv", HEAD + ROW)
        self.write("right/other.csv", HEAD + ROW)
        files = [self.path(name) for name in ("left/traj.csv", "right/traj.csv", "right/other.csv")]
        self.assertEqual(foreign.stems_of(files), ["left", "right", "other"])
        self.assertEqual([path.name for path in foreign.read_csv(files, False)], ["left", "right", "other"])
        # One file twice has the same folder: then it is refused as before.
        with self.assertRaises(foreign.Unreadable) as refused:
            foreign.read_csv([files[0], files[0]], False)
        self.assertIn("two drones have the name 'traj': name the files or their folders otherwise", str(refused.exception))

    def test_on_the_floor(self):
        self.write("traj.csv", HEAD + ROW)
        status, out, told = self.said(importing.main, self.path("traj.csv"))
        self.assertEqual(status, 0)
        self.assertIn("traj begins at z 0, on the floor: polynomials may count from where the drone hovers", told)
        self.assertIn("crazyflies.yaml", told)
        self.write("crazyflies.yaml", "robots:\n  traj:\n    initial_position: [1, 0, 0]\n")
        told = self.said(importing.main, "--starts", self.path("crazyflies.yaml"), self.path("traj.csv"))[2]
        self.assertIn("give their heights", told)
        self.write("crazyflies.yaml", "robots:\n  traj:\n    initial_position: [1, 0, 0.5]\n")
        told = self.said(importing.main, "--starts", self.path("crazyflies.yaml"), self.path("traj.csv"))[2]
        self.assertNotIn("floor", told)

    def test_starts_before_faults(self):
        # Two files that count from each drone's start, in which no cues are found: that the starts are missing is said all
        # the same, and first.
        for name in ("a", "b"):
            self.write(name + ".csv", HEAD + ROW)
        status, out, told = self.said(importing.main, "--comparisons", "1", self.path("a.csv"), self.path("b.csv"))
        self.assertEqual((status, out), (3, ""))
        self.assertRegex(told, r"(?s)^all 2 drones begin in one place: .*--starts FILE adds it.*no cues were found")


class Export(Case):
    SHOW = os.path.join(common.TOP, "examples", "crossing_cured.choreo")

    @common.wants_program
    def test_show(self):
        # A show and its plan make the same files.
        self.write("plan", program.ask(["compile"], common.example("crossing_cured")[0])[1])
        made = []
        for source in (self.SHOW, self.path("plan")):
            folder = self.path("out%d" % len(made))
            status, out, _ = self.said(export.main, "csv", source, folder)
            self.assertEqual((status, out.count("3 segments, 7.000 s")), (0, 2))
            made.append({})
            for name in sorted(os.listdir(folder)):
                with open(os.path.join(folder, name)) as file:
                    made[-1][name] = file.read()
        self.assertEqual(made[0], made[1])
        # b rises by 0.8 m in two seconds, crosses in three, and comes down in two.
        rows = list(csv.DictReader(io.StringIO(made[0]["b.csv"])))
        self.assertEqual([(row["Duration"], row["x^0"], row["z^0"]) for row in rows], [("2", "1", "1"), ("3", "1", "1.8"), ("2", "0", "1.8")])

    @common.wants_program
    def test_refused(self):
        status, out, told = self.said(export.main, "csv", os.path.join(common.TOP, "examples", "crossing.choreo"), self.path("out"))
        self.assertEqual((status, out, os.path.exists(self.path("out"))), (5, "", False))
        self.assertIn("error 5 pair a b cue 1", told)

    def test_no_program(self):
        with mock.patch.object(program, "PROGRAM", self.path("none")):
            status, out, told = self.said(export.main, "csv", self.SHOW, self.path("out"))
        self.assertEqual((status, out, os.path.exists(self.path("out"))), (70, "", False))
        self.assertIn("the show can't be compiled: the program isn't built", told)


if __name__ == "__main__":
    unittest.main()
