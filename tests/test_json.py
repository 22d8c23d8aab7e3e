"""--json: the same facts as values. The program answers where it is built, else .ci/stand_in as far as it knows the words."""
import contextlib
import io
import json
import os
import unittest
from unittest import mock

import common
from hemtoghai import __main__, answering, program
from hemtoghai.launching import launcher
from test_module import Case


class Answers(Case):
    def asked(self, *words):
        """The status and the values of an answer; the sources aren't built for it."""
        out, said = io.StringIO(), io.StringIO()
        with mock.patch.object(launcher, "file_for"), contextlib.redirect_stdout(out), contextlib.redirect_stderr(said):
            status = __main__.main([*words[:1], "--json", *words[1:]])
        found = json.loads(out.getvalue())
        self.assertEqual((out.getvalue().count("\n"), said.getvalue() != ""), (1, "error" in found))
        self.assertEqual((found["command"], found["status"]), (words[0], status))
        return found

    def no_answer(self, *words):
        """The status and the words of an answer that is none; standard error has the words too."""
        found = self.asked(*words)
        self.assertEqual((found["ok"], found["proved"]), (False, False))
        return found["status"], found["error"]

    def example(self, name):
        """The path of an example."""
        return os.path.join(common.TOP, "examples", name)

    def test_check(self):
        found = self.asked("check", self.example("crossing_cured.choreo"))
        self.assertEqual([found[word] for word in ("ok", "drones", "cues", "duration_ms", "blocked", "cautions")],
                         [True, 2, 3, 7000, [], []])
        place, = self.asked("check", "--depth", "6", self.example("crossing.choreo"))["blocked"]
        self.assertEqual([place[word] for word in ("first", "second", "cue", "begin_ms", "nearest_ms", "lines")],
                         ["a", "b", 1, 1312.5, 1500.0, [10, 11, 12]])
        self.assertEqual(place["places"], [[500000, 0, 1000000]] * 2)

    def test_why(self):
        place, = self.asked("why", self.example("crossing.choreo"))["blocked"]
        self.assertEqual((place["blocked_where_the_cue"], len(place["helps"])), ([], 3))
        self.assertEqual((place["helps"][0]["takes_ms"], place["helps"][0]["still_blocked"]), (4000, []))
        self.assertIn("fly this cue 700 mm higher", place["helps"][0]["words"])

    def test_room(self):
        # A move along x has 3 + 14 bytes, so with start and ending 28, and 27 are left of 4,096.
        with open(self.path_of("full"), "w") as file:
            file.write("choreo 1\ndrone solo 0 0 0 0\ncue 1\nsolo move 1000 0 0 0\nend\nmemory 2 4069\n")
        self.assertEqual(self.asked("why", self.path_of("full"))["room"],
                         [{"drone": "solo", "bytes": 28, "room": 27, "pieces": 1}])

    def path_of(self, name):
        """The path of a file of the test's folder."""
        return os.path.join(os.path.dirname(self.path), name)

    def test_summary(self):
        found = self.asked("summary", "--margin", self.example("crossing_cured.choreo"))
        pair, = found["pairs"]
        self.assertEqual((pair["first"], pair["second"], pair["cue"], pair["at_ms"], pair["to_the_side"], pair["up"]),
                         ("a", "b", 2, 3500.0, 0, 800000))
        self.assertEqual(found["drones"][1]["box"], [[0, 1000000], [0, 0], [1000000, 1800000]])
        self.assertEqual([(cue["from_ms"], cue["to_ms"], cue["acts"]) for cue in found["cues"]],
                         [(0, 2000, {"b": "move"}), (2000, 5000, {"a": "move", "b": "move"}), (5000, 7000, {"b": "move"})])
        self.assertEqual(found["margin"], {"ellipsoid_percent": 133, "stray": 99, "late": 227})

    def test_dynamics(self):
        found = self.asked("dynamics", self.example("too_fast.choreo"))
        self.assertEqual(found["drones"]["solo"]["acceleration"], [15031153, 0, 0])
        self.assertEqual(self.asked("dynamics", "--accel", "10000", self.example("too_fast.choreo"))["line"],
                         "error 18 drone solo cue 1 accel x 15031153")

    def test_compile(self):
        drone, = self.asked("compile", self.example("solo.choreo"))["drones"]
        # docs/TRAJECTORY.md reads these bytes one by one, and docs/RADIO.md the packets.
        data = "00000000e803000003d007000000000000e803e803e803e803000000"
        self.assertEqual((drone["name"], drone["pieces"], drone["data"]), ("solo", 1, data))
        self.assertEqual([(it["kind"], it["data"]) for it in drone["packets"]], [
            ("write", "4e0200000000" + data[:48]), ("write", "4e0218000000" + data[48:]),
            ("define", "8c060001010000000001"), ("start", "8c05000000000000803f")])
        found = self.asked("compile", self.example("crossing.choreo"))
        self.assertEqual((found["status"], found["ok"], "drones" in found, len(found["blocked"])), (5, False, False, 1))

    @common.wants_program
    def test_certificates(self):
        found = self.asked("certify", self.example("crossing_cured.choreo"))
        self.assertEqual(found["certificate"], "version 2\ncertificate 6\n58\n47\n00\n")
        with open(self.path_of("certificate"), "w") as file:
            file.write(found["certificate"])
        found = self.asked("verify", self.example("crossing_cured.choreo"), self.path_of("certificate"))
        self.assertEqual((found["ok"], found["depth"], found["trees"]), (True, 6, 3))
        found = self.asked("verify", self.example("crossing.choreo"), self.path_of("certificate"))
        self.assertEqual((found["ok"], found["status"], "trees" in found), (False, 12, False))

    @common.wants_program
    def test_explain(self):
        # docs/COMMANDS.md has both answers; `ok` is true of drones that are separated alone, though both end with 0.
        found = self.asked("explain", self.example("crossing.choreo"))
        self.assertEqual([found[word] for word in ("status", "ok", "blocked_part", "closest", "touch", "no_touch_instants")], [
            0, False, {"first": "a", "second": "b", "cue": 1, "part": 28, "parts": 64},
            {"first": "a", "second": "b", "cue": 1, "at": 16, "of": 32, "level": 0},
            {"first": "a", "second": "b", "cue": 1, "at": 15, "of": 32}, None])
        found = self.asked("explain", self.example("crossing_cured.choreo"))
        self.assertEqual((found["ok"], found["blocked_part"], found["closest"]["level"], found["touch"]), (True, None, 1777, None))
        found = self.asked("explain", "--all", self.example("crossing.choreo"))
        self.assertEqual([found[word] for word in ("ok", "blocked_part", "blocked_parts", "more_blocked")], [
            False, {"first": "a", "second": "b", "cue": 1, "part": 28, "parts": 64},
            [{"first": "a", "second": "b", "cue": 1, "part": 28, "parts": 64, "at": 16, "of": 32, "level": 0}], False])
        # Apart while they fly exactly, and not with a stray of 40 mm: 300 mm to the side, of the 320 that they need then.
        with open(self.path_of("near"), "w") as file:
            file.write("choreo 1\nstray 40\ndrone a 0 0 1000000 0\ndrone b 300000 0 1000000 0\ncue 1000\nend\n")
        found = self.asked("explain", self.path_of("near"))
        self.assertEqual((found["ok"], found["touch"], found["no_touch_instants"]), (False, None, 33))

    def test_no_answer(self):
        # A file that isn't there or can't be read, and words that are wrong: one line of JSON all the same.
        missing = self.path_of("missing")
        self.assertEqual(self.no_answer("check", missing), (2, "there is no file " + missing))
        self.assertEqual(self.no_answer("check", common.TOP), (2, common.TOP + " is a directory"))
        self.assertEqual(self.no_answer("check", "--dept", "6", missing), (2, "check has no option --dept; did you mean --depth?"))
        self.assertEqual(self.no_answer("why", missing), (70, missing + ": No such file or directory"))
        self.assertEqual(self.no_answer("summary", common.TOP)[0], 70)
        status, words = self.no_answer("why", "--most", "x", missing)
        self.assertEqual((status, "--most" in words), (2, True))
        with mock.patch.object(program, "PROGRAM", missing), mock.patch.object(answering, "_chosen", answering.Process()):
            self.assertEqual(self.no_answer("check", self.example("solo.choreo")), (
                70, "the program isn't built; ./show check FILE builds it"))

    def test_faulty_shows(self):
        with open(self.path_of("faulty"), "w") as file:
            file.write("choreo 2\ndrone alpha 0 0 1m 0\ncue 2s\nalpa hold\nend\n")
        for command in ("check", "compile", "why", "summary"):
            found = self.asked(command, self.path_of("faulty"))
            self.assertEqual([found[word] for word in ("status", "ok", "line", "fault", "cure")], [
                3, False, "error 3 line 4 unknown-name", 4, "write `alpha`; or declare it: `drone alpa X Y Z YAW`"])

    @common.wants_program
    def test_speed_and_boxes(self):
        self.assertEqual(self.asked("speed", self.example("too_fast.choreo"))["drones"], {"solo": [4375000, 0, 0]})
        found = [self.asked("boxes", self.example(name), self.example("shelf.regions"))["status"]
                 for name in ("shelf.choreo", "shelf_straight.choreo")]
        self.assertEqual(found, [0, 15])


if __name__ == "__main__":
    unittest.main()
