"""./show fly: what is uploaded goes on with the way down, so that drones come home where the radio is gone."""
import re
import unittest
from types import SimpleNamespace
from unittest import mock

import common
import flights
from hemtoghai.flying import home, homeward
from hemtoghai.flying.stages import GO_TO, LAND, Leg, Rules, Stage
from hemtoghai.language import choreo
from test_fly import b, fly
from test_fly_hard import strays

TWO = strays()  # a and b hover for four seconds, 1.5 m apart
LEAVES = [(200, "type:leave", "land, stop or leave")]  # long after all are home
GONE = ["--sim", "dies=1"]
FLIGHTS = {
    "radio gone": (fly, GONE, TWO, "yes\nyes\nyes\n", LEAVES),
    "radio gone, without": (fly, ["--no-home", *GONE], TWO, "yes\nyes\nyes\n", LEAVES),
    "one silent": (fly, b("silent:1"), TWO, "yes\nyes\nyes\n", LEAVES),
    "good": (fly, [], TWO),
    "landing in the show": (fly, b("drains:1"), TWO),
    "no room": (fly, [], TWO.replace("drone a", "memory 2 4082\ndrone a")),
}
RUNS = flights.Flights(3, FLIGHTS)
begun, forget, setUpModule = RUNS.begun, RUNS.forget, RUNS.set_up


def ends(out):
    """By drone where it is in the end, in truth."""
    return dict(re.findall(r"simulated: ([ab]) at (\(.*\)) m", out))


@common.wants_program
class Home(unittest.TestCase):
    def test_without_radio(self):
        status, out, _ = begun("radio gone").result()
        self.assertEqual(status, 1, out)
        self.assertRegex(out, "without radio all come home by themselves, from 60 s after the show's end on, to 50 mm above their "
                         "pads: [0-9]+ bytes at most\n")
        self.assertEqual(ends(out), {"a": "(0.00, 0.00, 0.05)", "b": "(1.50, 0.00, 0.05)"}, out)
        self.assertIn("keep clear of the pads of drones that come home by themselves, if they fly, from 60 s after the show's end on: "
                      "a, b\n", out)
        _, out, _ = begun("radio gone, without").result()
        self.assertIn("NO WAY HOME WITHOUT RADIO: --no-home\n", out)
        self.assertNotIn("by themselves", out)
        self.assertEqual(ends(out), {"a": "(0.00, 0.00, 1.00)", "b": "(1.50, 0.00, 1.00)"}, out)

    def test_one_that_is_silent(self):
        status, out, _ = begun("one silent").result()
        self.assertEqual(status, 1, out)
        self.assertEqual(ends(out), {"a": "(0.00, 0.00, 0.00)", "b": "(1.50, 0.00, 0.05)"}, out)

    def test_with_radio(self):
        # who hears comes down as without it
        for name, status in (("good", 0), ("landing in the show", 1)):
            came, out, rows = begun(name).result()
            self.assertEqual(came, status, out)
            self.assertIn("without radio all come home", out)
            self.assertIn("\nlanded\n", out)
            self.assertEqual("kept: " in out, status == 0, out)
            self.assertEqual(ends(out), {"a": "(0.00, 0.00, 0.00)", "b": "(1.50, 0.00, 0.00)"}, out)
        self.assertRegex(flights.judged(begun("good").result()[2], TWO)[1], "(?m)^KEPT")

    def test_where_there_is_no_room(self):
        # it is said, and the show alone is uploaded and flown
        status, out, _ = begun("no room").result()
        self.assertEqual(status, 0, out)
        self.assertRegex(out, "NO WAY HOME WITHOUT RADIO: error 4 drone a bytes [0-9]+ room 14\n")


class Beside(unittest.TestCase):
    def test_who_may_move_by_then(self):
        # The show ended at 100 s, and the pause takes a minute: one that isn't heard moves from 160 s on. It is 150 s now.
        for silent, no_home, zero, seconds, is_said in (
                ({1}, None, 90.0, 9.9, False), ({1}, None, 90.0, 10.1, True), (set(), None, 90.0, 10.1, False),
                ({1}, "--no-home", 90.0, 10.1, False), ({1}, None, None, 10.1, False)):
            it, said = SimpleNamespace(silent=silent, zero=zero, ways=SimpleNamespace(no_home=no_home, pause=60000), all=[0, 1],
                                       is_said_homeward=False, ends=lambda: 100.5, words_of=lambda drones: "ab"[min(drones)]), []
            it.goes_home = lambda drones: home.Home.goes_home(it, drones)
            with mock.patch.object(home.clock, "now", lambda: 150.0), mock.patch.object(home, "say", said.append):
                for _ in range(2):  # once, and no more
                    home.Home.say_homeward(it, seconds)
            self.assertEqual(said, ["NOT JUDGED beside drones that may come home by themselves by then: b"] * is_said)


class Texts(unittest.TestCase):
    def test_text(self):
        # in both forms of the language, by hand; a landing ends 50 mm above its pad
        for front, rows in (("choreo 1\ndrone a 0 0 1000000 0\ncue 2000\nend",
                             "cue 60000\nend\ncue 3000\na move 500000 0 1000000 900\nend\ncue 2500\na move 500000 0 50000 900\nend\n"),
                            ("choreo 2\ndrone a 0 0 1m 0\ncue 2s\nend\n\n",
                             "cue 60s\nend\ncue 3s\na move 0.5m 0 1m 90deg\nend\ncue 2.5s\na move 0.5m 0 0.05m 90deg\nend\n")):
            flown = choreo.flown_of(front.encode())
            leg = Leg(["a"], {0: (0, 0, 1000)}, [900], Rules(flown.show.settings))
            leg.stages = [Stage(GO_TO, 3000, {0: (500, 0, 1000)}), Stage(LAND, 2500, {0: (500, 0, 0)})]
            whole = homeward.text_of(flown, front.encode(), leg)
            self.assertEqual(whole.decode(), front.rstrip("\n") + "\n" + rows)
            self.assertEqual(choreo.flown_of(whole).by_cue[0][0], flown.by_cue[0][0])

    def test_pause(self):
        # half a minute, and twice the way down with a second and a half for each stage; a minute at least, in cues of one
        leg = Leg(["a"], {0: (0, 0, 1000)}, [0], Rules(choreo.flown_of(TWO.encode()).show.settings))
        for milliseconds, count, pause in ((6000, 2, 60000), (6000, 3, 75000), (5900, 3, 75000), (12000, 5, 165000)):
            leg.stages = [Stage(GO_TO, milliseconds, {0: (0, 0, 1000)})] * count
            self.assertEqual(homeward.pause_before(leg), pause)
        flown = choreo.flown_of(b"choreo 1\ndrone a 0 0 1000000 0\ncue 2000\nend")
        rows = homeward.text_of(flown, b"", leg).decode().split("\n")
        self.assertEqual(rows[1:7], ["cue 60000", "end", "cue 60000", "end", "cue 45000", "end"])

    def test_alone(self):
        leg = Leg(["a", "b"], {0: (0, 0, 1000), 1: (900, 0, 1000)}, [0, 0], Rules(choreo.flown_of(TWO.encode()).show.settings))
        leg.stages = [Stage(GO_TO, 3000, {1: (900, 900, 1000)}), Stage(LAND, 2500, {0: (0, 0, 0), 1: (900, 900, 0)})]
        one = homeward.alone(leg, 0, {0: (0, 0, 0), 1: (900, 900, 0)})
        self.assertEqual(one.begin, {0: (0, 0, 1000), 1: (900, 900, 0)})
        self.assertEqual([(it.kind, it.to) for it in one.stages], [(LAND, {0: (0, 0, 0)})])


if __name__ == "__main__":
    unittest.main()
