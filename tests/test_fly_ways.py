"""./show fly where drones leave the ways up and down, or an estimate leaps there, and while the crew is asked; and where
one isn't heard for a moment when a landing is chosen."""
import re
import unittest

import common
import flights
from hemtoghai.flying.landings import Column, Mover
from test_fly import b, ctrl_c, fly
from test_fly_hard import ASIDE, pressed, STACK, strays, UNDER, WIDE, with_pads

PATIENT = ["--patience", "2"]  # until it is judged what a drone may not hear of


def unheard_and_pressed():
    """A flight in which b isn't heard from 2 s after the start on, and Ctrl-C is pressed 0.7 s later."""
    return pressed(b("gap:2") + PATIENT, ("started", "INT"), show=UNDER, after=2.7)


STRAYS = WIDE.replace("choreo 1\n", "choreo 1\nstray 60\nlate 60\n")
FLIGHTS = {
    "leaves going up": (fly, b("leaves:1"), STRAYS), "leaps going up": (fly, b("leaps:2"), STRAYS),
    # nobody answers `Start?`, and b leaves its place meanwhile
    "leaves waiting": (fly, b("leaves:13"), STRAYS, "yes\nyes\n", [(1000, "type:no", "Start?")]),
    "leaves coming down": (fly, b("wanders:4.5"), STRAYS),
    "leaps coming down": (fly, b("misled:6"), STRAYS),
}
# The same show with a third one, far away. b is heard of nobody from 2.4 s on; from 4 s on it flies through below a, which
# takes 4.25 s to the floor. If b hears, both land 1.5 m apart; if it doesn't, a sinks into its way.
THREE = UNDER.replace("drone a", "drone c 4000000 0 800000 0\ndrone a")
FLIGHTS.update({
    "unheard, empty": (fly, b("gap:2.4") + ["--fault", "c:drains:1.2", *PATIENT], THREE),
    "unheard, falls": (fly, b("gap:2.4") + ["--fault", "c:falls:3", *PATIENT], THREE),
    "unheard, Ctrl-C": (unheard_and_pressed,),
    "heard, empty": (fly, ["--fault", "c:drains:1.2"], THREE),
})
# Two above each other, who have to come down by a way, and a third one aside.
ABOVE, PADS = STACK.replace("cue", "drone c 4000000 0 1000000 0\ncue"), ASIDE + "c 4000000 0 0\n"
FLIGHTS.update({
    "flees": (with_pads, ["--fault", "c:flees:7"], PADS, ABOVE),
    "misled above": (with_pads, b("misled:7"), PADS, ABOVE),
    "Ctrl-C on the way home": (with_pads, [], PADS, ABOVE, "yes\nyes\nno\n", ctrl_c("all come down")),
    "two on the way home": (with_pads, [], PADS, ABOVE, "yes\nyes\nno\n", ctrl_c("all come down", "Ctrl-C, once more")),
})
FLIGHTS["doubts"] = (fly, b("doubts:2"), STRAYS)
FLIGHTS["doubts in the show"] = (fly, b("doubts:16"), STRAYS.replace("cue 3000", "cue 9000"))
FLIGHTS["strangers"] = (fly, ["--sim", "strangers=2", "--strangers"], strays())
FLIGHTS["strangers, unicast"] = (fly, ["--sim", "strangers=1", "--strangers", "--unicast", "--late", "500"], strays())
FLIGHTS["lower"] = (fly, b("lower:1"), strays())
RUNS = flights.Flights(3, FLIGHTS)
begun, forget, setUpModule = RUNS.begun, RUNS.forget, RUNS.set_up


@common.wants_program
class OffTheWay(unittest.TestCase):
    def landed(self, name, *lines, without=("flown:",)):
        """The output of a flight that lands early, with all drones but b on the floor."""
        status, out, *_ = begun(name).result()
        self.assertEqual(status, 1, out)
        for line in lines:
            self.assertRegex(out, line, name)
        for line in (*without, "Traceback", "doesn't take the go", "its place"):
            self.assertNotIn(line, out, name)
        self.assertRegex(out, r"simulated: a at \([0-9., -]+, 0.0[0-9]\) m, disarmed", out)
        return out

    def test_going_up(self):
        # At 0.5 m a second it is off by 90 mm, the stray and 30, after 0.2 s, and a fault 0.3 s later.
        # Outside of the room it is a fault at once, which is 200 mm farther: whichever sample comes first.
        found = r"FAULT: b is (?:at \((3\.\d+), .*, outside of the room of show and ways|(\d+) mm from its way); landing all\n"
        out = self.landed("leaves going up", found + "landed\n", without=["started"])
        at, far = re.search(found, out).groups()
        self.assertLess(1000 * float(at) - 3000 if at else float(far), 600, out)
        # the leap looks like speed at first, with which no landing is judged: it isn't waited for the end of the stage
        self.landed("leaps going up", r"FAULT: b is (at .*, outside of the room of show and ways|\d+ mm from its way)(; .*)?; landing all\n"
                    "landed\n", without=["started"])

    def test_while_the_crew_is_asked(self):
        # the director finds it by samples, 0.3 s after the first that is off; the room is looked at at once
        self.landed("leaves waiting", r"Start\? Type yes: \n?FAULT: b is (at .*, outside of the room of show and ways|\d+ mm from "
                    r"its way); landing all\nlanded\n", without=["started"])

    def test_coming_down(self):
        self.landed("leaves coming down", "flown: 3.0 s", r"FAULT: b is (at \(3\.\d+, .*, outside of the room of show and ways|"
                    r"\d+ mm from its way); landing all\n", without=())
        self.landed("leaps coming down", r"FAULT: b is at \(3.\d+, 2[45].\d+, \d.\d+\) m, outside of the room of show and ways; "
                    "landing all\n", without=())


@common.wants_program
class Unheard(unittest.TestCase):
    def said(self, name, *lines, without=()):
        status, out, *_ = begun(name).result()
        self.assertEqual(status, 1, out)
        for line in lines:
            self.assertRegex(out, line, name)
        for line in (*without, "Traceback"):
            self.assertNotIn(line, out, name)

    def test_fault(self):
        on = r"; flying on( to [0-9.]+ s)?: a landing of all now isn't shown apart \((a and b|b and a)\)\n"
        self.said("unheard, empty", "FAULT: c has 3.00 V left" + on)
        self.said("unheard, falls", "FAULT: c has tumbled" + on)
        # the same fault, and b is heard: all land at once
        self.said("heard, empty", "FAULT: c has 3.00 V left; landing all\nlanded\n", without=["flying on"])

    def test_ctrl_c(self):
        # the crew is obeyed, and told so
        self.said("unheard, Ctrl-C", "Ctrl-C: landing all; once more stops the motors\nTHIS LANDING ISN'T SHOWN APART: (a and b|b and a)\n")


@common.wants_program
class FarAway(unittest.TestCase):
    def ended(self, name, status, *lines, without=()):
        came, out, rows = begun(name).result()
        self.assertEqual(came, status, out)
        for line in lines:
            self.assertRegex(out, line, name)
        for line in (*without, "Traceback", "NEITHER"):
            self.assertNotIn(line, out, name)
        return out, rows

    def test_nobody_waits_for_it(self):
        # c flies away at 3 m/s from 7 s on, and is found by the first sample outside of the room: the others don't fly as
        # long as it would, 2 s a metre
        out, rows = self.ended("flees", 1, r"FAULT: c is at \(4\.[0-4]\d, .*, outside of the room of show and ways; .*\n"
                               "(.*\n)*landed\n")
        for name in "ab":
            low = [float(row.split(",")[0]) for row in rows.split("\n")[1:] if "," in row and row.split(",")[1] == name
                   and float(row.split(",")[0]) > 6 and float(row.split(",")[4]) < 0.1]
            self.assertTrue(low and min(low) < 25, (name, low[:1], out))

    def test_it_may_be_where_it_was(self):
        # b believes to be 25 m away, and hovers above a in truth: a doesn't wait for it, and b doesn't land on it
        out, _ = self.ended("misled above", 1, "b outside of the room of show and ways: nobody waits for it; it may be where it was: b",
                            without=["FAULT: b is [^;]*; landing all"])
        self.assertGreater(float(re.search("nearest two of which one flew: [abc] and [abc], ([0-9.]+) m", out).group(1)), 0.5, out)

    def test_ctrl_c_on_the_way_home(self):
        self.ended("Ctrl-C on the way home", 1, r"all come down .*\n(.*\n)*Ctrl-C, once more stops the motors; a landing of all now isn't shown "
                   r"apart \((a and b|b and a)\); landing now: c\n(.*\n)*landed\n", without=["MOTORS", "the landing goes on"])
        self.ended("two on the way home", 60, "landing now: c\n(.*\n)*MOTORS STOPPED: emergency stop sent to all")


@common.wants_program
class Unsure(unittest.TestCase):
    def test_positioning_is_lost(self):
        # the estimate stays where it should be, and its variance grows by 0.02 m^2 a second, to 0.004 in 0.2 s
        said = "FAULT: b isn't sure of its place any more: variance ([0-9.]+) m\\^2; landing all\nlanded\n"
        for name in ("doubts", "doubts in the show"):
            status, out, rows = begun(name).result()
            self.assertEqual(status, 1, out)
            self.assertRegex(out, said)
            self.assertLess(float(re.search(said, out).group(1)), 0.03, out)
            heads, *cells = [row.split(",") for row in rows.split() if "," in row]
            self.assertEqual(heads[-1], "variance")
            self.assertEqual({row[1] for row in cells if float(row[-1]) > 0.004}, {"b"})
        self.assertIn("not sure of their places: b at ", flights.judged(rows, FLIGHTS["doubts in the show"][2])[1])


@common.wants_program
class Strangers(unittest.TestCase):
    def test_they_stay(self):
        # Both hold a trajectory of this very show, and were in each group before: no start reaches them.
        for name, count in (("strangers", 2), ("strangers, unicast", 1)):
            status, out, *_ = begun(name).result()
            self.assertEqual(status, 0, out)
            for k in range(count):
                self.assertRegex(out, r"simulated: stranger %d at \(%d.\d+, -0.50, 0.00\) m, armed, 0 starts\n" % (k + 1, k))
            self.assertEqual(len(re.findall("simulated: [ab] at .*, 1 start", out)), 2, out)


@common.wants_program
class Below(unittest.TestCase):
    def test_it_is_told_to_land(self):
        # b says in the air that it is on the floor, and on the floor that it is below it: it lands, and isn't down
        status, out, *_ = begun("lower").result()
        self.assertEqual(status, 1, out)
        self.assertRegex(out, "FAULT: b is [0-9]+ mm from its curve; landing all\n(.*\n)*NOT SEEN TO BE DOWN: b")
        self.assertRegex(out, r"end: b: NOT KNOWN: it believes to be below its floor, at \(1.50, 0.00, -1.00\) m: IT MAY BE IN THE AIR\n")
        self.assertRegex(out, r"simulated: b at \(1.50, 0.00, 0.00\) m, armed, 1 start")


class Lines(unittest.TestCase):
    def test_distances_from_moves(self):
        # half way after half of the time, by hand; before the begin and after the end it is where it begins and ends
        mover = Mover(0, ((0, 0, 0), (1000, 0, 0), 2000))
        for place, low, high, far in (((500, 30, 0), 1000, 1000, 30), ((600, 0, 0), 1000, 1000, 100), ((600, 0, 40), 0, 2000, 40),
                                      ((-30, 0, 40), -500, 2000, 50), ((1300, 0, 0), 900, 9000, 300), ((1000, 0, 0), -900, 0, 1000)):
            self.assertAlmostEqual(mover.distance(place, low, high), far, 6)

    def test_distances_of_columns(self):
        point, along, across = Column((0, 0, 5), (0, 0, 9), 100), Column((1000, -500), (1000, 500)), Column((0, 100), (2000, 100), 50)
        self.assertEqual((point.apart(along), along.apart(across), across.apart(point)), (900, 0, -50))
        self.assertEqual(Column((0, 300), (0, 900)).apart(Column((400, 0), (400, 0))), 500)


if __name__ == "__main__":
    unittest.main()
