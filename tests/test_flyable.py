"""What ./show adds on an accepted show that no drone flies: lines and cues of shows whose numbers were worked out by hand."""
import os
import unittest

from common import TOP, without_record
from hemtoghai.language import choreo
from hemtoghai.writing import flyable

STAND_IN = without_record()


def warning(*lines):
    """The words on a show of one drone at x 0, y 0 and z 1 m with these lines, the first of which is line 3."""
    return flyable.warning(STAND_IN, "\n".join(["choreo 1", "drone a 0 0 1000000 0", *lines, ""]).encode())


class Warnings(unittest.TestCase):
    def test_what_flies(self):
        self.assertIsNone(warning("cue 2000", "a move 1000000 0 1000000 0", "end"))
        self.assertIsNone(warning("cue 2000", "end"))
        # 0.03 m/s, and no more
        self.assertIsNone(warning("cue 1000", "a line 30000 0 1000000 0", "end"))
        self.assertEqual(warning("cue 1000", "a line 31000 0 1000000 0", "end"),
                         "line 3, cue 1: a jumps by 0.03 m/s on x, more than 0.03" + flyable.AT_SPEED)

    def test_one_limit(self):
        # `check` warns of each jump that `summary` says can't be flown, and of no other.
        from hemtoghai.commands import summary
        from hemtoghai.launching import glance
        self.assertEqual((flyable.MOST["jump"], glance.JUMP, summary.LEAST), (30, 30, 0.03))
        self.assertEqual(flyable.MOST["accel"], glance.ACCEL)
        from hemtoghai.flying import routes
        for limits in (flyable, glance, routes):
            self.assertEqual((limits.GROUND, limits.LIFT), (50, 200))

    def test_jumps(self):
        # half a metre in a second after a hold, and 0.04 m/s at the end of a cubic from rest: 3 times 0.04 / 3 m in a second;
        # a curve whose first point isn't where the drone is begins at speed: 3 times 0.18 m in three seconds
        self.assertEqual(warning("cue 1000", "end", "cue 1000", "a line 0 500000 1000000 0", "end"),
                         "line 5, cue 2: a jumps by 0.50 m/s on y, more than 0.03" + flyable.AT_SPEED)
        self.assertEqual(warning("cue 3000", "a curve 0 0 1000000 0 0 1000000 0 0 1040000 0", "end"),
                         "line 3, the end: a jumps by 0.04 m/s on z, more than 0.03" + flyable.AT_SPEED)
        self.assertEqual(warning("cue 3000", "a curve 0 180000 1000000 0 500000 1000000 0 500000 1000000 0", "end"),
                         "line 3, cue 1: a jumps by 0.18 m/s on y, more than 0.03" + flyable.AT_SPEED)

    def test_accelerations(self):
        # 6 L / T^2 of a cubic from rest to rest: 12 m/s^2 for two metres in a second
        curve = "a curve 0 0 1000000 2000000 0 1000000 2000000 0 1000000 0"
        self.assertEqual(warning("cue 1000", curve, "end"),
                         "line 3, cue 1: a needs up to 12.00 m/s^2 on x, more than 10")

    def test_heights(self):
        # Down to 1 mm below the floor and up again, and just to the floor; one cue of the text, flown twice.
        self.assertEqual(warning("cue 5000", "a move 0 0 0 0", "end", "repeat 2", "cue 5000", "a move 0 0 -1000 0", "end", "end"),
                         "line 7, cue 2: a goes below z 0")
        self.assertIsNone(warning("cue 5000", "a move 0 0 0 0", "end", "cue 5000", "a move 0 0 500000 0", "end"))

    def test_the_floor(self):
        # A way up leads 200 mm above the pad and higher; a way down from 51 mm and higher. Of a show below z 0, or one in
        # which all lies near the origin, that is said alone.
        takes = ": ./show fly takes a show that is at least 200 mm above the pads there"
        rows = ["choreo 1", "drone a 0 0 1000000 0", "drone b 900000 0 199000 0", "cue 5000", "a move 0 0 51000 0", "end", ""]
        self.assertEqual(flyable.warning(STAND_IN, "\n".join(rows).encode()),
                         "line 3, cue 1: b begins 199 mm above z 0" + takes)
        rows[2] = "drone b 900000 0 200000 0"
        self.assertIsNone(flyable.warning(STAND_IN, "\n".join(rows).encode()))
        rows[4] = "a move 0 0 50000 0"
        self.assertEqual(flyable.warning(STAND_IN, "\n".join(rows).encode()),
                         "line 4, the end: a ends 50 mm above z 0" + takes)
        rows[4] = "a move 0 0 -1000 0"
        self.assertEqual(flyable.warning(STAND_IN, "\n".join(rows).encode()), "line 4, cue 1: a goes below z 0")

    def test_a_short_look_at_the_floor(self):
        from hemtoghai.launching import glance
        for height, wanted in ((199499, True), (199500, False), (200000, False)):
            text = "choreo 1\ndrone a 0 0 1000000 0\ndrone b 900000 0 %d 0\ncue 1\nend\n" % height
            self.assertEqual(glance.begin_badly(text.encode()), wanted, height)

    def test_millimetres_for_micrometres(self):
        text = b"choreo 1\ndrone a 0 0 1000 0\ncue 2000\na move 1000 0 1000 0\nend\n"
        self.assertEqual(flyable.warning(STAND_IN, text), "all places lie within 40 mm of the origin: lengths are "
                         "micrometres, so a metre is 1000000")

    def test_above_each_other(self):
        rows = ["choreo 1", "drone a 0 0 1000000 0", "drone b 100000 0 2000000 0", "cue 1000", "end", ""]
        self.assertEqual(flyable.warning(STAND_IN, "\n".join(rows).encode()), "a and b begin 100 mm apart from above: "
                         "./show legs SHOW PADS says from which pads they can go up")
        rows[2] = "drone b 241000 0 2000000 0"
        self.assertIsNone(flyable.warning(STAND_IN, "\n".join(rows).encode()))

    def test_at_the_centre(self):
        # A drone at 0, 0 that swings around 0, 0 stays there; after a quarter circle around 1, 0 it is at 1, -1, and a
        # circle around that place is one of no radius too.
        own = "line %d, cue %d: a is at the centre of its own `%s`, so it stays there and turns alone: CX and CY are the " \
            "centre of the circle"
        self.assertEqual(warning("cue 2000", "a swing ccw 0 0 900", "end"), own % (4, 1, "swing"))
        self.assertIsNone(warning("cue 2000", "a swing ccw 1000000 0 900", "end"))
        twice = ["cue 4000", "a swing ccw 1000000 0 900", "end", "cue 4000", "a swing cw 1000000 -1000000 900", "end"]
        self.assertEqual(warning(*twice), own % (7, 2, "swing"))
        figure = ["figure f p", "cue 2000", "p swing cw 0 0 0", "end", "end"]
        self.assertEqual(warning(*figure, "perform f none 0 0 0 0 a"), own % (5, 1, "swing"))
        self.assertIsNone(warning(*figure, "perform f none 0 1000000 0 0 a"))

    def test_a_short_look(self):
        # ./show reads a show as one only where a short look finds that it may be so; that look misses none of these.
        from hemtoghai.launching import glance
        head = b"choreo 1\ndrone a 0 0 1000000 0\nformation f\nat a 500000 0 1000000 0\nend\n"
        for line, wanted in ((b"a swing ccw 0 0 0", True), (b"a swing ccw 500000 0 0", True), (b"a arc cw 1000000 0 0", False),
                             (b"a swing cw 1 0 0\nend\ncue 1\na swing cw 1 -1 0", True), (b"a move 0 0 0 0", False),
                             (b"a move 7 7 0 0\nend\ncue 1\na swing cw 7 7 0", True), (b"a arc", False), (b"a", False),
                             (b"a curve 0 0 0 0 0 0 7 8 0 0\nend\ncue 1\na swing cw 7 8 0", True)):
            self.assertEqual(glance.may_stay(head + b"cue 1\n" + line + b"\nend\n"), wanted, line)

    def test_several(self):
        text = b"choreo 1\ndrone a 0 0 -1000 0\ncue 1\na line 1000 0 -1000 0\nend\n"
        self.assertEqual(flyable.warning(STAND_IN, text), "line 3, cue 1: a jumps by 1.00 m/s on x, more than 0.03" +
                         flyable.AT_SPEED + "; line 3, cue 1: a goes below z 0; all places lie within 40 mm of the origin: lengths are "
                         "micrometres, so a metre is 1000000")

    def test_no_answer(self):
        # A program that doesn't answer isn't one that finds nothing: who flies has to know it.
        flown = choreo.flown_of(b"choreo 1\ndrone a 0 0 1000000 0\ncue 1000\nend\n")
        for program in ("/bin/false", "/no/such/program"):
            with self.assertRaises(flyable.NoAnswer):
                flyable.motion(program, flown, b"")
            self.assertIsNone(flyable.motion_if_known(program, flown, b""))

    def test_what_is_refused(self):
        self.assertIsNone(flyable.warning(STAND_IN, b"choreo 3\n"))


if __name__ == "__main__":
    unittest.main()
