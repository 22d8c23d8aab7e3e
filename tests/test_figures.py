"""python/hemtoghai/writing/figures.py and language/lines.py: new texts are in `choreo 2`, and the same show in `choreo 1`
where somebody wants that."""
from __future__ import annotations

import contextlib
import io
import math
import os
import unittest
from unittest import mock

import common  # by which the package is found
from hemtoghai import companion
from hemtoghai.commands import figures
from hemtoghai.language import choreo
from hemtoghai.language.converting import converted
from hemtoghai.language.lines import header, line_in, NEWEST
from hemtoghai.writing.figures import ring, Show, turn, wave


def show_in(**form: int) -> bytes:
    """A show with each line that a Show writes."""
    show = Show("two\nlines", ellipsoid=(120, 1000), memory=(2, 64), trajectory=3, stray=10, late=20, **form)
    for name, place in zip("ab", ring(2, 1.23456789)):
        show.drone(name, place, yaw=-12.34)
    show.hold(0.5)
    show.fly(6, {"a": turn(show.at("a"), (0, 0), 100, rise=0.1), "b": wave(show.at("b"), 0.3)}, cuts=7, yaws={"a": 90})
    return show.text().encode()


class Forms(unittest.TestCase):
    def test_both(self):
        second, first = show_in(), show_in(form=1)
        self.assertEqual((choreo.form_of(first), choreo.form_of(second), show_in(form=2)), (1, 2, second))
        self.assertEqual((converted(first, 2), converted(second, 1)), (second, first))
        self.assertEqual(second.split(b"\n")[:11], [
            b"# two", b"# lines", b"choreo 2", b"ellipsoid 120mm 1000mm", b"memory 2 64", b"trajectory 3",
            b"stray 10mm", b"late 20ms", b"drone a 1.234568m 0 1m -12.3deg", b"drone b -1.234568m 0 1m -12.3deg",
            b"cue 500ms"])

    def test_lines(self):
        self.assertEqual((NEWEST, header(1)), (2, "choreo 1"))
        for form, wanted in ((1, ["cue 3000", "a swing ccw -500000 0 900", "perform f x 3 0 1500000 -1 a b", "end"]),
                             (2, ["cue 3s", "a swing ccw -0.5m 0 90deg", "perform f x 3 0 1.5m -0.000001m a b", "end"])):
            self.assertEqual([line_in(form, "cue", 3000), line_in(form, "act", "a", "swing", "ccw", -500000, 0, 900),
                              line_in(form, "perform", "f", "x", 3, 0, 1500000, -1, "a", "b"), line_in(form, "end")],
                             wanted)


class Command(unittest.TestCase):
    """./show figures: places by hand, and circles by their equation."""

    def setUp(self):
        patch = mock.patch.object(companion, "ask_check", lambda text, deep: (0, "ok"))
        self.told = io.StringIO()
        patch.start()
        self.addCleanup(patch.stop)

    def made(self, *words, text=b"", status=0):
        """What the drones of a show fly that is written for these words."""
        out = io.TextIOWrapper(io.BytesIO())
        with contextlib.redirect_stdout(out), contextlib.redirect_stderr(self.told), mock.patch.object(
                figures, "flown_of", lambda path: (text, choreo.flown_of(text))):
            self.assertEqual(figures.main([*words]), status)
        return out.buffer.getvalue(), choreo.flown_of(out.buffer.getvalue())

    SHOW = b"choreo 1\ndrone a 1000000 0 1000000 450\ndrone b 0 2000000 500000 0\ncue 1000\nend"

    def places(self, flown, name):
        """Where a drone is at 16 instants of each cue, in millimetres."""
        k = flown.names.index(name)
        return [companion.place(flown, k, cue, u / 16) for cue in range(len(flown.cues)) for u in range(17)]

    def test_begins(self):
        _, flown = self.made("ring", "--radius", "2m", "--height", "50cm", "4")
        self.assertEqual(flown.starts, [[2000000, 0, 500000, 0], [0, 2000000, 500000, 0], [-2000000, 0, 500000, 0],
                                        [0, -2000000, 500000, 0]])
        # Neighbours of a ring without --radius are some 60 cm apart, along the circle.
        _, flown = self.made("ring", "10")
        self.assertAlmostEqual(math.hypot(*flown.starts[0][:2]), 10 * 600000 / 6.28, delta=1)
        _, flown = self.made("rows", "--columns", "2", "--spacing", "1m", "3")
        self.assertEqual([row[:3] for row in flown.starts], [[-500000, -500000, 1000000], [500000, -500000, 1000000],
                                                             [-500000, 500000, 1000000]])

    def test_turns(self):
        text, flown = self.made("turn", "--by", "180deg", "--around", "0", "1m", "-", text=self.SHOW)
        self.assertTrue(text.startswith(self.SHOW + b"\ncue "))
        # (1, 0) around (0, 1) by half a circle is (-1, 2), (0, 2) is (0, 0); heights and yaws stay.
        self.assertEqual([flown.places[k][-1] for k in (0, 1)], [[-1000000, 2000000, 1000000, 450], [0, 0, 500000, 0]])
        for name, radius in (("a", math.hypot(1000, 1000)), ("b", 1000)):
            for x, y, _ in self.places(flown, name):
                self.assertAlmostEqual(math.hypot(x, y - 1000), radius, delta=2)

    def test_helix(self):
        _, flown = self.made("turn", "--by", "-360deg", "--rise", "-50cm", "--time", "9.5s", "-", text=self.SHOW)
        self.assertEqual([flown.places[k][-1] for k in (0, 1)], [[1000000, 0, 500000, 450], [0, 2000000, 0, 0]])
        self.assertEqual(flown.milliseconds, 10500)
        # Clockwise from (1, 0): a quarter of the way round is at (0, -1), a quarter of the way down.
        x, y, z = min(self.places(flown, "a"), key=lambda at: at[1])
        self.assertTrue(abs(x) < 40 and abs(y + 1000) < 2 and abs(z - 875) < 10, (x, y, z))

    def test_some_and_second_form(self):
        text = self.SHOW.replace(b"choreo 1", b"choreo 2").replace(b"000000", b"m").replace(b"500000", b"50cm").replace(
            b"450", b"45deg").replace(b"cue 1000", b"cue 1s")
        _, flown = self.made("turn", "--by", "90deg", "-", "b", text=text)
        self.assertEqual([flown.places[k][-1] for k in (0, 1)], [[1000000, 0, 1000000, 450], [-2000000, 0, 500000, 0]])
        self.assertEqual({cue.number for cue in flown.cues if "a" in cue.acts}, set())
        # A quarter of a circle of 2 m is pi m long, and `move` is at most 2.1875 times as fast as its mean: 8.59 s at 0.8 m/s.
        self.assertIn("figures turn: 1 drone, by 90 degrees around (0, 0) m in 9 s", self.told.getvalue())

    def test_wave(self):
        _, flown = self.made("wave", "--by", "20cm", "--cycles", "1", "-", text=self.SHOW)
        heights = [z for _, _, z in self.places(flown, "a")]
        self.assertEqual([flown.places[k][-1] for k in (0, 1)], [row[:] for row in flown.starts])
        self.assertTrue(790 < min(heights) < 850 and 1150 < max(heights) < 1210, (min(heights), max(heights)))

    def test_rest_and_speed(self):
        # All begin and end at rest, and without --time no drone is faster than 0.8 m/s: the circle has 4 pi m.
        _, flown = self.made("turn", "-", text=self.SHOW)
        for k in (0, 1):
            first, last = flown.by_cue[k][1][1], flown.by_cue[k][-1][1]
            self.assertTrue(all(abs(row[1] - row[0]) <= 1 for row in first[:3] if len(row) > 1))
            self.assertTrue(all(abs(row[-1] - row[-2]) <= 1 for row in last[:3] if len(row) > 1))
        self.assertTrue(4000 * math.pi * 2.1875 / 0.8 <= flown.milliseconds - 1000 < 4000 * math.pi * 2.1875 / 0.8 + 600)

    def test_wrong_words(self):
        for words, line in ((["ring", "0"], "1 to 32 drones"), (["ring", "33"], "1 to 32 drones"),
                            (["ring", "--radius", "50", "4"], "50 is no length here"), (["turn", "--by", "90", "-"], "deg right"),
                            (["turn", "--by", "1m", "-"], "1m is no angle here"), (["spin"], "invalid choice"),
                            (["turn", "-", "zeta"], "no drone of the show: zeta; it has a, b")):
            with self.assertRaises(SystemExit) as ended:
                self.made(*words, text=self.SHOW)
            self.assertEqual(ended.exception.code, 2, words)
            self.assertIn(line, self.told.getvalue())

    def test_picture(self):
        # docs/helix.svg is what the commands beside it in docs/LANGUAGE.md make, with a place every 100 ms.
        from hemtoghai.commands import picture
        text, _ = self.made("ring", "--radius", "80cm", "6")
        text, _ = self.made("turn", "--rise", "1m", "-", text=text)
        out, source = io.StringIO(), mock.Mock(buffer=io.BytesIO(text))
        with contextlib.redirect_stdout(out), mock.patch("sys.stdin", source):
            self.assertEqual(picture.main(["--step", "100", "--svg", "-"]), 0)
        with open(os.path.join(common.TOP, "docs", "helix.svg"), encoding="utf-8") as file:
            self.assertEqual(out.getvalue(), file.read())

    @common.wants_program
    def test_checked(self):
        # What it writes is judged by the program: a ring of six that turns is accepted, one of 32 within 50 cm isn't.
        mock.patch.stopall()
        for radius, status in (("1m", 0), ("10cm", 5)):
            text, _ = self.made("ring", "--radius", radius, "6", status=status)
            if status == 0:
                self.made("turn", "--rise", "50cm", "-", text=text)


if __name__ == "__main__":
    unittest.main()
