"""Dragging a drone in the middle of a cue, in the page of ./show studio: the figure that goes through that place is
offered as a ghost, and written once it is taken. Curves are computed here by Bernstein's formula."""
import os
import re
import sys
import unittest

sys.dont_write_bytecode = True
sys.path.insert(0, os.path.dirname(os.path.abspath(__file__)))
from test_studio_flight import Drag, PLACED
from test_studio_page import CONTROL

ALONE = "choreo 2\ndrone a 0 0 1m 0\ndrone b 3m 0 1m 0\ncue 4s  # over\na move 0 2m 1m 90deg  # alone\nend\ncue 1s\nend\n"


def at(start, points, u):
    """Where a cubic curve is."""
    weights = [(1 - u) ** 3, 3 * u * (1 - u) ** 2, 3 * u * u * (1 - u), u ** 3]
    return [sum(w * p[axis] for w, p in zip(weights, [start, *points])) for axis in range(3)]


def points_of(line):
    """The three points of a line with `curve`, in metres."""
    numbers = [float(word.rstrip("m")) for word in re.search(r"curve (.*)", line)[1].split()[:9]]
    return [numbers[k:k + 3] for k in (0, 3, 6)]


class Through(Drag):
    """Without the tests of the class that it is made from."""

    def offered(self):
        """Waits for an offer, and says its words."""
        self.wait(lambda: "The ghost is" in self.words("told"), "nothing is offered")
        return self.words("told")

    def press_told(self, words):
        """Presses a button beside the words."""
        self.browser.run("[...document.querySelectorAll('#told button')].find(it => it.textContent === arguments[0]).click()", words)

    def test_curve(self):
        """Where others fly in the cue, too, it is one curve of three points through the place: first a ghost, and the
        text stays until it is taken. One undo takes it back."""
        self.begin(PLACED, 2000)
        before = self.browser.run("return turn")
        self.carry(0, 0.5, 0)
        said = self.offered()
        self.assertIn("a through 0.5, 0.52, 1 m, by a curve, which begins and ends at speed", said)
        self.assertIn("a preview, not judged", said)
        self.assertEqual((self.text(), self.browser.run("return turn")), (PLACED, before))
        ghost = self.browser.run("return [[...preview.changed], placeAt(0, 2000, preview.flight).slice(0, 3)]")
        self.assertEqual(ghost[0], [0])
        for found, wanted in zip(ghost[1], (500, 520, 1000)):
            self.assertAlmostEqual(found, wanted, delta=2)
        self.press_told("Take it")
        line = next(row for row in self.text().split("\n") if row.startswith("a curve"))
        self.assertEqual(self.text(), PLACED.replace("a move 0 1.04m 1m 0  #", line.split("  #")[0] + "  #"))
        points = points_of(line)
        self.assertEqual(points[2], [0, 1.04, 1])
        for found, wanted in zip(at([0, 0, 1], points, 0.5), (0.5, 0.52, 1)):
            self.assertAlmostEqual(found, wanted, delta=0.002)
        self.browser.keys("z", CONTROL)
        self.assertEqual(self.text(), PLACED)
        self.assertEqual(self.browser.faults(), [])

    def test_two_cues(self):
        """Where it flies alone the cue becomes two whose curves join there: at rest at both ends, at one speed at the
        joint, and a drone can fly it."""
        self.begin(ALONE, 1000)
        self.carry(0, 0.4, 0)
        self.assertIn("two curves that join there", self.offered())
        self.press_told("Take it")
        text = self.text()
        rows = text.split("\n")
        self.assertEqual([row for row in rows if row.startswith("cue")], ["cue 1s  # over", "cue 3s", "cue 1s"])
        curves = [row for row in rows if "curve" in row]
        self.assertTrue(curves[0].endswith("90deg  # alone") and curves[1].endswith("90deg"), curves)
        first, second = map(points_of, curves)
        # A `move` has 35 u^4 - 84 u^5 + 70 u^6 - 20 u^7 of its way: 2 m times 0.0706 after a quarter.
        place = [0.4, round(2 * (35 / 4 ** 4 - 84 / 4 ** 5 + 70 / 4 ** 6 - 20 / 4 ** 7), 3), 1]
        for found, wanted in zip(first[2], place):
            self.assertAlmostEqual(found, wanted, delta=0.002)
        self.assertEqual((first[0], second[1], second[2]), ([0, 0, 1], [0, 2, 1], [0, 2, 1]))
        for axis in range(3):
            speeds = [3 * (first[2][axis] - first[1][axis]) / 1, 3 * (second[0][axis] - first[2][axis]) / 3]
            self.assertAlmostEqual(speeds[0], speeds[1], delta=0.01)
        self.says("3 cues")
        self.wait(lambda: self.browser.run("return Boolean(found.notes)"), "no notes")
        self.assertEqual(self.browser.run("return [found.notes.faults, found.verdict.status]"), [[], 0])
        for found, wanted in zip(self.browser.run("return placeAt(0, 1000)"), place):
            self.assertAlmostEqual(found / 1000, wanted, delta=0.003)

    def test_left(self):
        """An offer that is left, and one whose text is changed, is gone, and nothing is written."""
        self.begin(ALONE, 1000)
        self.carry(0, 0.4, 0)
        self.offered()
        self.press_told("Leave it")
        self.assertEqual((self.text(), self.browser.run("return preview"), self.words("told")), (ALONE, None, ""))
        self.carry(0, 0.4, 0)
        self.offered()
        self.put_cursor("# over")
        self.browser.type("x")
        self.assertEqual(self.browser.run("return preview"), None)
        self.assertEqual((self.text(), self.words("told")), (ALONE.replace("# over", "# overx"), ""))

    def test_hold(self):
        """A drone that has no line in the cue flies there and back by a line of its own."""
        self.begin(PLACED, 2000)
        self.carry(2, 0.3, 0.5)
        self.offered()
        self.press_told("Take it")
        line = next(row for row in self.text().split("\n") if row.startswith("c curve"))
        points = points_of(line)
        self.assertEqual(points[2], [2, 0, 1])
        for found, wanted in zip(at([2, 0, 1], points, 0.5), (2.3, 0.5, 1)):
            self.assertAlmostEqual(found, wanted, delta=0.002)


for name in dir(Drag):
    if name.startswith("test_") and name not in vars(Through):
        setattr(Through, name, None)
del Drag


if __name__ == "__main__":
    unittest.main()
