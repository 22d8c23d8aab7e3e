"""The charts of the page of ./show studio in Chromium: places on each axis, speeds and accelerations with their limits,
distances in metres. Values are by formulas of the acts, not by the page."""
import os
import sys
import unittest

sys.dont_write_bytecode = True
sys.path.insert(0, os.path.dirname(os.path.abspath(__file__)))
from test_studio_timeline import Timeline
from hemtoghai.language import choreo
from hemtoghai.seeing.studio_motion import MOST_POINTS, motion_of

# A `move` of L in T has at most 35/16 L / T, halfway, and 84/5/sqrt(5) L / T^2: docs/LANGUAGE.md. A `line` has L / T.
SHOW = "choreo 2\ndrone a 0 0 1m 0\ndrone b 2m 0 1m 0\ncue 4s\na move 0 2m 1m 0\nend\ncue 2s\nb line 2m 1m 1m 0\nend\n"


class Motion(unittest.TestCase):
    def test_values(self) -> None:
        """Speeds and accelerations are those of the formulas, on the axis on which they are greatest."""
        found = motion_of(choreo.flown_of(SHOW.encode()), [0, 1])
        self.assertEqual((found["times"][0], found["times"][-1], found["limit"]), (0, 6000, 10000))
        self.assertAlmostEqual(max(found["speed"][0]), 35 / 16 * 2000 / 4, delta=1)
        self.assertEqual(found["times"][found["speed"][0].index(max(found["speed"][0]))], 2000)
        self.assertAlmostEqual(max(found["force"][0]), 84 / 5 / 5 ** 0.5 * 2000 / 16, delta=2)
        jump = [v for ms, v in zip(found["times"], found["speed"][1]) if ms == 4000]
        self.assertEqual(jump, [0, 500])  # both sides of the jump
        self.assertEqual((max(found["force"][1]), found["speed"][1][-1]), (0, 500))
        for row in (*found["speed"].values(), *found["force"].values()):
            self.assertEqual(len(row), len(found["times"]))

    def test_many(self) -> None:
        """A long show of many drones isn't worked out at more instants than a page takes."""
        drones = "".join("drone d%d %dm 0 1m 0\n" % (k, k) for k in range(30))
        flown = choreo.flown_of(("choreo 2\n" + drones + "cue 60s\nd0 turn 90deg\nend\n" * 100).encode())
        found = motion_of(flown, range(30))
        self.assertLessEqual(30 * len(found["times"]), MOST_POINTS)
        self.assertGreater(30 * len(found["times"]), MOST_POINTS / 3)
        self.assertEqual(sorted(found["times"]), found["times"])


class Charts(Timeline):
    def choose(self, name, words):
        """Takes an option of a list, as a reader does."""
        self.browser.run("const it = document.getElementById(arguments[0]); it.value = arguments[1];"
                         "it.dispatchEvent(new Event('change'))", name, words)

    def curve(self, k=0, name="heights", css="polyline:not(.limit)"):
        """The points of a curve as shares of the frame, from its left and lower edge; by instant the last one."""
        return self.browser.run(
            "const [name, css, k] = arguments, frame = document.querySelector(`#${name} rect[fill=none]`);"
            "const of = key => Number(frame.getAttribute(key)), it = document.querySelectorAll(`#${name} ${css}`)[k];"
            "return it.getAttribute('points').split(' ').map(pair => pair.split(',').map(Number)).map(([x, y]) =>"
            "[(x - of('x')) / of('width'), 1 - (y - of('y')) / of('height')])", name, css, k)

    def scale(self, name="heights"):
        """By the numbers beside a chart: what a share of its height is, as (number at share 0, number a share)."""
        rows = self.browser.run(
            "const frame = document.querySelector(`#${arguments[0]} rect[fill=none]`), of = key => Number(frame.getAttribute(key));"
            "return [...document.querySelectorAll(`#${arguments[0]} > text[text-anchor=end]`)].filter(it => /^-?[0-9.]+$/.test("
            "it.textContent)).map(it => [Number(it.textContent), 1 - (Number(it.getAttribute('y')) - 4 - of('y')) / of('height')])",
            name)
        (a, low), (b, high) = rows[0], rows[-1]
        return a - low * (b - a) / (high - low), (b - a) / (high - low)

    def values(self, k=0, name="heights", css="polyline:not(.limit)"):
        """A curve as [share of the time, number on the axis]."""
        zero, each = self.scale(name)
        return [(x, zero + each * y) for x, y in self.curve(k, name, css)]

    def test_axes(self):
        """x, y and z in metres over time, and z again."""
        self.begin(SHOW)
        for kind, k, begin, end in (("y", 0, 0, 2), ("x", 1, 2, 2), ("y", 1, 0, 1), ("z", 0, 1, 1)):
            self.choose("chart-kind", kind)
            found = self.values(k)
            self.assertAlmostEqual(found[0][1], begin, delta=0.06)
            self.assertAlmostEqual(found[-1][1], end, delta=0.06)
            self.assertIn("%s in m" % kind, self.browser.run("return document.getElementById('heights').textContent"))
        self.assertEqual(self.browser.faults(), [])

    def test_speed(self):
        """The speed of a drone over time: its greatest is where and what the formula says; another text has another."""
        self.begin(SHOW)
        self.choose("chart-kind", "speed")
        curves = "return document.querySelectorAll('#heights polyline').length"
        self.wait(lambda: self.browser.run(curves) == 2, "no speeds")
        at, most = max(self.values(), key=lambda it: it[1])
        self.assertAlmostEqual(most, 35 / 16 * 2 / 4, delta=0.03)
        self.assertAlmostEqual(at, 2 / 6, delta=0.02)
        self.assertAlmostEqual(max(self.values(1), key=lambda it: it[1])[1], 0.5, delta=0.03)
        self.browser.run("replaceText(arguments[0])", SHOW.replace("a move 0 2m", "a move 0 1m"))
        self.ready()
        self.wait(lambda: self.browser.run(curves) == 2, "no speeds")
        self.assertAlmostEqual(max(it[1] for it in self.values()), 35 / 16 / 4, delta=0.03)
        # Of the chosen drone alone.
        self.browser.run("document.querySelectorAll('#legend button')[1].click()")
        self.wait(lambda: self.browser.run(curves) == 1, "not of one")
        self.assertEqual(self.browser.faults(), [])

    def test_limit(self):
        """The greatest acceleration that a drone flies is a red line where one comes near it, and else in words."""
        self.begin(SHOW)
        self.choose("chart-kind", "force")
        self.wait(lambda: self.browser.run("return document.querySelectorAll('#heights polyline').length") == 2, "none")
        self.assertIn("at most 10", self.browser.run("return document.getElementById('heights').textContent"))
        self.assertEqual(self.browser.run("return document.querySelectorAll('#heights .limit').length"), 0)
        self.browser.run("replaceText(arguments[0])", SHOW.replace("cue 4s", "cue 1s"))
        self.wait(lambda: self.browser.run("return document.querySelectorAll('#heights .limit').length") == 1, "no limit")
        zero, each = self.scale()
        y = self.browser.run("const frame = document.querySelector('#heights rect[fill=none]'), of = key =>"
                             "Number(frame.getAttribute(key)); return 1 - (Number(document.querySelector('#heights .limit')"
                             ".getAttribute('y1')) - of('y')) / of('height')")
        self.assertAlmostEqual(zero + each * y, 10, delta=0.3)
        self.assertAlmostEqual(max(it[1] for it in self.values()), 84 / 5 / 5 ** 0.5 * 2, delta=0.5)

    def test_metres(self):
        """Distances in metres: a and b are 2 m apart at first, sqrt(8) after four seconds, sqrt(5) at the end; and where
        they would touch, which is 2 r to the side."""
        self.begin(SHOW)
        self.choose("far-in", "m")
        found = self.values(0, "share", ".near")
        self.assertAlmostEqual(found[0][1], 2, delta=0.06)
        self.assertAlmostEqual(found[-1][1], 5 ** 0.5, delta=0.06)
        radius = self.browser.run("return flight.r") / 1000
        self.assertAlmostEqual(self.values(0, "share", ".limit")[0][1], 2 * radius, delta=0.06)
        self.choose("far-in", "%")
        self.assertIn("%", self.browser.run("return document.querySelector('#share').textContent"))

    def test_pair(self):
        """Of two chosen drones it is their own distance, also where others are nearer."""
        self.begin("choreo 2\ndrone a 0 0 1m 0\ndrone b 1m 0 1m 0\ndrone c 3m 0 1m 0\ncue 2s\nb move 1m 0.2m 1m 0\nend\n")
        self.choose("far-in", "m")
        self.assertAlmostEqual(self.values(0, "share", ".near")[0][1], 1, delta=0.06)
        for k in (0, 2):
            self.browser.run("document.querySelectorAll('#legend button')[arguments[0]].click()", k)
        self.assertAlmostEqual(self.values(0, "share", ".near")[0][1], 3, delta=0.08)
        self.assertIn("a and c, metres", self.browser.run("return document.querySelector('#share').textContent"))


class Dips(Timeline):
    """Where the words stand that name a dip of the chart of the nearest pair."""
    MEET = "choreo 2\ndrone %s 0 0 1m 0\ndrone %s 1m 0 1m 0\ncue 3s\n%s move %s 0 1m 0\n%send\n"

    def dip(self, text, size=(1280, 800)):
        """Of the only dip of a show: its words; how far they begin to the right of it, end to the left of it, are above
        it and below it, in pixels; and whether the curve goes through them."""
        self.begin(text, size)
        return self.browser.run("""
            const words = [...document.querySelectorAll("#share .name")].filter(it => / m$/.test(it.textContent));
            const [dot, ...more] = document.querySelectorAll("#share circle");
            if (words.length !== 1 || more.length) return words.map(it => it.textContent);
            const box = words[0].getBoundingClientRect(), at = dot.getBoundingClientRect(), near = document.querySelector("#share .near");
            const x = at.left + at.width / 2, y = at.top + at.height / 2, to = near.getScreenCTM(), all = near.getTotalLength();
            const isIn = k => {
              const p = near.getPointAtLength(all * k / 5000).matrixTransform(to);
              return box.left < p.x && p.x < box.right && box.top + 2 < p.y && p.y < box.bottom - 2;
            };
            const frame = document.querySelector("#share rect[fill=none]").getBoundingClientRect();
            return {words: words[0].textContent, right: box.left - x, left: x - box.right, above: y - box.bottom, below: box.top - y,
                    isCrossed: [...Array(5001).keys()].some(isIn),
                    isInside: frame.left <= box.left && box.right <= frame.right && box.bottom <= frame.bottom + 2}""")

    def test_middle(self):
        """Two who fly through one place: the words are beside the dip, which reaches the floor of the chart, and the
        curve goes through none of them."""
        found = self.dip(self.MEET % ("a", "b", "a", "1m", "b move 0 0 1m 0\n"))
        self.assertEqual((found["words"], found["isCrossed"], found["isInside"]), ("a, b 0 % · 0 m", False, True))
        self.assertTrue(10 < found["right"] < 30, found)

    def test_end(self):
        """Two who meet slowly at the end: the curve is nearly level there, and the words are above it."""
        found = self.dip(self.MEET % ("a", "b", "a", "1m", ""))
        self.assertEqual((found["isCrossed"], found["isInside"]), (False, True), found)
        self.assertTrue(0 < found["above"] < 20, found)

    def test_edge(self):
        """Beside a steep dip at the right edge the words are to the left."""
        found = self.dip((self.MEET % ("a", "b", "a", "1m", "")).replace("a move", "a line").replace("cue", "cue 12s\nend\ncue"))
        self.assertEqual((found["isCrossed"], found["isInside"]), (False, True), found)
        self.assertTrue(10 < found["left"] < 30, found)

    def test_no_room_beside(self):
        """Where there is no room at either side the words are above the dip."""
        names = "the_first_of_all", "second_of_them_a"
        found = self.dip(self.MEET % (*names, names[0], "1m", names[1] + " move 0 0 1m 0\n"), (390, 844))
        self.assertTrue(0 < found["above"] < 20 and found["right"] < 0 and found["left"] < 0, found)

    def test_high(self):
        """A dip that isn't low has its words below it."""
        found = self.dip(self.MEET % ("a", "b", "b", "0.6m", ""))  # 600 of 240 mm: 250 %
        self.assertEqual((found["words"], found["isCrossed"]), ("a, b 250 % · 0.6 m", False))
        self.assertTrue(0 < found["below"] < 20, found)


if __name__ == "__main__":
    unittest.main()
