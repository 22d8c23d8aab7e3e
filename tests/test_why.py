"""./show why: which remedies help, `stray` and `late` as causes, and the shortest cure. Shows worked by hand."""
import os
import sys
import tempfile
import unittest

sys.dont_write_bytecode = True
sys.path.insert(0, os.path.dirname(os.path.abspath(__file__)))
import common
from test_deal import run
from hemtoghai.language.converting import converted

BESIDE = """choreo 1
%s
drone a 0 0 1000000 0
drone b 0 300000 1000000 0
cue 2000
a line 2000000 0 1000000 0
b line 2000000 300000 1000000 0
end
"""
FOLLOWED = """choreo 1
%s
drone a 0 0 1000000 0
drone b 400000 0 1000000 0
cue 2000
a line 2000000 0 1000000 0
b line 2400000 0 1000000 0
end
"""
ABOVE = """choreo 1
drone a 0 0 1000000 0
drone b 0 0 3000000 0
cue 4000
a move 0 0 3000000 0
b move 0 0 1000000 0
end
"""
CROSS = """choreo 1
drone a 0 0 1000000 0
drone b 1000000 0 1000000 0
cue 20000
a move 1000000 0 1000000 0
b move 0 0 1000000 0
end
"""
PAIRS = CROSS.replace("cue", """drone c 0 3000000 1000000 0
drone d 1000000 3000000 1000000 0
cue""").replace("\nend", """
c move 1000000 3000000 1000000 0
d move 0 3000000 1000000 0
end""")


@common.wants_program
class Causes(unittest.TestCase):
    def said(self, text):
        """What is said of a show that is refused."""
        status, said, told = run("why", text=text)
        self.assertEqual(status, 5, said + told)
        return said

    def test_stray(self):
        # 300 mm apart, of which 240 and twice the stray are needed: 29 mm are borne.
        said = self.said(BESIDE % "stray 100")
        self.assertIn("APART WHILE THEY FLY EXACTLY: the cause is `stray 100`: they bear `stray 29` here\n", said)
        self.assertIn("0 too near, 0 apart but along no direction, 1 apart but for `stray` or `late`.", said)
        self.assertNotIn("ALONG NO DIRECTION", said)
        # Room with the stray: 2.2 times 220 mm to the side.
        self.assertIn("room enough at this instant: 484 mm to the side where they now have 300", said)

    def test_late(self):
        # 400 mm behind the other at 1 m/s, of which 240 are needed: 159 ms are borne.
        said = self.said(FOLLOWED % "late 300")
        self.assertIn("the cause is `late 300`: they bear `late 159` here\n", said)
        # Beside each other lateness along the way costs nothing, and the stray is the cause.
        said = self.said(BESIDE % "stray 100\nlate 300")
        self.assertIn("the cause is `stray 100`: with `late 300` they bear `stray 29` here\n", said)

    def test_both(self):
        # Of 160 mm too many either 50 mm of stray or 100 of lateness take a part: each of them alone is borne.
        said = self.said(FOLLOWED % "stray 50\nlate 100")
        self.assertIn("the cause is `stray 50`: with `late 100` they bear `stray 29` here, or `late 100`: with `stray 50` "
                      "they bear `late 59` here\n", said)
        said = self.said(FOLLOWED % "stray 100\nlate 300")
        self.assertIn("the cause is `stray 100` and `late 300`, and each of them alone is too much here\n", said)

    def test_neither(self):
        # They touch, or are blocked without both.
        self.assertNotIn("the cause", self.said(CROSS.replace("drone a", "stray 10\ndrone a")))
        self.assertNotIn("the cause", self.said(BESIDE.replace("300000", "240000") % "stray 10"))


@common.wants_program
class Cures(unittest.TestCase):
    def test_most_places(self):
        """The program names one pair in 200 cues, which are alike."""
        drones = "".join("drone d%d 0 0 1000000 0\n" % k for k in range(32))
        text = "choreo 1\n" + drones + "repeat 1000\ncue 1000\nend\nend\n"
        status, said, told = run("why", "--most", "3", text=text)
        self.assertEqual((status, said.count("TOO NEAR"), "more: --most N shows them" in said), (5, 1, False), told)
        self.assertIn("More are blocked: these are the first 200, by pair and then by cue.\n", said)

    def cured(self, text):
        """What was said of a show and its cure, and the cured show, or None where none was written."""
        with tempfile.TemporaryDirectory() as folder:
            path = os.path.join(folder, "new")
            said = run("why", "--cured", path, text=text)[1]
            if not os.path.exists(path):
                return said, None
            with open(path) as file:
                return said, file.read()

    def test_helps_only_where_it_does(self):
        """Two that pass on one line up and down: neither waiting nor another height helps."""
        said, new = self.cured(ABOVE)
        self.assertIn("nothing that was tried helps these two", said)
        self.assertNotIn("what helps", said)
        self.assertNotIn("let a", said)
        self.assertIsNone(new)

    def test_shortest(self):
        """A cue of 20 s: the ways up and down take 2 s each, and not 20."""
        said, new = self.cured(CROSS)
        self.assertIn("700 mm higher: a cue before it to get there, and one after it to come back (4.000 s more)", said)
        self.assertIn("the show lasts 24.000 s, before 20.000 s\n", said)
        self.assertEqual(new.count("cue 2000\n"), 2)

    def test_short_wait(self):
        """Where waiting takes less than a way up and down, one waits."""
        said, new = self.cured("choreo 1\ndrone a 0 0 1000000 0\ndrone b 1000000 0 1000000 0\ncue 1000\n"
                               "a move 1000000 1000000 1000000 0\nb move 0 1000000 1000000 0\nend\n")
        self.assertRegex(said, r"cured in cue 1: let [ab] (wait|go first): .*\(1.000 s more\)\n")
        self.assertIn("the show lasts 2.000 s, before 1.000 s\n", said)

    def test_two_pairs_at_once(self):
        """Pairs that share no drone rise in one cue."""
        said, new = self.cured(PAIRS)
        self.assertIn("the show lasts 24.000 s, before 20.000 s\n", said)
        self.assertEqual(new.count("cue "), 3)

    def test_forms(self):
        """The cure of a text in `choreo 2` is in `choreo 2`, and the same show as that of the text in `choreo 1`."""
        formed = CROSS.replace("a move 1000000 0 1000000 0\nb move 0 0 1000000 0\n", "form f move\n") + (
            "formation f\nat a 1000000 0 1000000 1\nat b 0 0 1000000 -1\nend\n")
        for text in (CROSS, CROSS.replace("20000", "1001"), PAIRS, formed, formed.replace("20000", "900")):
            said, new = self.cured(text)
            said_2, new_2 = self.cured(converted(text.encode(), 2).decode())
            self.assertEqual(converted(new_2.encode(), 1).decode(), new)
            self.assertEqual((said_2.count("cured in"), new_2[:9]), (said.count("cured in"), "choreo 2\n"))

    def test_words_of_the_second_form(self):
        """What is written anew is in metres and seconds; what is only put elsewhere stays as somebody wrote it."""
        new = self.cured(converted(CROSS.encode(), 2).decode().replace("b move 0 0 1m", "b move 0 0 100cm"))[1]
        self.assertIn("cue 2s\na move 0 0 1.7m 0\nend\ncue 20s\nb move 0 0 100cm 0\na move 1m 0 1.7m 0\nend\ncue 2s\n"
                      "a move 1m 0 1m 0\nend\n", new)

    def test_slow_for_a_long_way(self):
        """Twice as far up takes twice as long."""
        said, new = self.cured(CROSS.replace("drone a", "ellipsoid 120 600\ndrone a").replace("1000000 0\n", "2000000 0\n"))
        self.assertIn("cue 3900\n", new)  # 1,350 mm at 350 mm a second


if __name__ == "__main__":
    unittest.main()
