"""./show deal and ./show why --cured: shows of a few drones, worked by hand."""
import os
import subprocess
import tempfile
import unittest

import common
import forked
from common import TOP
from hemtoghai.language import choreo
from hemtoghai.language.converting import converted
import separation

# Two drones form a row across, change sides, and form it again.
TWICE = """choreo 1
drone a 0 0 1000000 0
drone b 1000000 0 1000000 0
formation f # row
  at a 1000000 500000 1000000 9 # right
at b 0 500000 1000000 0
end
cue 3000
form f move # first
end
cue 3000
b curve 500000 1500000 1000000 500000 1500000 1000000 1000000 2000000 1000000 0
a curve 500000 -1500000 1000000 500000 -1500000 1000000 0 -2000000 1000000 0
end
cue 3000
  form f line # again
end
"""
SECOND = """formation f_2 # row
  at a 1000000 500000 1000000 9 # right
at b 0 500000 1000000 0
end
"""
# A figure and acts after a formation whose ways cross, with a comment and blanks that stay.
ALONG = """choreo 1
drone a 0 0 1000000 0
drone b 1000000 0 1000000 0
drone c 3000000 0 1000000 0
formation f
at a 1000000 500000 1000000 0
at b 0 500000 1000000 0
end
figure bow left right
cue 2000
left move 1000000 1500000 1000000 0
end
end
cue 3000
form f move
c hold
end
cue 2000
  a   move 1000000  500000 1600000 0 # a goes up
c turn 900
b hold
end
perform bow none 0 0 0 0 a   b
cue 2000
b move 0 500000 400000 0
end
"""
# Two layers change places, and come together halfway; each place is nearest to the drone that is there already.
LAYERS = """choreo 1
drone a 0 0 1000000 0
drone b 0 0 2000000 0
formation f
at a 0 0 2000000 0
at b 0 0 1000000 0
end
cue 3000
form f move
end
"""
# After a formation of three whose ways cross, a formation has places for two of them.
SOME = """choreo 1
drone a 0 0 1000000 0
drone b 1000000 0 1000000 0
drone c 2000000 0 1000000 0
formation f
at a 1000000 1000000 1000000 0
at b 2000000 1000000 1000000 0
at c 0 1000000 1000000 0
end
formation g
at a 1000000 2000000 1000000 0
at c 0 2000000 1000000 0
end
cue 3000
form f move
end
cue 3000
form g move
b move 2000000 3000000 1000000 0
end
"""
# The first two cross; the other two are as far from one place as from the other.
TIE = """choreo 1
drone a 0 0 0 0
drone b 2000000 0 0 0
drone c 10000000 1000000 0 0
drone d 10000000 -1000000 0 0
formation f
at a 2000000 500000 0 0
at b 0 500000 0 0
at c %d 0 0 0
at d %d 0 0 0
end
cue 3000
form f move
end
"""
FORMED = """choreo 1
drone a 0 0 1000000 0
drone b 1000000 1000000 1000000 0
drone h7 2000000 0 1000000 0
formation f
at a 2000000 900000 1000000 5
at h7 3000000 0 1000000 0
end
cue 3000
b move 1000000 0 1000000 0 # across
form f move
end
"""


def run(word, *words, text):
    """The status, standard output and standard error of a command on a show."""
    done = forked.SHOWS.run(["show", word, *words, "-"], cwd=TOP, input=text, timeout=120,
                            stdout=subprocess.PIPE, stderr=subprocess.PIPE, universal_newlines=True)
    return done.returncode, done.stdout, done.stderr


class Deal(unittest.TestCase):
    def test_each_use(self):
        status, said, told = run("deal", text=TWICE)
        first = TWICE.replace("at a 1000000 500000 1000000 9", "at a 0 500000 1000000 0").replace(
            "at b 0 500000 1000000 0", "at b 1000000 500000 1000000 9")
        wanted = first.replace("end\ncue 3000\nform", "end\n" + SECOND + "cue 3000\nform")
        wanted = wanted.replace("form f line", "form f_2 line")
        wanted = wanted.replace("b curve", "x curve").replace("a curve", "b curve").replace("x curve", "a curve")
        self.assertEqual((status, said), (0, wanted), told)
        # Straight over a way of 0.5 m each, in place of the diagonals: 2 times 0.25 m2, and 2 times 1.25.
        self.assertIn("f, line 9: 2 of 2 places dealt anew; the squared ways sum to 0.50 m2, before 2.50", told)
        # From (1, 2) to (1, 0.5) and from (0, -2) to (0, 0.5); before both went a metre to the side, too.
        self.assertIn("f, line 16: 0 of 2 places dealt anew; the squared ways sum to 8.50 m2, before 10.50", told)
        self.assertIn("lines 16, 17 of the new text: the acts go with their places", told)
        # Once dealt, nothing is left to deal.
        self.assertEqual(run("deal", text=said)[1], said)

    def test_acts_go_along(self):
        """Acts up to the next formation are flown by the drone at the place for which they were written."""
        status, said, told = run("deal", text=ALONG)
        wanted = ALONG.replace("at a 1000000", "at x 1000000").replace("at b 0", "at b 1000000").replace(
            "at x 1000000", "at a 0").replace("  a   move", "  b   move").replace("b hold", "a hold").replace(
            "0 a   b", "0 b   a").replace("b move 0", "a move 0")
        self.assertEqual((status, said), (0, wanted), told)
        self.assertIn("lines 19, 21, 23, 25 of the new text: the acts go with their places", told)
        self.assertEqual(run("deal", text=said)[1], said)  # once dealt, nothing is left to deal

    def test_some_of_them(self):
        """The places of a formation that has some of the drones go to the drones that stand there now."""
        status, said, told = run("deal", text=SOME)
        wanted = SOME.replace("at a 1000000 1000000", "at a 0 1000000").replace(
            "at b 2000000 1000000", "at b 1000000 1000000").replace("at c 0 1000000", "at c 2000000 1000000").replace(
            "at a 1000000 2000000", "at b 1000000 2000000").replace("at c 0 2000000", "at a 0 2000000").replace(
            "b move", "c move")
        self.assertEqual((status, sorted(said.split("\n"))), (0, sorted(wanted.split("\n"))), told)

    def test_nobody_moves(self):
        """Where each place would go to the drone that is already there the places stay, with a status of its own."""
        status, said, told = run("deal", text=LAYERS)
        self.assertEqual((status, said), (71, LAYERS), told)
        self.assertIn("f, line 9: no drone would move", told)
        self.assertNotIn("deal", run("why", text=LAYERS)[1])  # it would not help
        # Two of three stay, which is said, too.
        text = LAYERS.replace("formation", "drone c 5000000 0 1000000 0\nformation").replace(
            "end\ncue", "at c 5000000 900000 1000000 0\nend\ncue")
        status, said, told = run("deal", text=text)
        self.assertIn("; 2 drones stay where they are", told)

    def test_one_block_for_one_way(self):
        # Formed twice in the same way: the block is changed once, and none is added.
        text = TWICE[:TWICE.index("b curve")] + "form f line\nend\n"
        said = run("deal", text=text)[1]
        self.assertEqual((said.count("formation"), said.count("form f ")), (1, 2), said)

    def test_names(self):
        text = TWICE.replace("formation f ", "formation f_2\nat a 0 0 0 0\nend\nformation abcdefghijklmnop ")
        said = run("deal", text=text.replace("form f", "form abcdefghijklmnop"))[1]
        self.assertIn("\nformation abcdefghijklmn_2 # row\n", said)
        said = run("deal", text=text.replace("abcdefghijklmnop", "f"))[1]
        self.assertIn("\nformation f_3 # row\n", said)

    def test_ties(self):
        for places in ((9000000, 11000000), (11000000, 9000000)):
            text = TIE % places
            status, said, told = run("deal", text=text)
            swapped = text.replace("at a 2000000", "at x 2000000").replace("at b 0", "at a 0").replace("at x", "at b")
            self.assertEqual(sorted(said.split("\n")), sorted(swapped.split("\n")), told)
            self.assertIn("2 of 4 places dealt anew", told)

    def test_keep(self):
        status, said, told = run("deal", "--keep", "f", text=TWICE)
        self.assertEqual((status, said), (5, TWICE), told)  # they cross, as written
        self.assertIn("0 of 2 places dealt anew", told)
        status, said, told = run("deal", "--keep", "g", text=TWICE)
        self.assertEqual((status, said, "no formation of this name" in told), (70, "", True))

    def test_repeat(self):
        # All turns count: in the first a is left of b, and then as the second formation has them. Where that is far the
        # other way round, three turns are shorter as written, though the first alone isn't: 81 and 81 in place of 100
        # and 100 square metres twice, for 2 in place of 0 once.
        text = TWICE[:TWICE.index("cue")] + "formation g\nat a %d 3000000 0 0\nat b %d 3000000 0 0\nend\n" \
            "repeat 3\ncue 3000\nform f move\nend\ncue 3000\nform g move\nend\nend\n"
        far = text % (10000000, -9000000)
        self.assertEqual(run("deal", text=far)[1], far)
        near = text % (0, 1000000)
        wanted = near.replace("at a 1000000 500000 1000000 9", "at a 0 500000 1000000 0")
        wanted = wanted.replace("at b 0 500000 1000000 0", "at b 1000000 500000 1000000 9")
        self.assertEqual(run("deal", text=near)[1], wanted)


class Forms(unittest.TestCase):
    """What is written of a text in `choreo 2` is in `choreo 2`, and the same show as of the text in `choreo 1`."""

    def test_deal(self):
        for text in (TWICE, ALONG, SOME, LAYERS):
            first, second = (run("deal", text=converted(text.encode(), form).decode()) for form in (1, 2))
            self.assertEqual((second[0], second[2]), (first[0], first[2]))
            self.assertEqual(converted(second[1].encode(), 1).decode(), first[1])
            self.assertTrue(second[1].startswith("choreo 2\n"), second[1])

    def test_other_numbers_stay(self):
        """A place that is dealt anew is written in metres; all else stays as somebody wrote it."""
        text = converted(TWICE.encode(), 2).decode().replace("at b 0 0.5m", "at b 0 50cm").replace("cue 3s", "cue 3000ms")
        said = run("deal", text=text)[1]
        self.assertIn("\n  at a 0 0.5m 1m 0 # right\nat b 1m 0.5m 1m 0.9deg\nend\n", said)
        self.assertEqual((said.count("cue 3000ms"), said.count("cue 3s")), (3, 0))


@common.wants_program
class Cured(unittest.TestCase):
    def cured(self, text):
        """The status and what was said of a show, and the cured one, or None where none was written."""
        with tempfile.TemporaryDirectory() as folder:
            path = os.path.join(folder, "new")
            status, said, told = run("why", "--cured", path, text=text)
            if not os.path.exists(path):
                return status, said + told, None
            with open(path) as file:
                return status, said + told, file.read()

    def is_apart(self, text):
        """Whether nothing is blocked in a show, by the benches' own search."""
        return not list(separation.blocked_places(choreo.flown_of(text.encode()), 6))

    def test_formed(self):
        status, said, new = self.cured(FORMED)
        self.assertEqual(status, 5)
        self.assertIn("let a wait: write the places of line 11 as acts, and leave it out", said)
        self.assertEqual(new, FORMED[:FORMED.index("form f")] + "h7 move 3000000 0 1000000 0\nend\ncue 3000\n"
                         "a move 2000000 900000 1000000 5\nend\n")
        self.assertTrue(self.is_apart(new))

    def test_lifted(self):
        with open(os.path.join(TOP, "examples", "crossing.choreo")) as file:
            text = file.read()
        status, said, new = self.cured(text)
        self.assertEqual(new[new.index("\ncue"):], """
cue 2000
a move 0 0 1700000 0
end
cue 3000
b move       0 0 1000000 0
a move 1000000 0 1700000 0
end
cue 2000
a move 1000000 0 1000000 0
end
""")
        self.assertTrue(self.is_apart(new))

    def test_role_in_a_figure(self):
        # The roles of a figure: one waits in it, and no way up is written there.
        text = "choreo 1\ndrone a 0 0 1000000 0\ndrone b 1000000 1000000 1000000 0\nfigure g p q\ncue 3000\n" \
               "p move 2000000 900000 1000000 0\nq move 1000000 0 1000000 0\nend\nend\nperform g none 0 0 0 0 a b\n"
        new = self.cured(text)[2]
        self.assertEqual(new[new.index("figure"):], "figure g p q\ncue 3000\n"
                         "q move 1000000 0 1000000 0\nend\ncue 3000\n"
                         "p move 2000000 900000 1000000 0\nend\nend\nperform g none 0 0 0 0 a b\n")
        self.assertTrue(self.is_apart(new))

    def test_nothing_helps(self):
        text = "choreo 1\ndrone a 0 0 0 0\ndrone b 100000 0 0 0\ncue 1\nend\n"
        status, said, new = self.cured(text)
        self.assertEqual((status, new), (5, None))
        self.assertIn("nothing that helps could be written for a and b in cue 1\nno file is written: the show isn't cured", said)

    def test_half_cured(self):
        """Of two pairs one can be cured, and two that begin in one place can't: then nothing is written."""
        text = "choreo 1\ndrone a 0 0 1000000 0\ndrone b 1000000 0 1000000 0\ndrone c 5000000 0 1000000 0\n" \
               "drone d 9000000 0 1000000 0\ncue 3000\na move 1000000 0 1000000 0\nb move 0 0 1000000 0\nend\n" \
               "cue 3000\nd move 5000000 0 1000000 0\nend\n"
        status, said, new = self.cured(text)
        self.assertEqual((status, new, said.count("cured in cue 1: ")), (5, None, 1))
        self.assertIn("\nno file is written: the show isn't cured", said)

    def test_nothing_to_cure(self):
        """A show with too many bytes, and one that is accepted."""
        move = "cue 2000\na move %d %d %d %d\nend\n"
        text = "choreo 1\ndrone a 0 0 0 0\n" + "".join(move % (10000 * k, 10000 * k, 10000 * k, k) for k in range(1, 71))
        status, said, new = self.cured(text)
        self.assertEqual((status, new), (4, None))
        self.assertIn("\nno file is written: only nearness is cured", said)
        status, said, new = self.cured("choreo 1\ndrone a 0 0 0 0\ncue 1\nend\n")
        self.assertEqual((status in (0, 70), new), (True, None))
        self.assertEqual("no file is written: there is nothing to cure" in said, status == 0)

    def test_deal_is_said_where_it_helps(self):
        with open(os.path.join(TOP, "examples", "grid_to_ring.choreo")) as file:
            text = file.read()
        said = run("why", text=text)[1]
        self.assertIn("Line 63 forms a formation whose ways cross: ./show deal deals its places anew.", said)
        # Drones that cross, though their places are dealt well: nothing is said of deal.
        text = "choreo 1\ndrone a 0 0 0 0\ndrone b 300000 0 0 0\ndrone c 600000 0 0 0\nformation f\n" \
               "at a 0 100000 0 0\nat b 30000 100000 0 0\nat c 60000 100000 0 0\nend\ncue 3000\nform f move\nend\n"
        status, said, _ = run("why", text=text)
        self.assertEqual((status, "deal" in said), (5, False), said)


if __name__ == "__main__":
    unittest.main()
