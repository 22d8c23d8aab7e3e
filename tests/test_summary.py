"""./show summary says of the ways up and down what ./show legs says; and of long shows it says what it left out."""
import contextlib
import io
import itertools
import json
import random
import tempfile
import unittest
from unittest import mock

import common
from hemtoghai import __main__
from hemtoghai.commands import summary
from hemtoghai.flying import stages
from hemtoghai.geometry import nearest
from hemtoghai.language import choreo
from hemtoghai.seeing import sampling

# `a` ends on the floor, or a millimetre below what is enough: then no way down begins with it.
SHOW = "choreo 2\ndrone a 0 0 1m 0\ncue 4s\na move 0 0 %s 0\nend\n"


class Ways(common.Folder, unittest.TestCase):
    def said(self, *words):
        return common.run(*words)[1]

    @common.wants_program
    def test_as_legs(self):
        with tempfile.TemporaryDirectory() as self.place:
            for height, is_way in (("0", False), ("5cm", False), ("60cm", True)):
                self.write("show", SHOW % height)
                by_summary = self.said("summary", self.path("show")).splitlines()
                by_legs = self.said("legs", "--dry", self.path("show")).splitlines()
                refused = [line for line in by_legs if line.startswith("no way down")]
                own = [line for line in by_summary if "way down with pads below the first places: " in line]
                self.assertEqual((len(own), len(refused)), (1, not is_way), (height, own, by_legs))
                if not is_way:
                    self.assertEqual(own[0].replace(" with pads below the first places", ""), refused[0])
                    self.assertIn("the show of a ends on the floor", own[0])

    @common.wants_program
    def test_bounded(self):
        # So many questions and no more: a search that needs one more is broken off, and says so.
        asked, real = [0], stages.refusal_of

        def counted(text):
            asked[0] += 1
            return real(text)
        flown = common.example("crossing_cured")[1]
        needed = None
        for most in (1000, 3, 0):
            asked[0] = 0
            with mock.patch.object(summary.Bounded, "left", most), mock.patch.object(summary, "MOST_ASKED", most), \
                    mock.patch.object(stages, "refusal_of", counted), contextlib.redirect_stdout(io.StringIO()) as out:
                summary.print_ways(flown)
            up, down = out.getvalue().splitlines()
            needed = needed or asked[0]
            self.assertLessEqual(asked[0], 2 * most)
            if most == 1000:
                self.assertEqual((up[:7], down[:9]), ("way up ", "way down "))
            else:
                self.assertEqual(down, "no answer on a way down with pads below the first places: looked for by %d questions to "
                                       "`check`, and no further; ./show legs goes on" % most)
        self.assertGreater(needed, 6)


def random_show(chance, drones, cues):
    """A show of drones that fly to random places, again and again the same."""
    def place():
        return "%d %d %d 0" % tuple(1000 * chance.randint(-1500, 1500) for _ in range(3))
    rows = ["choreo 1", "repeat 2"]
    rows[1:1] = ["drone d%d %s" % (k, place()) for k in range(drones)]
    for _ in range(cues):
        rows += ["cue 3000", *("d%d %s %s" % (k, chance.choice(("move", "line")), place()) for k in range(drones)), "end"]
    return ("\n".join([*rows, "end"]) + "\n").encode()


class Long(common.Folder, unittest.TestCase):
    def test_nearest(self):
        # As by looking at all cues; with fewer looks never nearer than that, and it says of how many pairs.
        chance = random.Random(9)
        for _ in range(6):
            flown = choreo.flown_of(random_show(chance, 4, 5))
            by_all = {(i, j): min(nearest.nearest_in(flown, i, j, cue).share for cue in range(len(flown.cues)))
                      for i, j in itertools.combinations(range(4), 2)}
            rows, left_out = nearest.nearest_pairs(flown)
            self.assertEqual(({row[1:3]: row[0] for row in rows}, left_out), (by_all, 0))
            self.assertEqual([row[0] for row in rows], sorted(by_all.values()))
            with mock.patch.object(nearest, "MOST_NEAR", 6):
                fewer, left_out = nearest.nearest_pairs(flown)
            self.assertEqual(len(fewer), 6)
            self.assertTrue(all(row[0] >= by_all[row[1:3]] for row in fewer))
            self.assertGreaterEqual(left_out, sum(row[0] > by_all[row[1:3]] for row in fewer))
            self.assertGreater(left_out, 0)

    def test_says_so(self):
        flown = choreo.flown_of(random_show(random.Random(4), 4, 5))
        for most, near, lines in ((sampling.MOST_LOOKED, nearest.MOST_NEAR, False), (10 * 10, 6, True)):
            with mock.patch.object(sampling, "MOST_LOOKED", most), mock.patch.object(nearest, "MOST_NEAR", near), \
                    contextlib.redirect_stdout(io.StringIO()) as out:
                summary.print_drones(flown, None)
                summary.print_nearest(flown, 2)
            self.assertEqual("Speeds and boxes are of 4 instants of each cue: the show is long." in out.getvalue(), lines)
            self.assertEqual("may come nearer than is said here: cues were left out" in out.getvalue(), lines)

    def test_json(self):
        found = []
        with tempfile.TemporaryDirectory() as self.place:
            self.write("show", random_show(random.Random(4), 4, 5))
            for near in (nearest.MOST_NEAR, 6):
                with mock.patch.object(nearest, "MOST_NEAR", near), contextlib.redirect_stdout(io.StringIO()) as out, \
                        contextlib.redirect_stderr(io.StringIO()):
                    __main__.main(["summary", "--json", self.path("show")])
                found.append(json.loads(out.getvalue()))
        self.assertEqual([it["instants"] for it in found], [32, 32])
        self.assertEqual((found[0]["pairs_maybe_nearer"], found[1]["pairs_maybe_nearer"] > 0), (0, True))
        shares = [{(row["first"], row["second"]): row["share"] for row in it["pairs"]} for it in found]
        self.assertTrue(all(shares[0][pair] <= shares[1][pair] for pair in shares[0]))


if __name__ == "__main__":
    unittest.main()
