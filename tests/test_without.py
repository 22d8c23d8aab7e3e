"""./show without: what is left flies as before, and what is named nowhere any more goes."""
import itertools
import os
import random
import unittest

import common
from hemtoghai.language import choreo
from hemtoghai.language.converting import converted

# Two formations, one of which b has alone; a figure that is performed three times, once by b and c, in a repeat, and
# once
# by b alone as another figure; comments and blanks that stay.
SHOW = """choreo 1  # the show of {b}
stray 40
drone a 0 0 1000000 0
 drone b 1000000 0 1000000 0   # b's place
drone c 2000000 0 1000000 0
formation row
at a 0 500000 1000000 0
at b 1000000 500000 1000000 0
end
formation own
at b 1000000 0 1500000 0
end
figure pair p q
cue 1000
p turn 900
q turn -900
end
repeat 2
cue 500
q turn 0
end
end
end
figure one p
cue 700
p turn 450
end
end
cue 2000
form row move   # together
end
cue 2000
form own move
c hold
end
perform pair none 0 0 0 0 a c
repeat 2
perform pair none 0 0 0 0 b c   # twice
cue 100
b hold
end
end
perform one none 0 0 0 0 b
cue 900
b line 1000000 0 1000000 0
end
"""
WITHOUT_B = """choreo 1  # the show of {b}
stray 40
drone a 0 0 1000000 0
drone c 2000000 0 1000000 0
formation row
at a 0 500000 1000000 0
end
figure pair p q
cue 1000
p turn 900
q turn -900
end
repeat 2
cue 500
q turn 0
end
end
end
figure pair_2 q
cue 1000
q turn -900
end
repeat 2
cue 500
q turn 0
end
end
end
figure one nobody
cue 700
end
end
cue 2000
form row move   # together
end
cue 2000
c hold
end
perform pair none 0 0 0 0 a c
repeat 2
perform pair_2 none 0 0 0 0 c   # twice
cue 100
end
end
perform one none 0 0 0 0 a
cue 900
end
"""


def flights(text):
    """What each drone flies, cue by cue."""
    flown = choreo.flown_of(text.encode())
    return dict(zip(flown.names, zip(map(tuple, flown.starts), flown.by_cue)))


class Without(unittest.TestCase):
    def test_by_hand(self):
        status, out, said = common.run("without", "-", "b", text=SHOW)
        self.assertEqual(out, WITHOUT_B)
        self.assertNotIn("Traceback", said)

    def test_the_others_fly_as_before(self):
        chance = random.Random(5)
        for text in [SHOW] + [common.example(name)[0].decode() for name in (
                "mirrored_figure", "every_act", "formation_change", "nested_repeats")]:
            before = flights(text)
            subsets = [some for k in range(1, len(before)) for some in itertools.combinations(before, k)]
            for gone in chance.sample(subsets, min(4, len(subsets))):
                status, out, said = common.run("without", "-", *gone, text=text)
                self.assertEqual(flights(out), {name: row for name, row in before.items() if name not in gone}, gone)

    def test_names_that_are_taken(self):
        text = SHOW.replace("figure one p", "figure pair_2 p").replace("perform one", "perform pair_2")
        out = common.run("without", "-", "b", text=text)[1]
        self.assertIn("perform pair_3 none 0 0 0 0 c   # twice", out)
        self.assertEqual(flights(out), {name: row for name, row in flights(text).items() if name != "b"})
        long = SHOW.replace("pair", "a_name_of_16_let")
        out = common.run("without", "-", "b", text=long)[1]
        self.assertIn("figure a_name_of_16_l_2 q", out.replace("a_name_of_16_l_2", "a_name_of_16_l_2"))
        self.assertEqual(flights(out), {name: row for name, row in flights(long).items() if name != "b"})

    def test_forms(self):
        """What is written of a text in `choreo 2` is in `choreo 2`, and the same show as of the text in `choreo 1`."""
        shifted = SHOW.replace("pair none 0 0 0 0 b c", "pair x 1 100000 -50 2000000 b c")
        mirrored, flown = common.example("mirrored_figure")
        for text, gone in ((SHOW, "b"), (shifted, "b"), (mirrored.decode(), flown.names[1])):
            second = common.run("without", "-", gone, text=converted(text.encode(), 2).decode())[1]
            self.assertEqual(converted(second.encode(), 1).decode(), common.run("without", "-", gone, text=text)[1])
            self.assertEqual(choreo.form_of(second.encode()), 2)
        self.assertIn("\nperform pair_2 x 1 0.1m -0.00005m 2m c   # twice\n", common.run(
            "without", "-", "b", text=converted(shifted.encode(), 2).decode())[1])

    def test_refused(self):
        for words, text, status, line in (
                (["a", "b", "c"], SHOW, 2, "no drone would be left, and a show has at least one"),
                (["who", "b"], SHOW, 2, "no drone of the show: who; it has a, b, c"),
                (["a"], "choreo 1\ncue 1.5\n", 3, "line 2 bad-number")):
            came, out, said = common.run("without", "-", *words, text=text)
            self.assertEqual((came, out), (status, ""), said)
            self.assertIn(line, said)
        self.assertEqual(common.run("without", os.path.join("no", "show"), "a")[0], 70)
        self.assertEqual(common.run("without", "examples/solo.choreo")[0], 2)

    @common.wants_program
    def test_asks_check(self):
        # The crossing is refused with 5 for its two drones, and accepted with one of them.
        with open(os.path.join(common.TOP, "examples", "crossing.choreo")) as file:
            status, out, said = common.run("without", "-", "a", text=file.read())
        self.assertEqual((status, "without: check: ok drones 1 cues 1" in said), (0, True), said)


if __name__ == "__main__":
    unittest.main()
