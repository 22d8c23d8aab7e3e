"""Shows that are tried for ./show why: a cue that is written out is the cue of the show, and what the program says of
several ways to fly it is what it says of each alone, and what bench/separation.py finds."""
import random
import unittest

import common
from hemtoghai.companion import ask
from hemtoghai.language import choreo
from hemtoghai.writing.remedies import remedies
from hemtoghai.writing.trials import stage_of, Trials
import separation

EXAMPLES = "every_act", "mirrored_figure", "nested_repeats", "turning_square", "formation_change", "units"


def random_show(chance, late):
    """A show of five drones that fly among near places."""
    def place():
        return "%d %d %d 0" % tuple(1000 * chance.randint(low, high) for low, high in ((0, 900), (0, 900), (900, 2500)))
    rows = ["choreo 1", "late %d" % late, *("drone d%d %s" % (k, place()) for k in range(5))]
    for _ in range(3):
        rows += ["cue 3000", *("d%d %s %s" % (k, chance.choice(("move", "line")), place()) for k in range(4)), "end"]
    return choreo.flown_of("\n".join([*rows, ""]).encode())


class Written(unittest.TestCase):
    def test_the_same_flight(self):
        """By drones in another order, of a cue alone and with all others."""
        for name in EXAMPLES:
            flown = common.example(name)[1]
            order = list(reversed(range(len(flown.names))))
            for cue in range(len(flown.cues)):
                for late, cues in ((0, [cue]), (7, range(len(flown.cues)))):
                    known = {**flown.show.settings, "late": [late]}
                    new = choreo.flown_of(Trials(ask, flown, 6).text(cue, [stage_of(flown, cue)], order, known))
                    self.assertEqual(new.show.settings["ellipsoid"], flown.show.settings["ellipsoid"])
                    self.assertEqual(new.by_cue, [[flown.by_cue[k][it] for it in cues] for k in order], (name, cue))


@common.wants_program
class Told(unittest.TestCase):
    def test_as_by_the_second_reader(self):
        seen = set()
        for seed in range(12):
            flown = random_show(random.Random(seed), 50 * (seed % 2))
            pairs = [(i, j) for i in range(5) for j in range(i + 1, 5)]
            blocked = {place[:3] for place in separation.blocked_places(flown, 6)}
            for cue in range(3):
                told = Trials(ask, flown, 6).told(cue, [stage_of(flown, cue)], pairs)
                self.assertEqual(told, {(i, j, 0): (i, j, cue) not in blocked for i, j in pairs}, (seed, cue))
                seen |= set(told.values())
        self.assertEqual(seen, {True, False})

    def test_together_as_alone(self):
        for seed in range(4):
            flown = random_show(random.Random(seed), 0)
            trials, pairs = Trials(ask, flown, 6), [(0, k) for k in range(1, 5)]
            ways = [[stage_of(flown, 1)], *(remedy.stages for remedy in remedies(flown, 0, 1))]
            self.assertEqual(trials.each(1, ways, pairs), [trials.told(1, way, pairs) for way in ways])

    def test_no_answer(self):
        flown = random_show(random.Random(1), 0)
        trials = Trials(lambda words, text: None, flown, 6)
        self.assertIsNone(trials.told(0, [stage_of(flown, 0)], [(0, 1)]))
        self.assertEqual(trials.each(0, [[stage_of(flown, 0)]], [(0, 1)]), [{}])


if __name__ == "__main__":
    unittest.main()
