"""./show legs, legs.py and landings.py: ways up and down that `check` accepts, refusals that say what to change, and
landings that are judged."""
import math
import os
import random
import re
import subprocess
import tempfile
import types
import unittest

import common
from hemtoghai.language import choreo
from hemtoghai.geometry import curves
from hemtoghai.flying import landings
from hemtoghai.flying import legs
from hemtoghai.flying import routes
from hemtoghai.flying import stages
from hemtoghai.flying import ways

ABOVE = """choreo 1
drone a 0 0 500000 0
drone b 0 0 1500000 0
cue 3000
end
"""
UNDER = """choreo 1
drone a 0 0 1600000 0
drone b -1500000 0 750000 0
cue 4000
end
cue 4000
b move 1500000 0 750000 0
end
cue 2000
end
"""


def rules(stray=30, late=40):
    """Rules of a show with these lines."""
    return legs.Rules({"ellipsoid": (120, 300), "stray": (stray,), "late": (late,)})


def up(pads, firsts, given=None):
    """The way up of drones d0, d1 and so on."""
    return routes.Planner(["d%d" % k for k in range(len(pads))], pads, firsts, [0] * len(pads), given or rules()).plan()


def check(text):
    """The status of the proved program's check, asked by itself."""
    return subprocess.run([common.PROGRAM, "check"], input=text, stdout=subprocess.PIPE).returncode


def nearest(leg):
    """How near two ellipsoids of a leg's drones, each stage at its own instants, come to touching: below 1 they do. Two
    that both stand on the floor aren't looked at."""
    low, half = math.inf, leg.rules
    for number, stage in enumerate(leg.stages):
        at = leg.places(number)
        for n in range(41):
            u = n / 40
            s = u ** 4 * (35 - 84 * u + 70 * u ** 2 - 20 * u ** 3)
            here = {k: [v + (w - v) * s for v, w in zip(place, stage.to.get(k, place))] for k, place in at.items()}
            for i in here:
                for j in here:
                    if i < j and (i in stage.to or j in stage.to or max(here[i][2], here[j][2]) > 100):
                        a, b = here[i], here[j]
                        low = min(low, math.hypot((a[0] - b[0]) / half.radius, (a[1] - b[1]) / half.radius,
                                                  (a[2] - b[2]) / half.height) / 2)
    return low


@common.wants_program
class Legs(unittest.TestCase):
    def good(self, leg, whole=None):
        """That a leg begins and ends where it should, is apart at instants that are looked at, and is accepted by
        `check` as it would be written."""
        self.assertGreater(nearest(leg), 1)
        self.assertEqual(check(leg.text()), 0)
        if whole is not None:
            self.assertEqual(leg.whole, whole)
        return leg

    def test_all_at_once(self):
        at = [(600 * (k % 6), 600 * (k // 6), 1000) for k in range(32)]
        leg = self.good(up(legs.below(at), at), True)
        self.assertEqual([(stage.kind, len(stage.to)) for stage in leg.stages], [("take-off", 32), ("go-to", 32)])
        self.assertEqual(leg.places(), dict(enumerate(at)))

    def test_back(self):
        # The way down is the way up backwards: its stages land where the others took off.
        at = [(700 * k, 100 * k, 1000 + 300 * k) for k in range(4)]
        names, pads = ["d%d" % k for k in range(4)], [(650 * k, 0, 0) for k in range(4)]
        leg = self.good(legs.way_down(names, pads, at, [0] * 4, rules()))
        self.assertEqual(leg.places(), dict(enumerate(pads)))
        self.assertEqual([stage.kind for stage in leg.stages], ["go-to", "landing"])

    def test_above_each_other(self):
        # The pads aside of the stack: accepted. Straight below: nobody takes off, and it says what to change.
        firsts = [(0, 0, 500), (0, 0, 1500)]
        self.good(up([(600, 0, 0), (0, 0, 0)], firsts))
        with self.assertRaisesRegex(legs.NoWay, "d0 and d1 come too near: pads 0 mm apart from above, places 0; put their pads "
                                    "[0-9]+ mm apart, or"):
            up(legs.below(firsts), firsts)

    def test_who_goes_first(self):
        # d0's first place is above d1's pad, and lower than d1's place: d1 goes first.
        leg = self.good(up([(900, 0, 0), (0, 0, 0)], [(0, 0, 800), (0, 900, 1500)]))
        self.assertLess([1 in stage.to for stage in leg.stages].index(True) - 0.5,
                        [0 in stage.to for stage in leg.stages].index(True))

    def test_crossed_pads(self):
        # Each stands below the other's place at one height: one waits above its pad, over all places, and comes down last.
        leg = self.good(up([(0, 0, 0), (1000, 0, 0)], [(1000, 0, 1000), (0, 0, 1000)]), False)
        self.assertEqual([stage.kind for stage in leg.stages], ["take-off", "take-off", "go-to", "go-to", "go-to"])
        self.assertTrue(all(len(stage.to) == 1 for stage in leg.stages))

    def test_pads_have_a_rule_of_their_own(self):
        # Two stand 400 mm apart. In the stage in which two others go aside `check` gives all pairs their lateness, also
        # the two that stand: those aren't judged with each other.
        pads = [(0, 0, 0), (3000, 0, 0), (1000, 0, 0), (1400, 0, 0)]
        leg = up(pads, [(1600, 1600, 1000), (4600, 1600, 1000), *pads[2:]])
        self.assertEqual([sorted(stage.to) for stage in leg.stages], [[0, 1]] * 2)
        self.assertFalse(leg.whole)
        self.assertNotEqual(check(stages.text_of(leg.names, leg.places(1), leg.yaws, leg.stages[1:], leg.rules)), 0)
        with self.assertRaisesRegex(legs.NoWay, "d0 and d1 come too near: pads 100 mm apart from above, places 700; put their pads 396 mm apart"):
            up([(100 * k, 0, 0) for k in range(3)], [(700 * k, 0, 1000) for k in range(3)])
        # 250 mm aside of one that stands a drone with this ellipsoid and stray can't go up
        with self.assertRaisesRegex(legs.NoWay, "come too near.*put their pads [0-9]+ mm apart"):
            up([(250 * k, 0, 0) for k in range(3)], [(700 * k, 0, 1000) for k in range(3)])

    def test_dealt_over_the_pads(self):
        # Each has a pad below its own place once the drones change pads: two are exchanged, and three go round.
        for pads, firsts, said in (
                ([(0, 0, 0), (500, 0, 0)], [(500, 0, 1000), (0, 0, 1000)], "exchange d0 and d1 on their pads"),
                ([(0, 0, 0), (500, 0, 0), (1000, 0, 0)], [(500, 0, 1000), (1000, 0, 1000), (0, 0, 1000)],
                 "deal the drones over the pads: d0 to that of d1, d1 to that of d2, d2 to that of d0")):
            planner = routes.Planner(["d0", "d1", "d2"][:len(pads)], pads, firsts, [0] * len(pads), rules())
            self.assertEqual(planner.dealt(), said)

    def test_thirty_two_shuffled(self):
        # Pads in rows of eight, and the places above them in another order: every drone gets to its own.
        at = [(600 * (k % 8), 600 * (k // 8), 1000) for k in range(32)]
        pads = legs.below(at)
        random.Random(0).shuffle(pads)
        leg = self.good(up(pads, at), False)
        self.assertEqual(leg.places(), dict(enumerate(at)))
        self.assertLess(leg.milliseconds(), 300000)
        self.assertIsNone(leg.reversed().judge(dict(enumerate(pads))))
        self.assertRegex(leg.hint, "^deal the drones over the pads: ")

    def test_heights(self):
        # Between the floor and 200 mm above it there is no first place; on the floor a drone has to stand at it.
        for height, word in ((90, "have it 110 mm higher"), (150, "have it 50 mm higher"), (199, "have it 1 mm higher")):
            with self.assertRaisesRegex(legs.NoWay, "a take-off needs 200: %s" % word):
                up([(0, 0, 0)], [(0, 0, height)])
        self.assertEqual(up([(0, 0, 0)], [(0, 0, 50)]).stages, [])
        self.assertEqual(len(up([(0, 0, 0)], [(0, 0, 200)]).stages), 2)
        with self.assertRaisesRegex(legs.NoWay, "100 mm aside of its pad"):
            up([(100, 0, 0)], [(0, 0, 0)])

    def test_ends_on_the_floor(self):
        # Who ends the show on the floor stays there; a landing from 150 mm is a landing.
        leg = legs.way_down(["a", "b"], [(0, 0, 0), (900, 0, 0)], [(500, 800, 0), (900, 0, 150)], [0, 0], rules())
        self.assertEqual(leg.places(), {0: (500, 800, 0), 1: (900, 0, 0)})
        self.assertTrue(all(0 not in stage.to for stage in leg.stages))

    def test_ceiling(self):
        pads, firsts, settings = [(0, 0, 0), (1000, 0, 0)], [(1000, 0, 1000), (0, 0, 1000)], {
            "ellipsoid": (120, 300), "stray": (30,), "late": (40,)}
        leg = up(pads, firsts, legs.Rules(settings, ceiling=1900))
        self.assertEqual(leg.top(), 1820)
        with self.assertRaisesRegex(legs.NoWay, "exchange d0 and d1 on their pads"):
            up(pads, firsts, legs.Rules(settings, ceiling=1800))

    def test_risers(self):
        leg = self.good(up([(0, 0, 0), (700, 0, 500)], [(0, 0, 1000), (700, 0, 1000)]))
        self.assertEqual(leg.reversed().places(), {0: (0, 0, 0), 1: (700, 0, 500)})

    def test_fixed(self):
        # One that hovers, and isn't led, is kept clear of; where it hovers in the only column there is no way.
        names, lasts = ["a", "b"], [(0, 0, 1500), (600, 0, 1000)]
        leg = legs.way_down(names, legs.below(lasts), lasts, [0, 0], rules(), fixed={1})
        self.assertTrue(all(1 not in stage.to for stage in leg.stages))
        with self.assertRaises(legs.NoWay):
            legs.down(names, legs.below(lasts), [(0, 0, 1500), (0, 0, 700)], [0, 0], rules(), fixed={1})

    def test_by_chance(self):
        # Pads and places by chance: what is planned is accepted as written, and apart where it is looked at.
        chance, planned = random.Random(4), 0
        for _ in range(25):
            n = chance.randint(2, 6)
            pads = [(500 * k, 500 * chance.randint(0, 2), 0) for k in range(n)]
            firsts = [(chance.randint(0, 5) * 500, chance.randint(0, 3) * 500, chance.choice((700, 1000, 1700, 2400))) for _ in pads]
            try:
                leg = up(pads, firsts)
            except legs.NoWay:
                continue
            planned += 1
            back = self.good(leg).reversed()
            self.assertIsNone(back.judge(dict(enumerate(pads))))
            self.good(back)
        self.assertGreater(planned, 5)

    def test_packets_are_what_is_judged(self):
        # The simulated planner flies a take-off and a go-to as the leg's show has them, to a tenth of a millimetre.
        leg = up([(0, 0, 0)], [(40, -30, 1000)])
        flown = choreo.flown_of(leg.text())
        curve, t = curves.curves_of(flown)["d0"], 0
        for number, stage in enumerate(leg.stages):
            a, b = leg.places(number)[0], stage.to[0]
            for n in range(11):
                s = common.air.smooth(n / 10)
                self.assertLess(math.dist(curve.at(t + stage.milliseconds * n / 10), [v + (w - v) * s for v, w in zip(a, b)]), 0.1)
            t += stage.milliseconds


@common.wants_program
class AllLand(unittest.TestCase):
    def of(self, text, **words):
        flown = choreo.flown_of(text.encode() if isinstance(text, str) else text)
        return landings.Landings(flown, [0] * len(flown.names), legs.Rules(flown.show.settings), **words)

    def test_below_each_other(self):
        # b flies through a's column from 5.5 to 6.2 s: there all fly on.
        it = self.of(UNDER)
        self.assertEqual([it.now(t) is None for t in (0, 4000, 5000, 5800, 6000, 6100, 7000, 10000)],
                         [True, True, True, False, False, False, True, True])
        self.assertEqual(it.next(5900), 6200)
        self.assertEqual(list(it.lines()), [
            "cue 1, 0.0 to 4.0 s: land now", "cue 2, 4.0 to 8.0 s: land now, but from 5.5 to 6.2 s fly on to 6.2 s: a and b",
            "cue 3, 8.0 to 10.0 s: land now"])
        self.assertEqual(self.of(ABOVE).next(0), None)
        self.assertIn("fly on to the way down", "".join(self.of(ABOVE).lines()))

    def test_carried_on(self):
        # 2 m/s: 400 mm to brake, and 200 until it begins.
        self.assertAlmostEqual(landings.carried(2000), 600)
        text = "choreo 1\ndrone a 0 0 1000000 0\ncue 3000\na move 2740000 0 1000000 0\nend\n"
        it = self.of(text)
        middle, far = it.reach(0, 1500)
        at = it.curves[0].at(1500)
        # from 50 ms before to 150 ms after it, 0.4 m and what it is carried on, 0.6 m at most: the middle of a metre
        self.assertTrue(340 < middle[0] - at[0] < 460 and 430 < far < 520, (middle, far))
        self.assertLess(it.reach(0, 3050)[1], 1)

    def test_speed_widens(self):
        # Two that meet head on at 400 mm are apart where they hover so, and not at speed.
        text = "choreo 1\ndrone a 0 0 1000000 0\ndrone b 3000000 400000 1000000 0\ncue 3000\na move 3000000 0 1000000 0\n" \
               "b move 0 400000 1000000 0\nend\n"
        it = self.of(text)
        self.assertEqual([it.now(t) is None for t in (0, 1500, 3000)], [True, False, True])

    def test_side_by_side_at_speed(self):
        # Side by side at one speed they are carried on alike: half of it is stray, and not all. 1.3 m/s: 200 ms of it and 0.3 m
        # to brake are 0.56 m, of which 0.28 are stray. With 0.12 m for the ellipsoid that is 0.80 m of two of them.
        text = "choreo 1\n" + "".join("drone d%d %d 0 1000000 0\n" % (k, 1000000 * k) for k in range(3)) + "cue 4200\n" + "".join(
            "d%d move %d 2500000 1000000 0\n" % (k, 1000000 * k) for k in range(3)) + "end\n"
        self.assertIsNone(self.of(text).refusal(2100))

    def test_silent(self):
        # b is silent and flies on below a: while b is still to come, a must not land; once b is past, it may.
        it = self.of(UNDER)
        self.assertIsNotNone(it.beside(4500, {1}))
        self.assertIsNone(it.beside(6800, {1}))
        self.assertIsNone(it.beside(500, {1}), "a is on the floor when b comes, 750 mm higher")

    def test_silent_may_hear(self):
        # b hovers silent above a: it may hear of the landing, and come down where a does. Beside a it may land or hover.
        for x, may in ((0, False), (1000000, True)):
            it = self.of("choreo 1\ndrone a 0 0 500000 0\ndrone b %d 0 1600000 0\ncue 4000\na hold\nb hold\nend\n" % x)
            self.assertIsNone(it.beside(2000, {1}))
            self.assertEqual(it.beside_silent(2000, {1}) is None, may)

    def test_off_its_curve(self):
        # b says that it is above a, and reaches 0.2 m around: then not all may land, and else they may.
        it = self.of("choreo 1\ndrone a 0 0 800000 0\ndrone b 1500000 0 1600000 0\ncue 4000\na hold\nb hold\nend\n")
        off = it.where({1: ((100, 0, 1600), 200.0)}, stages.LATE)
        self.assertEqual((off.late(), off.reach(1, 0), off.reach(0, 0)), (300, ((100, 0, 1600), 200.0), ((0, 0, 800), 0.0)))
        self.assertIsNotNone(off.refusal(2000))
        self.assertIsNone(it.where({1: ((1400, 0, 1600), 200.0)}, stages.LATE).refusal(2000))
        self.assertEqual((it.refusal(2000), it.late(), it.where({1: ((0, 0, -40), 0.0)}, 100).reach(1, 0)), (
            None, 100, ((0, 0, 0), 0.0)))

    def test_what_flies_is_apart(self):
        # Landings by chance at instants that are said to be good: each drone up to half of `late` earlier or later, carried
        # on along its way as the simulated drones are, and as far aside as `stray` says. Their ellipsoids share no point.
        chance, looked, nearest = random.Random(5), 0, math.inf
        swap = "choreo 1\nstray 30\nlate 80\n" + "".join("drone d%d %d 0 %d 0\n" % (k, 450000 * k, 1000000 + 700000 * (k % 2))
                                                        for k in range(4))
        for dx in (250000, -200000, 150000, 0):
            swap += "cue 1500\n" + "".join("d%d move %d %d %d 0\n" % (
                k, 450000 * k + dx, (k % 2) * dx, 1000000 + 700000 * (k % 2)) for k in range(4)) + "end\n"
        for text in (UNDER, swap, common.example("crossing_cured")[0], common.example("formation_change")[0]):
            it = self.of(text)
            low, half = it.rules, it.rules.show_late / 2
            for _ in range(150):
                t = chance.uniform(0, it.end)
                if it.now(t):
                    continue
                rows = []
                for k, curve in enumerate(it.curves):
                    at = min(max(t + chance.uniform(-half, half), 0), it.end)
                    turn = [chance.gauss(0, 1) for _ in range(3)]
                    size = math.hypot(*turn)
                    aside = [low.show_stray * v / size for v in turn]
                    rows.append((curve.at(at), it.speed(k, at), aside))
                length = stages.milliseconds_for(stages.LAND, [row[0][2] for row in rows]) / 1000
                for n in range(60):
                    seconds = length * n / 59
                    s, here = common.air.smooth(n / 59), []
                    for place, speed, aside in rows:
                        size = math.hypot(*speed)
                        on = common.air.carried_on(size / 1000, seconds) / (size / 1000) if size > 1 else 0.0
                        here.append([v + on * w + a for v, w, a in zip((*place[:2], place[2] * (1 - s)), speed, aside)])
                    for i in range(len(here)):
                        for j in range(i):
                            looked += 1
                            nearest = min(nearest, math.hypot((here[i][0] - here[j][0]) / low.radius, (here[i][1] - here[j][1])
                                                              / low.radius, (here[i][2] - here[j][2]) / low.height) / 2)
        self.assertGreater(looked, 50000)
        self.assertGreater(nearest, 1)

    def test_landings_from_the_ways(self):
        # b is above a's place in the end, and from there all may not land; on the pads they may. Landings by chance from
        # each stage at instants that are said to be good: commands up to 300 ms apart, and the drones carried on.
        leg, chance, looked, nearest = up([(700, 0, 0), (0, 0, 0)], [(0, 0, 500), (0, 0, 1500)]), random.Random(6), 0, math.inf
        rows = [landings.StageLandings(leg, number, [0, 0]) for number in range(len(leg.stages))]
        self.assertIsNone(rows[0].now(0))
        self.assertIsNotNone(rows[-1].now(rows[-1].end))
        for row in rows:
            good = [t for t, why in row.table() if why is None and t <= row.end]
            for t in good * 3:
                fly, late = [k for k in range(2) if k not in row.standing], [chance.uniform(0, 300) for _ in range(2)]
                told = [t + chance.uniform(0, 300) for _ in range(2)]

                def at(k, now):
                    curve = row.curves[k]
                    if now < told[k] or k not in fly:
                        return curve.at(now - late[k])
                    first, before = curve.at(told[k] - late[k]), curve.at(told[k] - late[k] - 1)
                    speed, seconds = [1000 * (v - w) for v, w in zip(first, before)], (now - told[k]) / 1000
                    size, down = math.hypot(*speed), common.air.smooth(seconds / 4)
                    on = common.air.carried_on(size / 1000, seconds) / (size / 1000) if size > 1 else 0.0
                    return [v + on * w for v, w in zip((*first[:2], first[2] * (1 - down)), speed)]
                for now in range(int(t), int(t) + 4600, 50):
                    a, b = at(0, now), at(1, now)
                    looked += 1
                    if max(a[2], b[2]) > 50:
                        nearest = min(nearest, math.hypot((a[0] - b[0]) / 240, (a[1] - b[1]) / 240, (a[2] - b[2]) / 600))
        self.assertGreater(looked, 1000)
        self.assertGreater(nearest, 1)

    def test_curves_that_are_cut(self):
        # What is judged of a silent drone is its curve, as far as the stray is larger for it; also where cues are short.
        short = "choreo 1\ndrone a 0 0 1000000 0\ndrone b 0 3000000 1000000 0\n" + "".join(
            "cue 400\nb move %d 3000000 %d 0\nend\n" % (200000 * (k % 2), 1000000 + 100000 * (k % 3)) for k in range(1, 20))
        for text, silent, most in ((UNDER, 1, 4), (short, 1, 8), (common.example("eased")[0], 0, 5)):
            it = self.of(text)
            for t in (0, 777, 2345):
                flown = choreo.flown_of(it.cut_text(it.times(t, 3000), {}, {silent}, 0.0))
                more = flown.show.settings["stray"][0] - it.rules.show_stray
                self.assertLessEqual(more, most)
                (cut,) = curves.curves_of(flown).values()
                for at in range(t, it.end, 7):
                    self.assertLess(math.dist(cut.at(at - t), it.curves[silent].at(at)), more, (at, more))

    def test_long_shows(self):
        # Ten minutes: the language's thousand cues are enough.
        it = self.of("choreo 1\ndrone a 0 0 1000000 0\ndrone b 1000000 0 1000000 0\nrepeat 60\ncue 10000\nb move 1000000 500000 1000000 0\n"
                     "end\nend\n", step=60000)
        self.assertIsNone(it.beside(100, {1}))

    def test_examples(self):
        for name in ("ring", "grid_to_ring_dealt"):
            it = self.of(common.example(name)[0])
            self.assertTrue(all(why is None for _, why in it.table()), name)


class Dealt(unittest.TestCase):
    def test_pads_beside_a_wreck(self):
        # b has fallen onto c's pad, and its own is free: c goes there, and a keeps its own. Pads are 1 m apart, and who is
        # nearer than 300 mm from above is in the way.
        it = types.SimpleNamespace(pads={0: (0, 0, 0), 1: (1000, 0, 0), 2: (2000, 0, 0)},
                                   rules=types.SimpleNamespace(side=lambda: 300))
        at = {0: (0, 0, 1000), 1: (1900, 50, 30), 2: (2000, 0, 1000)}
        self.assertEqual(ways.Ways.dealt_anew(it, at, {1}, {1}), {0: (0, 0, 0), 1: (1000, 0, 0), 2: (1000, 0, 0)})
        # one that is silent above its own pad, and doesn't lie there, keeps it: no pad is left for c
        self.assertIsNone(ways.Ways.dealt_anew(it, {**at, 0: (0, 0, 900)}, {0, 1}, ()))
        # it lies between two pads, near to none: each keeps its own; b lies near its own and to c's
        at[1] = (1500, 0, 0)
        self.assertEqual(ways.Ways.dealt_anew(it, at, {1}, {1}), it.pads)
        it.rules.side = lambda: 600
        self.assertIsNone(ways.Ways.dealt_anew(it, at, {1}, {1}))


@common.wants_program
class Tool(unittest.TestCase):
    def test_files(self):
        with tempfile.TemporaryDirectory() as room:
            status, out, error = common.run("legs", "--out", room, "examples/crossing_cured.choreo")
            self.assertEqual((status, error), (0, ""))
            for name in ("up", "down"):
                with open(os.path.join(room, name + ".choreo"), "rb") as file:
                    self.assertEqual(check(file.read()), 0)
            self.assertIn("way up: 2 stages, 4.0 s; judged as a whole; ", out)
            self.assertIn("way down: 5 stages, 11.6 s; judged stage by stage", out)
            self.assertIn("cue 2, 2.0 to 5.0 s: land now, but from 3.0 to 3.8 s fly on to 3.8 s: a and b", out)
            pads = os.path.join(room, "pads")
            with open(pads, "w") as file:
                file.write("# a on a riser\na 100000 0 300000\nb 1000000 -50000 0\n")
            status, out, _ = common.run("legs", "--dry", "examples/crossing_cured.choreo", pads)
            self.assertEqual((status, "a to (0.10, 0.00, 1.00)" in out), (0, True), out)
            self.assertEqual(sorted(os.listdir(room)), ["down.choreo", "pads", "up.choreo"])
            for text, said in (("a 0 0\n", "line 1: `NAME X Y Z` in micrometres is wanted"), ("a 0 0 0\n", "no pad for b")):
                with open(pads, "w") as file:
                    file.write(text)
                status, _, error = common.run("legs", "--dry", "examples/crossing_cured.choreo", pads)
                self.assertEqual((status, said in error), (70, True), error)

    def test_refused(self):
        status, out, _ = common.run("legs", "--dry", "-", text=ABOVE)
        self.assertEqual(status, 16)
        self.assertTrue(re.search("no way up: a and b come too near.*\nno way down: a and b", out), out)
        self.assertEqual(common.run("legs", "--dry", "examples/crossing.choreo")[:2][0], 5)
        self.assertEqual(common.run("legs", "--dry", "no such file")[0], 70)


if __name__ == "__main__":
    unittest.main()
