"""The end of a flight by itself, over simulated drones: what is said of each drone was said by it after its last order."""
import types
import unittest
import unittest.mock

import common
from hemtoghai.flying import clock, crazyradio, descent, firmware, fleet


class Clock(unittest.TestCase):
    def test_when_a_sample_was_measured(self):
        # By the drone's own clock, which wraps, and begins anew with the drone.
        state, values = fleet.State(), {"stateEstimate.x": 0.0, "stateEstimate.y": 0.0, "stateEstimate.z": 0.0, "pm.vbat": 4.0}
        for at, stamp, measured in ((10.0, 5000, 10.0), (10.3, 5100, 10.1), (10.5, 5600, 10.5), (20.0, 14900, 19.8),
                                    (30.0, 100, 30.0), (30.4, 200, 30.1), (40.0, fleet.WRAP - 1000, 40.0),
                                    (41.5, 500, 41.5)):
            state.take(values, at, stamp)
            self.assertAlmostEqual(state.measured, measured, msg=(at, stamp))
            self.assertEqual(state.heard, at)
            self.assertEqual(state.is_new, at >= 30.0, at)  # its stamps went back from 14900 to 100


class Same(unittest.TestCase):
    """Samples that have one place and one set of variances, to the last bit."""

    def of(self, rows):
        """A drone that said these rows of x and variance, a tenth of a second apart; where none is given it sends none."""
        state = fleet.State()
        for k, (x, variance) in enumerate(rows):
            values = {"stateEstimate.x": x, "stateEstimate.y": 0.0, "stateEstimate.z": 0.0, "pm.vbat": 4.0 - k / 100}
            values.update({} if variance is None else {name: variance for name in fleet.VARIANCES})
            state.take(values, clock.now() - (len(rows) - 1 - k) / 10, 100 * k)
        return state

    def test_for_how_long(self):
        # Ten tenths of a second between eleven samples are a second; one other bit, of a place or a variance, is news.
        other = 1.0 + 2 ** -23  # the next single-precision number after 1
        for rows, seconds in (([(1.0, None)] * 10, 0.0), ([(1.0, None)] * 11, 1.0), ([(1.0, 2e-5)] * 11, 1.0),
                              ([(1.0, None), (other, None)] * 10, 0.0), ([(1.0, 2e-5), (1.0, 2.006e-5)] * 10, 0.0),
                              ([(1.0, None)] * 20 + [(other, None)], 0.0), ([(1.0, None)] * 3 + [(other, None)] * 16, 1.5),
                              ([(float("nan"), None)] * 20, 0.0)):
            self.assertAlmostEqual(self.of(rows).same_for(), seconds, 2, rows)

    def test_what_is_said(self):
        # At its floor and above it, frozen and not; of a wreck its supervisor says that it doesn't fly.
        said, names = [], ["a"]
        for x, frozen in ((0.0, True), (0.0, False), (1.0, True), (1.0, False)):
            state = self.of([(0.0, 2e-5)] * 30)
            state.place, state.measured = [0.0, 0.0, x], clock.now()
            state.same_since = state.same_since if frozen else state.heard
            it = descent.Descent(types.SimpleNamespace(names=names, states=[state], cut=None, has_said=lambda k: True), [0.0],
                                 1.5, types.SimpleNamespace())
            self.assertEqual(it.is_down(0), x == 0.0 and not frozen)
            with unittest.mock.patch.object(descent, "say", said.append):
                it.account()
                state.info = firmware.IS_TUMBLED
                self.assertTrue(it.is_down(0))
                it.account()
        same, wreck = "end: a: said the same place for 2.9 s, (0.00, 0.00, %s) m: not known whether it is down", ", it says, at (0.00, 0.00, %s) m, "
        there, away = "0.00", "1.00"
        bare, fallen = "and doesn't say whether it is armed", "disarmed, and has tumbled"
        self.assertEqual(said, [
            same % there, "end: a: doesn't fly any more" + wreck % there + fallen,
            "end: a: down" + wreck % there + bare, "end: a: down" + wreck % there + fallen,
            same % away, "end: a: doesn't fly any more" + wreck % away + fallen,
            "end: a: IN THE AIR, it said 0.0 s ago, at (0.00, 0.00, 1.00) m", "end: a: doesn't fly any more" + wreck % away + fallen])


class Orders(unittest.TestCase):
    def test_a_go_to_that_is_said_again(self):
        # it takes what is left, by 0.3 s less at most, and never less than half; of other orders nothing changes
        go = firmware.go_to(1.0, 2.0, 3.0, 0.5, 2.0)
        for passed, seconds in ((0.0, 2.0), (0.25, 1.75), (0.3, 1.7), (1.5, 1.7)):
            self.assertEqual(firmware.left_of(go, passed, 0.3), firmware.go_to(1.0, 2.0, 3.0, 0.5, seconds))
        self.assertEqual(firmware.left_of(firmware.go_to(0, 0, 0, 0, 0.5), 1.0, 0.3), firmware.go_to(0, 0, 0, 0, 0.25))
        for data in (firmware.land(0.0, 2.0), firmware.take_off(1.0, 2.0), firmware.group(4), firmware.start(0)):
            self.assertEqual(firmware.left_of(data, 1.0, 0.3), data)

    def test_what_is_left(self):
        # A drone that is deaf for half a second hears then of a go-to of 2 s that the radio has kept, and at once of
        # those that were said after 0.3 s, which take 1.7 s.
        flown = common.example("crossing_cured")[1]
        radio = crazyradio.Radio(flown.names, common.world(flown))
        it, one, heard = fleet.Fleet(radio, fleet.Log(None, lambda _: None)), common.drone(flown, "a"), []
        begin, one.commanded = clock.now(), lambda data, at=None: heard.append((clock.now() - begin, data)) or 0
        one.faults["dead"] = 0
        task = clock.Task(lambda: it.command(0, firmware.go_to(1.0, 0.0, 1.0, 0.0, 2.0), "go"))
        clock.wait(0.5)
        del one.faults["dead"]
        task.join()
        clock.wait(0.1)
        radio.close()
        self.assertEqual([data for _, data in heard], [firmware.go_to(1.0, 0.0, 1.0, 0.0, seconds) for seconds in (2.0, 1.7)])
        self.assertTrue(all(0.5 <= at < 0.55 for at, _ in heard), heard)


class Last(unittest.TestCase):
    def setUp(self):
        self.said = []
        patch = unittest.mock.patch.object(descent, "say", self.said.append)
        patch.start()
        self.addCleanup(patch.stop)
        self.flown = common.example("crossing_cured")[1]

    def of(self, faults=(), every=100):
        """A descent of two drones that stand on their pads, armed, and send samples; and the second of them."""
        where = common.world(self.flown, faults)
        common.make_ready(self.flown)
        radio = crazyradio.Radio(self.flown.names, where)
        self.addCleanup(radio.close)
        it = fleet.Fleet(radio, fleet.Log(None, self.said.append))
        radio.each(lambda drone: it.begin_logs(drone, every))
        until = clock.now() + 5
        while clock.now() < until and any(state.place is None for state in it.states):
            clock.wait(0.02)
        watch = types.SimpleNamespace(look=lambda: None, end=lambda: None, over=False)
        return descent.Descent(it, [0.0, 0.0], 1.5, watch), common.drone(self.flown, "b")

    def test_who_is_down(self):
        # 0.12 m above or below the floor, and not flying; one that has tumbled lies wherever it is
        it, _ = self.of()
        flies, wreck = firmware.IS_FLYING | firmware.IS_ARMED, firmware.IS_TUMBLED
        for high, info, is_down in ((0.0, 0, True), (0.12, 0, True), (-0.12, 0, True), (0.13, 0, False), (-0.13, 0, False), (-1.0, 0, False),
                                    (0.0, flies, False), (0.0, firmware.IS_FLYING, True), (1.0, firmware.IS_FLYING, False),
                                    (1.0, wreck, True), (1.0, wreck | flies, False), (0.0, None, True),
                                    (-1.0, None, False)):
            state = fleet.State()
            state.place, state.info, state.heard = [0.0, 0.0, high], info, clock.now()
            it.fleet.states[0] = state
            self.assertEqual(it.is_down(0), is_down, (high, info))
        self.assertEqual(it.wrecks(), [])
        state.info = wreck
        self.assertEqual((it.wrecks(), it.finish([])), ([0], False))

    def test_what_is_refused(self):
        # what a drone refuses is said in words: a memory that it hasn't, and a block of a log that it doesn't make
        it, b = self.of()
        with self.assertRaisesRegex(crazyradio.Trouble, "b refuses to have its memory 9 read: status 5"):
            it.fleet.radio.fence(1, 9)
        take = b.log
        for asks, status, words in ((6, 17, "b refuses to have a log made: status 17, the block is there already"),
                                    (3, 2, "b refuses to begin its log: status 2, no such variable or block: are two drones of one address on?"),
                                    (3, 99, "b refuses to begin its log: status 99, which this tool does not know")):
            b.log = lambda channel, data, asks=asks, status=status: (
                bytes([*data[:2], status]) if channel == 1 and data[0] == asks else take(channel, data))
            with self.assertRaises(crazyradio.Trouble) as why:
                it.fleet.begin_logs(1, 100)
            self.assertEqual(str(why.exception), words)

    def test_disarmed(self):
        it, _ = self.of()
        it.disarm(it.all)
        self.assertTrue(it.finish([]))
        del self.said[:-2]
        self.assertEqual(self.said, ["end: a: down, it says, at (0.00, 0.00, 0.00) m, disarmed",
                                     "end: b: down, it says, at (1.00, 0.00, 0.00) m, disarmed"])

    def test_one_that_arms_by_itself(self):
        # It obeys, and arms again with its next sample: what is said is of that one, and not of the one before.
        for _ in range(5):
            it, b = self.of([("b", "auto", 0), ("b", "unarmed", 0)], every=1000)
            it.disarm(it.all)
            del self.said[:]
            it.account()
            self.assertEqual("ARMED" in self.said[1], b.armed, self.said)
            self.assertGreater(it.fleet.states[1].measured, it.fleet.told_off[1])
            self.assertTrue(it.finish([]))
            it.still_armed = {"b"}  # one that obeys nobody, and doesn't arm by itself
            self.assertFalse(it.finish([]))
            it.fleet.radio.close()

    def test_one_that_says_nothing_any_more(self):
        # Its link is gone when it is told: its last sample is of before, and says nothing of arming.
        for order in (lambda it: it.disarm(it.all), lambda it: it.cut()):
            it, b = self.of()
            it.longest, b.faults["dead"] = 100.0, 0
            order(it)
            it.account()
            self.assertRegex(self.said[-1], "end: b: down, it says, .*, and hasn't said since whether it is armed")
            self.assertFalse(it.finish([]))
            it.fleet.radio.close()


if __name__ == "__main__":
    unittest.main()
