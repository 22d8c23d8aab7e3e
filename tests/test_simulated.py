"""The simulated drones that fly: the planner's states, landings from speed, and what is lost where a link is.

They are from memory of the firmware, never compared with a drone.
"""
import math
import struct
import unittest

import common
from hemtoghai.flying import clock
from hemtoghai.flying import firmware
from hemtoghai.flying import landings
from cflib import air


class Planner(unittest.TestCase):
    def setUp(self):
        self.flown = common.example("crossing_cured")[1]

    def of(self, *faults):
        """Drone a, armed."""
        common.world(self.flown, [("a", *fault) for fault in faults])
        one = common.drone(self.flown, "a")
        one.parameters[0] = one.armed = True
        return one

    def test_take_off_from_idle_alone(self):
        one = self.of()
        self.assertEqual(one.commanded(firmware.land(0.0, 2.0)), 1, "a landing of one that is idle")
        self.assertEqual(one.commanded(firmware.take_off(1.0, 2.0)), 0)
        self.assertEqual(one.commanded(firmware.take_off(1.0, 2.0)), 1, "a second take-off")
        clock.wait(2.2)
        self.assertAlmostEqual(one.is_at()[2], 1.0)
        self.assertEqual(one.commanded(firmware.land(0.0, 2.0)), 0)
        self.assertEqual(one.commanded(firmware.land(0.5, 2.0)), 1, "a landing of one that lands")
        clock.wait(2.2)
        self.assertEqual((one.is_at()[2], one.is_idle(), one.hits), (0.0, True, 0.0))

    def test_unarmed(self):
        one = self.of()
        one.armed = False
        self.assertEqual(one.commanded(firmware.take_off(1.0, 2.0)), air.EBUSY)

    def test_riser(self):
        # A landing below what it stands on goes on until it hits that.
        one = self.of(("riser", 0))
        self.assertEqual(one.is_at()[2], 0.5)
        one.commanded(firmware.take_off(1.5, 2.0))
        clock.wait(2.1)
        one.commanded(firmware.land(0.0, 2.0))
        clock.wait(2.3)
        one.is_at()
        self.assertTrue(0.5 < one.hits < 2.0, one.hits)

    def test_ends_high(self):
        # A landing that ends in the air: the motors stop there.
        one = self.of()
        one.commanded(firmware.take_off(1.0, 2.0))
        clock.wait(2.1)
        one.commanded(firmware.land(0.6, 2.0))
        clock.wait(2.2)
        self.assertEqual((one.is_at()[2], one.is_idle()), (0.0, True))

    def test_carried_on(self):
        # By no more than what is judged, at any speed; at 2 m/s by some 0.4 m.
        for speed in (0.1, 0.5, 1.0, 2.0, 3.0):
            far = max(air.carried_on(speed, k / 100) for k in range(500))
            self.assertLessEqual(1000 * far, landings.carried(1000 * speed), speed)
        self.assertTrue(0.35 < max(air.carried_on(2.0, k / 100) for k in range(500)) < 0.45)
        one = self.of()
        common.make_ready(self.flown, loaded=True)
        one.begin(struct.pack("<BBBBBf", 5, 0, 0, 0, 0, 1.0))
        clock.wait(3.4)  # in the middle of its fastest cue
        here = one.planned()
        self.assertEqual(one.commanded(firmware.land(0.0, 2.0)), 0)
        clock.wait(0.3)
        self.assertGreater(math.dist(one.is_at()[:2], here[:2]), 0.02)
        clock.wait(2.5)
        self.assertLess(math.dist(one.is_at()[:2], here[:2]), 0.15)

    def test_started_anew(self):
        one = self.of(("reboots", 0))
        one.memories[2][1][:4] = b"\1\2\3\4"
        one.table[0], one.blocks = (1, 1, 0, 1), {1: []}
        one.memory(1, firmware.read(2, 0, 10))
        self.assertTrue(one.is_gone())
        self.assertEqual((bytes(one.memories[2][1][:4]), one.table[0], one.blocks, one.armed), (bytes(4), None, {}, False))
        clock.wait(1.1)
        self.assertFalse(one.is_gone())

    def test_arming(self):
        one = self.of(("timeout", 0))
        one.armed = False
        one.platform(0, firmware.arm(True))
        self.assertTrue(one.variable("supervisor.info", clock.now()) & firmware.IS_ARMED)
        clock.wait(31)
        self.assertFalse(one.variable("supervisor.info", clock.now()) & firmware.IS_ARMED)
        one = self.of(("auto", 0))
        one.platform(0, firmware.arm(False))
        self.assertTrue(one.variable("supervisor.info", clock.now()) & firmware.IS_ARMED)

    def test_logs_go_with_the_link(self):
        one = self.of(("gap", 0))
        one.blocks, one.curve_began = {1: [[], None, 0]}, clock.now()
        one.polled = clock.now()
        one.log_what_is_due()
        self.assertIn(1, one.blocks)
        clock.wait(2.5)
        one.log_what_is_due()
        self.assertEqual(one.blocks, {})


class Faults(unittest.TestCase):
    """What simulated drones do by a fault, by hand."""

    def of(self, *faults, **settings):
        """Drones a and b, armed, with their trajectories; a has the faults."""
        self.flown = common.example("crossing_cured")[1]
        common.world(self.flown, [("a", *fault) for fault in faults], **settings)
        common.make_ready(self.flown, loaded=True)
        return common.drones(self.flown)

    def risen(self, *faults):
        """The same, where a rose to a metre in two seconds."""
        one, two = self.of(*faults)
        one.commanded(firmware.take_off(1.0, 2.0))
        clock.wait(2)
        return one, two

    def start(self, one):
        one.begin(struct.pack("<BBBBBf", 5, 0, 0, 0, 0, 1.0))

    def test_frozen(self):
        one, _ = self.risen(("frozen", 2.0))
        clock.wait(1)
        here = one.estimate(clock.now())
        self.assertEqual(here[2], 1.0)
        one.go([3.0, 0.0, 1.0], 2.0)
        clock.wait(3)
        self.assertEqual((one.estimate(clock.now()), one.is_at()), (here, [3.0, 0.0, 1.0]))

    def test_late_answers(self):
        one, _ = self.risen(("slow", 0))
        one.up_queue, said = [], []
        one.take(firmware.packet(firmware.COMMANDER, 0, firmware.group(1)))
        for seconds in (0, 1.2, 0.2):
            clock.wait(seconds)
            said.append(one.poll(b"\xFF"))
        self.assertEqual(said, [air.NOTHING, air.NOTHING, bytes([0x8C, 0, 1, 0, 0])])

    def test_motors_that_stop(self):
        # half a metre after 0.32 s, by 4.9 m/s^2; what starts anew is heard again after a second, and its clock is at 0
        for fault, gone in (("falls", 0), ("dark", 1), ("restarts", 1)):
            one, _ = self.risen((fault, 1.0))
            self.start(one)
            clock.wait(1)
            high = one.planned()[2]
            self.assertEqual(one.is_gone(), bool(gone), fault)
            one.is_at()
            clock.wait(0.32)
            self.assertAlmostEqual(high - one.is_at()[2], 0.5, 2, fault)
            clock.wait(2)
            info = one.supervisor(clock.now())
            self.assertEqual((one.is_at()[2], one.is_gone()), (0.0, fault == "dark"), fault)
            self.assertEqual(bool(info & firmware.IS_TUMBLED), fault != "restarts", fault)
            self.assertEqual(clock.now() - one.booted < 3, fault == "restarts")

    def test_an_old_cell(self):
        one, _ = self.risen(("sinks", 2.0))
        clock.wait(1)
        self.assertAlmostEqual(one.is_at()[2], 0.6)
        self.assertLess(one.volts(clock.now()), 3.2)
        clock.wait(2.1)
        self.assertFalse(one.cut)
        one.is_at()
        self.assertTrue(one.cut)

    def test_a_fault_from_the_take_off(self):
        # the same fault counts from its start, or where that is asked for from its take-off
        for rising, gone in (((), False), (("falls",), True)):
            one, _ = self.risen(("falls", 2.5))
            one.after_rise = air.AFTER_RISE | set(rising)
            clock.wait(0.4)
            self.assertFalse(one.is_due("falls"))
            clock.wait(0.2)
            self.assertEqual(one.is_due("falls"), gone)
            self.start(one)
            clock.wait(2.6)
            self.assertTrue(one.is_due("falls"))

    def test_an_estimate_that_leaps(self):
        # It goes back by a metre a second at most, and by half of what is left of the last half metre each 0.35 s.
        for leap, after, gone in ((0.5, 0.0, 0.0), (0.5, math.log(2) / 2, 0.25), (0.2, math.log(2) / 2, 0.1), (2.5, 1.5, 1.5),
                                  (2.5, 2.0, 2.0), (2.5, 2 + math.log(2) / 2, 2.25)):
            self.assertAlmostEqual(air.followed(leap, after), gone, 9, (leap, after))
        one, _ = self.of(("leaps", 2.0), leap=0.4)
        one.commanded(firmware.take_off(1.0, 2.0))
        clock.wait(2 + math.log(2) / 2)
        self.assertAlmostEqual(one.is_at()[1], -0.2, 4)
        self.assertAlmostEqual(one.estimate(clock.now())[1], 0.2, 4)
        one.commanded(firmware.land(0.0, 2.0))
        clock.wait(2.1)
        # it stands where it came down, and believes to be at its pad
        self.assertAlmostEqual(one.is_at()[1], -0.4, 1)
        self.assertAlmostEqual(one.estimate(clock.now())[1], 0.0, 1)

    def test_late_samples(self):
        one, _ = self.of(("lags", 1.0))
        self.start(one)
        one.blocks, one.up_queue = {1: [[], 0.1, clock.now()]}, []
        said = []
        for _ in range(45):  # each tenth of a second, with the age of what came
            clock.wait(0.1)
            now = int(1000 * (clock.now() - one.booted))
            raw = one.poll(b"\xFF")
            if raw != air.NOTHING:
                said.append((round(one.flown(), 1), now - int.from_bytes(raw[2:5], "little")))
        self.assertLess(max(age for at, age in said if at < 0.9), 150)
        self.assertEqual([at for at, _ in said if 1.1 < at < 1.9], [])
        self.assertGreater(min(age for at, age in said if at > 2.1), 950)
        self.assertLess(max(age for at, age in said), 1150)

    def test_its_radio_chip_alone(self):
        one, _ = self.of(("numb", 1.0))
        self.start(one)
        for seconds, group in ((0, 4), (1.1, 4)):  # a packet to it, and one to all
            clock.wait(seconds)
            raw = firmware.packet(firmware.COMMANDER, 0, firmware.group(4 if not seconds else 2))
            acked = [air.WORLD.transfer(one.uri, raw) for _ in range(3)]
            air.WORLD.broadcast(0, 80, raw)
            self.assertEqual((one.group, {ack for ack, _ in acked}), (group, {True}))
        self.assertEqual({came for _, came in acked}, {air.NOTHING})

    def test_one_under_two_names(self):
        one, two = self.of(("double", 0))
        self.assertEqual((one.is_at(), two.is_at()), ([1, 0, 0], [1, 0, 0]))

    def test_who_is_left_out(self):
        self.of()
        air.WORLD.add_stranger("radio://0/80/2M/E7E7E7E703", [2, 0, 0], 0, b"", 0, "c")
        air.WORLD.add_stranger("radio://0/80/2M/E7E7E7E780", [3, 0, 0], 0, b"", 0)
        lines = list(air.WORLD.lines(self.flown.names))
        self.assertEqual([line.split(" at ")[0] for line in lines[:4]],
                         ["simulated: a", "simulated: b", "simulated: c", "simulated: stranger 1"])

    def test_exchanged_by_the_positioning(self):
        one, two = self.of(("swapped", 1.0))
        for it in (one, two):
            self.start(it)
        self.assertEqual(one.estimate(clock.now()), one.is_at())
        clock.wait(2)
        now = clock.now()
        self.assertEqual((one.estimate(now), two.estimate(now)), (two.is_at(now), one.is_at(now)))
        # a second later each is 0.75 m farther from the other than it should be
        apart = math.dist(one.planned(now), two.planned(now))
        self.assertAlmostEqual(math.dist(one.is_at(now), two.is_at(now)), apart + 1.5, 1)

    def test_on_the_floor(self):
        for fault, places in (("pushed", ([0.12, 0, 0], [1, 0, 0])), ("trades", ([1, 0, 0], [0, 0, 0]))):
            self.assertEqual([it.is_at() for it in self.of((fault, 0))], list(places), fault)

    def test_a_small_memory(self):
        one, _ = self.of(("small", 0))
        self.assertEqual([one.memory(2, struct.pack("<BI", 2, at) + bytes(10))[5] for at in (0, 10, 11)], [0, 0, air.EIO])

    def test_two_of_one_address(self):
        one, _ = self.of(("twin", 0))
        for _ in range(40):
            air.WORLD.transfer(one.uri, firmware.packet(firmware.COMMANDER, 0, firmware.group(4)))
        self.assertEqual((one.group, one.twin.group, one.twin.is_at()), (4, 4, [0, 0.5, 0]))

    def test_a_fast_clock(self):
        stamps = []
        for faults in ((), (("fast", 0),)):
            one, _ = self.of(*faults)
            one.booted, one.blocks = clock.now(), {1: [[], 0.1, clock.now()]}
            clock.wait(100)
            one.log_what_is_due()
            stamps.append(int.from_bytes(one.up_queue[-1][2:5], "little"))
        self.assertEqual(stamps, [100000, 100030])

    def test_links(self):
        one, _ = self.risen(("mute", 3.0))
        self.assertFalse(one.is_gone())
        clock.wait(1.1)
        self.assertTrue(one.is_gone())
        one, _ = self.of(("blinks", 1.0))
        self.start(one)
        for seconds, gone in ((0.9, False), (0.2, True), (0.3, True), (0.2, False)):
            clock.wait(seconds)
            self.assertEqual(one.is_gone(), gone)

    def test_what_comes_over_a_dongle(self):
        one, two = self.of(usb=1.0, noise=5.0)
        self.start(one)
        begun, lost = clock.now(), []
        while clock.now() < begun + 9:
            lost.append((clock.now() - begun, not air.WORLD.transfer(two.uri, b"\xFF")[0]))
        shares = [sum(it for at, it in lost if low <= at < high) / sum(low <= at < high for at, _ in lost)
                  for low, high in ((0, 0.99), (1.01, 2.19), (2.21, 4.99), (5, 8), (8.01, 9))]
        self.assertEqual([shares[k] for k in (0, 1, 2, 4)], [0, 1, 0, 0])
        self.assertTrue(0.8 < shares[3] < 0.95, shares)  # two thirds are lost each way: 8 of 9 aren't answered


if __name__ == "__main__":
    unittest.main()
