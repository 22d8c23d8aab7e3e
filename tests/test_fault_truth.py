"""What bench/flights takes for true of a drone's way: when it has left it. All values are by hand."""
import unittest
from types import SimpleNamespace

import common
import fault_truth
from hemtoghai.geometry.curves import ease

# A way up of a metre in two seconds is at 199.85 mm after 700 ms, at 391.71 after 900, at 500 after 1,000, and at 710.21
# after 1,200. It may be 90 mm off it, the show's stray and 30, and 300 ms late.
TEXT = "choreo 1\nstray 60\nlate 60\ndrone a 0 0 1000000 0\n"


def rising(began, height):
    """A drone that was told at an instant to rise, and is at a height now, in mm."""
    return SimpleNamespace(called="", starts=[], plan=("way", began, [0, 0, 0], [0, 0, 1], 2.0),
                           planned=lambda at: [0, 0, ease((at - began) / 2)], is_at=lambda at: [0, 0, height / 1000])


def are_out(drones, now=1.0, text=TEXT):
    """Who is out of its stray, by a look at drones at an instant."""
    names = "abcd"[:len(drones)]
    world = SimpleNamespace(WORLD=SimpleNamespace(drones=dict(enumerate(drones))))
    truth = fault_truth.Truth(world, SimpleNamespace(now=lambda: now), {"names": names, "text": text}, [None] * len(drones), 1000)
    truth.look()
    return "".join(sorted(truth.left))


class Ways(unittest.TestCase):
    def test_where_it_has_left_its_way(self):
        # the lowest and the greatest heights that are on the way: where it was 300 ms ago, and where it is now
        for height, is_out in ((109, True), (111, False), (410, False), (590, False), (592, True)):
            self.assertEqual(are_out([rising(0.0, height)]), "a" * is_out, height)

    def test_the_legs_own_stray(self):
        # a show's stray of 40 is 80 on the ways, as far as a drone may be off at the start
        narrow = TEXT.replace("stray 60", "stray 40")
        for height, is_out in ((119, True), (121, False), (580, False), (582, True)):
            self.assertEqual(are_out([rising(0.0, height)], text=narrow), "a" * is_out, height)

    def test_one_that_heard_late(self):
        # The leg began 200 ms before b heard of it. After 1,200 ms of the leg it may be where its own move is then, and
        # where that is 100 ms before this instant.
        for height, is_out in ((301, True), (303, False), (799, False), (801, True)):
            self.assertEqual(are_out([rising(-0.2, 710), rising(0.0, height)]), "b" * is_out, height)
        # nor does it count which leg another flies long before
        self.assertEqual(are_out([rising(-9.0, 1000), rising(0.0, 111)]), "")


if __name__ == "__main__":
    unittest.main()
