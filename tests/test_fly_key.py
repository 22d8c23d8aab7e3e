"""./show fly and its one key: Ctrl-C lands, in each phase of a flight, who can, at once; and nobody waits long for a drone
that is astray, lost or silent.

The table says by hand who can: nobody else is above or below it, or goes there. All flights are simulated.
"""
import re
import tempfile
import unittest

import common
import flights
from test_fly import fly

# Three that hover three metres apart, and two above each other with a third one aside, from pads beside each other.
APART = "choreo 1\nstray 60\nlate 60\n" + "".join(
    "drone %s %d 0 2000000 0\n" % (name, 3000000 * k) for k, name in enumerate("abc")) + "cue %d\nend\n"
ABOVE = "choreo 1\nstray 40\nlate 50\ndrone a 0 0 500000 0\ndrone b 0 0 1500000 0\ndrone c 4000000 0 1000000 0\ncue %d\nend\n"
# b flies through below a's place, and c is far away.
UNDER = """choreo 1
stray 40
late 50
drone a 0 0 1700000 0
drone b -1500000 0 800000 0
drone c 4000000 0 800000 0
cue 4000
end
cue 4000
b move 1500000 0 800000 0
end
cue 12000
end
"""
ASIDE = "a 700000 0 0\nb 0 0 0\nc 4000000 0 0\n"
SIDES = "".join("%s %d 1000000 0\n" % (name, 3000000 * k) for k, name in enumerate("abc"))
# What is run before a flight: it says in the end how many seconds after the first Ctrl-C each drone was told to land. A
# flight in which the words of its script never come is ended.
NOTED = """
import atexit, threading
ends = threading.Timer(240, lambda: os._exit(99))
ends.daemon = True
ends.start()
from hemtoghai.flying import clock, crew
sys.path[:0] = [common.SIMULATED]
from cflib import air
told, presses, commanded, pressed = {}, [], air.Drone.commanded, crew.Watch.pressed
def noted(drone, data, heard=None):
    if data[0] == 8 and presses:
        told.setdefault("abc"[int(drone.uri[-2:], 16) - 1], clock.now() - presses[0])
    return commanded(drone, data, heard)
def press(watch, number):
    presses.append(clock.now())
    pressed(watch, number)
air.Drone.commanded, crew.Watch.pressed = noted, press
atexit.register(lambda: crew.say("simulated: told to land: %s" % " ".join("%s after %.2f s," % it for it in sorted(told.items()))))
"""


def pressed(rows, show, pads=None, words=(), typed="yes\nyes\nyes\n"):
    """A flight in which Ctrl-C is pressed by the rows of a script: its status, what it says, and its log. Who can't be
    reached is left."""
    with tempfile.TemporaryDirectory() as place:
        room = common.Folder()
        room.place = place
        room.write("pads", pads or "")
        given = [*words, *(["--pads", room.path("pads")] if pads else [])]
        return fly(given, show, typed, [*rows, (0, "type:leave", "land, stop or leave")], NOTED)


def fault(name, kind):
    return ["--fault", "%s:%s" % (name, kind)]


def after(words, seconds=0.0):
    """A Ctrl-C so many seconds after some words."""
    return [(seconds, "press:INT", words)]


TWO, ONE = "yes\nyes\n", "yes\n"  # nobody answers `Start?`, and `Take off?`
LANDS, NOW_C = "Ctrl-C: landing all; once more stops the motors\n", r"Ctrl-C, once more .*\((a and b|b and a)\); landing now: c\n"
# By phase a flight, its status, who is told to land within a second of it, and what is said.
PHASES = {
    "on the pads": ((after("Take off?"), APART % 9000, None, (), ONE), 1, "", "\nnot flown: Ctrl-C|\nCtrl-C: not flown"),
    "arming": (([(0, "type:yes", "Take off?"), (0.02, "press:INT", "")], APART % 9000, None, (), ONE), 1, "", "Ctrl-C"),
    "going up": ((after("taking off", 2.0), APART % 9000), 1, "abc", LANDS),
    "waiting for the go": ((after("Start?", 1.0), APART % 9000, None, (), TWO), 1, "abc", LANDS),
    "in the show": ((after("started: ", 2.0), APART % 9000), 1, "abc", LANDS),
    "going to the pads": ((after("flown: ", 1.5), APART % 3000, SIDES), 1, "abc", LANDS),
    "landing": ((after("landing, 3 drones", 1.0), APART % 3000), 0, "", "the landing goes on"),
    # a goes to below b, hovers there, and comes back: c alone is clear of the others
    "above, going up": ((after("taking off", 5.0), ABOVE % 9000, ASIDE), 1, "c", NOW_C),
    "above, waiting": ((after("Start?", 1.0), ABOVE % 9000, ASIDE, (), TWO), 1, "c", NOW_C),
    "above, going to the pads": ((after("flown: ", 1.0), ABOVE % 3000, ASIDE), 1, "c", NOW_C),
    # in the show the crew is obeyed, and told what isn't judged
    "above, in the show": ((after("started: ", 2.0), ABOVE % 9000, ASIDE), 1, "abc", LANDS + "THIS LANDING ISN'T SHOWN APART: (a and b|b and a)\n"),
    "on the way home": ((after("FAULT: c", 0.3), ABOVE % 9000, ASIDE, fault("c", "leaves:7"), TWO), 1, "c", NOW_C),
    # b isn't heard: where it flies on it passes below a
    "a landing waits": ((after("flying on", 0.3), UNDER, None, [*fault("b", "gap:2.4"), *fault("c", "drains:1.2"), "--patience", "2"]),
                        1, "ac", LANDS),
    "one is silent": ((after("FAULT: b is silent", 0.3), ABOVE % 9000, ASIDE, fault("b", "mute:7"), TWO), 1, "c", "landing now: c\n"),
    "one is far away": ((after("nobody waits for it", 0.3), ABOVE % 9000, ASIDE, fault("c", "flees:7:up"), TWO), 1, "c", NOW_C),
}
RUNS = flights.Flights(3, {name: (pressed, *given) for name, (given, *_) in PHASES.items()})
begun, forget, setUpModule = RUNS.begun, RUNS.forget, RUNS.set_up
# Seconds, and those after which each that hears was told: the rest of a stage, a wait of five for who isn't heard, and a
# way home of two stages.
AT_ONCE, AT_LAST = 1.0, 20.0


def told_of(out):
    """By drone after how many seconds it was told to land."""
    return {name: float(seconds) for name, seconds in re.findall("([abc]) after ([0-9.]+) s,", out)}


@common.wants_program
class OneKey(unittest.TestCase):
    def test_each_phase(self):
        for name, (_, status, able, words) in PHASES.items():
            with self.subTest(name):
                came, out, _ = begun(name).result()
                self.assertEqual(came, status, out)
                self.assertRegex(out, words)
                self.assertEqual("".join(sorted(it for it, seconds in told_of(out).items() if seconds <= AT_ONCE)), able, out)
                self.assertLess(max(told_of(out).values(), default=0.0), AT_LAST, out)
                self.assertNotIn("Traceback", out)


if __name__ == "__main__":
    unittest.main()
