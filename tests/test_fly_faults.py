"""./show fly where drones, dongles and people have faults that were flown with another stand-in for them: what becomes of
each, and that no fault by which a drone was elsewhere ends with status 0, or is said to be kept."""
import re
import unittest

import common
import flights
from test_fly import b, fly
from test_fly_hard import UNDER, end, strays, with_pads

# What was judged: two that hover, 1.5 m apart; a and b, of whom b flies through below a.
TWO = strays()
# b flies over a's pad while a is elsewhere, and falls there; c and d are above each other, so that no landing of all is
# shown apart: all fly on, and a has to come down on another pad than its own.
WRECKED = """choreo 1
stray 40
late 50
drone a 0 0 1000000 0
drone b 1500000 0 1000000 0
drone c 5000000 0 500000 0
drone d 5000000 0 1600000 0
cue 3000
a move 0 1500000 1000000 0
end
cue 3000
b move 0 0 1000000 0
end
cue 2000
end
"""
PADS = "a 0 0 0\nb 1500000 0 0\nc 5000000 0 0\nd 6500000 0 0\n"
# Of a drone whose samples have one place no line says that it is in the air, or down: in truth it has landed.
SAME = r"end: b: said the same place for \d+\.\d s, \(-?\d\.\d\d, 0\.00, \d\.\d\d\) m: not known whether it is down\n"
SWAPPED = r"FAULT: ([ab] is \d+ mm from its (curve|way)(; )?)+; (landing all|flying on)"
# By a name the words of a flight, its show, its status, what it says, and how high b is in the end, in truth.
FAULTS = {
    "frozen going up": (b("frozen:1"), TWO, 1, [r"FAULT: b is \d+ mm from its way; landing all", SAME], 0),
    "frozen waiting": (b("frozen:1.9"), TWO, 1, [r"FAULT: b is \d+ mm from its", SAME], 0),
    "frozen in the show": (b("frozen:8"), UNDER, 1, [r"FAULT: b is \d+ mm from its curve; landing all", SAME], 0),
    "slow": (b("slow"), TWO, 1, ["FAULT: b doesn't answer the start, and may have taken it; landing all\n", "landed\n"], 0),
    "restarts": (b("restarts:1.5"), TWO, 1, ["FAULT: b started anew in flight; landing all\n"], 0),
    "dark": (b("dark:1.5"), TWO, 1, ["FAULT: b is silent for 3.0 s; landing all", "end: b: NOT KNOWN: silent for"], 0),
    "sinks going up": (b("sinks:1"), TWO, 1, [r"FAULT: b is \d+ mm from its way; landing all\n"], 0),
    "sinks in the show": (b("sinks:8"), UNDER, 1, [r"FAULT: b is \d+ mm from its curve; landing all\n"], 0),
    "swapped": (b("swapped:1"), TWO, 1, [SWAPPED], 0),
    "swapped coming down": (b("swapped:5"), TWO, 1, [SWAPPED], 0),
    "mute going up": (b("mute:1"), TWO, 1, ["FAULT: b is silent for 3.[0-9] s; landing all", "end: b: NOT KNOWN: silent for"], 1),
    "small": (b("small"), TWO, 1, ["b refuses to have its memory 2 read: status 5"], 0),
    # these harm nothing
    "pushed": (b("pushed"), TWO, 0, ["kept: ", "landed\n"], 0), "fast": (b("fast"), TWO, 0, ["kept: ", "landed\n"], 0),
    "blinks": (b("blinks:1"), TWO, 0, ["kept: ", "landed\n"], 0),
    "usb": (["--sim", "usb=1"], TWO, 0, ["kept: ", "landed\n"], 0),
    "noise": (["--sim", "noise=0.5"], TWO, 0, ["kept: ", "landed\n"], 0),
    "blanks": (["--sim", "blanks=2", "--strangers"], TWO, 0, ["kept: ", "landed\n", r"stranger 2 at \(1.50, -0.50, 0.00\) m, armed, 0 starts"], 0),
}
RUNS = flights.Flights(3, {**{name: (fly, *row[:2]) for name, row in FAULTS.items()},
                           "wrecked": (with_pads, b("falls:6.5"), PADS, WRECKED)})
begun, forget, setUpModule = RUNS.begun, RUNS.forget, RUNS.set_up


@common.wants_program
class Faults(unittest.TestCase):
    def test_each(self):
        for name, (_, _, status, lines, high) in FAULTS.items():
            came, out, _ = begun(name).result()
            self.assertEqual(came, status, name + ":\n" + out)
            for line in lines:
                self.assertRegex(out, line, name)
            self.assertNotIn("Traceback", out, name)
            self.assertEqual("kept: " in out, status == 0, name + ":\n" + out)
            self.assertEqual((end(out, "a")[0], end(out, "b")[0]), (0.0, high), name + ":\n" + out)

    def test_logs(self):
        # no log of a flight in which one was elsewhere is kept, and each other is
        for name, word in (("restarts", "NOT K"), ("sinks in the show", "NOT K"), ("frozen in the show", "NOT K"), ("usb", "KEPT"),
                           ("noise", "KEPT"), ("fast", "KEPT")):
            _, out, rows = begun(name).result()
            status, said, _ = flights.judged(rows, FAULTS[name][1])
            self.assertRegex(said, "(?m)^%s" % word, name)
            self.assertEqual(status, word != "KEPT", name)

    def test_a_wreck_on_a_pad(self):
        status, out, _ = begun("wrecked").result()
        self.assertEqual(status, 1, out)
        self.assertRegex(out, r"FAULT: b has tumbled; flying on: a landing of all now isn't shown apart \(c and d\)\n")
        self.assertIn("PADS ARE DEALT ANEW: a goes to that of b\n", out)
        self.assertNotIn("NOT JUDGED", out)
        where = dict(re.findall(r"simulated: ([abcd]) at (\(.*\)) m", out))
        self.assertEqual(where, {"a": "(1.50, 0.00, 0.00)", "b": "(0.00, 0.00, 0.00)", "c": "(5.00, 0.00, 0.00)",
                                 "d": "(6.50, 0.00, 0.00)"})
        self.assertGreater(float(re.search("nearest two of which one flew: [a-d] and [a-d], ([0-9.]+) m", out).group(1)), 0.6)


if __name__ == "__main__":
    unittest.main()
