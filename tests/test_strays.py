"""What shows bear of strays and late starts, by the proved program: the last number that is accepted, and the first
that is refused.

The numbers of examples were computed by an independent program in whole numbers. Those of two drones one after the
other are worked by hand: seen along the way a threshold is the least whole number above 2 r h, here 72,001, and
h = 300 for each millimetre that a drone moves while it is late.
"""
import subprocess
import unittest

from common import example, PROGRAM, wants_program

# Two drones fly one metre in a second along x, the second that many millimetres before the first.
AFTER = """choreo 1
%s
ellipsoid 120 300
drone a 0 0 1000000 0
drone b %d000 0 1000000 0
cue 1000
a line 1000000 0 1000000 0
b line 1%03d000 0 1000000 0
end
"""
TOO_NEAR = "error 5 pair a b cue 1 part 0 of 1\n"
# An example, its lines, and whether it is accepted.
BORNE = [
    ("crossing_cured", "stray 99", True), ("crossing_cured", "stray 100", False),
    ("crossing_cured", "late 227", True), ("crossing_cured", "late 228", False),
    ("crossing_cured", "stray 50\nlate 113", True), ("crossing_cured", "stray 50\nlate 114", False),
    ("ring", "stray 258", True), ("ring", "stray 259", False),
    ("wave", "late 281", True), ("wave", "late 282", False),
]
# A line, and what is said of a show that begins with it, where it stands at line 2.
LINES = [
    ("stray 0", None), ("stray 1000", None), ("stray 1001", "range"), ("stray -1", "range"),
    ("stray", "bad-count"), ("stray 1 2", "bad-count"), ("stray x", "bad-number"),
    ("late 0", None), ("late 1000", None), ("late 1001", "range"), ("late -1", "range"), ("late 1.5", "bad-number"),
]


def check(text, *words):
    """The status and output of `check` of a show."""
    done = subprocess.run([PROGRAM, "check", *words], input=text, stdout=subprocess.PIPE, timeout=60)
    return done.returncode, done.stdout.decode()


@wants_program
class Strays(unittest.TestCase):
    def test_examples(self):
        for name, lines, accepted in BORNE:
            text = example(name)[0].replace(b"choreo 1\n", b"choreo 1\n%s\n" % lines.encode(), 1)
            self.assertEqual(check(text)[0], 0 if accepted else 5, (name, lines))

    def test_one_after_the_other(self):
        # 300 x 240 is below 72,001, and 300 x 241 isn't; each millisecond at one metre a second is a millimetre more.
        for late, near, far in [(0, 240, 241), (20, 260, 261), (100, 340, 341)]:
            for gap, wanted in [(near, (5, TOO_NEAR)), (far, (0, "ok drones 2 cues 1 duration_ms 1000\n"))]:
                text = (AFTER % ("late %d" % late, gap, gap)).encode()
                self.assertEqual(check(text, "--depth", "0"), wanted, (late, gap))

    def test_strays_of_both(self):
        # Two drones that stray by 50 mm need 100 mm more: the least number whose square is 4 x 50^2 x 300^2 is 30,000.
        for gap, status in [(340, 5), (341, 0)]:
            self.assertEqual(check((AFTER % ("stray 50", gap, gap)).encode(), "--depth", "0")[0], status, gap)

    def test_lines(self):
        for line, fault in LINES:
            status, said = check(b"choreo 1\n%s\ndrone a 0 0 1000000 0\ncue 1000\na hold\nend\n" % line.encode())
            wanted = (3, fault) if fault else (0, "")
            self.assertEqual((status, said.split()[-1] if fault else ""), wanted, (line, said))
        twice = b"choreo 1\nlate 1\nlate 1\ndrone a 0 0 1000000 0\ncue 1000\na hold\nend\n"
        self.assertEqual(check(twice), (3, "error 3 line 3 double-setting\n"))


if __name__ == "__main__":
    unittest.main()
