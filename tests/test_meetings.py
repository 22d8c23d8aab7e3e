"""The places in which drones are blocked, from the lines of `explain --all`: tables worked by hand."""
import unittest

import common
from hemtoghai.language import choreo
from hemtoghai.program import Unusable
from hemtoghai.writing import meetings

# a and b change places in three seconds, c stands 200 mm beside d, of the 240 mm at which ellipsoids touch.
TEXT = b"""choreo 1
drone a 0 0 1000000 0
drone b 1000000 0 1000000 0
drone c 0 3000000 1000000 0
drone d 200000 3000000 1000000 0
cue 3000
a move 1000000 0 1000000 0
b move 0 0 1000000 0
end
"""
SAID = """blocked pair a b cue 1 part 28 of 64 closest at 16 of 32 level 0
blocked pair c d cue 1 part 0 of 64 closest at 0 of 32 level 694
closest pair a b cue 1 at 16 of 32 level 0
touch pair c d cue 1 at 0 of 32
"""
FIRST, SECOND = SAID.splitlines(True)[:2]
MORE = "blocked more than 200\n"
# By the lines the places, and whether these are all; None where this is no answer of `explain --all`.
LINES = [
    (SAID, [(0, 1, 0, 28, 64, 16, 32, 0), (2, 3, 0, 0, 64, 0, 32, 694)], True),
    (FIRST, [(0, 1, 0, 28, 64, 16, 32, 0)], True),
    (FIRST + MORE + "no-touch instants 33\n", [(0, 1, 0, 28, 64, 16, 32, 0)], False),
    ("separated\n", [], True),
    ("separated\nclosest pair a b cue 1 at 16 of 32 level 1001\n", [], True),
    ("", None, None),
    ("separated", None, None),
    (MORE, None, None),
    (FIRST + "separated\n", None, None),
    (FIRST + MORE + SECOND, None, None),
    (FIRST[:-1], None, None),
    ("blocked pair a b cue 1 part 28 of 64\n", None, None),
    (FIRST.replace("pair a b", "pair a nobody"), None, None),
    (FIRST.replace("level 0", "level -1"), None, None),
]


class Lines(unittest.TestCase):
    def test_lines(self):
        for output, places, are_all in LINES:
            if places is None:
                with self.assertRaises(Unusable, msg=output):
                    meetings.said_in(output, "abcd")
            else:
                found = meetings.said_in(output, "abcd")
                self.assertEqual(([tuple(it) for it in found[0]], found[1]), (places, are_all), output)


class Meetings(unittest.TestCase):
    def asked(self, answers, text=TEXT):
        """What is made of a show's text where these are the answers, and the words and texts that were asked."""
        asked = []

        def ask(words, show):
            asked.append((words, show))
            return answers[len(asked) - 1]
        return meetings.meetings_of(ask, choreo.flown_of(text), text, 6), asked

    def test_values(self):
        (found, are_all), asked = self.asked([(0, SAID)])
        self.assertEqual(([words for words, _ in asked], are_all), ([["explain", "--all", "--depth", "6"]], True))
        first, second = found
        # 28 and 29 of 64 parts of 3,000 ms, and the middle of them, where both are in one place.
        self.assertEqual((first.i, first.j, first.cue, first.begin, first.end, first.nearest, first.at, first.share,
                          first.touch, first.cause), (0, 1, 0, 1312.5, 1359.375, 1500.0, 0.5, 0.0, True, None))
        # 1,000 (200 / 240)^2 is 694.4.
        self.assertEqual((second.i, second.j, second.begin, second.nearest, second.share, second.touch, second.cause),
                         (2, 3, 0.0, 0.0, 0.694 ** 0.5, True, None))

    def test_no_answer(self):
        for answer in (None, (3, "error 3 line 1 header\n"), (5, FIRST)):
            self.assertIsNone(self.asked([answer])[0])

    def test_cause(self):
        # 300 mm apart, of 240 that they need and twice the stray of 40: without it they are separated.
        text = b"choreo 1\nstray 40\ndrone a 0 0 1000000 0\ndrone b 300000 0 1000000 0\ncue 1000\nend\n"
        said = "blocked pair a b cue 1 part 0 of 64 closest at 0 of 32 level 1562\n"
        (found, _), asked = self.asked([(0, said), (0, "separated\n")], text)
        self.assertEqual((found[0].cause, found[0].touch), ("`stray 40`", False))
        self.assertIn(b"\nstray 0\n", asked[1][1])
        self.assertIn(b"\nlate 0\n", asked[1][1])
        # Blocked without it too, or the second answer is missing, or only says that there are more.
        for second in ((0, said), None, (0, said.replace("pair a b", "pair a b") + MORE)):
            self.assertIsNone(self.asked([(0, said), second], text)[0][0][0].cause)
        # At level 999 they touch, and nothing more is asked.
        (found, _), asked = self.asked([(0, said.replace("1562", "999"))], text)
        self.assertEqual((found[0].touch, found[0].cause, len(asked)), (True, None, 1))
        (found, _), asked = self.asked([(0, said.replace("1562", "1000")), (0, "separated\n")], text)
        self.assertEqual((found[0].touch, found[0].cause), (False, "`stray 40`"))

    @common.wants_program
    def test_program(self):
        from hemtoghai.companion import ask
        found = meetings.asked(ask, TEXT, 6, "abcd")
        self.assertEqual(([tuple(it) for it in found[0]], found[1]), (LINES[0][1], True))


if __name__ == "__main__":
    unittest.main()
