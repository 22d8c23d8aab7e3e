"""The margins of ./show summary and ./show studio: a setting is written in the form of the text, in place of the line that
is there; and a show bears the same in both forms."""
from __future__ import annotations

import os
import tempfile
import unittest

import common
from hemtoghai.language import choreo
from hemtoghai.language.converting import converted
from hemtoghai.writing.margins import greatest, with_setting

NUMBERS = {"stray": (0, 1, 40, 1000), "late": (0, 1, 999, 1000)}
# Two drones fly beside one another, 800 mm apart.
TEXT = b"""choreo 1 # late 7
%sdrone late 0 0 1000000 0
drone b 0 800000 1000000 0
cue 2000
late move 1000000 0 1000000 0
b move 1000000 800000 1000000 0
end
cue 1
late turn 900
end
"""
FRONTS = b"", b"stray 10\nlate 5 # a little\n", b"  ellipsoid\t0100 250  # late 9\n\tstray 0", b"late 1\r\n"


class Margins(unittest.TestCase):
    def test_with_setting(self):
        for front in FRONTS:
            text = TEXT % (front + (b"" if front.endswith(b"\n") else b"\n"))
            second = converted(text, 2)
            for word, numbers in NUMBERS.items():
                for number in numbers:
                    new = with_setting(second, word, number)
                    self.assertEqual(converted(new, 1), converted(converted(with_setting(text, word, number), 2), 1))
                    self.assertEqual(choreo.flown_of(new).show.settings[word], [number])
            new = with_setting(second, "ellipsoid", 150, 1000)
            self.assertEqual(choreo.flown_of(new).show.settings["ellipsoid"], [150, 1000])
            self.assertIn(b"ellipsoid 150mm 1000mm", new)

    def test_any_words(self):
        """A setting is found however somebody wrote it, and its comment stays."""
        text = b"choreo 2\nstray  1.50cm\t# of our drones\nlate 0\n"
        self.assertEqual(with_setting(text, "stray", 20), text.replace(b"stray  1.50cm", b"stray 20mm"))
        self.assertEqual(with_setting(text, "late", 1000), text.replace(b"late 0", b"late 1s"))
        self.assertEqual(with_setting(b"choreo 1\nstray -0\n", "stray", 3), b"choreo 1\nstray 3\n")

    def test_borne(self):
        """They bear the same in both forms; of 800 mm a stray takes twice as much, and 240 are needed."""
        for form in (1, 2):
            text = converted(TEXT % b"", form)
            most, refusal = greatest(6, 1001, lambda k: with_setting(text, "stray", k))
            self.assertEqual((most, refusal[:17]), (279, "error 5 pair late"), form)

    def test_summary(self):
        """The settings that ./show summary --margin names are in the form of the text."""
        with tempfile.TemporaryDirectory() as folder:
            path, said = os.path.join(folder, "show"), {}
            for form in (1, 2):
                with open(path, "wb") as file:
                    file.write(converted(TEXT % b"stray 10\nlate 5\n", form))
                said[form] = common.run("summary", "--margin", path)[1]
        self.assertIn("of the ellipsoid 120 300, which is ", said[1])
        self.assertIn("of the ellipsoid 120mm 300mm, which is ", said[2])
        self.assertIn(" mm, and late 5 as it is", said[1])
        self.assertIn(" ms, and stray 10mm as it is", said[2])
        settings = (("120mm 300mm", "120 300"), ("late 5ms", "late 5"), ("stray 10mm", "stray 10"))
        for new, old in settings:
            said[2] = said[2].replace(new, old)
        self.assertEqual([line for line in said[2].splitlines() if "ellipsoid" not in line],
                         [line for line in said[1].splitlines() if "ellipsoid" not in line])


if __name__ == "__main__":
    unittest.main()
