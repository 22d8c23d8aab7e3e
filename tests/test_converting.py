"""./show convert: texts in both forms by hand, the examples and random shows there and back, and texts that are
refused."""
import os
import random
import re
import tempfile
import unittest

from common import TOP, run
from hemtoghai.language import choreo, converting
from hemtoghai.texts import TooLong
from plans import plan_of
from scripts import script

# The same show in both forms: each kind of line, blanks, comments and carriage returns.
FIRST = b"""# choreo 1 in a comment, and 1000000
 choreo\t1 # the form 1

memory 3 64
trajectory 2
ellipsoid 150  350\t# 150
stray 50
late 20
drone a       0 0 1000000    0#1
drone at 1500000 0 1000000 -1805 # 1000000
formation line
at at 1 2 3 4
at a -1000001 0 1000000 10
end
figure cue r1
  cue 500 \r
  r1 curve 1 -1 0 1000 -1000 10000 100000 1000000 10000000 32767
  end
\trepeat 2
  cue 65535
  r1 arc cw 5 6 7
  end
  end
end
repeat 3
cue 1000
form line move
end
end
perform cue x 1 -500000 0 250000 \t at\r
cue 1
a turn 900
at hold
end

cue 2000
at move 1 0 0 0
a swing ccw 250000 0 0
end"""
SECOND = b"""# choreo 1 in a comment, and 1000000
 choreo\t2 # the form 1

memory 3 64
trajectory 2
ellipsoid 150mm  350mm\t# 150
stray 50mm
late 20ms
drone a       0 0 1m    0#1
drone at 1.5m 0 1m -180.5deg # 1000000
formation line
at at 0.000001m 0.000002m 0.000003m 0.4deg
at a -1.000001m 0 1m 1deg
end
figure cue r1
  cue 500ms \r
  r1 curve 0.000001m -0.000001m 0 0.001m -0.001m 0.01m 0.1m 1m 10m 3276.7deg
  end
\trepeat 2
  cue 65.535s
  r1 arc cw 0.000005m 0.000006m 0.7deg
  end
  end
end
repeat 3
cue 1s
form line move
end
end
perform cue x 1 -0.5m 0 0.25m \t at\r
cue 1ms
a turn 90deg
at hold
end

cue 2s
at move 0.000001m 0 0 0
a swing ccw 0.25m 0 0
end"""
SOLO = b"choreo %d\ndrone a %s 0 0 0\ncue %s\nend\n"


def facts(text):
    """What a text's show is: the lines with their values, and the plan, or the line with which it is refused."""
    try:
        top = choreo.read(text)
        rows = [(line.number, line.kind, line.values) for line in choreo.inside(top)]
    except choreo.Refused as refusal:
        return str(refusal)
    try:
        return rows, plan_of(choreo.flown_of(text))
    except choreo.Refused as refusal:
        return rows, str(refusal)


def examples():
    """The names of the examples and their bytes."""
    folder = os.path.join(TOP, "examples")
    for name in sorted(os.listdir(folder)):
        if name.endswith(".choreo"):
            with open(os.path.join(folder, name), "rb") as file:
                yield name, file.read()


class Both(unittest.TestCase):
    def test_by_hand(self):
        self.assertEqual(converting.converted(FIRST, 2), SECOND)
        self.assertEqual(converting.converted(SECOND, 1), FIRST)
        self.assertEqual(facts(FIRST), facts(SECOND))

    def test_own_form(self):
        """A text in its own form stays, however its numbers are written."""
        for text in (FIRST, SECOND, SOLO % (1, b"007", b"0020"), SOLO % (2, b"1.50m", b"2000ms")):
            self.assertEqual(converting.converted(text, choreo.form_of(text)), text)

    def test_one_way_of_writing(self):
        """However a number is written, its word in the other form is one."""
        for first, second in ((b"000100", b"0.0001m"), (b"-0", b"0"), (b"-0300000", b"-0.3m")):
            self.assertEqual(converting.converted(SOLO % (1, first, b"2000"), 2), SOLO % (2, second, b"2s"))
        for second, first in ((b"30cm", b"300000"), (b"-00.0010mm", b"-1"), (b"-0.0cm", b"0"), (b"-00", b"0"),
                              (b"1500.000mm", b"1500000"), (b"0" * 5000 + b"1." + b"0" * 5000 + b"m", b"1000000")):
            self.assertEqual(converting.converted(SOLO % (2, second, b"2000ms"), 1), SOLO % (1, first, b"2000"))

    def test_examples(self):
        """Each example there and back, byte for byte; both texts have one plan."""
        for name, text in examples():
            other = 3 - choreo.form_of(text)
            there = converting.converted(text, other)
            self.assertNotEqual(there, text)
            self.assertEqual(facts(there), facts(text), name)
            back = converting.converted(there, 3 - other)
            self.assertEqual(facts(back), facts(text), name)
            if other == 2:
                self.assertEqual(back, text, name)
            for line, new in zip(text.split(b"\n"), there.split(b"\n")):  # blanks and comments
                self.assertEqual(re.sub(rb"[^\s#]+", b"", line.partition(b"#")[0]) + line.partition(b"#")[2],
                                 re.sub(rb"[^\s#]+", b"", new.partition(b"#")[0]) + new.partition(b"#")[2])

    def test_random_shows(self):
        """Shows of bench/language there and back: right ones and such with faults of names, cues and ranges."""
        language, seen = script("language"), {False: 0, True: 0}
        for k in range(60):
            choose = random.Random(k)
            units = language.Writer(choose).units
            if k % 3 == 0:
                language.spoil_units(choose, units)
            text = language.rendered(choose, language.flat(units), False)
            try:
                there = converting.in_form(text, 2)
            except choreo.Refused as refusal:
                self.assertEqual(str(refusal), facts(text))
                continue
            self.assertEqual(facts(there), facts(text))
            self.assertEqual(converting.in_form(there, 1), text)
            seen["error" in str(facts(text)[1])] += 1
        self.assertGreater(min(seen.values()), 3)


class Lines(unittest.TestCase):
    def test_words(self):
        """The words of each line of every example, in both forms, are read as what they are."""
        kinds = set()
        for name, text in examples():
            for form, whole in ((1, converting.converted(text, 1)), (2, converting.converted(text, 2))):
                lines = whole.split(b"\n")
                for line in choreo.inside(choreo.read(whole)):
                    words = choreo.words_of(line, form)
                    wanted = lines[line.number - 1].partition(b"#")[0].decode().split()
                    if (choreo.form_of(text), form) != (2, 2):  # what is written by hand may have any unit
                        self.assertEqual(words, wanted, name)
                    kinds.add(line.kind if line.kind != "act" else words[1])
        self.assertEqual(kinds, {*choreo.LINES, *choreo.ACTS} - {"end"})

    def test_by_hand(self):
        drone = choreo.Line(2, "drone", ["a", 0, -700000, 1500000, 905])
        self.assertEqual(choreo.words_of(drone, 1), ["drone", "a", "0", "-700000", "1500000", "905"])
        self.assertEqual(choreo.words_of(drone, 2), ["drone", "a", "0", "-0.7m", "1.5m", "90.5deg"])
        perform = choreo.Line(9, "perform", ["f", "x", 3, 0, 10000, 0, "a", "b"])
        self.assertEqual(choreo.words_of(perform, 2), ["perform", "f", "x", "3", "0", "0.01m", "0", "a", "b"])


class Refused(unittest.TestCase):
    def test_faulty_texts(self):
        """With the reader's line; no text that the reader refuses is written."""
        for text, line in ((SOLO % (1, b"1m", b"2000"), "error 3 line 2 bad-number"),
                           (SOLO % (2, b"1", b"2s"), "error 3 line 2 bad-number"),
                           (SOLO % (2, b"101m", b"2s"), "error 3 line 2 range"),
                           (SOLO % (2, b"40m", b"2s"), "error 3 line 2 out-of-range x 40000000"),
                           (SOLO % (3, b"1m", b"2s"), "error 3 line 1 header"), (b"", "error 3 line 1 header"),
                           (b"choreo 2\n", "error 3 line 1 no-drone"),
                           (SOLO % (2, b"1m", b"2s") + b"%%\n", "error 3 line 5 bad-word"),
                           (SOLO % (2, b"1m", b"2s") + b"\xa0\n", "error 3 line 5 bad-byte"),
                           (SOLO % (1, b"1", b"2") + b"cue 1\nb hold\nend\n", "error 3 line 6 unknown-name")):
            for form in (1, 2):
                with self.assertRaises(choreo.Refused) as caught:
                    converting.converted(text, form)
                self.assertEqual(str(caught.exception), line)
        with self.assertRaises(ValueError):
            converting.converted(FIRST, 3)

    def test_too_long(self):
        """A new text may have as many bytes as a show, and no more."""
        text = SOLO % (1, b"1", b"2000")
        more = len(converting.converted(text, 2)) - len(text)
        text += b"#" * (choreo.LONGEST_TEXT - more - len(text))
        self.assertEqual(len(converting.converted(text, 2)), choreo.LONGEST_TEXT)
        with self.assertRaises(TooLong):
            converting.converted(text + b"#", 2)
        self.assertEqual(converting.converted(text + b"#" * more, 1), text + b"#" * more)
        with self.assertRaises(choreo.Refused):
            converting.converted(text + b"#" * more + b"#", 1)


class Tools(unittest.TestCase):
    """What tools make of a show in `choreo 2` is what they make of it in `choreo 1`, converted."""

    def made(self, text, *words):
        """The text that a tool writes of a text."""
        with tempfile.TemporaryDirectory() as folder:
            show, out = os.path.join(folder, "show"), os.path.join(folder, "out")
            with open(show, "wb") as file:
                file.write(text)
            _, said, told = run(*(word.format(show=show, out=out) for word in words))
            if os.path.exists(out):
                with open(out) as file:
                    said = file.read()
        self.assertIn("choreo", said, told)
        return said.encode()

    def both(self, text, *words):
        """Lets a tool make something of a text in both forms."""
        first = self.made(text, *words)
        self.assertEqual(self.made(converting.converted(text, 2), *words), converting.converted(first, 2))

    def test_deal(self):
        self.both(dict(examples())["grid_to_ring.choreo"], "deal", "{show}")

    def test_without(self):
        self.both(dict(examples())["formation_change.choreo"], "without", "{show}", "b")

    def test_cured(self):
        crossing = dict(examples())["crossing.choreo"]
        formed = crossing.replace(b"a move 1000000 0 1000000 0\nb move       0 0 1000000 0\n", b"form other move\n") + (
            b"formation other\nat a 1000000 0 1000000 0\nat b 0 0 1000000 0\nend\n")
        self.assertIn(b"form other", formed)
        for text in (crossing, formed):
            self.both(text, "why", "--cured", "{out}", "{show}")


class Command(unittest.TestCase):
    def test_words(self):
        show = os.path.join("examples", "solo.choreo")
        with open(os.path.join(TOP, show), "rb") as file:
            text = file.read()
        there = converting.converted(text, 2).decode()
        for words, given, wanted in (((show,), None, there), (("--to", "2", show), None, there),
                                     (("--to", "1", show), None, text.decode()), (("-",), there, text.decode())):
            self.assertEqual(run("convert", *words, text=given), (0, wanted, ""), words)

    def test_refused(self):
        faulty = (SOLO % (2, b"1000000", b"2s")).decode()
        status, said, told = run("convert", "-", text=faulty)
        self.assertEqual((status, said), (3, ""))
        self.assertIn("error 3 line 2 bad-number", told)
        for words, wanted in ((("none",), 70), (("--to", "3", "x"), 2), ((), 2)):
            status, said, told = run("convert", *words)
            self.assertEqual((status, said), (wanted, ""), told)
            self.assertNotIn("Traceback", told)


if __name__ == "__main__":
    unittest.main()
