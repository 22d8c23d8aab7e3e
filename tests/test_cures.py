"""The cure of a faulty line, by the number that is none or is out of its range, with the ranges and units of
docs/LANGUAGE.md; and the hint where all places lie within 40 mm."""
import contextlib
import io
import os
import random
import sys
import time
import unittest

import common  # by which the package is found
from hemtoghai.language import cures
from hemtoghai.writing import flyable


class Range(unittest.TestCase):
    def said(self, line):
        """All that is said of a line."""
        return " | ".join(cures.cure_of("range", line))

    def test_by_the_number(self):
        for line, *wanted in (
                (b"stray 2000", "`stray` is 2000, and may be 0 to 1000 (millimetres)", "one metre"),
                (b"late 1001", "`late` is 1001, and may be 0 to 1000 (milliseconds)", "one second"),
                (b"cue 70000", "cue is 70000, and may be 1 to 65535 (milliseconds)", "split"),
                (b"\tcue 0 # pause", "is 0, and may be 1 to 65535"),
                (b"ellipsoid 120 300000", "H of `ellipsoid` is 300000, and may be 1 to 2000"),
                (b"ellipsoid 0 300", "R of `ellipsoid` is 0"),
                (b"repeat 0", "count of a `repeat` is 0"),
                (b"perform bow none 90 0 0 0 a", "is 90, and may be 0 to 3 (quarter turns", "degrees"),
                (b"memory 256 0", "ID of `memory` is 256"), (b"memory 2 4096", "OFFSET of `memory` is 4096"),
                (b"trajectory 10", "ID of `trajectory` is 10, and may be 0 to 9"),
                (b"drone a 0 0 100000001 0", "a coordinate is 100000001, and may be -100000000 to 100000000"),
                (b"at a 0 0 0 32768", "a yaw is 32768, and may be -32768 to 32767 (tenths of a degree)", "900"),
                (b"a turn -36000", "a yaw is -36000"), (b"a move 0 0 0 40000", "a yaw is 40000"),
                (b"a arc ccw 0 -200000000 0", "a coordinate is -200000000"),
                (b"cue move 0 0 0 40000", "a yaw is 40000")):  # a drone may be called cue
            for words in wanted:
                self.assertIn(words, self.said(line), line)
            if b"cue 7" not in line:
                self.assertNotIn("split", self.said(line).replace("split a longer cue", ""), line)

    def test_long_numbers(self):
        self.assertIn("`stray` is 999999999999.. (5000 digits)", self.said(b"stray " + b"9" * 5000))
        self.assertNotIn("999", self.said(b"stray 0" + b"0" * 5000 + b"1001"))

    def test_others(self):
        """Where no number is found, and of other faults, it is the row of the table."""
        self.assertEqual(cures.cure_of("range", b"a b c"), cures.row_of("range"))
        for word, line in (("bad-count", b"stray 2000"), ("bad-word", b"takeoff 1m"),
                           ("bad-word", b"end"), ("header", b"drone a 0 0 0 0")):
            self.assertEqual(cures.cure_of(word, line), cures.row_of(word))


class Words(unittest.TestCase):
    """Of a word too many or too few, and of a word that may not stand where it does: a line, words of the row."""

    def says(self, word, *rows):
        for line, *wanted in rows:
            row = " | ".join(cures.cure_of(word, line))
            for words in wanted:
                self.assertIn(words, row, line)

    def test_count(self):
        self.says("bad-count",
                  (b"a move 1000000 0 2000000", "`move` takes 4 words after it, and here are 3", "X Y Z YAW"),
                  (b"a swing ccw 0 1000 1000 0 # round", "`swing` takes 4 words", "here are 5", "SENSE CX CY YAW"),
                  (b"a turn", "`turn` takes 1 word after it, and here are 0"), (b"end it", "0 words", "here is 1", "no word"),
                  (b"drone a 0 0 0", "`drone` takes 5 words", "NAME X Y Z YAW"), (b"ellipsoid 120", "R H"),
                  (b"form f", "`form` takes 2 words", "NAME move"), (b"a curve 0 0 0 0", "`curve` takes 10 words"))

    def test_word(self):
        self.says("bad-word",
                  (b"form f swing", "`form` takes `line` or `move`, not `swing`", "`NAME swing SENSE CX CY YAW`"),
                  (b"form f hold", "`NAME hold`"),
                  (b"a arc 90deg 0 1m 0", "the sense of `arc` is 90deg", "`arc ccw ..`", "`arc cw ..`"),
                  (b"perform g left 0 0 0 0 a", "the mirror of `perform` is left", "`none`"))
        self.assertIn("write one of the acts", cures.cure_of("bad-word", b"a swng ccw 0 0 0")[2])

    def test_header(self):
        self.says("header", (b"choreo 3", "the first line is `choreo 3`", "`choreo 2`"), (b"choreo", "`choreo`"))
        self.assertLess(len(cures.cure_of("header", b"choreo " + b"9" * 5000)[0]), 80)


class Shown(unittest.TestCase):
    """A line as it can be printed."""

    def test_places(self):
        for line, text, place in ((b"a\tb", "a b", None), (b"a\x01", "a\\x01", 1), (b"\xc3#", "\\xC3#", 0),
                                  (b"a # \xc3", "a # \\xC3", None), (b"", "", None)):
            self.assertEqual(cures.shown(line), (text, place))

    def test_long(self):
        # A line of 800,000 bytes took half a minute where each byte looked for a comment in all bytes before it.
        begun = time.process_time()
        self.assertEqual(cures.shown(b"1," * 400000), ("1," * 400000, None))
        self.assertLess(time.process_time() - begun, 5)


class Units(unittest.TestCase):
    """What is said in each form: a line, and words of what is wrong, of its cause and of its cure."""

    def says(self, word, form, *rows):
        for line, *wanted in rows:
            row = cures.cure_of(word, line, form)
            for cell, words in zip(row, wanted):
                self.assertIn(words, cell, (line, row))
                self.assertTrue(words or not cell, (line, row))

    def test_without_a_unit(self):
        self.says("bad-number", 2, (
            b"drone a 0 0 1000000 0", "a coordinate is 1000000, without a unit", "`choreo 1`, which reads it as 1m",
            "write 1m, 100cm or 1000mm"),
            (b"drone a 0 0 1 0", "is 1, without", "", "write 1m, 1cm, 1mm or 1um, whichever is meant"),
            (b"at a 1.5 0 0 0", "is 1.5, without", "", "write 1.5m, 1.5cm or 1.5mm, whichever is meant"),
            (b"cue 2000", "length of a cue is 2000, without", "reads it as 2s", "write 2s or 2000ms"),
            (b"cue 2", "is 2, without", "", "write 2s or 2ms, whichever is meant; `choreo 1` reads it as 2ms"),
            (b"a turn 900", "a yaw is 900, without", "", "write 900deg; `choreo 1` reads it as 90deg"),
            (b"ellipsoid 120mm 300", "H of `ellipsoid` is 300", "reads it as 300mm", "write 0.3m, 30cm or 300mm"),
            (b"late 20", "`late` is 20", "reads it as 20ms", "write 0.02s or 20ms"),
            (b"a move 0 0 0.0 0", "is 0.0, without", "", "write 0: "),
            (b"a move 0 0 200000000 0", "is 200000000", "", "write m, cm, mm or um right after the number"))

    def test_not_whole(self):
        self.says("bad-number", 2, (
            b"a move 0.5um 0 0 0", "is 0.5um, which is no whole number of micrometres", "the next after 0 is 1um",
            "write 0 or 1um"),
            (b"drone a -1.0000001m 0 0 0", "micrometres", "0.000001m", "write -1.000001m or -1m"),
            (b"stray 1.5mm", "`stray` is 1.5mm, which is no whole number of millimetres", "1mm", "write 1mm or 2mm"),
            (b"cue 0.0005s", "milliseconds", "0.001s", "write 0.001s"),
            (b"cue 70.0005s", "milliseconds", "0.001s", "see the ranges of numbers"),
            (b"a turn 0.05deg", "tenths of a degree", "0.1deg", "write 0 or 0.1deg"))

    def test_other_units(self):
        self.says("bad-number", 2, (
            b"a move 2s 0 0 0", "a coordinate is 2s, which is a time", "",
            "is a length: write its number with m, cm, mm or um"),
            (b"a move 0s 0 0 0", "is 0s, which is a time", "", "zero needs no unit: write 0"),
            (b"a move 1km 0 0 0", "is 1km, and km is no unit here", "", "is a length"),
            (b"cue 1m", "is 1m, which is a length", "", "the length of a cue is a time: write its number with s or ms"),
            (b"a turn 1rad", "rad is no unit here", "", "a yaw is an angle: write its number with deg"),
            (b"a move 1/2 0 1m 0", "is 1/2, which is no number", "a fraction with a `/`: a number has a point",
             "write a number with its unit: m, cm, mm or um"),
            (b"a move 1-.6m 0 1m 0", "is 1-.6m, which is no number", "", "write a number with its unit"),
            (b"a move .5m 0 0 0", "is .5m", "no digit before", "write 0.5m"),
            (b"a move -1.m 0 0 0", "is -1.m", "no digit before", "write -1m"),
            (b"a move 1,5m 0 0 0", "is 1,5m", "comma", "write 1.5m"),
            (b"a move +1m 0 0 0", "is +1m", "a `+`", "write 1m"),
            (b"a move m2 0 0 0", "with its unit in front", "", "write 2m"), (b"a move s2 0 0 0", "is no number", "", "m, cm"),
            (b"a move 1e3m 0 0 0", "an exponent", "", "write 1000m"), (b"a turn 1e1", "an exponent", "", "with its unit"),
            (b"a move 1m, 0, 0, 0", "is 1m,", "commas between words", "write 1m"),
            (b"cue 1.5.2s", "two points", "", "one point"),
            (b"a move l 0 0 0", "is l", "a letter in place of a digit", "the digit"),
            (b"perform f none 0 0 0 a b", "is a, which has no digits", "a number is missing before it", "DX DY DZ"),
            (b"a move m 0 0 0", "no digits", "", "m, cm, mm or um"), (b"repeat 3s", "has no unit", "", "write 3"))
        self.says("bad-count", 2, (
            b"drone a 0 0 1 m 0 # x", "too many", "a blank between a number and its unit", "write 1m"))

    def test_ranges_in_units(self):
        self.says("range", 2, (b"drone a 101m 0 0 0", "is 101m (101000000 micrometres), and may be -100m to 100m"),
                  (b"cue 70s", "is 70s (70000 milliseconds), and may be 1ms to 65.535s", "65.535s", "split"),
                  (b"stray 2m", "is 2m (2000 millimetres), and may be 0 to 1000mm"), (b"late 1.1s", "may be 0 to 1s"),
                  (b"ellipsoid 0 1mm", "R of `ellipsoid` is 0, and may be 1mm to 2000mm"),
                  (b"a turn -3600deg", "is -3600deg (-36000 tenths of a degree), and may be -3276.8deg to 3276.7deg"),
                  (b"a move " + b"9" * 5000 + b"m 0 0 0", "is 999999999999.. (5001 digits), and may be -100m to 100m"),
                  (b"repeat 0", "count of a `repeat` is 0, and may be 1 to 1000000000"))

    def test_first_form(self):
        self.says("bad-number", 1, (
            b"drone a 1.5m 0 0 0", "is 1.5m, which is a length", "this text is in `choreo 1`",
            "1.5m is 1500000 micrometres"),
            (b"cue 2.5s", "is 2.5s, which is a time", "`choreo 2`", "begin the text with `choreo 2`, and write 2.5s"),
            (b"cue 2000s", "is 2000s", "`choreo 2`", "write whole numbers, here of milliseconds"),
            (b"cue 1.5", "is 1.5, which isn't whole", "1.5s is meant", "1.5s is 1500 milliseconds"),
            (b"a turn 90deg", "is 90deg, which is an angle", "`choreo 2`", "90deg is 900 tenths of a degree"),
            (b"a move 3s 0 0 0", "is 3s, which is a time", "`choreo 2`", "write whole numbers, here of micrometres"))
        self.says("bad-number", 1, (
            b"a move 1e6 0 0 0", "is 1e6, which has an exponent", "", "write 1000000"),
            (b"a move 1.5e3 0 0 0", "is 1.5e3", "", "write 1500"),
            (b"a move 1e-3 0 0 0", "exponent", "", "write the number out"),
            (b"a move 1,000 0 0 0", "is 1,000", "a comma between thousands", "write 1000"),
            (b"a move 5, 0, 0, 0", "is 5,", "commas between words", "write 5"),
            (b"a move +5 0 0 0", "is +5", "a `+`", "write 5"), (b"a move 5- 0 0 0", "no whole number", "", "digits alone"),
            (b"a turn O", "is O", "a letter in place of a digit", "the digit"),
            (b"cue x", "is x, which is no whole number", "", "here of milliseconds"))
        self.assertEqual(cures.cure_of("bad-number", b"a move %sm 0 0 0" % (b"9" * 5000), 1), cures.row_of("bad-number"))
        self.assertEqual(cures.cure_of("bad-count", b"drone a 0 0 1 m 0", 1)[2], "write `drone` and then NAME X Y Z YAW")

    def test_form_of_the_text(self):
        """What ./show prints of a text goes by its first line with words."""
        for header, form in ((b"# choreo 1\n choreo 2", 2), (b"# x\nchoreo 1 # choreo 2", 1)):
            told = io.StringIO()
            with contextlib.redirect_stderr(told):
                cures.print_cure("show", 3, "bad-number", header + b"\ndrone a 0 0 1m 1800\n")
            self.assertIn("reads it as 180deg" if form == 2 else "1m is 1000000 micrometres", told.getvalue())

    def test_no_word_stops_it(self):
        """Whatever stands in the place of a number, something is said."""
        choose = random.Random(5)
        for _ in range(150):
            word = "".join(choose.choices("-+.,0159mscude_ ", k=choose.choice([1, 2, 3, 5, 9]))).strip() or "-"
            line = choose.choice(["cue %s", "stray %s", "drone a %s 0 0 0", "a turn %s", "repeat %s"]) % word
            for form in (1, 2):
                for fault in ("bad-number", "range", "bad-count"):
                    self.assertEqual(len(cures.cure_of(fault, line.encode(), form)), 3, line)


class Millimetres(unittest.TestCase):
    def test_two_drones(self):
        """Two drones written in millimetres are refused for nearness; that they are so small is said all the same."""
        text = b"choreo 1\ndrone a 0 0 1000 0\ndrone b 30000 0 1000 0\ncue 2000\na move 0 1000 1000 0\nend\n"
        self.assertIn("all places lie within 40 mm", flyable.small_text(text))
        self.assertIn("all places lie within 40 mm", flyable.small_text(text + b"%%\n"))
        self.assertIsNone(flyable.small_text(text.replace(b"30000 0", b"41000 0")))
        self.assertIsNone(flyable.small_text(b"choreo 1\n"))


if __name__ == "__main__":
    unittest.main()
