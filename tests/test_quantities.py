"""python/hemtoghai/language/quantities.py and the reader of `choreo 2`: words in their places with values worked out by
hand, those that crates/choreo_lines proves, and random words against fractions."""
import os
import random
import re
import unittest
from fractions import Fraction

from common import TOP
from hemtoghai.language import choreo, quantities
from hemtoghai.language.quantities import FAR, MICROMETRES, MILLIMETRES, MILLISECONDS, TENTHS
from plans import plan_of

# What a place counts, a word that is a quantity there with its value, and one beside it that is none.
ROWS = [
    (MICROMETRES, "1m", 1000000, "1000000"), (MICROMETRES, "100cm", 1000000, "100Cm"),
    (MICROMETRES, "1.5m", 1500000, "1.5"), (MICROMETRES, "-1.5m", -1500000, "+1.5m"),
    (MICROMETRES, "30cm", 300000, "30"), (MICROMETRES, "1.5mm", 1500, "1.5mmm"), (MICROMETRES, "1um", 1, "0.5um"),
    (MICROMETRES, "1.000001m", 1000001, "1.0000001m"), (MICROMETRES, "0.0001cm", 1, "0.00001cm"),
    (MICROMETRES, "0001.50000000m", 1500000, "0001.50000001m"), (MICROMETRES, "0.5m", 500000, ".5m"),
    (MICROMETRES, "1.0m", 1000000, "1.m"), (MICROMETRES, "0", 0, "0.0"), (MICROMETRES, "-000", 0, "-"),
    (MICROMETRES, "0m", 0, "0s"), (MICROMETRES, "0.0cm", 0, "0deg"), (MICROMETRES, "33m", 33000000, "33km"),
    (MICROMETRES, "1000m", 1000000000, "1e3m"), (MICROMETRES, "1m", 1000000, "1,5m"),
    (MICROMETRES, "-0.000001m", -1, "-0.0000001m"), (MICROMETRES, "10um", 10, "1_0um"),
    (MILLIMETRES, "50mm", 50, "50"), (MILLIMETRES, "2.5cm", 25, "2.55cm"), (MILLIMETRES, "0.12m", 120, "0.1205m"),
    (MILLIMETRES, "3000um", 3, "3001um"), (MILLIMETRES, "1mm", 1, "1.5mm"), (MILLIMETRES, "1.000mm", 1, "1.0001mm"),
    (MILLIMETRES, "00000um", 0, "5um"), (MILLIMETRES, "0", 0, "0ms"),
    (MILLISECONDS, "2s", 2000, "2"), (MILLISECONDS, "1.5s", 1500, "1.5ms"),
    (MILLISECONDS, "65.535s", 65535, "65.5355s"),
    (MILLISECONDS, "1500ms", 1500, "1500us"), (MILLISECONDS, "0.001s", 1, "0.0005s"), (MILLISECONDS, "20ms", 20, "20m"),
    (MILLISECONDS, "0", 0, "0m"), (MILLISECONDS, "1m", None, "1min"),
    (TENTHS, "90deg", 900, "90"), (TENTHS, "-90.5deg", -905, "-90.55deg"), (TENTHS, "0.1deg", 1, "0.05deg"),
    (TENTHS, "180.0deg", 1800, "180.0d"), (TENTHS, "0", 0, "0rad"), (TENTHS, "0deg", 0, "0mm"),
]
# A value, and the word that is written for it.
WRITTEN = [
    (MICROMETRES, 1500000, "1.5m"), (MICROMETRES, 300000, "0.3m"), (MICROMETRES, -1, "-0.000001m"),
    (MICROMETRES, 0, "0"), (MICROMETRES, 32767000, "32.767m"), (MICROMETRES, 100000000, "100m"),
    (MICROMETRES, -408019, "-0.408019m"), (MILLIMETRES, 120, "120mm"), (MILLIMETRES, 2000, "2000mm"),
    (MILLIMETRES, 0, "0"), (MILLISECONDS, 2000, "2s"), (MILLISECONDS, 1500, "1.5s"), (MILLISECONDS, 999, "999ms"),
    (MILLISECONDS, 1000, "1s"), (MILLISECONDS, 65535, "65.535s"), (MILLISECONDS, 1, "1ms"), (TENTHS, 900, "90deg"),
    (TENTHS, -905, "-90.5deg"), (TENTHS, 1, "0.1deg"), (TENTHS, 32767, "3276.7deg"),
]
PLACES = {"Micrometres": MICROMETRES, "Millimetres": MILLIMETRES, "Milliseconds": MILLISECONDS,
          "TenthsOfADegree": TENTHS}
# How many of what a place counts one unit is, once more and as fractions.
ONE_IS = {MICROMETRES.name: {"m": 10 ** 6, "cm": 10 ** 4, "mm": 10 ** 3, "um": 1},
          MILLIMETRES.name: {"m": 1000, "cm": 10, "mm": 1, "um": Fraction(1, 1000)},
          MILLISECONDS.name: {"s": 1000, "ms": 1}, TENTHS.name: {"deg": 10}}

SHOW = "choreo 2\ndrone solo 0 0 %s 0\ncue %s\nsolo move %s 0 100cm 0deg\nend\n"
FIRST = "choreo 1\ndrone solo 0 0 1000000 0\ncue 2000\nsolo move 1000000 0 1000000 0\nend\n"


def answer(text):
    """The plan of a show's text, or the line with which it is refused."""
    try:
        return plan_of(choreo.flown_of(text.encode()))
    except choreo.Refused as refusal:
        return str(refusal)


def number_of(written):
    """A number as a row of a proof has it."""
    return int(re.search(r"\d+", written)[0]) * (-1 if "neg" in written else 1)


class Words(unittest.TestCase):
    def test_rows(self):
        for counts, word, value, wrong in ROWS:
            self.assertEqual(quantities.value_of(counts, word), value, (counts.name, word))
            self.assertIsNone(quantities.value_of(counts, wrong), (counts.name, wrong))

    def test_proved_rows(self):
        """The rows of crates/choreo_lines that hold of its definitions by computing them: the same words, the same
        values."""
        with open(os.path.join(TOP, "crates", "choreo_lines", "proofs", "QuantityRows.antt"), encoding="utf-8") as file:
            text = file.read()
        seen = 0
        for name, rows in re.findall(r"^\w+ : AllAre (\w+) \((.*?)^    \[\]\)", text, re.M | re.S):
            for value, words in re.findall(r"are (None|\(Some .*?\)\)) \((.*?)\) ∷$", rows, re.M | re.S):
                wanted = None if value == "None" else number_of(value)
                for word in re.findall(r'codes "([^"]*)"', words):
                    self.assertEqual(quantities.value_of(PLACES[name], word), wanted, (name, word))
                    seen += 1
        self.assertGreater(seen, 85)

    def test_proved_ranges(self):
        """Those with limits: a value, or the fault."""
        with open(os.path.join(TOP, "crates", "choreo_lines", "proofs", "QuantityRows.antt"), encoding="utf-8") as file:
            rows = re.findall(r"quantity_in (\w+) (.*?) \(codes \"(.*?)\"\) ≡ (Ok|Err) (.*)\)", file.read())
        self.assertGreater(len(rows), 12)
        for name, limits, word, kind, value in rows:
            slot = choreo.Number(*map(number_of, re.findall(r"(?:neg_ℤ \()?pos \d+", limits)), PLACES[name])
            try:
                came = "Ok %d" % choreo.value_of(1, slot, word, 2)
            except choreo.Refused as refusal:
                came = {"bad-number": "Err NotANumber", "range": "Err OutOfRange"}[refusal.outcome]
            self.assertEqual(came, "Ok %d" % number_of(value) if kind == "Ok" else "Err " + value, word)

    def test_long_words(self):
        for word, value in (("9" * 5000 + "m", FAR), ("-" + "9" * 5000 + "m", -FAR), ("0" * 5000, 0),
                            ("0" * 5000 + "1.0m", 1000000), ("1." + "0" * 5000 + "m", 1000000),
                            ("1" + "0" * 5000 + "um", FAR), ("9" * 5000, None),
                            ("9" * 5000 + "." + "0" * 5000 + "1m", None), ("0." + "0" * 5000 + "1m", None),
                            ("1" * 5000 + ".m", None), ("0" * 5000 + "s", None)):
            self.assertEqual(quantities.value_of(MICROMETRES, word), value, word[:10])
        self.assertEqual(quantities.value_of(MILLIMETRES, "7" + "0" * 5000 + "um"), FAR)
        self.assertIsNone(quantities.value_of(MILLIMETRES, "7" + "0" * 5000 + "1um"))

    def test_random_words(self):
        """Words with any unit, against their values as fractions."""
        choose = random.Random(37)
        seen = {None: 0, False: 0, True: 0}
        for _ in range(20000):
            counts = choose.choice(list(PLACES.values()))
            whole = "".join(choose.choice("0001234569") for _ in range(choose.choice([1, 1, 2, 3, 7])))
            fraction = "".join(choose.choice("000159") for _ in range(choose.choice([0, 0, 1, 2, 4, 8])))
            unit = choose.choice([*quantities.KINDS, *quantities.KINDS, "", "M", "km", "degs"])
            minus = choose.choice(["", "-"])
            word = minus + whole + "." * (fraction != "") + fraction + unit
            one, value = ONE_IS[counts.name].get(unit), None
            if one is not None:
                value = Fraction(whole + fraction) / 10 ** len(fraction) * one * (-1 if minus else 1)
                value = max(-FAR, min(FAR, int(value))) if value.denominator == 1 else None
            elif unit == "" and set(whole) == {"0"} and not fraction:
                value = 0
            self.assertEqual(quantities.value_of(counts, word), value, (counts.name, word))
            seen[None if one is None else value is not None] += 1
        self.assertGreater(min(seen.values()), 2000)


class Written(unittest.TestCase):
    def test_rows(self):
        for counts, value, word in WRITTEN:
            self.assertEqual(quantities.written(counts, value), word)
            self.assertEqual(quantities.value_of(counts, word), value)

    def test_all_units(self):
        """Random values in each unit are read as what they are, and no digit can be left out."""
        choose = random.Random(38)
        for _ in range(5000):
            counts = choose.choice(list(PLACES.values()))
            value = choose.choice([-1, 1]) * choose.choice([0, 1, 10, 999, 1000, choose.randrange(10 ** 8)])
            for unit in counts.units:
                word = quantities.in_unit(counts, value, unit)
                self.assertEqual(quantities.value_of(counts, word), value, word)
                self.assertNotRegex(word, r"^-?0[0-9]|\.[0-9]*0[a-z]|\.[a-z]")
            self.assertEqual(quantities.value_of(counts, quantities.written(counts, value)), value)


class Reader(unittest.TestCase):
    def test_row_one(self):
        """A metre along x in two seconds, in both forms, and with one word of it spoilt."""
        self.assertEqual(answer(SHOW % ("1m", "2s", "1m")), answer(FIRST))
        self.assertIn("data 00 00 00 00 E8 03 00 00 03 D0 07 00 00", answer(FIRST))
        self.assertEqual(answer(SHOW % ("1.0000001m", "2s", "1m")), "error 3 line 2 bad-number")
        self.assertEqual(answer(SHOW % ("1m", "2s", "33m")), "error 3 line 4 out-of-range x 33000000")
        self.assertEqual(answer(SHOW % ("1m", "2s", "101m")), "error 3 line 4 range")
        self.assertEqual(answer(SHOW % ("1m", "2s", "100m")), "error 3 line 4 out-of-range x 100000000")
        self.assertEqual(answer(SHOW % ("1m", "2000", "1m")), "error 3 line 3 bad-number")
        self.assertEqual(answer(SHOW % ("1m", "66s", "1m")), "error 3 line 3 range")

    def test_header(self):
        for header, wanted in (("choreo 2", None), (" choreo\t2 # units", None), ("choreo 02", "header"),
                               ("choreo 2.0", "header"), ("choreo 3", "header"), ("choreo 2m", "header"),
                               ("choreo 1", "bad-number"), ("choreo", "header"), ("choreo 2 2", "header")):
            came = answer((SHOW % ("1m", "2s", "1m")).replace("choreo 2", header))
            self.assertEqual(came[:6] == "plan 1" if wanted is None else came.split()[-1], wanted or True, header)

    def test_each_place(self):
        """Every place of a quantity in a line of every kind: with its unit, and with the one beside it."""
        front = "choreo 2\ndrone a 0 0 0 0\n"
        cue = front + "cue 1s\na %s\nend\n"
        figure = front + "figure f r\ncue 1s\nend\nend\nperform f none 1 %s a\n"
        for text, right, wrong in (
                (front + "stray %s\ncue 1s\nend\n", "50mm", "50"), (front + "late %s\ncue 1s\nend\n", "20ms", "20"),
                (front + "ellipsoid %s 300mm\ncue 1s\nend\n", "12cm", "120"),
                (front + "ellipsoid 120mm %s\ncue 1s\nend\n", "0.3m", "300"), (front + "cue %s\nend\n", "1.5s", "1500"),
                (cue, "turn 90deg", "turn 900"), (cue, "move 1m 0 0 0", "move 1m 0 0 1m"),
                (cue, "line 1m 1m 1m 1deg", "line 1m 1m 1m 10"), (cue, "arc cw 0 10cm 0", "arc cw 0 10 0"),
                (cue, "swing cw 0 10cm 0.1deg", "swing cw 0 10cm 0.01deg"),
                (cue, "arc_in cw 1mm 0 0", "arc_in cw 1 0 0"),
                (cue, "curve 1m 1m 1m 2m 2m 2m 3m 3m 3m 1deg", "curve 1m 1m 1m 2m 2m 2s 3m 3m 3m 1deg"),
                (figure, "1m -1cm 0", "1m -1 0"),
                (front + "formation f\nat a %s\nend\ncue 1s\nend\n", "1m 0 0 0", "1 0 0 0")):
            self.assertEqual(answer(text % right)[:6], "plan 1", (text, right))
            self.assertEqual(answer(text % wrong).split()[-1], "bad-number", (text, wrong))

    def test_whole_numbers(self):
        """Ids, offsets, counts and turns have no unit in either form."""
        front = "choreo 2\ndrone a 0 0 0 0\n"
        figure = "figure f r\ncue 1s\nend\nend\nperform f none %s 0 0 0 a\n"
        cue = "cue 1s\nend\n"
        for lines, right, wrong in (("memory %s 0\n" + cue, "3", "3m"), ("memory 2 %s\n" + cue, "64", "64um"),
                                    ("trajectory %s\n" + cue, "1", "1.0"), ("repeat %s\n" + cue + "end\n", "2", "2s"),
                                    (figure, "1", "90deg")):
            self.assertEqual(answer(front + lines % right)[:6], "plan 1", lines)
            self.assertEqual(answer(front + lines % wrong).split()[-1], "bad-number", lines)

    def test_order_of_faults(self):
        """Words are judged from left to right, each for its number and then its range, as in the first form."""
        front = "choreo 2\n"
        for line, wanted in (("drone a 101m 1 0 0", "range"), ("drone a 1 101m 0 0", "bad-number"),
                             ("drone a 1m 0 0", "bad-count"), ("drone A 1 0 0 0", "bad-name"),
                             ("drone a 101.0000001m 0 0 0", "bad-number"), ("drone a 1 m 0 0 0", "bad-count"),
                             ("ellipsoid 0 300mm", "range"), ("ellipsoid 2.001m 300mm", "range"),
                             ("stray 1.001m", "range"), ("stray -1mm", "range"), ("late 1.001s", "range"),
                             ("cue 0s", "range"), ("drone a 0 0 0 3276.8deg", "range")):
            self.assertEqual(answer(front + line + "\n"), "error 3 line 2 " + wanted, line)

    def test_first_form_stays(self):
        """Words of `choreo 1` are whole numbers without a unit."""
        for word, wanted in (("1000000", "plan"), ("-0", "plan"), ("0" * 5000 + "7", "plan"), ("1m", "bad-number"),
                             ("0m", "bad-number"), ("1.0", "bad-number"), ("100000001", "range"),
                             ("9" * 5000, "range")):
            came = answer(FIRST.replace("solo 0 0 1000000", "solo 0 0 " + word))
            self.assertEqual(came[:4] if wanted == "plan" else came.split()[-1], wanted, word[:20])


if __name__ == "__main__":
    unittest.main()
