"""python/hemtoghai/seeing/studio_quantities.js and language/quantities.py have the same rule: over a table of words and
of numbers both read and write the same. The page's file is run by Node, and in tests/test_studio_page.py by Chromium;
without Node the tests are skipped."""
from __future__ import annotations

import json
import os
import random
import shutil
import subprocess
import tempfile
import unittest

import common
from hemtoghai.language import quantities
from hemtoghai.seeing.studio_words import COUNTS, words_of_language
from test_quantities import ROWS, WRITTEN

NODE = shutil.which("node") or shutil.which("nodejs")
FOLDER = os.path.join(common.PYTHON, "hemtoghai", "seeing")
MODULES = ("given.js", "studio_quantities.js")
MOST = 999999999  # of a number that the page writes
UNIT_OF = {counts.name: unit for unit, counts in COUNTS.items()}


def table() -> tuple[list[tuple[str, str]], list[tuple[str, int]]]:
    """Words to be read and numbers to be written, each with the unit of its place: those of tests/test_quantities.py,
    the ends of all ranges, and some at random."""
    chance = random.Random(7)
    words = [(UNIT_OF[counts.name], word) for counts, good, _, bad in ROWS for word in (good, bad)]
    numbers = [(UNIT_OF[counts.name], value) for counts, value, _ in WRITTEN]
    for unit, counts in COUNTS.items():
        for power in range(10):
            numbers += [(unit, sign * (10 ** power + k)) for sign in (1, -1) for k in (-1, 0, 1) if power < 9]
        numbers += [(unit, chance.randint(-10 ** power, 10 ** power)) for power in range(1, 9) for _ in range(12)]
        numbers += [(unit, MOST), (unit, -MOST)]
        for _ in range(300):
            front = chance.choice(["", "", "-", "+"]) + str(chance.randrange(10 ** chance.randint(1, 14)))
            back = "".join(chance.choice("0005") for _ in range(chance.randint(1, 8)))
            word = front + chance.choice(["", "." + back, "." + back, ".", ",5"])
            words.append((unit, word + chance.choice(["", *counts.units, *counts.units, "km", "M", "s", "m"])))
    words += [(unit, quantities.written(COUNTS[unit], value)) for unit, value in numbers]
    return words, numbers


def read(words: list[tuple[str, str]]) -> list[int | None]:
    """What words are in their places, by quantities.py."""
    return [quantities.value_of(COUNTS[unit], word) for unit, word in words]


def written(numbers: list[tuple[str, int]]) -> list[str]:
    """How numbers are written in their places, by quantities.py."""
    return [quantities.written(COUNTS[unit], value) for unit, value in numbers]


# What the page's file makes of a table that is `[words, numbers]` in JSON.
BOTH = """[words.map(([unit, word]) => quantityOf(unit, word)),
          numbers.map(([unit, value]) => quantityWord(unit, value))]"""


@unittest.skipUnless(NODE, "no Node")
class SameRule(unittest.TestCase):
    def test_table(self):
        words, numbers = table()
        page = {"language": words_of_language()}
        script = 'globalThis.document = {getElementById: () => ({textContent: %s})};\n' \
                 'const {quantityOf, quantityWord} = await import("./studio_quantities.js");\n' \
                 'const {readFileSync} = await import("fs");\n' \
                 'const [words, numbers] = JSON.parse(readFileSync(0, "utf8"));\nconsole.log(JSON.stringify(%s));\n' % (
                     json.dumps(json.dumps(page)), BOTH)
        with tempfile.TemporaryDirectory() as folder:  # in which files are modules
            for name, words_of_file in (("package.json", '{"type": "module"}'), ("main.js", script)):
                with open(os.path.join(folder, name), "w") as file:
                    file.write(words_of_file)
            for name in MODULES:
                shutil.copy(os.path.join(FOLDER, name), folder)
            done = subprocess.run([NODE, os.path.join(folder, "main.js")], input=json.dumps([words, numbers]),
                                  stdout=subprocess.PIPE, universal_newlines=True, timeout=60, check=True)
        came_read, came_written = json.loads(done.stdout)
        for word, mine, theirs in zip(words, read(words), came_read):
            self.assertEqual(theirs, mine, word)
        for number, mine, theirs in zip(numbers, written(numbers), came_written):
            self.assertEqual(theirs, mine, number)
        self.assertGreater(sum(value is not None for value in came_read), 500)
        self.assertGreater(sum(value is None for value in came_read), 300)


if __name__ == "__main__":
    unittest.main()
