"""The flight by hand of docs/PROMISES.md, 'Its frames': the proved program and the slow reading of bench/director say to
its events what that page says."""
import argparse
import importlib.machinery
import importlib.util
import os
import re
import subprocess
import sys
import unittest

import common
from hemtoghai import program
from hemtoghai.language.choreo import flown_of

UP = b"choreo 1\nstray 100\ndrone a 0 0 0 0\ncue 2000\na move 0 0 1000000 0\nend\n"
SHOW = b"choreo 1\nstray 30\ndrone a 0 0 1000000 0\ncue 2000\nend\n"
DOWN = b"choreo 1\ndrone a 0 0 1000000 0\ncue 2000\na move 0 0 0 0\nend\n"
TEXTS = UP, SHOW, DOWN
LINE = re.compile("((?:[0-9A-F]{2} )+)->((?: [0-9A-F]{2})*)(?: |$)")
FLOWN, NOT_FLOWN, CUT = 0, 20, 8  # statuses: flown, ended before its end, and events that end before the flight


def lists():
    """The lists of that page, as rows of events and answers in bytes; the first is the whole flight."""
    with open(os.path.join(common.TOP, "docs", "PROMISES.md"), encoding="utf-8") as file:
        part = file.read().split("A flight by hand")[1].split("\n## ")[0]
    blocks = [block for text in re.findall("(?ms)^```\n(.*?)^```$", part) for block in text.split("\n\n")]
    return [[tuple(bytes.fromhex(it) for it in LINE.match(line).groups()) for line in block.strip("\n").split("\n")]
            for block in blocks]


def reading():
    """The module of bench/director."""
    loader = importlib.machinery.SourceFileLoader("slow_director", os.path.join(common.TOP, "bench", "director"))
    module = importlib.util.module_from_spec(importlib.util.spec_from_loader("slow_director", loader))
    sys.modules["slow_director"] = module
    loader.exec_module(module)
    return module


class Worked(unittest.TestCase):
    def setUp(self):
        whole, *others = lists()
        start = next(k for k, (_, said) in enumerate(whole) if said == bytes([2, 4, 1])) + 1
        self.lists = [(whole, FLOWN)] + [(whole[:start] + other, NOT_FLOWN if other[-1][1][:1] == b"\4" else CUT)
                                         for other in others]

    def test_there_are_all(self):
        self.assertEqual([len(rows) for rows, _ in self.lists], [24, 11, 12, 13, 12, 11, 12, 13, 12])
        self.assertEqual([status for _, status in self.lists].count(NOT_FLOWN), 2)

    def test_slow_reading(self):
        director = reading()
        words = argparse.Namespace(near=80, at=80, silence=1000, floor=0, descent=4000, then="land")
        for rows, _ in self.lists:
            it = director.Director(director.flight_from([flown_of(text) for text in TEXTS], words))
            for events, said in rows:
                self.assertEqual(director.answer(it, events).hex(" "), said.hex(" "), events.hex(" "))

    @common.wants_program
    def test_program(self):
        texts = b"".join(text + b"%%\n" for text in TEXTS)
        for rows, status in self.lists:
            done = subprocess.run([program.runs(), "direct"], input=texts + b"".join(events for events, _ in rows),
                                  stdout=subprocess.PIPE, stderr=subprocess.DEVNULL)
            said = b"".join(said for _, said in rows)
            self.assertEqual((done.stdout.hex(" "), done.returncode), ((said + bytes([0x45, status])).hex(" "), status))


if __name__ == "__main__":
    unittest.main()
