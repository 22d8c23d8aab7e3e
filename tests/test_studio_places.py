"""python/hemtoghai/seeing/studio_places.py, studio_words.py and studio_work.py: where drones are at a line of a text that may be half
written, what the words of a line are, and blocked places."""
import contextlib
import io
import json
import os
import unittest

import common  # by which the package is found
from hemtoghai.language import choreo
from hemtoghai.seeing import studio_work
from hemtoghai.seeing.studio_places import begun, places_at
from hemtoghai.seeing.studio_words import words_of_language

TEXT = """choreo 1
drone a 0 0 1000000 0
drone b 1000000 0 1000000 900
cue 2000
a move 0 1000000 1500000 0
end
repeat 3
  cue 1000
  a line 500000 1000000 1500000 0
  end
  cue 1000
  b turn 0
  end
end
figure g lead wing
cue 900
lead move 0 0 1800000 0
end
cue 900
wing turn 900
end
end
cue 500
form f move
b hold
end
formation f
at a 0 0 1000000 0
end
"""


class Begun(unittest.TestCase):
    """The flight of the longest right beginning of a faulty text."""

    def ends(self, line, text):
        """How long the beginning before a line lasts, in milliseconds, and where the drones are at its end."""
        flown = begun(text.encode(), line)
        self.assertIsNotNone(flown)
        return flown.milliseconds, {name: places[-1] for name, places in zip(flown.names, flown.places)}

    def test_line_in_cue(self):
        """The cue of a faulty line isn't flown, those before are, and a repeat that is open once; formations that are
        declared later count."""
        up, at, right = [0, 1000000, 1500000, 0], [1000000, 0, 1000000, 900], [500000, 1000000, 1500000, 0]
        for line, words, wanted in ((5, "a move 0", (1, {"a": [0, 0, 1000000, 0], "b": at})),
                                    (8, "  cue x", (2000, {"a": up, "b": at})),
                                    (9, "  a lane 1", (2000, {"a": up, "b": at})),
                                    (12, "  b turn", (3000, {"a": right, "b": at})),
                                    (24, "cue", (8000, {"a": right, "b": [1000000, 0, 1000000, 0]}))):
            lines = TEXT.split("\n")
            lines[line - 1] = words
            self.assertEqual(self.ends(line, "\n".join(lines)), wanted, line)

    def test_figure(self):
        """A figure with a faulty line is left out as a whole."""
        lines = TEXT.split("\n")
        lines[16] = "lead mave"
        self.assertEqual(self.ends(17, "\n".join(lines))[0], 8000)

    def test_no_cue(self):
        """Without a cue the drones stand; without a header too; and without a drone there is nothing."""
        drones = "choreo 2\ndrone a 1m 0 50cm 90deg\n"
        self.assertEqual(self.ends(None, drones), (1, {"a": [1000000, 0, 500000, 900]}))
        self.assertEqual(self.ends(3, drones + "drone b 1m 0\n"), (1, {"a": [1000000, 0, 500000, 900]}))
        self.assertEqual(self.ends(1, "chor\ndrone a 1 0 5 0\n"), (1, {"a": [1, 0, 5, 0]}))
        for text in ("", "choreo 2\n", "x\n%%\n"):
            self.assertIsNone(begun(text.encode(), 1))

    def test_same_numbers(self):
        """Lines keep their numbers, also where a formation stands after the faulty line."""
        text = "choreo 1\ndrone a 0 0 1000000 0\ncue 1000\nform f move\nend\ncue x\nend\nformation f\nat a 0 0 2000000 0\nend\n"
        flown = begun(text.encode(), 6)
        self.assertEqual([cue.line.number for cue in flown.cues], [3])
        self.assertEqual(flown.cues[0].places["a"], 9)
        self.assertEqual(flown.places[0][-1], [0, 0, 2000000, 0])


class Places(unittest.TestCase):
    def at(self, line, text=TEXT):
        """What stands around a line."""
        return places_at(text.encode(), line)

    def places(self, line, text=TEXT):
        """Where the drones are, by name, and whether that is exact."""
        found = self.at(line, text)
        return {row[0]: row[1:] for row in found["drones"]}, found["exact"]

    def test_top(self):
        start = {"a": [0, 0, 1000000, 0], "b": [1000000, 0, 1000000, 900]}
        self.assertEqual(self.places(4), (start, True))
        self.assertEqual(self.places(7), ({**start, "a": [0, 1000000, 1500000, 0]}, True))
        self.assertEqual(self.at(4)["where"], "top")
        # The formation stands after its use.
        self.assertEqual(self.places(27)[0]["a"], [0, 0, 1000000, 0])
        self.assertEqual((self.at(27)["formations"], self.at(27)["figures"]), (["f"], ["g"]))

    def test_in_a_cue(self):
        """Where the cue begins, with those that have a line."""
        found = self.at(6)
        self.assertEqual((found["where"], found["acted"]), ("cue", ["a"]))
        self.assertEqual(self.places(6)[0]["a"], [0, 0, 1000000, 0])
        self.assertEqual(sorted(self.at(26)["acted"]), ["a", "b"])  # a by the formation
        self.assertEqual((self.at(29)["where"], self.at(29)["acted"]), ("formation", ["a"]))

    def test_in_a_repeat(self):
        """The first turn counts."""
        self.assertEqual(self.at(11)["where"], "repeat")
        self.assertEqual(self.places(11)[0]["a"], [500000, 1000000, 1500000, 0])
        self.assertEqual(self.places(12)[0]["b"], [1000000, 0, 1000000, 900])
        self.assertEqual(self.places(15)[0]["b"], [1000000, 0, 1000000, 0])

    def test_in_a_figure(self):
        found = self.at(20)
        self.assertEqual((found["where"], found["in_figure"], found["drones"]),
                         ("cue", True, [["lead", 0, 0, 1800000, 0], ["wing", 0, 0, 1000000, 0]]))
        self.assertEqual(self.at(19)["where"], "figure")

    def test_half_written(self):
        """An open cue, and faults after the line; a fault before it leaves the starts."""
        half = TEXT[:TEXT.index("repeat")] + "cue 3000\n"
        self.assertEqual((self.at(8, half)["where"], self.places(8, half)), (
            "cue", ({"a": [0, 1000000, 1500000, 0], "b": [1000000, 0, 1000000, 900]}, True)))
        self.assertEqual(self.places(7, TEXT + "nonsense\n"), self.places(7))
        places, exact = self.places(7, TEXT.replace("a move", "a mvoe"))
        self.assertEqual((places["a"], exact), ([0, 0, 1000000, 0], False))
        for text in ("", "\n\n", "choreo 1", "end\nend\n", "cue cue cue", "\xff \xe2\x82\xac", "figure\nfigure g\ncue 1\n"):
            for line in (1, 2, 9):
                self.assertEqual(self.at(line, text)["drones"], [], text)

    def test_last_lines(self):
        """In a cue a drone may have the name of any word."""
        top = choreo.read(b"choreo 1\ncue 1\ncue hold\nend\nrepeat 2\ncue 1\nend\nend\n")
        self.assertEqual({line.number: line.last for line in choreo.inside(top)}, {2: 4, 3: 3, 5: 8, 6: 7})


class Words(unittest.TestCase):
    def test_language(self):
        """The words of docs/LANGUAGE.md, The language; an act that python/hemtoghai/language/choreo.py has is here as well."""
        found = words_of_language()
        place = [["x", "um"], ["y", "um"], ["z", "um"], ["yaw", "deg10"]]
        self.assertEqual(found["acts"]["move"], place)
        self.assertEqual(found["lines"]["drone"], ["name", *place])
        self.assertEqual(found["acts"]["arc"], [["ccw", "cw"], ["centre x", "um"], ["centre y", "um"], ["yaw", "deg10"]])
        self.assertEqual([row[0] for row in found["acts"]["curve"]],
                         ["x1", "y1", "z1", "x2", "y2", "z2", "x3", "y3", "z3", "yaw"])
        self.assertEqual((found["lines"]["cue"], found["lines"]["late"], found["lines"]["stray"]),
                         ([["length", "ms"]], [["late", "ms"]], [["stray", "mm"]]))
        self.assertEqual(set(found["acts"]), set(choreo.ACTS))
        for word in ("choreo", "drone", "ccw", "none", "end", *choreo.ACTS):
            self.assertIn(word, found["words"])


class Marks(unittest.TestCase):
    TEXT = b"choreo 1\n" + b"".join(b"drone d%d 0 0 1000000 0\n" % k for k in range(6)) + b"cue 100\nend\n"

    def stages(self, program, answer):
        """What is written of the text, stage by stage."""
        with contextlib.redirect_stdout(io.StringIO()) as out:
            studio_work.put_flight(self.TEXT, 6, program, answer, None)
        return {row["stage"]: row for row in map(json.loads, out.getvalue().splitlines())}

    @common.wants_program
    def test_all(self):
        """Blocked places are those that the program names: six drones at one place are 15 pairs."""
        found = self.stages(common.PROGRAM, [5, "error 5 pair d0 d1 cue 1 part 0 of 64"])
        self.assertEqual((len(found["marks"]["marks"]), found["marks"]["many"], found["marks"]["all"]), (15, 15, True))
        first, = found["flight"]["flight"]["marks"]
        self.assertEqual((first["pair"], first["named"], first["touch"]), ([0, 1], True, True))

    def test_no_program(self):
        """Where no program can be asked there is no verdict, and nothing is marked."""
        found = self.stages(os.devnull, None)
        self.assertEqual((found["verdict"]["status"], found["flight"]["flight"]["marks"], "marks" in found), (70, [], False))


if __name__ == "__main__":
    unittest.main()
