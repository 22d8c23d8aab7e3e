"""Sixty shows with one mistake each, as authors make them: which line and which fault is named, by the reader of the
tools and by the program where it is built, and that the cure names what is wrong there. Each row was read aloud."""
import unittest

import common
from hemtoghai import program
from hemtoghai.language import choreo, cures

SHOW = """choreo 2
ellipsoid 120mm 300mm
stray 20mm
drone alpha 0 0 1m 0
drone bravo 1m 0 1m 0
drone carla 2m 0 1m 0
formation row
  at alpha 0 1m 1m 0
  at bravo 1m 1m 1m 0
end
figure bow lead wing
  cue 3s
    lead move 0 0 1.8m 0
    wing move -1m 0 1.4m 0
  end
end
cue 3s
  form row move
  carla turn 90deg
end
repeat 2
  cue 2s
    alpha swing ccw 0 0 0
    bravo line 1m 0 1.5m 0
  end
end
perform bow none 0 0 0 0 alpha bravo
cue 4s
  carla curve 2m 0 1m 2m 1m 1m 2m 1m 1m 0
end
""".split("\n")[:-1]
GONE = ()  # of a line: it is left out

# By the kind of mistake: the lines that are others, the faulty line and its word, and words of what is said.
FIRST_LINE = (
    ({1: "choreo 3"}, 1, "header", "`choreo 3`", "another version of the language: this program reads 1 and 2"),
    ({1: "Choreo 2"}, 1, "header", "`Choreo 2`", "write `choreo 2`"), ({1: "choreo2"}, 1, "header", "`choreo2`"),
    ({1: "choreo 2 my show"}, 1, "header", "more words in the first line", "write `choreo 2` alone"),
    ({1: "2 choreo"}, 1, "header", "the first line is `2 choreo`", "write `choreo 2` where"),
    ({1: "choroo 2"}, 1, "header", "the first line is `choroo 2`", "write `choreo 2` where"),
    ({2: "choreo 2"}, 2, "bad-word", "the first line of the text says already in which form it is", "remove this line"),
    ({1: GONE}, 1, "header", "the line is missing", "begin the text with `choreo 2`"))
NAMES = (
    ({4: "drone Alpha 0 0 1m 0"}, 4, "bad-name", "`Alpha` is no name: it has a capital letter", "write `alpha`"),
    ({4: "drone al-pha 0 0 1m 0"}, 4, "bad-name", "a-z, 0-9 and `_` alone", "write `al_pha`"),
    ({4: "drone 1st 0 0 1m 0"}, 4, "bad-name", "begins with a lower-case letter", "write `d1st`"),
    ({4: "drone a_very_long_name_1 0 0 1m 0"}, 4, "bad-name", "it has 18 letters, and a name at most 16"),
    ({4: "drone end 0 0 1m 0"}, 4, "bad-name", "`end` is no name: it is a word of the language"),
    ({5: "drone alpha 1m 0 1m 0"}, 5, "double-name", "line 4 has the name already: drone alpha 0 0 1m 0"),
    ({8: "at alpa 0 1m 1m 0"}, 8, "unknown-name", "no drone is called `alpa`", "write `alpha`; or declare it"),
    ({8: "at zeta 0 1m 1m 0"}, 8, "unknown-name", "the drones are alpha, bravo, carla"),
    ({11: "figure bow lead lead"}, 11, "double-name", "the role `lead` stands twice in this figure"),
    ({13: "alpha move 0 0 1.8m 0"}, 13, "unknown-name", "no role of the figure `bow` is called `alpha`",
     "a drone's name inside the figure", "the roles are lead, wing"),
    ({18: "form raw move"}, 18, "unknown-name", "no formation is called `raw`", "write `row`"),
    ({19: "charlie turn 90deg"}, 19, "unknown-name", "no drone is called `charlie`", "write `carla`"),
    ({19: "all turn 90deg"}, 19, "unknown-name", "write a line for each drone: alpha, bravo, carla"),
    ({27: "perform bows none 0 0 0 0 alpha bravo"}, 27, "unknown-name", "no figure is called `bows`", "write `bow`"),
    ({27: "perform bow none 0 0 0 0 alpha zeta"}, 27, "unknown-name", "no drone is called `zeta`, which shall perform"))
TWICE = (
    ({3: "ellipsoid 100mm 200mm"}, 3, "double-setting", "line 2 has `ellipsoid` already: ellipsoid 120mm 300mm"),
    ({9: "at alpha 1m 1m 1m 0"}, 9, "double-act", "line 8 has a place for `alpha` already: at alpha 0 1m 1m 0"),
    ({19: "alpha turn 90deg"}, 19, "double-act", "line 18 has an act for `alpha` already: form row move",
     "a drone's own line beside a `form`"),
    ({24: "alpha line 1m 0 1.5m 0"}, 24, "double-act", "line 23 has an act for `alpha` already: alpha swing ccw 0 0 0",
     "make two cues of it"),
    ({27: "perform bow none 0 0 0 0 alpha alpha"}, 27, "double-act", "`alpha` stands twice in this `perform`"),
    ({27: "perform bow none 0 0 0 0 alpha"}, 27, "role-count", "`bow` has 2 roles (lead, wing), and here is 1 drone"))
WORDS = (
    ({3: "strya 20mm"}, 3, "bad-word", "no line at the top level begins with `strya`", "write `stray DISTANCE`"),
    ({6: "dron carla 2m 0 1m 0"}, 6, "bad-word", "write `drone NAME X Y Z YAW`"),
    ({28: "takeoff 1m 2s"}, 28, "bad-word", "here a line begins with memory, trajectory, ellipsoid, stray, late, drone"),
    ({28: "alpha move 0 0 1m 0"}, 28, "bad-word", "an act stands in a cue, and this line stands at the top level",
     "write `cue TIME` before it"),
    ({8: "alpha 0 1m 1m 0"}, 8, "bad-word", "in the formation of line 7", "here a line begins with at or end"),
    ({13: "lead moves 0 0 1.8m 0"}, 13, "bad-word", "there is no act `moves`", "write `lead move X Y Z YAW`"),
    ({19: "carla trun 90deg"}, 19, "bad-word", "there is no act `trun`", "write `carla turn YAW`"),
    ({19: "carla land 1s"}, 19, "bad-word", "there is no act `land`", "hold, line, move, turn, "),
    ({18: "form row swing"}, 18, "bad-word", "`form` takes `line` or `move`, not `swing`", "a line of its own"),
    ({18: "form row fast"}, 18, "bad-word", "not `fast`", "write `form row move`"),
    ({23: "alpha swing left 0 0 0"}, 23, "bad-word", "the sense of `swing` is left", "`swing ccw ..`"),
    ({27: "perform bow left 0 0 0 0 alpha bravo"}, 27, "bad-word", "the mirror of `perform` is left", "`none`"))
BLOCKS = (
    ({17: GONE}, 17, "bad-word", "`form` may not stand at the top level", "write it in a cue"),
    ({10: GONE}, 10, "bad-word", "`figure` may not stand in the formation of line 7", "write `end` before this line"),
    ({15: GONE}, 17, "bad-name", "in a figure no formation is formed", "the `end` of the figure in line 11 is missing"),
    ({20: GONE}, 20, "bad-word", "is taken for an act of a drone called `repeat`",
     "the `end` of the cue in line 17 is missing", "write `end` before this line"),
    ({26: "end\nend"}, 27, "bad-word", "`end` closes a block, and none is open here",
     "one `end` too many: the repeat of line 21 was closed in line 26"),
    ({k: GONE for k in range(16, 27)}, 16, "bad-word", "`perform` may not stand in the figure of line 11: a figure performs no",
     "the `end` of line 11 is missing", "write `end` before this line; or write the cues of that figure into this one"),
    ({k: GONE for k in range(10, 27)}, 10, "bad-word", "`perform` may not stand in the formation of line 7",
     "the `end` of line 7 is missing | write `end` before this line"),
    ({20: "End"}, 20, "bad-name", "`End` is no name, and doesn't close the cue", "write `end`"),
    ({17: "3s cue"}, 17, "bad-word", "no line at the top level begins with `3s`", "write `cue TIME`, that word first"),
    ({17: "wait 3s"}, 17, "bad-word", "begins with `wait`", "write `cue 3s`: a drone without a line holds in it"),
    ({19: "turn carla 90deg"}, 19, "bad-word", "the drone comes before its act", "write `carla turn YAW`"),
    ({29: "carla 90deg turn"}, 29, "bad-word", "there is no act `90deg`", "write `carla turn YAW`"),
    ({17: "3s"}, 17, "bad-word", "begins with `3s`", "write `cue 3s`"),
    ({8: "at 0 alpha 1m 1m 0"}, 8, "bad-name", "`0` is a number, and here stands a name", "write `at NAME X Y Z YAW`"),
    ({18: "form row move\nend"}, 20, "bad-word", "an act stands in a cue",
     "or remove the `end` of line 19, if it belongs to the cue of line 17"),
    ({8: "at alpha 0 1m 1m 0\nend"}, 10, "bad-word", "`at` may not stand at the top level",
     "one `end` too many: the formation of line 7 was closed in line 9"),
    ({19: "1 end"}, 19, "bad-name", "`end` closes the cue of line 17 only by itself", "no `1` before it"),
    ({19: "gently end"}, 19, "bad-word", "`end` closes the cue of line 17 only by itself", "no `gently` before it"),
    ({18: "end"}, 19, "bad-word", "an act stands in a cue, and this line stands at the top level",
     "one `end` too many: the cue of line 17 was closed in line 18", "remove that `end`"),
    ({8: GONE, 9: GONE}, 8, "empty-block", "the formation of line 7 has no line in it"),
    ({30: GONE}, 28, "no-end", "the cue of this line isn't closed", "write `end` at the end of the text"),
    ({21: "repeat 2\nrepeat 2", 26: GONE, 27: GONE, 28: GONE, 29: GONE, 30: GONE}, 22, "no-end", "2 blocks are open", "21, 22"),
    ({line: GONE for line in range(17, 31)}, 1, "no-cue", "the figure `bow` is never performed", "lead, wing"),
    ({21: "repeat 1001"}, 21, "too-many-cues", "the show has 1004 cues", "may have 1000"))
COUNTS = (
    ({4: "drone alpha 0 0 1m"}, 4, "bad-count", "`drone` takes 5 words after it, and here are 4", "the yaw is missing", "NAME X Y Z YAW"),
    ({4: "drone alpha 0 0 1 m 0"}, 4, "bad-count", "a blank between a number and its unit", "write 1m"),
    ({7: "formation"}, 7, "bad-count", "`formation` takes 1 word after it, and here are 0"),
    ({11: "figure bow"}, 11, "bad-count", "`figure` takes 2 to 33 words after it, and here is 1", "1 to 32 roles"),
    ({18: "form row"}, 18, "bad-count", "`form` takes 2 words after it, and here is 1", "NAME move"),
    ({19: "carla"}, 19, "bad-count", "`carla` has no act", "write `carla hold`"),
    ({20: "wait"}, 20, "bad-count", "`wait` stands alone in a cue, and no drone is called so", "or `end` to close the cue"),
    ({20: "ende"}, 20, "bad-count", "`ende` stands alone in a cue", "write `end`;"),
    ({13: "led"}, 13, "bad-count", "`led` stands alone in a cue, and no role is called so", "write `lead` and its act"),
    ({17: "cue move 3s"}, 17, "bad-count", "`cue` takes 1 word after it, and here are 2", "write `cue` and then TIME"),
    ({29: "carla move 2m 1m 90deg"}, 29, "bad-count", "`move` takes 4 words", "a number before the yaw is missing"),
    ({20: "end cue"}, 20, "bad-count", "`end` takes 0 words after it", "no word after it"),
    ({23: "alpha swing ccw 0 1m 1m 0"}, 23, "bad-count", "`swing` takes 4 words after it, and here are 5", "SENSE CX CY YAW"),
    ({29: "carla curve 2m 0 1m 2m 1m 1m 0"}, 29, "bad-count", "`curve` takes 10 words after it, and here are 7"),
    ({29: "carla move 2m 0 1m 0 // back"}, 29, "bad-count", "a comment that begins with //", "write `#`"),
    ({29: "// back home"}, 29, "bad-name", "begin a comment with `#`"))
NUMBERS = (
    ({4: "drone alpha 0 0 1 0"}, 4, "bad-number", "a coordinate is 1, without a unit", "write 1m, 1cm, 1mm or 1um"),
    ({4: "drone alpha 0 0 1,5m 0"}, 4, "bad-number", "a comma in place of the point", "write 1.5m"),
    ({4: "drone alpha 0 0 1m 2rad"}, 4, "bad-number", "rad is no unit here", "deg"),
    ({4: "drone alpha 0: 0 1m 0"}, 4, "bad-number", "a `:` between words, where a blank is enough", "write 0"),
    ({17: "cue -3s"}, 17, "range", "may be 1ms to 65.535s", "a `-` before it", "write 3s"),
    ({21: "repeat -2"}, 21, "range", "the count of a `repeat` is -2", "a `-` before it", "write 2"),
    ({4: "drone alpha 0 0 101m 0"}, 4, "range", "a coordinate is 101m", "may be -100m to 100m"),
    ({17: "cue 3"}, 17, "bad-number", "the length of a cue is 3, without a unit", "write 3s or 3ms"),
    ({17: "cue 70s"}, 17, "range", "may be 1ms to 65.535s", "split a longer cue"),
    ({21: "repeat two"}, 21, "bad-number", "the count of a `repeat` is two, which is no whole number", "1 to 1000000000"),
    ({27: "perform bow none 90 0 0 0 alpha bravo"}, 27, "range", "TURNS of `perform` is 90", "degrees in place of"),
    ({27: "perform bow none 180deg 0 0 0 alpha bravo"}, 27, "bad-number", "180deg, and counts quarter turns", "write 2"),
    ({27: "perform bow none -90deg 0 0 0 alpha bravo"}, 27, "bad-number", "counts quarter turns", "write 3"),
    ({27: "perform bow none 45deg 0 0 0 alpha bravo"}, 27, "bad-number", "counts quarter turns", "write 0, 1, 2 or 3"),
    ({27: "perform bow none 0 0 0 alpha bravo"}, 27, "bad-number", "is alpha, which has no digits",
     "a number is missing before it"),
    ({29: "carla move 33m 0 1m 0"}, 29, "out-of-range", "x would be 33 m, and may be -32.768 to 32.767"))
BYTES = (
    ({29: "carla move 2m 0 \u22121m 0"}, 29, "bad-byte", "U+2212, minus sign, stands in column 17", "write `-`"),
    ({4: "drone alpha 0 0\u00a01m 0"}, 4, "bad-byte", "no-break space, stands in column 16", "write a blank"),
    ({4: "drone \u00e4lpha 0 0 1m 0"}, 4, "bad-byte", "latin small letter a with diaeresis", "write `a`"),
    ({1: "\ufeffchoreo 2"}, 1, "bad-byte", "a byte-order mark, stands in column 1", "save the text without it"))


def spoilt(lines):
    """The show with other lines, by their numbers."""
    return "".join(SHOW[k - 1] + "\n" if k not in lines else lines[k] + "\n" if lines[k] else ""
                   for k in range(1, len(SHOW) + 1)).encode()


class Spoilt(unittest.TestCase):
    def said(self, rows):
        """Looks at the cures of some texts."""
        for lines, number, word, *wanted in rows:
            text = spoilt(lines)
            with self.assertRaises(choreo.Refused) as refused:
                choreo.flown_of(text)
            line = str(refused.exception)
            self.assertEqual(line.split(" ")[:5], ["error", "3", "line", str(number), word], lines)
            if program.fault() is None:
                self.assertEqual(program.ask(["check"], text), (3, (line + "\n").encode()), lines)
            row = cures.cure_in(text, number, word)
            for words in wanted:
                self.assertIn(words, " | ".join(row), lines)
            for cell in row:
                self.assertLess(len(cell), 200, cell)

    def test_base(self):
        self.assertEqual(len(choreo.flown_of(spoilt({})).cues), 5)

    def test_first_line(self):
        self.said(FIRST_LINE)

    def test_names(self):
        self.said(NAMES)

    def test_twice(self):
        self.said(TWICE)

    def test_words(self):
        self.said(WORDS)

    def test_blocks(self):
        self.said(BLOCKS)

    def test_counts(self):
        self.said(COUNTS)

    def test_numbers(self):
        self.said(NUMBERS)

    def test_bytes(self):
        self.said(BYTES)

    def test_how_many(self):
        self.assertGreaterEqual(sum(map(len, (FIRST_LINE, NAMES, TWICE, WORDS, BLOCKS, COUNTS, NUMBERS, BYTES))), 60)

    def test_any_damage(self):
        """Whatever is wrong, something is said, and nothing of what is looked at stops the cure."""
        for at in range(len(SHOW)):
            for word in ("end", "cue 1s", "at", "form", "perform", "x y", "repeat 2", "drone", "//", "figure a b", "-"):
                text = spoilt({at + 1: word})
                try:
                    choreo.flown_of(text)
                except choreo.Refused as refusal:
                    row = cures.cure_in(text, refusal.number, refusal.outcome.split()[0])
                    self.assertEqual([type(cell) for cell in row], [str] * 3, (at, word))
                    self.assertTrue(row[0] and row[2], (at, word))


if __name__ == "__main__":
    unittest.main()
