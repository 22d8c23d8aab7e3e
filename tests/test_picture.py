"""./show picture: what the page is given, and the drawing. How the page looks isn't tested here; it was looked at in
Chromium."""
import base64
import json
import os
import re
import subprocess
import tempfile
import unittest

import forked
from common import TOP, without_record
from hemtoghai.seeing import drawing

STAND_IN = ["--program", without_record()]
# In both cues the two pass one another, in the first 100 mm apart and in the second at one place.
TWICE = """choreo 1
stray 30
late 15
drone a 0 0 1000000 0
drone b 1000000 100000 1000000 0
cue 2000
a move 1000000 0 1000000 0
b move 0 100000 1000000 0
end
cue 2000
b move 0 0 1000000 0
end
cue 2000
a move 0 0 1000000 0
b move 1000000 0 1000000 0
end
"""


def picture(*words, text=None):
    """The status, standard output and standard error of the tool."""
    done = forked.SHOWS.run(["show", "picture", *words], cwd=TOP, input=text, timeout=120,
                            stdout=subprocess.PIPE, stderr=subprocess.PIPE, universal_newlines=True)
    return done.returncode, done.stdout, done.stderr


def data_of(*words, text=None):
    """What a page shows."""
    status, page, told = picture(*STAND_IN, *words, text=text)
    if status:
        raise AssertionError(told)
    return json.loads(re.search("^const show = (.*);$", page, re.M)[1])


class Page(unittest.TestCase):
    def test_worst_first(self):
        data = data_of("-", text=TWICE)
        marks = data["marks"]
        self.assertEqual([(mark["cue"], mark["named"], mark["nearest"]) for mark in marks],
                         [(2, False, 5000), (0, True, 1000)])
        # In the middle of the first cue they are 100 mm apart of 240: 173 thousandths of the square, rounded down.
        self.assertEqual([mark["share"] for mark in marks], [0, 41.6])
        self.assertIn("cue 1", data["line"])
        self.assertEqual((data["r"], data["h"], data["stray"], data["late"]), (120, 300, 30, 15))

    def test_regions(self):
        data = data_of("--regions", "examples/shelf.regions", "examples/shelf.choreo")
        self.assertEqual(data["regions"], [["volume", -1000, -1000, 300, 2500, 2500, 2500],
                                           ["keepout", 800, 600, 0, 1200, 1400, 1500]])
        self.assertEqual(data_of("examples/shelf.choreo")["regions"], [])
        with tempfile.TemporaryDirectory() as folder:
            path = os.path.join(folder, "regions")
            for line in ("keepout 1 2 3 4 5", "keepout 0 0 0 1 1 x", "box 0 0 0 1 1 1", "volume 1 0 0 0 1 1",
                         "volume 0 0 0 1 1 40001"):
                with open(path, "w") as file:
                    file.write("\n" + line + "\n")
                status, said, told = picture(*STAND_IN, "--regions", path, "examples/shelf.choreo")
                self.assertEqual((status, said), (70, ""), line)
                self.assertIn("line 2: this is no region: " + line, told)

    def test_controls(self):
        page = re.sub("data:text/javascript;base64,([A-Za-z0-9+/=]+)", lambda it: base64.b64decode(it[1]).decode(),
                      picture(*STAND_IN, "examples/solo.choreo")[1])
        for name in ("speed", "loop", "views", "space", "slider", "go"):
            self.assertIn('id="%s"' % name, page)
            self.assertIn('byId("%s")' % name, page)


class Drawing(unittest.TestCase):
    def test_view(self):
        view = drawing.View((-1000, -1000, 0), (1000, 1000, 2000))
        # Turned by 28 degrees and tilted by 30: cosines 0.88295 and 0.86603, sines 0.46947 and 0.5.
        for place, wanted in (((0, 0, 1000), (0, 0, 0)), ((0, 0, 2000), (0, 866.03, -500)),
                              ((1000, 0, 1000), (882.95, -234.74, -406.57)),
                              ((0, 1000, 1000), (469.47, 441.47, 764.66))):
            for found, want in zip(view.flat(place), wanted):
                self.assertAlmostEqual(found, want, 2)

    def test_lines(self):
        # Points on a straight line are left out, turns and returns stay.
        self.assertEqual(drawing.coordinates([(0, 0), (1, 0), (5, 0), (10, 0), (10, 10), (10, 3)]),
                         "0.0,0.0 10.0,0.0 10.0,10.0 10.0,3.0")

    def test_of_the_documents(self):
        status, said, told = picture("--svg", "examples/grid_to_ring_dealt.choreo")
        self.assertEqual(status, 0, told)
        self.assertEqual((said.count("<ellipse"), said.count("<circle")), (32, 32))
        with open(os.path.join(TOP, "docs", "picture.svg")) as file:
            # Made by ./show picture --svg examples/grid_to_ring_dealt.choreo > docs/picture.svg.
            self.assertEqual(said, file.read())

    def test_faulty(self):
        status, said, told = picture("--svg", "-", text="choreo 3\n")
        self.assertEqual((status, said, "header" in told), (3, "", True))


if __name__ == "__main__":
    unittest.main()
