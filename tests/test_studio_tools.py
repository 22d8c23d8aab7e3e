"""The formation tools of ./show studio: where they put drones, by hand; and in Chromium what they write, and the ghost
flight that is drawn before they are taken."""
from __future__ import annotations

import json
import math
import os
import re
import shutil
import subprocess
import sys
import tempfile
import unittest

sys.dont_write_bytecode = True
sys.path.insert(0, os.path.dirname(os.path.abspath(__file__)))
import common
from test_studio_flight import Flight
from test_studio_page import CONTROL

NODE = shutil.which("node") or shutil.which("nodejs")
FILE = os.path.join(common.PYTHON, "hemtoghai", "seeing", "formations.js")
SQUARE = [[0, 0, 1000], [1000, 0, 1000], [1000, 1000, 1000], [0, 1000, 1000]]  # around 500, 500
HALF = 500 * math.sqrt(2)


def around(*rows: list[float]) -> list[list[int]]:
    return [[round(500 + x), round(500 + y), z] for x, y, z in rows]


# By tool and numbers where the square goes, by hand.
MADE = [
    ("raise", [300], [[0, 0, 1300], [1000, 0, 1300], [1000, 1000, 1300], [0, 1000, 1300]]),
    ("move", [250, -100], [[250, -100, 1000], [1250, -100, 1000], [1250, 900, 1000], [250, 900, 1000]]),
    ("turn", [90], [[1000, 0, 1000], [1000, 1000, 1000], [0, 1000, 1000], [0, 0, 1000]]),
    ("turn", [45], around([0, -HALF, 1000], [HALF, 0, 1000], [0, HALF, 1000], [-HALF, 0, 1000])),
    ("scale", [200], [[-500, -500, 1000], [1500, -500, 1000], [1500, 1500, 1000], [-500, 1500, 1000]]),
    ("ring", [500], around(*([500 * math.cos(a), 500 * math.sin(a), 1000] for a in (
        -3 * math.pi / 4, -math.pi / 4, math.pi / 4, 3 * math.pi / 4)))),
    ("grid", [600], [[200, 200, 1000], [800, 200, 1000], [800, 800, 1000], [200, 800, 1000]]),
]
# A line along x of drones at -1, 2 and 0 m: in this order, 0.7 m apart, around the middle.
LINE = [[-1000, 0, 1000], [2000, 300, 1200], [0, 0, 1100]], [[-367, 100, 1000], [1033, 100, 1200], [333, 100, 1100]]
# A mirror across x: each as far on the other side of 1000 / 3.
MIRROR = [[-1000, 0, 0], [2000, 0, 0], [0, 5, 0]], [[1667, 0, 0], [-1333, 0, 0], [667, 5, 0]]
THREE = "choreo 2\ndrone a 0 0 1m 0\ndrone b 1m 0 1m 0\ndrone c 2m 0 1m 0  # the last\n\ncue 4s  # away\na move 0 1m 1m 0\n" \
        "c hold\nend\n"


@unittest.skipUnless(NODE, "no Node")
class Places(unittest.TestCase):
    def tool(self, name: str, places: list[list[int]], numbers: list[int]) -> list[list[int]]:
        """Where a tool puts drones, by Node."""
        with tempfile.TemporaryDirectory() as folder:
            with open(os.path.join(folder, "package.json"), "w") as file:
                file.write('{"type": "module"}')
            shutil.copy(FILE, folder)
            with open(os.path.join(folder, "main.js"), "w") as file:
                file.write('import {TOOLS} from "./formations.js";\nconst [name, places, numbers] = %s;\n'
                           'console.log(JSON.stringify(TOOLS[name].work(places, numbers)));\n' % json.dumps(
                               [name, places, numbers]))
            done = subprocess.run([str(NODE), os.path.join(folder, "main.js")], stdout=subprocess.PIPE, check=True,
                                  universal_newlines=True, timeout=60)
        made: list[list[int]] = json.loads(done.stdout)
        return made

    def test_square(self) -> None:
        for name, numbers, wanted in MADE:
            self.assertEqual(self.tool(name, SQUARE, numbers), wanted, name)

    def test_line(self) -> None:
        self.assertEqual(self.tool("line", LINE[0], [700]), LINE[1])

    def test_mirror(self) -> None:
        self.assertEqual(self.tool("mirror x", MIRROR[0], []), MIRROR[1])
        swapped = [[[y, x, z] for x, y, z in rows] for rows in MIRROR]
        self.assertEqual(self.tool("mirror y", swapped[0], []), swapped[1])


class Tools(Flight):
    def begin(self, text: str, ms: float) -> None:
        """A page at an instant, with the tools open."""
        self.open(text)
        self.known()
        self.browser.run("move(arguments[0])", ms)
        self.browser.click("#form")

    def known(self) -> None:
        """Waits for the flight of the text, and the lines of its drones."""
        self.wait(lambda: self.browser.run("return flight && flightVersion === version && Boolean(found.lines)"), "no flight")

    def click_words(self, group: str, words: str) -> None:
        """Clicks the button of a group that has these words, with the mouse."""
        number = self.browser.run("return 1 + [...document.querySelectorAll(`#${arguments[0]} button`)].findIndex("
                                  "it => it.textContent === arguments[1])", group, words)
        self.assertGreater(number, 0, words)
        self.browser.click("#%s button:nth-child(%d)" % (group, number))

    def choose(self, *names: str) -> None:
        """Chooses drones in the list with the mouse, and no others."""
        for name in self.browser.run(
                "return [...document.querySelectorAll('#legend button')].filter(it => (it.getAttribute('aria-pressed') === 'true')"
                "!== arguments[0].includes(it.textContent)).map(it => it.textContent)", list(names)):
            self.click_words("legend", name)

    def tool(self, name: str, is_new: bool = False) -> str:
        """Opens a tool, and waits for its preview; the words about it."""
        self.click_words("tools-kinds", name)
        self.browser.run("const it = document.getElementById('tools-where'); it.value = arguments[0] ? 'new' : '';"
                         "it.dispatchEvent(new Event('change'))", is_new)
        return str(self.wait(lambda: self.said(), "no preview"))

    def said(self) -> str:
        """What is said of the preview, once it is there."""
        words = str(self.words("tools-said"))
        return "" if words == "working it out" else words

    def take(self) -> None:
        """Takes what is previewed, and waits for its flight."""
        before = self.text()
        self.browser.click("#tools-take")
        self.assertNotEqual(self.text(), before)
        self.known()

    def ghosts(self) -> dict[str, list[int]]:
        """Where the ghosts are at the playhead, by name, in millimetres."""
        found: dict[str, list[int]] = self.browser.run(
            "return preview === null ? {} : Object.fromEntries([...preview.changed].map(k => [preview.flight.names[k],"
            "placeAt(k, now, preview.flight).slice(0, 3).map(Math.round)]))")
        return found

    def green(self) -> int:
        """How many pixels of the view in space are rather green."""
        return int(self.browser.run(
            "const it = document.getElementById('space'), {data} = it.getContext('2d').getImageData(0, 0, it.width, it.height);"
            "let many = 0; for (let k = 0; k < data.length; k += 4) if (data[k + 1] > data[k] + 25 && data[k + 1] > data[k + 2] + 25)"
            "many += 1; return many"))

    def test_preview(self) -> None:
        """A tool shows a ghost of what it would make, while text and bar stay; it can be left, or taken as one step."""
        self.begin(THREE, 4000)
        self.says("accepted")
        bar = self.verdict()
        self.choose("a", "b")
        self.browser.run("document.getElementById('legend').querySelectorAll('button')[2].click()")
        self.choose("a", "b")
        said = self.tool("Raise")
        # a is raised at its place of this cue; b has no line in it, and gets one.
        self.assertIn("2 drones: a preview, not judged", said)
        self.assertEqual(self.ghosts(), {"a": [0, 1000, 1500], "b": [1000, 0, 1500]})
        self.assertEqual((self.text(), self.verdict()), (THREE, bar))
        self.browser.click("#tools-leave")
        self.assertEqual((self.ghosts(), self.text()), ({}, THREE))
        self.tool("Raise")
        self.browser.run("[...document.querySelectorAll('#tools-fields button')].find(it => it.textContent === '+').click()")
        self.wait(lambda: self.ghosts() == {"a": [0, 1000, 1600], "b": [1000, 0, 1600]}, "another ghost: %s" % self.ghosts())
        self.take()
        wanted = THREE.replace("a move 0 1m 1m 0\nc hold\n", "a move 0 1m 1.6m 0\nc hold\nb move 1m 0 1.6m 0\n")
        self.assertEqual((self.text(), self.ghosts()), (wanted, {}))
        self.browser.keys("z", CONTROL)
        self.assertEqual(self.text(), THREE)
        self.assertEqual(self.browser.faults(), [])

    def test_never_green(self) -> None:
        """No ghost is green, also of a drone whose own colour is."""
        self.begin(THREE, 4000)
        self.says("accepted")
        self.browser.run("setView('from above')")
        own = self.green()
        self.choose("c")
        chosen = self.green()
        self.assertGreater(own, 100)  # the third drone is green
        self.tool("Move")
        self.assertEqual(self.ghosts(), {"c": [2500, 0, 1000]})
        self.assertLessEqual(self.green(), chosen + 20)

    def test_key_while_previewed(self) -> None:
        """A key into the text puts the preview away."""
        self.begin(THREE, 4000)
        self.says("accepted")
        self.tool("Ring")
        self.assertTrue(self.ghosts())
        self.put_cursor(THREE)
        self.browser.type("#")
        self.assertEqual(self.ghosts(), {})
        self.assertFalse(self.browser.run("return document.getElementById('tools-own').checkVisibility()"))
        self.assertEqual(self.text(), THREE + "#")

    def test_new_cue(self) -> None:
        """In a new cue behind that of the playhead, which then is at its end."""
        self.begin(THREE + "\ncue 1s\nend\n", 4000)
        self.says("2 cues")
        self.choose()
        self.tool("Line", True)
        self.take()
        # Along x, where they are spread most: 0.7 m apart around 1 m, and y is that of their middle, 1/3 m.
        block = "\ncue 3s\na move 0.3m 0.333m 1m 0\nb move 1m 0.333m 1m 0\nc move 1.7m 0.333m 1m 0\nend\n"
        self.assertEqual(self.text(), THREE + block + "\ncue 1s\nend\n")
        self.wait(lambda: self.at() == 7000, "the playhead isn't there")

    def test_duplicate(self) -> None:
        """Copies have the lines of their drones, aside, with names of their own, behind those lines that follow one
        another."""
        self.begin(THREE, 0)
        self.says("accepted")
        self.choose("a", "c")
        self.tool("Duplicate")
        self.take()
        lines = THREE.replace("drone a 0 0 1m 0\n", "drone a 0 0 1m 0\ndrone d 2.7m 0 1m 0\n")
        lines = lines.replace("drone c 2m 0 1m 0  # the last\n", "drone c 2m 0 1m 0  # the last\ndrone e 4.7m 0 1m 0\n")
        self.assertEqual(self.text(), lines.replace("c hold\n", "c hold\nd move 2.7m 1m 1m 0\ne hold\n"))
        self.says("5 drones")

    def test_remove(self) -> None:
        """Chosen drones are taken out with their acts and their places, also of a formation that is never formed; first a
        preview says what that flies, and one undo brings them back. Nobody is taken out who wasn't chosen."""
        text = THREE + "formation later\nat a 0 2m 1m 0\nat c 2m 2m 1m 0\nend\n"
        self.begin(text, 4000)
        self.says("accepted")
        self.choose()
        self.assertEqual(self.tool("Remove"), "choose the drones first")
        self.choose("c")
        self.wait(lambda: "one drone: a preview, not judged; nearest: a and b" in self.said(), "no preview")
        self.assertEqual(self.text(), text)
        self.take()
        wanted = text.replace("drone c 2m 0 1m 0  # the last\n", "").replace("c hold\n", "").replace("at c 2m 2m 1m 0\n", "")
        self.assertEqual(self.text(), wanted)
        self.says("2 drones, 1 cue")
        self.browser.keys("z", CONTROL)
        self.assertEqual(self.text(), text)
        self.assertEqual(self.browser.faults(), [])

    def test_from_nothing(self) -> None:
        """In an empty text Insert writes which form of the language it is, before the first drone; copies stand in order
        behind it; ghosts show where drones would stand before there is a cue, and at the end of a new one."""
        self.open("")
        self.says("line 1: header")
        self.put_cursor("")
        self.browser.click("#insert")
        self.press("drone")
        self.assertEqual(self.text(), "choreo 2\ndrone a 0 0 1m 0\n")
        self.known()
        self.browser.click("#form")
        for many in (1, 2):
            said = self.tool("Duplicate")
            self.assertIn("a preview, not judged", said)
            self.assertEqual(len(self.ghosts()), many)
            self.take()
        places = "".join("drone %s %s 0 1m 0\n" % row for row in (("a", "0"), ("b", "0.7m"), ("c", "1.4m"), ("d", "2.1m")))
        self.assertEqual(self.text(), "choreo 2\n" + places)
        self.tool("Raise", True)
        # A new cue would end with all of them half a metre higher, and there the ghosts are drawn.
        drawn = "return [preview.at, placeAt(2, preview.at, preview.flight).slice(0, 3).map(Math.round)]"
        self.assertEqual(self.browser.run(drawn), [3000, [1400, 0, 1500]])
        self.take()
        self.click_words("tools-kinds", "Line")  # a new cue is still wanted
        self.assertEqual(self.browser.run("return document.getElementById('tools-where').value"), "new")
        self.says("4 drones, 1 cue")
        self.assertEqual(self.browser.faults(), [])

    def test_twelve(self) -> None:
        """Twelve drones fly three formations, and not a number is typed."""
        self.begin("choreo 2\ndrone a 0 0 1m 0\n", 0)
        for _ in range(3):
            self.tool("Duplicate")
            self.take()
        self.choose("a", "b", "c", "d")
        self.tool("Duplicate")
        self.take()
        self.assertEqual(self.browser.run("return flight.names.length"), 12)
        self.choose()
        self.tool("Grid")
        self.take()
        for name, is_new in (("Ring", True), ("Raise", True), ("Line", True)):
            self.tool(name, is_new)
            self.take()
        self.assertEqual(re.findall(r"^cue", self.text(), re.M), ["cue"] * 3)
        said = self.says("12 drones, 3 cues")
        self.assertIn("accepted", said)
        ends = self.browser.run("return [0, 1, 2].map(cue => flight.names.map((_, k) => placeAt(k, endOfCue(cue)).slice(0, 3)))")
        middle = [sum(place[axis] for place in ends[0]) / 12 for axis in (0, 1)]
        for x, y, z in ends[0]:  # a ring: neighbours 0.7 m apart on a chord, in steps of 5 cm of the radius
            self.assertAlmostEqual(math.hypot(x - middle[0], y - middle[1]), 1400, delta=2)
            self.assertEqual(z, 1000)
        self.assertEqual([[x, y, z + 500] for x, y, z in ends[0]], ends[1])
        self.assertEqual(sorted(round(x - min(row[0] for row in ends[2])) for x, _, _ in ends[2]), [700 * k for k in range(12)])
        self.assertEqual(self.browser.faults(), [])

    def test_hold_is_dragged(self) -> None:
        """A drone that stays in a cue is dragged, too: its `hold` becomes a move, or the cue gets a line for it."""
        self.begin(THREE, 4000)
        self.says("accepted")
        self.browser.run("setView('from above')")
        for k, pair in ((2, ("c hold\n", "c move 2m 0.5m 1m 0\n")), (1, ("c hold\n", "c hold\nb move 1m 0.5m 1m 0\n"))):
            x, y, metre = self.browser.run(
                "const box = document.getElementById('space').getBoundingClientRect(), [x, y] = view.to(placeAt(arguments[0], now));"
                "return [box.left + x, box.top + y, 1000 * view.scale]", k)
            self.browser.drag((x, y), (x, y - 0.5 * metre))
            self.assertEqual(self.text(), THREE.replace(*pair))
            self.browser.keys("z", CONTROL)
            self.assertEqual(self.text(), THREE)
            self.known()


TWICE = """choreo 2
drone a 0 0 1m 0
drone b 1m 0 1m 0
drone c 0 2m 1m 0
drone d 1m 2m 1m 0
cue 3s
a move 1m 0 1m 0
b move 0 0 1m 0
end
cue 3s
c move 1m 2m 1m 0
d move 0 2m 1m 0
end
"""
SWAPS = TWICE.split("cue 3s")[0] + """formation low
at a 0 0 1m 0
at b 1m 0 1m 0
end
formation high
at c 0 2m 1m 0
at d 1m 2m 1m 0
end
cue 3s
a move 1m 0 1m 0
b move 0 0.6m 1m 0
end
cue 3s
c move 1m 2m 1m 0
d move 0 2.6m 1m 0
end
cue 3s
form low move
form high move
end
"""


class Offers(Tools):
    """Without the tests of the class that it is made from."""

    def offered(self, button: str) -> list[str]:
        """What there is to choose from after a click on a button."""
        self.browser.click(button)
        self.wait(lambda: self.browser.run("return document.getElementById('offer').open"), "nothing is offered")
        self.wait(lambda: self.words("offer-near").startswith("The ghost is a preview, not judged"), "no ghost")
        choices: list[str] = self.browser.run("return [...document.querySelectorAll('#choices label')].map(it => it.textContent)")
        return choices

    def choose_offer(self, at: int) -> None:
        """Takes another choice, and waits for its ghost."""
        self.browser.run("document.querySelectorAll('#choices input')[arguments[0]].click()", at)
        self.wait(lambda: self.words("offer-near").startswith("The ghost is"), "no ghost")

    def test_cure(self) -> None:
        """A cure of all places, or of the first cue alone in several ways; each is a ghost before it is taken."""
        self.open(TWICE)
        self.wait(lambda: "2 places in all" in self.verdict(), "not all places are known")
        bar = self.verdict()
        choices = self.offered("#cure")
        self.assertEqual(choices[0], "every place that is blocked, each by what takes least time")
        self.assertEqual([words.split(": let ")[0] for words in choices[1:]], ["cue 1 alone"] * 4)
        self.assertIn("let b fly this cue 700 mm higher", choices[3])
        self.assertEqual((self.text(), self.verdict()), (TWICE, bar))
        self.choose_offer(3)
        # The cue begins two seconds later, in which b goes up to 1.7 m; halfway both are at 0.5 m.
        self.browser.run("move(3500)")
        self.assertEqual(self.ghosts()["b"], [500, 0, 1700])
        self.browser.click("#take")
        self.assertIn("cue 2s\nb move 1m 0 1.7m 0\nend\n", self.text())
        self.says("TOO NEAR: c and d in cue 4")
        self.assertEqual(self.ghosts(), {})
        self.browser.run("undo()")
        self.assertEqual(self.text(), TWICE)
        self.assertEqual(self.browser.faults(), [])

    def test_left(self) -> None:
        """Escape, Cancel and a key into the text leave an offer, and its ghost."""
        self.open(TWICE)
        self.says("TOO NEAR")
        for leave in (lambda: self.browser.keys("\uE00C"), lambda: self.browser.click("#leave"),
                      lambda: self.browser.run("replaceText(wholeText() + '#')")):
            self.offered("#cure")
            self.assertTrue(self.ghosts())
            leave()
            self.assertEqual((self.browser.run("return document.getElementById('offer').open"), self.ghosts()), (False, {}))
        self.assertEqual(self.text(), TWICE + "#")

    def test_deal(self) -> None:
        """Formations are dealt all, or one alone; the ghost plays while it is offered."""
        self.open(SWAPS)
        self.says("accepted")
        choices = self.offered("#deal")
        self.assertEqual(choices, ["all formations", "low alone", "high alone"])
        self.choose_offer(2)
        self.browser.run("document.activeElement.blur()")
        self.browser.keys(" ")
        self.assertTrue(self.plays())
        self.browser.click("#take")
        text = self.text()
        self.assertIn("at a 0 0 1m 0\nat b 1m 0 1m 0\n", text)
        self.assertIn("at c 1m 2m 1m 0\nat d 0 2m 1m 0\n", text)


for name in vars(Tools):
    if name.startswith("test_") and name not in vars(Offers):
        setattr(Offers, name, None)


if __name__ == "__main__":
    unittest.main()
