"""The flight of the page of ./show studio in Chromium: what a click, a drag and a key do there, and what is drawn."""
import hashlib
import json
import os
import re
import shutil
import sys
import tempfile
import unittest

sys.dont_write_bytecode = True
sys.path.insert(0, os.path.dirname(os.path.abspath(__file__)))
from common import wants_program
from test_studio import GOOD, NEAR, PROGRAM
from test_studio_page import CONTROL, Led

LEFT, RIGHT, ENTER, SHIFT, END = "\uE012", "\uE014", "\uE007", "\uE008", "\uE010"
TWO = GOOD + "cue 3000\nb hold\nend\n"  # two cues, of 2 and 3 seconds


class Flight(Led):
    """The same, with what is asked of the flight."""

    def at_chart(self, share, name="heights"):
        """The point of a chart at this share of its time, between its axis and its right edge."""
        return self.browser.run(
            "const [name, share] = arguments, box = document.getElementById(name).getBoundingClientRect();"
            "const frame = document.querySelector(`#${name} rect[fill=none]`).getBoundingClientRect();"
            "return [frame.left + share * frame.width, box.top + box.height / 2]", name, share)

    def selected(self):
        """The words that are selected in the text."""
        return self.browser.run("readSelection(); return textBetween(selectionFrom(), selectionTo())")

    def focused(self):
        """The id of what has the focus, or its kind."""
        return self.browser.run("const it = document.activeElement; return it.id || it.tagName")

    def plays(self):
        """Whether the flight is played."""
        return self.words("go") == "Pause"

    def is_played(self, wanted):
        """The flight is played, or it stands: so says the button at once, and so does the playhead some frames later."""
        found = self.browser.run("""
            const frame = () => new Promise(requestAnimationFrame), from = now, said = document.getElementById("go").innerText;
            return frame().then(frame).then(frame).then(() => [said, now !== from])""")
        self.assertEqual(found, ["Pause", True] if wanted else ["Play", False], self.browser.run("""
            return {now, end: flight.end, speed: document.getElementById("speed").value, version, flightVersion,
                    stage: document.body.dataset.stage, focus: document.activeElement.outerHTML.slice(0, 80),
                    hasFocus: document.hasFocus(), hidden: document.hidden}"""))


class Keys(Flight):
    def begin(self):
        """A page with two cues, which is played so slowly that it doesn't end meanwhile."""
        self.open(TWO)
        self.says("2 cues")
        self.browser.run("document.getElementById('speed').value = '0.1'")

    def test_scrub_and_play(self):
        """After a click or a drag in a chart nothing is selected: Space plays, and no key takes anything away."""
        self.begin()
        self.put_cursor("drone b")
        for end in (0.7, 0.8):  # a click, a drag
            self.browser.drag(self.at_chart(0.7), self.at_chart(end))
            self.assertAlmostEqual(self.at(), 5000 * end, delta=60)
            self.assertEqual((self.selected(), self.focused()), ("", "BODY"))
            self.assertEqual(self.browser.run("return cursorLine()"), 7)  # that of the second cue
            for wanted in (True, False):
                self.browser.keys(" ")
                self.is_played(wanted)
            for key in ("x", "\uE017", "\uE003", ENTER):
                self.browser.keys(key)
            self.assertEqual(self.text(), TWO)
        self.assertEqual(self.browser.faults(), [])

    def test_at_once(self):
        """Keys that come within one frame count each: after two the flight stands, and after a third one it is played."""
        self.begin()
        press = ("for (let k = 0; k < arguments[0]; k += 1)"
                 "document.body.dispatchEvent(new KeyboardEvent('keydown', {key: ' ', bubbles: true}))")
        for many, wanted in ((2, False), (3, True), (1, False), (4, False), (1, True), (2, True)):
            self.browser.run("move(500); " + press, many)
            self.is_played(wanted)
        self.browser.keys("   ")
        self.is_played(False)

    def test_hiccup(self):
        """A page that was busy for two seconds goes on where the playhead was, and doesn't skip them."""
        self.begin()
        self.browser.keys(" ")
        self.is_played(True)
        moved = self.browser.run("""
            const frame = () => new Promise(requestAnimationFrame), until = performance.now() + 2000, from = now;
            while (performance.now() < until);
            return frame().then(frame).then(frame).then(() => now - from)""")
        self.assertTrue(0 < moved < 35, moved)  # a tenth of a second a frame at most, at a tenth of the speed
        self.is_played(True)

    def test_followed(self):
        """Where the slider follows the cursor a flight that is played goes on, whatever is drawn anew, until the cursor
        goes into a line of another cue."""
        self.begin()
        self.browser.run("document.getElementById('follow').checked = true")
        self.put_cursor("a move")
        self.browser.type(CONTROL + ENTER)
        self.browser.run("move(2500)")  # in the cue after that of the cursor
        self.browser.run("onCursor()")  # as once a flight is drawn
        self.is_played(True)
        self.assertGreater(self.at(), 2400)
        self.browser.type("\uE013" * 3)  # up
        self.wait(lambda: self.words("where") == "line 2", "the cursor isn't in line 2")
        self.is_played(True)
        self.browser.type("\uE015" * 3)
        self.wait(lambda: not self.plays(), "it doesn't go to the cursor's cue")
        self.assertEqual(self.at(), 1)
        self.is_played(False)

    def test_steps(self):
        """The arrows step by a tenth of a second, with Shift by a second, and not beyond the ends."""
        self.open(TWO)
        self.says("2 cues")
        self.browser.drag(self.at_chart(0.5), self.at_chart(0.5))
        self.browser.run("move(2500)")
        for keys, held, wanted in ((RIGHT, [], 2600), (LEFT + LEFT, [], 2400), (RIGHT, [SHIFT], 3400),
                                   (END, [], 5000), (RIGHT, [], 5000), ("\uE011", [], 0), (LEFT, [], 0)):
            self.browser.keys(keys, *held)
            self.assertEqual(self.browser.run("return now"), wanted)
        # In the text the same keys are the text's, and Ctrl-Enter plays.
        self.put_cursor("drone b")
        self.browser.keys(RIGHT + " ")
        self.assertEqual((self.browser.run("return now"), self.plays()), (0, False))
        self.assertIn("drone b  1000000", self.text())
        text = self.text()
        self.browser.keys(ENTER, CONTROL)
        self.assertTrue(self.plays())
        self.browser.keys(ENTER, CONTROL)
        self.assertEqual((self.plays(), self.text()), (False, text))

    def test_click_then_space(self):
        """A button that was clicked leaves Space to the flight; one that was reached by keys is pressed by it."""
        self.begin()
        self.browser.click("#legend button")
        self.browser.keys(" ")
        pressed = "return document.querySelectorAll('#legend [aria-pressed=true]').length"
        self.assertEqual((self.plays(), self.browser.run(pressed)), (True, 1))
        self.browser.keys(" ")
        self.browser.run("document.querySelector('#legend button').focus()")
        self.browser.keys(" ")
        self.assertEqual((self.plays(), self.browser.run(pressed)), (False, 0))

    def test_faulty_line(self):
        """A click on the bar puts the cursor into the line that is faulty, and the next key replaces nothing."""
        self.open(TWO.replace("cue 3000", "cue 3x"))
        self.says("line 7: bad-number")
        self.browser.click("#verdict")
        self.assertEqual((self.selected(), self.focused()), ("", "text"))
        self.assertEqual(self.browser.run("return cursorLine()"), 7)
        self.open(NEAR)
        self.says("TOO NEAR")
        self.browser.click("#verdict")
        self.browser.keys(" ")
        self.assertEqual((self.plays(), self.text()), (True, NEAR))

    def test_older_flight(self):
        """A click into the chart of an older text puts the cursor nowhere, and the cursor's line names no cue of it."""
        self.open(TWO)
        self.says("2 cues")
        self.put_cursor("choreo 1\n")
        self.browser.type("# a\n# b\n# c\ndrone e\n")
        self.says("line 5: ")
        line = self.browser.run("return cursorLine()")
        self.browser.drag(self.at_chart(0.7), self.at_chart(0.7))
        self.assertEqual((self.browser.run("return cursorLine()"), self.selected()), (line, ""))
        self.put_cursor("cue 2000\na")
        self.assertEqual(self.words("where"), "line 9")

    def test_stretch_then_keys(self):
        """After the end of a cue was dragged its number isn't selected, and Ctrl-Z takes the drag back."""
        self.open(GOOD)
        self.says("accepted")
        self.wait(lambda: self.browser.run("return Boolean(found.notes)"), "no notes")
        x, y = self.browser.run("const box = document.querySelector('#heights .grip').getBoundingClientRect();"
                                "return [box.left + box.width / 2, box.top + box.height / 2]")
        self.browser.drag((x, y), (x - 100, y))
        self.wait(lambda: "cue 2000" not in self.text(), "nothing was written")
        self.assertEqual((self.selected(), self.focused()), ("", "BODY"))
        stretched = self.text()
        self.browser.keys("\uE017x")
        self.assertEqual(self.text(), stretched)
        self.browser.keys("z", CONTROL)
        self.assertEqual(self.text(), GOOD)
        self.assertEqual(self.browser.faults(), [])


REGIONS = "volume -1000 -1000 300 2500 2500 2500\nkeepout 800 600 0 1200 1400 1500\n"
SHELF = "choreo 1\nellipsoid 120 300\ndrone solo 0 1000000 1000000 0\ncue 3000\n" \
        "solo move 2000000 1000000 %d 0\nend\ncue 1000\nend\n"
JUMP = "choreo 1\ndrone a 0 0 1000000 0\ncue 100\na line 5000000 0 1000000 0\nend\n"  # at once 50 m/s


@wants_program
class Bar(Flight):
    """What the bar says of an accepted show that breaks what else was asked. The program is one with a record, so that
    the bar could be green."""

    def setUp(self):
        folder = tempfile.TemporaryDirectory()
        self.addCleanup(folder.cleanup)
        self.folder = folder.name
        # CI's program has no record: a copy of it gets one, with its own SHA-256.
        self.program = shutil.copy(PROGRAM, self.folder)
        with open(self.program, "rb") as program, open(self.program + ".built", "w") as record:
            json.dump({"sha256": hashlib.sha256(program.read()).hexdigest(), "rests_on": "logic=proved in another place"}, record)
        self.regions = os.path.join(self.folder, "of.regions")
        with open(self.regions, "w") as file:
            file.write(REGIONS)

    def colour(self):
        """The class of the bar: good, care, bad or nothing."""
        return self.browser.run("return document.getElementById('verdict').className.replace(' goes', '')")

    def green_seen(self):
        """Notes from here on whether the bar was ever green; the name of what notes it."""
        self.browser.run("window.wasGreen = false; const bar = document.getElementById('verdict'); new MutationObserver(() =>"
                         "{ wasGreen ||= bar.classList.contains('good'); }).observe(bar, {attributes: true})")

    def test_keepout(self):
        """A show whose drone flies through a box is never called proved in green. The bar names the region, the drone and
        the line, a click goes there, and the box is red in space."""
        self.open(SHELF % 1000000, "--regions", self.regions)
        self.green_seen()
        self.says("NOT OUT OF REGION 2: solo in cue 1")
        self.assertEqual(self.colour(), "bad")
        # The drone is at 800 - 120 mm, where the box widened by its ellipsoid begins, after 1.2 to 1.3 s (35 s^4 - ..).
        began = float(re.search(r"at ([0-9.]+) s, line 5", self.verdict())[1])
        self.assertTrue(1.2 < began < 1.35, began)
        self.browser.click("#verdict")
        self.assertAlmostEqual(self.at() / 1000, began, delta=0.05)
        self.assertEqual(self.browser.run("return cursorLine()"), 5)
        self.assertEqual(self.browser.run("return [...document.querySelectorAll('#paper .pair .number')].map(it => it.innerText)"),
                         ["5"])
        self.assertGreater(self.red(), 200)
        self.assertIn("region 2: solo in cue 1 may reach into it", self.words("found"))
        self.assertFalse(self.browser.run("return wasGreen"))
        # Over the shelf it is green, once the regions are judged, and nothing is red.
        self.browser.run("replaceText(arguments[0])", (SHELF % 1000000).replace(
            "solo 0 1000000 1000000", "solo 0 1000000 2000000").replace("2000000 1000000 1000000", "2000000 1000000 2000000"))
        self.says("PROVED: one drone")
        self.wait(lambda: self.colour() == "good", "not green")
        self.assertEqual(self.red(), 0)
        self.assertEqual(self.browser.faults(), [])

    def test_room(self):
        """A drone that leaves the room."""
        self.open(SHELF % 2400000, "--regions", self.regions)
        self.says("NOT INSIDE REGION 1: solo in cue 1")
        self.assertEqual(self.colour(), "bad")
        self.assertIn("may reach out of it", self.verdict())

    def test_unjudged(self):
        """Regions that the program says nothing of aren't called kept."""
        program = os.path.join(self.folder, "program")
        with open(program, "w") as file:
            file.write("#!/bin/sh\ncat > /dev/null\n[ $1 = check ] || exit 70\necho ok drones 1 cues 2 duration_ms 4000\n")
        os.chmod(program, 0o755)
        with open(program, "rb") as file:
            digest = hashlib.sha256(file.read()).hexdigest()
        with open(program + ".built", "w") as file:
            json.dump({"sha256": digest, "rests_on": "logic=proved of a test"}, file)
        self.open(SHELF % 1000000, "--regions", self.regions, "--program", program)
        self.green_seen()
        self.says("PROVED, but the regions aren't judged")
        self.assertEqual((self.colour(), self.browser.run("return wasGreen")), ("care", False))

    def test_no_drone_flies_it(self):
        """A show that no drone can fly isn't green either; a click goes to its line."""
        self.open(JUMP)
        self.says("PROVED, but no drone can fly it")
        self.assertEqual(self.colour(), "care")
        self.browser.click("#verdict")
        self.assertEqual(self.browser.run("return cursorLine()"), 3)

    def red(self):
        """How many pixels of the view in space are of the red in which a broken region is drawn."""
        return self.browser.run(
            "const it = document.getElementById('space'), pen = it.getContext('2d');"
            "const {data} = pen.getImageData(0, 0, it.width, it.height); let many = 0;"
            "for (let k = 0; k < data.length; k += 4) if (data[k] > 190 && data[k + 1] < 40 && data[k + 2] < 40) many += 1;"
            "return many")


class Begun(Flight):
    """What is drawn of a text that isn't right as a whole."""

    def drawn(self):
        """Where the drones are that are drawn, by name, in millimetres, and how many cues fly them; None while the
        flight isn't that of the text."""
        return self.browser.run(
            "return flight && flightVersion === version ? [Object.fromEntries(flight.names.map((name, k) =>"
            "[name, placeAt(k, now).slice(0, 3).map(Math.round)])), flight.begun ? flight.begun.cues : flight.cues.length] : null")

    def is_drawn(self, places, cues):
        """Waits until drones are drawn at these places, moved by so many cues."""
        self.wait(lambda: self.drawn() == [places, cues], lambda: "not drawn: %s" % self.drawn())

    def is_shown(self, *wanted):
        """Waits until this is the class of the flight, and these are the words in it."""
        shown = "return [document.getElementById('flight').className, document.getElementById('before').innerText]"
        self.wait(lambda: self.browser.run(shown) == list(wanted), lambda: "shown is %s" % self.browser.run(shown))

    def test_without_cue(self):
        """Drones are drawn where the text puts them before there is a cue, each as soon as its line is right."""
        self.open("choreo 2\ndrone a 0 0 1m 0\n")
        self.is_drawn({"a": [0, 0, 1000]}, 0)
        self.is_shown("flight still", "the drones at their starts: there is no cue yet")
        self.wait(lambda: self.browser.run("return getComputedStyle(document.getElementById('space')).opacity") == "1", "grey")
        self.put_cursor("choreo 2\ndrone a 0 0 1m 0\n")
        self.browser.type("drone b 30cm -2m 1.5m 0\n")
        self.is_drawn({"a": [0, 0, 1000], "b": [300, -2000, 1500]}, 0)
        self.assertFalse(self.browser.run("return document.getElementById('slider').checkVisibility()"))
        self.browser.type("\ncue 2s\na move 1m 0 1m 0\nend\n")
        self.says("2 drones, 1 cue")
        self.is_drawn({"a": [0, 0, 1000], "b": [300, -2000, 1500]}, 1)
        self.assertTrue(self.browser.run("return document.getElementById('slider').checkVisibility()"))
        self.wait(lambda: self.browser.run("return document.querySelectorAll('#heights polyline').length") > 1, "no heights")
        self.assertEqual(self.browser.faults(), [])

    def test_cues_deleted(self):
        """Without its cues a text shows its own drones, and not those of the flight before."""
        self.open(GOOD)
        self.says("accepted")
        self.browser.run("move(2000); replaceText(arguments[0])", GOOD[:GOOD.index("cue")].replace("b 1000000", "b 700000"))
        self.is_drawn({"a": [0, 0, 1000], "b": [700, 0, 1000]}, 0)

    def test_beginning(self):
        """Of a faulty text the cues before the faulty line are flown, grey, and the page says so."""
        self.open(TWO.replace("b hold", "b hald"))
        self.is_drawn({"a": [0, 0, 1000], "b": [1000, 0, 1000]}, 1)
        self.is_shown("flight old", "line 8 isn't right yet: this is the flight of what stands before it")
        self.wait(lambda: self.browser.run("return getComputedStyle(document.getElementById('space')).opacity") == "0.4",
                  "not grey")
        self.browser.run("move(2000)")
        self.is_drawn({"a": [0, 1000, 1000], "b": [1000, 0, 1000]}, 1)
        self.browser.run("replaceText(arguments[0])", TWO)
        self.says("2 cues")
        self.is_shown("flight", "")
        self.assertEqual(self.browser.faults(), [])

    def test_line_being_typed(self):
        """While a line is being typed the flight of the text before stays."""
        self.open(TWO)
        self.says("2 cues")
        self.put_cursor("b hold")
        self.browser.type(" x")
        self.says("line 8: ")
        self.wait(lambda: self.browser.run("return found.flight && found.flight.flight.begun.cues === 1"), "no beginning")
        self.assertEqual(self.browser.run("return flight.cues.length"), 2)
        self.is_shown("flight old", "this is the flight of an earlier text")

    def test_between(self):
        """From a key to the new flight the older one is grey, once that takes long."""
        self.open(GOOD)
        self.says("accepted")
        then = "replaceText(wholeText() + '# x\\n'); return document.getElementById('flight').className"
        self.assertEqual(self.browser.run(then), "flight old")
        self.says("accepted")
        self.is_shown("flight", "")


class Sizes(Flight):
    def test_rows(self):
        """From 1,120 pixels on the buttons above the view and those above the charts are a row each, also with beats."""
        self.open(TWO, size=(1120, 700))
        self.says("2 cues")
        for width in (1120, 1280, 1920):
            self.browser.size(width, 800)
            self.browser.run("document.getElementById('beats-even').hidden = arguments[0] < 1280", width)
            rows, least = self.browser.run("""
                const seen = css => [...document.querySelectorAll(css)].filter(it => it.checkVisibility());
                const tops = css => new Set(seen(css).map(it => Math.round(it.getBoundingClientRect().top))).size;
                const all = seen(".views > button, #views button, .times :is(button, select)").map(it => it.getBoundingClientRect());
                return [[tops(".views > button, #views button"), tops(".times :is(button, select)")],
                        Math.min(...all.flatMap(it => [it.width, it.height]))]""")
            self.assertEqual(rows, [1, 1], width)
            self.assertGreaterEqual(least, 24)

    def test_low(self):
        """A low window shows the flight, its charts and the text, and nothing is wider than it."""
        self.open(TWO, size=(844, 390))
        for width, height in ((844, 390), (1280, 420), (1280, 500), (1366, 620), (640, 400), (1280, 60), (1280, 800)):
            self.browser.size(width, height)
            self.says("2 cues")
            self.wait(lambda: self.browser.run("return innerWidth === arguments[0]", width), "another size")
            self.browser.run("return new Promise(go => requestAnimationFrame(() => requestAnimationFrame(go)))")
            high, charts, text, wide = self.browser.run(
                "const high = id => document.getElementById(id).getBoundingClientRect().height;"
                "return [high('space'), Math.min(high('heights'), high('share')), high('scroller'),"
                "document.documentElement.scrollWidth]")
            self.assertLessEqual(wide, width)
            if height > 60:
                self.assertTrue(high >= 200 and charts >= 84 and text >= 60, (width, height, high, charts, text))
            if width > 1000 and height > 60:  # all at once, without scrolling
                self.assertEqual(self.browser.run("return document.documentElement.scrollHeight"), height)
        # On a telephone that is held sideways all of the flight is in view at once, below the bar.
        self.browser.size(844, 390)
        self.browser.run("document.getElementById('flight').scrollIntoView({block: 'end'})")
        self.wait(lambda: self.browser.run(
            "const at = id => document.getElementById(id).getBoundingClientRect();"
            "return at('room').top >= at('verdict').bottom && at('share').bottom <= innerHeight"), "it isn't in view")
        self.assertEqual(self.browser.faults(), [])


class Tabs(Flight):
    def tab(self):
        """Another tab, which is shown."""
        new = self.browser.ask("POST", "/window/new", {"type": "tab"})["handle"]
        self.browser.ask("POST", "/window", {"handle": new})
        self.browser.size(1280, 800)
        self.browser.ask("POST", "/url", {"url": "http://127.0.0.1:%s/%s/" % (self.studio.port, self.studio.token)})
        return new

    def show(self, tab):
        """Shows a tab that is there."""
        self.browser.ask("POST", "/window", {"handle": tab})
        self.browser.ask("POST", "/goog/cdp/execute", {"cmd": "Page.bringToFront", "params": {}})

    def test_eight_tabs(self):
        """Eight tabs of one studio: each has its verdict, the first one still judges, and learns of the file once it is
        shown. A browser has six connections for all of them."""
        self.open(GOOD)
        self.says("accepted")
        first = self.browser.ask("GET", "/window")
        others = []
        for _ in range(7):
            others.append(self.tab())
            self.says("accepted")
        self.studio.write(GOOD + "# of another program\n")
        self.wait(lambda: "by another program" in self.words("told"), "no warning in the tab that is shown")
        self.show(first)
        self.put_cursor(GOOD)
        self.browser.type("cue 500\nend\n")
        self.says("2 drones, 2 cues")
        self.wait(lambda: "by another program" in self.words("told"), "no warning in the first tab")
        for other in others:
            self.browser.ask("POST", "/window", {"handle": other})
            self.browser.ask("DELETE", "/window")
        self.browser.ask("POST", "/window", {"handle": first})


class Pairs(Flight):
    def test_pairs(self):
        """The pairs that come nearest are listed of an accepted show, in percent and in metres: of a and b, half a metre
        aside and 0.2 m up, sqrt((500 / 200)^2 + (200 / 600)^2) of what their ellipsoids need, and 0.54 m straight."""
        self.open("choreo 2\nellipsoid 100mm 300mm\ndrone a 0 0 1m 0\ndrone b 2m 2m 1.2m 0\ndrone c 0 3m 1m 0\n"
                  "cue 4s\nb line 0.3m 0.4m 1.2m 0\nend\n")
        self.says("3 drones")
        self.wait(lambda: self.browser.run("return Boolean(found.notes)"), "no notes")
        rows = self.browser.run("return [...document.querySelectorAll('#found table')[0].rows].map(row =>"
                                "[...row.cells].map(it => it.innerText.trim()))")
        self.assertEqual(rows[0], ["pair", "share", "aside", "up", "at"])
        self.assertEqual(rows[1], ["a, b", "252 %", "0.5 m", "0.2 m", "4.0 s, cue 1"])
        self.assertEqual([row[0] for row in rows[2:]], ["b, c", "a, c"])
        self.assertEqual(rows[3][1:4], ["1500 %", "3 m", "0 m"])  # 3,000 of 200 mm, all the time
        self.browser.run("document.querySelector('#found td button').click()")
        self.assertEqual(self.browser.run("return [now, [...chosen]]"), [4000, [0, 1]])
        self.assertIn("nearest: a and b with 252\u00a0%, 0.54\u00a0m", self.words("now"))
        named = self.browser.run("return [...document.querySelectorAll('#share .name')].map(it => it.textContent)")
        self.assertEqual([it for it in named if "m" in it], ["a, b 252 % · 0.54 m"])
        self.assertEqual(self.browser.faults(), [])

    def test_constant(self):
        """A distance that stays the same has one label, however it is rounded."""
        self.open("choreo 2\ndrone a 0 0 1m 0\ndrone b 1m 0 1m 0\ncue 9s\na swing ccw 0.5m 0 0\nb swing ccw 0.5m 0 0\nend\n"
                  "cue 9s\na swing ccw 0.5m 0 0\nb swing ccw 0.5m 0 0\nend\n")
        self.says("2 cues")
        named = self.browser.run("return [...document.querySelectorAll('#share .name')].map(it => it.textContent)")
        self.assertEqual([it[:5] for it in named if " m" in it], ["a, b "])


PLACED = """choreo 2
drone a 0 0 1m 0
drone b 1m 0 1m 0
drone c 2m 0 1m 0
formation line
at a 0 2m 1m 0
at b 1m 2m 1m 0
end
cue 4s
a move 0 1.04m 1m 0  # its own line
b curve 1m 0.5m 1m 1m 0.5m 1m 1m 1m 1.5m 0
end
cue 4s
form line move
end
cue 4s
a swing ccw 0.5m 2m 0
b swing ccw 0.5m 2m 0
end
"""


class Drag(Flight):
    """Drones are placed by hand where a cue ends."""

    def begin(self, text, ms, view="from above", size=(1280, 800)):
        """A page at an instant, in a view."""
        self.open(text, size=size)
        self.wait(lambda: self.browser.run("return Boolean(found.lines)"), "no lines")
        self.turn(ms, view)

    def turn(self, ms, view):
        """Another instant, in another view."""
        self.browser.run("const [ms, words] = arguments; move(ms); setView(words)", ms, view)

    def drone(self, k):
        """Where a drone is drawn in the page, and how many pixels a metre has there."""
        return self.browser.run("const box = document.getElementById('space').getBoundingClientRect();"
                                "const [x, y] = view.to(placeAt(arguments[0], now));"
                                "return [box.left + x, box.top + y, 1000 * view.scale]", k)

    def carry(self, k, right, up):
        """Drags a drone by so many metres of the view."""
        x, y, metre = self.drone(k)
        self.browser.drag((x, y), (x + right * metre, y - up * metre))

    def is_text(self, *pairs, old=PLACED):
        """Looks at the text: in place of old words stand others, once each."""
        for words, other in pairs:
            self.assertEqual(old.count(words), 1, words)
            old = old.replace(words, other)
        self.assertEqual(self.text(), old)

    def test_ends(self):
        """At the end of a cue a drone is dragged: the numbers of its act, or of its place in a formation, or of its start
        become those of a place on the grid of 10 cm; what the view doesn't show stays, and one undo takes it back."""
        self.begin(PLACED, 4000)
        ways = ((4000, "from above", 0, (0.5, 0.33), ("0 1.04m 1m 0  #", "0.5m 1.4m 1m 0  #")),
                (4000, "from above", 1, (-0.2, 0), ("1m 1m 1.5m 0", "0.8m 1m 1.5m 0")),
                (4000, "from the front", 0, (0.02, 0.3), ("0 1.04m 1m 0  #", "0 1.04m 1.3m 0  #")),
                (4000, "from the right", 1, (0.3, 0.2), ("1m 1m 1.5m 0", "1m 1.3m 1.7m 0")),
                (8000, "from the front", 1, (0.4, -0.2), ("at b 1m 2m 1m 0", "at b 1.4m 2m 0.8m 0")),
                (0, "from above", 2, (-0.4, -0.7), ("drone c 2m 0 1m 0", "drone c 1.6m -0.7m 1m 0")))
        for ms, view, k, (right, up), pair in ways:
            self.wait(lambda: self.browser.run("return flightVersion === version && Boolean(found.lines)"), "no flight")
            self.turn(ms, view)
            self.carry(k, right, up)
            self.is_text(pair)
            # Until its flight is there the drone is a ghost.
            self.assertEqual((self.selected(), self.browser.run("return ghosts.size || flightVersion === version && 1")), ("", 1))
            self.browser.keys("z", CONTROL)
            self.assertEqual(self.text(), PLACED)
            self.assertEqual(self.browser.run("return ghosts.size"), 0)
        self.assertEqual(self.browser.faults(), [])

    def test_not_there(self):
        """In the middle and at the end of an arc, and in a turned view, a drag turns the view."""
        self.begin(PLACED, 2000)
        for ms, view, k in ((10000, "from above", 0), (12000, "from above", 0), (4000, "in space", 0), (2000, "in space", 0)):
            self.turn(ms, view)
            before = self.browser.run("return turn")
            self.carry(k, 0.5, 0.1)
            self.assertEqual(self.text(), PLACED)
            self.assertNotEqual(self.browser.run("return turn"), before)

    def test_several(self):
        """Chosen drones go together, by as much as the one that is dragged, in one step of undo. One that has no line
        in the cue gets one."""
        self.begin(PLACED, 4000)
        for k in (0, 1, 2):
            x, y, _ = self.drone(k)
            self.browser.ask("POST", "/actions", {"actions": [
                {"type": "key", "id": "keys", "actions": [{"type": "keyDown", "value": SHIFT}]}]})
            self.browser.drag((x, y), (x, y))
            self.browser.ask("POST", "/actions", {"actions": [
                {"type": "key", "id": "keys", "actions": [{"type": "keyUp", "value": SHIFT}]}]})
        self.assertEqual(self.browser.run("return [...chosen]"), [0, 1, 2])
        self.carry(1, 0.3, 0.4)
        both = (("0 1.04m 1m 0  #", "0.3m 1.44m 1m 0  #"), ("1m 1m 1.5m 0\n", "1.3m 1.4m 1.5m 0\nc move 2.3m 0.4m 1m 0\n"))
        self.is_text(*both)
        self.says("3 drones, 3 cues")
        self.assertEqual(self.browser.run("return [...chosen]"), [0, 1, 2])
        self.browser.keys("z", CONTROL)
        self.assertEqual(self.text(), PLACED)

    def test_keys(self):
        """With the focus in the view the arrows move what is chosen, one after the other before a new flight is there;
        Shift by a metre; where nothing can be placed they step in time."""
        self.begin(PLACED, 4000)
        x, y, _ = self.drone(0)
        self.browser.drag((x, y), (x, y))
        self.assertEqual(self.focused(), "space")
        self.browser.keys(RIGHT + RIGHT + "\uE013")
        self.is_text(("0 1.04m 1m 0  #", "0.2m 1.14m 1m 0  #"))
        self.browser.keys(LEFT, SHIFT)
        self.is_text(("0 1.04m 1m 0  #", "-0.8m 1.14m 1m 0  #"))
        self.wait(lambda: self.browser.run("return flightVersion === version && placeAt(0, 4000)[0] === -800"), "no flight")
        for _ in range(4):
            self.browser.keys("z", CONTROL)
        self.assertEqual(self.text(), PLACED)
        self.turn(2000, "from above")
        self.browser.keys(RIGHT)
        self.assertEqual((self.browser.run("return now"), self.text()), (2100, PLACED))

    def test_starts(self):
        """Before there is a cue drones are placed, too, and in whole micrometres of a text in `choreo 1`."""
        text = "choreo 1\ndrone a 0 0 1000000 0\ndrone b 1000000 0 1000000 0\n"
        self.begin(text, 0)
        self.carry(1, 0.2, 0.5)
        self.is_text(("b 1000000 0 1000000", "b 1200000 500000 1000000"), old=text)
        self.wait(lambda: self.browser.run("return flightVersion === version && placeAt(1, 0)[1] === 500"), "not drawn")

    def test_figure(self):
        """The numbers of a figure are in its own frame: its drones aren't dragged."""
        text = "choreo 2\ndrone a 0 0 1m 0\nfigure f r\ncue 2s\nr move 0 1m 1m 0\nend\nend\nperform f none 0 0 0 0 a\n"
        self.open(text)
        self.says("accepted")
        self.wait(lambda: self.browser.run("return Boolean(found.lines)"), "no lines")
        self.turn(2000, "from above")
        self.carry(0, 0.5, 0)
        self.assertEqual(self.text(), text)

    def band(self, begin, end):
        """Drags a rectangle with Ctrl, from one point of the page to another."""
        def hold(kind):
            self.browser.ask("POST", "/actions", {"actions": [
                {"type": "key", "id": "keys", "actions": [{"type": kind, "value": CONTROL}]}]})
        hold("keyDown")
        self.browser.drag(begin, end)
        hold("keyUp")

    def chosen(self):
        """The names of those that are chosen."""
        return self.browser.run("return [...chosen].map(k => flight.names[k]).sort()")

    def test_band(self):
        """With Ctrl a drag chooses the drones in a rectangle, beside those that are chosen, and turns nothing."""
        self.begin(PLACED, 0)
        view = self.browser.run("return [turn, tilt]")
        (ax, ay, metre), (bx, _, _), (cx, _, _) = self.drone(0), self.drone(1), self.drone(2)
        self.band((ax - metre / 3, ay - metre / 3), ((ax + bx) / 2, ay + metre / 3))
        self.assertEqual(self.chosen(), ["a"])
        self.band((cx + metre / 3, ay + metre / 3), ((ax + bx) / 2, ay - metre / 3))  # from the other corner
        self.assertEqual(self.chosen(), ["a", "b", "c"])
        self.assertEqual((self.browser.run("return [turn, tilt, band]"), self.text()), ([*view, None], PLACED))
        self.carry(1, 0, -0.5)  # and they are dragged together
        for line in ("drone a 0 -0.5m", "drone b 1m -0.5m", "drone c 2m -0.5m"):
            self.assertIn(line, self.text())
        self.assertEqual(self.browser.faults(), [])

    def test_all(self):
        """Outside of the text Ctrl-A chooses all drones and Escape none; in the text it is the text's."""
        self.begin(PLACED, 0)
        self.browser.run("document.activeElement.blur()")
        self.browser.keys("a", CONTROL)
        self.assertEqual((self.chosen(), self.selected()), (["a", "b", "c"], ""))
        self.browser.keys("\uE00C")
        self.assertEqual(self.chosen(), [])
        self.put_cursor("drone b")
        self.browser.keys("a", CONTROL)
        self.assertEqual((self.chosen(), self.selected()), ([], PLACED))


class Small(Flight):
    """Dark, two fingers, undo by buttons, and what the page says in words."""

    def emulate(self, command, **words):
        """A command of Chromium's own protocol."""
        return self.browser.ask("POST", "/goog/cdp/execute", {"cmd": command, "params": words})

    def ground(self):
        """How light the page, the view in space and the words of a chart are, from 0 to 255."""
        return self.browser.run(
            "const rgb = words => words.match(/[0-9]+/g).slice(0, 3).reduce((sum, it) => sum + Number(it) / 3, 0);"
            "const space = document.getElementById('space').getContext('2d').getImageData(2, 90, 1, 1).data;"
            "return [rgb(getComputedStyle(document.querySelector('.side')).backgroundColor), rgb([...space].join(' ')),"
            "rgb(getComputedStyle(document.querySelector('#heights text')).fill)]")

    def test_dark(self):
        """The page is dark where the system is, also its drawings, and follows a change."""
        self.open(TWO)
        self.says("2 cues")
        lines = "return [...document.querySelectorAll('#share polyline')].map(it => it.getAttribute('stroke'))"
        for scheme, is_light in (("light", True), ("dark", False), ("light", True)):
            self.emulate("Emulation.setEmulatedMedia", features=[{"name": "prefers-color-scheme", "value": scheme}])
            self.wait(lambda: (self.ground()[1] > 128) == is_light, "not drawn anew")
            page, space, words = self.ground()
            self.assertTrue((page > 230 and space > 230 and words < 100) if is_light else
                            (page < 60 and space < 60 and words > 170), (scheme, page, space, words))
            self.assertEqual({"#222", "#e4e8ec"} & {*self.browser.run(lines)}, {"#222" if is_light else "#e4e8ec"})
        self.assertEqual(self.browser.faults(), [])

    def test_two_fingers(self):
        """Two fingers that part zoom the view, and don't turn it."""
        self.open(TWO, size=(390, 844))
        self.says("2 cues")
        self.emulate("Emulation.setTouchEmulationEnabled", enabled=True)
        self.addCleanup(self.emulate, "Emulation.setTouchEmulationEnabled", enabled=False)
        x, y = self.browser.run("document.getElementById('space').scrollIntoView({block: 'center'});"
                                "const it = document.getElementById('space').getBoundingClientRect();"
                                "return [it.left + it.width / 2, it.top + it.height / 2]")
        before = self.browser.run("return [turn, tilt, zoom]")

        def touch(kind, *xs):
            self.emulate("Input.dispatchTouchEvent", type=kind, touchPoints=[
                {"x": x + dx, "y": y, "id": k} for k, dx in enumerate(xs)])
        touch("touchStart", -30)
        touch("touchStart", -30, 30)
        for far in (40, 50, 60):
            touch("touchMove", -far, far)
        touch("touchEnd")
        self.wait(lambda: self.browser.run("return zoom") > 1.5, "no zoom")
        self.assertEqual(self.browser.run("return [turn, tilt]"), before[:2])
        self.assertAlmostEqual(self.browser.run("return zoom"), 2, delta=0.1)  # from 60 to 120 pixels

    def test_undo_by_buttons(self):
        """A number that is typed in the field is one step, which the button takes back and writes again."""
        self.open(GOOD)
        self.says("accepted")
        disabled = "return ['undo', 'redo'].map(id => document.getElementById(id).disabled)"
        self.assertEqual(self.browser.run(disabled), [True, True])
        self.put_cursor("drone b 1000")
        self.browser.click("#number-value")
        self.browser.type(CONTROL + "a" + "\uE000" + "12.25", "#number-value")
        self.assertEqual(self.focused(), "number-value")
        self.assertIn("drone b 12250000 ", self.text())
        self.browser.click("#undo")
        self.assertEqual((self.text(), self.browser.run(disabled)), (GOOD, [True, False]))
        self.browser.click("#redo")
        self.assertIn("drone b 12250000 ", self.text())
        self.put_cursor("drone b 1225")
        self.browser.type(CONTROL + "a" + "\uE000" + "x", "#number-value")
        self.assertEqual(self.words("no-number"), "no number")
        self.browser.type(CONTROL + "a" + "\uE000" + "1", "#number-value")
        self.assertEqual((self.words("no-number"), self.text()), ("", GOOD))

    def test_file_gone(self):
        """A file that is deleted is called so, and Save writes it anew."""
        studio = self.open(GOOD)
        self.says("accepted")
        os.remove(studio.path)
        self.wait(lambda: "isn't there any more" in self.words("told"), "it doesn't say so")
        self.assertEqual(self.words("state"), "not written yet")
        self.browser.click("#save")
        self.wait(lambda: os.path.exists(studio.path) and self.words("state") == "saved", "not saved")
        self.assertEqual(studio.read(), GOOD.encode())

    def test_tabs_unsaved(self):
        """What another tab keeps unsaved stays kept where this one saves its own text."""
        studio = self.open(GOOD)
        self.says("accepted")
        first = self.browser.ask("GET", "/window")
        second = self.browser.ask("POST", "/window/new", {"type": "tab"})["handle"]
        self.browser.ask("POST", "/window", {"handle": second})
        self.browser.size(1280, 800)
        self.browser.ask("POST", "/url", {"url": "http://127.0.0.1:%s/%s/" % (studio.port, studio.token)})
        self.says("accepted")
        self.put_cursor(GOOD)
        self.browser.type("# of the second tab\n")
        kept = "return (localStorage.getItem(file.key) || '').includes('# of the second tab')"
        self.wait(lambda: self.browser.run(kept), "not kept")
        self.browser.ask("POST", "/window", {"handle": first})
        self.emulate("Page.bringToFront")
        self.browser.run("replaceText(wholeText() + '# of the first tab\\n'); clearTimeout(keeping); keeping = 1")
        self.browser.click("#save")
        self.wait(lambda: studio.read().endswith(b"# of the first tab\n"), "not saved")
        self.wait(lambda: self.words("state") == "saved", "not saved")
        self.assertTrue(self.browser.run(kept))
        self.browser.ask("POST", "/window", {"handle": second})
        self.browser.ask("DELETE", "/window")
        self.browser.ask("POST", "/window", {"handle": first})

    def test_words_for_readers(self):
        """What changes many times a second isn't read out, what matters is, and all that can be reached has a name."""
        self.open(TWO)
        self.says("2 cues")
        said = self.browser.run(
            "move(2500); const of = (id, name) => document.getElementById(id).getAttribute(name);"
            "return [of('now', 'aria-live'), of('told', 'role'), of('slider', 'aria-valuetext'), of('insert', 'aria-expanded'),"
            "of('heights', 'aria-label'), of('share', 'aria-label'), of('offer', 'aria-labelledby')]")
        self.assertEqual(said, ["off", "status", "2.5 s, cue 2", "false", "heights over time",
                                "how near the nearest two are over time", "offer-title"])
        small = self.browser.run("return [...document.querySelectorAll('button, input[type=range]')].filter(it => it.checkVisibility()"
                                 "&& it.getBoundingClientRect().height < 24).map(it => it.id || it.innerText)")
        self.assertEqual(small, [])


if __name__ == "__main__":
    unittest.main()
