"""The page of ./show studio in Chromium for those who set the colours themselves, who go by keys, who hear the page, or
who have a finger in place of a mouse."""
from __future__ import annotations

import os
import re
import sys
import time
import unittest

sys.dont_write_bytecode = True
sys.path.insert(0, os.path.dirname(os.path.abspath(__file__)))
from test_studio import NEAR
from test_studio_flight import END, Flight, LEFT, RIGHT, TWO
from test_studio_page import CONTROL, TAB

LEAST = 4.5  # of contrast between letters and their ground (WCAG 2.1, 1.4.3)


def light(rgb: "list[float]") -> float:
    """The relative luminance of a colour, as WCAG 2.1 defines it."""
    parts = [v / 255 / 12.92 if v / 255 <= 0.03928 else ((v / 255 + 0.055) / 1.055) ** 2.4 for v in rgb]
    return 0.2126 * parts[0] + 0.7152 * parts[1] + 0.0722 * parts[2]


def contrast(one: str, other: str) -> float:
    """The contrast of two colours as a style sheet computes them."""
    first, second = (light([float(v) for v in re.findall(r"[0-9.]+", it)[:3]]) for it in (one, other))
    return (max(first, second) + 0.05) / (min(first, second) + 0.05)


class Access(Flight):
    def emulate(self, command: str, **words: object) -> None:
        """A command of Chromium's own protocol."""
        self.browser.ask("POST", "/goog/cdp/execute", {"cmd": command, "params": words})

    def colours(self, **features: str) -> None:
        """Sets what the system wants of colours."""
        rows = [{"name": name.replace("_", "-"), "value": value} for name, value in features.items()]
        self.emulate("Emulation.setEmulatedMedia", features=rows)

    def setUp(self) -> None:
        self.addCleanup(self.colours)

    # The colour of letters that no ground covers, and that of the ground, for all that the page shows in words.
    PAIRS = """
    const ground = it => { for (; it; it = it.parentElement) { const {backgroundColor} = getComputedStyle(it);
      if (!/, 0\\)|transparent/.test(backgroundColor)) return backgroundColor; } return "rgb(255, 255, 255)"; };
    return [...document.querySelectorAll("body *")].filter(it => it.checkVisibility() && !it.matches(":disabled, textarea, option")
      && [...it.childNodes].some(child => child.nodeType === 3 && child.textContent.trim())).map(it => {
        const style = getComputedStyle(it);
        return [it.id || it.className.baseVal || it.className || it.tagName, it.textContent.trim().slice(0, 20),
          it.closest("svg") ? style.fill : style.color, ground(it)]; });"""

    def test_contrast(self) -> None:
        """All letters have the contrast that WCAG asks for, light and dark, of an accepted and of a refused show."""
        self.assertAlmostEqual(contrast("rgb(0, 0, 0)", "rgb(255, 255, 255)"), 21, places=3)
        self.assertAlmostEqual(contrast("rgb(119, 119, 119)", "rgb(255, 255, 255)"), 4.48, places=2)
        for text, says in ((TWO, "2 cues"), (NEAR, "TOO NEAR"), (TWO.replace("b hold", "b hald"), "line 8: ")):
            self.colours(prefers_color_scheme="light")
            self.open(text)
            self.says(says)
            for scheme in ("light", "dark"):
                self.colours(prefers_color_scheme=scheme)
                self.browser.run("return new Promise(go => setTimeout(go, 900))")  # what fades has faded
                rows = self.browser.run(self.PAIRS)
                self.assertGreater(len(rows), 40)
                low = [(round(contrast(*row[2:]), 2), row) for row in rows if contrast(*row[2:]) < LEAST]
                self.assertEqual(low, [], scheme)

    def test_forced(self) -> None:
        """Where the system sets the colours the curve of distances and its names still stand out from their ground."""
        self.open(TWO)
        self.says("2 cues")
        for scheme in ("light", "dark"):
            self.colours(forced_colors="active", prefers_color_scheme=scheme)
            self.wait(lambda: self.browser.run("return matchMedia('(forced-colors: active)').matches"), "not forced")
            self.browser.run("return new Promise(go => requestAnimationFrame(() => requestAnimationFrame(go)))")
            ground, curve, name, edge, axis, letters = self.browser.run(
                "const of = css => getComputedStyle(document.querySelector(css));"
                "return [of('.flight').backgroundColor, of('#share polyline.near').stroke, of('#share .name').fill,"
                "of('#share .name').stroke, of('#heights text').fill, of('#text').color]")
            for colour in (curve, name, axis):
                self.assertGreater(contrast(ground, colour), LEAST, (scheme, ground, colour))
            self.assertEqual(contrast(edge, ground), 1)  # the edge of a name is of the ground's colour, and no blob
            self.assertRegex(letters, r"rgba\(.*, 0\)|transparent")  # the text is drawn once, with its marks

    def test_number_clicked(self) -> None:
        """A click on the field of the number takes all of it, also where the field waits for a number; the next click
        there puts the cursor into it."""
        self.open(TWO)
        self.says("2 cues")
        self.put_cursor("end\ncue 3000\nb hold\nend")
        self.browser.click("#insert")
        self.press("cue of 3 s without")
        self.wait(lambda: self.number() == ["length of cue", "3", "s"] and self.focused() == "number-value", "it doesn't wait")
        self.browser.click("#number-value")
        self.browser.keys("10")
        self.assertIn("cue 10000\n", self.text())
        self.browser.click("#number-value")  # beside the letters
        self.browser.keys(END + "1")
        self.assertIn("cue 101000\n", self.text())
        self.put_cursor("drone b 1000")
        self.wait(lambda: self.number() == ["x of b", "1", "m"], "no number")
        self.browser.click("#number-value")
        self.browser.keys("2")
        self.assertIn("drone b 2000000 0", self.text())

    def test_legend_by_keys(self) -> None:
        """The list of drones is one stop of Tab; arrows go through it, and Space chooses."""
        self.open("choreo 2\n%scue 1s\nend\n" % "".join("drone d%d %dm 0 1m 0\n" % (k, k) for k in range(9)))
        self.says("9 drones")
        stops = "return [...document.querySelectorAll('#legend button')].filter(it => it.tabIndex === 0).map(it => it.innerText)"
        self.assertEqual(self.browser.run(stops), ["d0"])
        self.browser.run("document.querySelector('#legend button').focus()")
        self.browser.keys(RIGHT + RIGHT + RIGHT + LEFT + " ")
        self.assertEqual((self.browser.run("return [...chosen]"), self.browser.run(stops)), ([2], ["d2"]))
        self.browser.keys(END + " ")
        self.assertEqual((self.browser.run("return [...chosen]"), self.at()), ([2, 8], 0))
        self.browser.keys(TAB)
        self.assertEqual(self.focused(), "go")

    def test_bar(self) -> None:
        """The bar is a button only where it leads somewhere, and is read out in any case."""
        said = "const it = document.getElementById('verdict'); return [it.getAttribute('role'), it.tabIndex, it.ariaLive]"
        self.open(TWO)
        self.says("2 cues")
        self.assertEqual(self.browser.run(said), ["status", -1, "polite"])
        self.open(NEAR)
        self.says("TOO NEAR")
        self.assertEqual(self.browser.run(said), [None, 0, "polite"])

    def test_wheel(self) -> None:
        """On a narrow page the wheel scrolls, and zooms with Ctrl, as two fingers on a pad do."""
        self.open(TWO, size=(390, 844))
        self.says("2 cues")
        x, y = self.browser.run("const it = document.getElementById('space').getBoundingClientRect();"
                                "return [Math.round(it.left + it.width / 2), Math.round(it.top + it.height / 2)]")
        for held, zooms in (([], False), ([CONTROL], True)):
            keys = [{"type": kind, "value": key} for key in held for kind in ("keyDown",)] or [{"type": "pause"}]
            self.browser.ask("POST", "/actions", {"actions": [{"type": "key", "id": "keys", "actions": keys}]})
            self.browser.ask("POST", "/actions", {"actions": [{"type": "wheel", "id": "wheel", "actions": [
                {"type": "scroll", "x": x, "y": y, "deltaX": 0, "deltaY": -300 if zooms else 20}]}]})
            self.browser.ask("DELETE", "/actions")
            self.assertEqual(self.browser.run("return zoom") > 1.5, zooms)

    def stands_still(self) -> bool:
        """Whether the page has scrolled to its end: a stroke goes on after the finger."""
        first = self.browser.run("return scrollY")
        time.sleep(0.3)
        return first == self.browser.run("return scrollY")

    def test_one_finger(self) -> None:
        """On a telephone a finger that goes up or down scrolls the page, and one that goes sideways turns the view."""
        self.open(TWO, size=(390, 844))
        self.says("2 cues")
        self.emulate("Emulation.setTouchEmulationEnabled", enabled=True)
        self.addCleanup(self.emulate, "Emulation.setTouchEmulationEnabled", enabled=False)
        x, y = self.browser.run("const it = document.getElementById('space').getBoundingClientRect();"
                                "return [it.left + it.width / 2, it.top + it.height / 2]")
        before = self.browser.run("return [turn, tilt]")

        def stroke(dx: int, dy: int) -> None:
            """Moves a finger from the middle of the view in eight steps."""
            self.emulate("Input.dispatchTouchEvent", type="touchStart", touchPoints=[{"x": x, "y": y}])
            for k in range(1, 9):
                self.emulate("Input.dispatchTouchEvent", type="touchMove", touchPoints=[{"x": x + dx * k, "y": y + dy * k}])
            self.emulate("Input.dispatchTouchEvent", type="touchEnd", touchPoints=[])
        stroke(0, -20)
        self.wait(lambda: self.browser.run("return scrollY") > 100, "it doesn't scroll")
        self.assertEqual(self.browser.run("return [turn, tilt]"), before)
        self.wait(self.stands_still, "it scrolls for ever")
        self.browser.run("scrollTo(0, 0)")
        stroke(10, 0)
        self.wait(lambda: self.browser.run("return turn") != before[0], "it doesn't turn")
        self.assertEqual(self.browser.run("return [scrollY, tilt]"), [0, before[1]])


if __name__ == "__main__":
    unittest.main()
