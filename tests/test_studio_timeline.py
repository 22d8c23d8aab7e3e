"""The timeline of the page of ./show studio in Chromium: the part of the time that is seen, names of cues, lanes, cues
that are carried elsewhere."""
import sys
import os
import unittest

sys.dont_write_bytecode = True
sys.path.insert(0, os.path.dirname(os.path.abspath(__file__)))
from test_studio_flight import Flight
from test_studio_page import CONTROL

ACTS = ("# rise\ncue 2s\na move 0 0 2m 0\nend\n", "cue 3s  # aside\nb move 1.5m 0 1m 0\nend\n",
        "# not a name\n\ncue 5s\na move 0 1m 2m 0\nb move 1.5m 1m 1m 0\nend\n")
HEAD = "choreo 2\ndrone a 0 0 1m 0\ndrone b 1m 0 1m 0\n\n"
SHOW = HEAD + "\n".join(ACTS)  # cues of 2, 3 and 5 seconds, with an empty line between them


class Timeline(Flight):
    def begin(self, text=SHOW, size=(1280, 800)):
        """A page whose flight is there, with the lines of its drones."""
        self.open(text, size=size)
        self.ready()

    def ready(self):
        """Waits for the flight of the text, with its lines."""
        self.wait(lambda: self.browser.run("return Boolean(flight) && flightVersion === version && Boolean(found.notes)"),
                  "no flight of this text")

    def wheel(self, share, by, *held, name="heights"):
        """Turns the wheel at this share of a chart, while keys are held."""
        x, y = self.at_chart(share, name)
        modifiers = {"ctrl": 2, "shift": 8}
        self.browser.ask("POST", "/goog/cdp/execute", {"cmd": "Input.dispatchMouseEvent", "params": {
            "type": "mouseWheel", "x": x, "y": y, "deltaX": 0, "deltaY": by,
            "modifiers": sum(modifiers[key] for key in held)}})

    def seen(self):
        """From when to when the charts show the flight, in milliseconds, once they are drawn."""
        return self.browser.run(
            "return new Promise(go => requestAnimationFrame(() => requestAnimationFrame(() =>"
            "go([timeFrom, timeFrom + flight.end / timeZoom]))))")

    def block(self, k):
        """The middle of the block of a cue."""
        return self.browser.run(
            "const box = [...document.querySelectorAll('#heights .cue')].find(it => it.textContent.startsWith(`cue ${arguments[0]}`))"
            ".getBoundingClientRect(); return [box.left + box.width / 2, box.top + box.height / 2, box.width]", k)

    def ticks(self):
        """The numbers below the lower chart."""
        return self.browser.run("return [...document.querySelectorAll('#share > text[text-anchor=middle]')].map(it => it.textContent)"
                                ".filter(it => /^[0-9.]+$/.test(it)).map(Number)")


class Zoom(Timeline):
    def test_wheel(self):
        """With Ctrl the wheel shows less of the time, and the instant below the pointer stays there; with Shift it goes
        along the time, and not beyond its ends. Without a key it scrolls the page alone."""
        self.begin()
        self.assertEqual((self.seen(), self.ticks()[-1]), ([0, 10000], 10))
        self.wheel(0.5, -300)
        self.assertEqual(self.seen(), [0, 10000])
        self.wheel(0.3, -208, "ctrl")  # e^(208 / 300) is 2
        from_, till = self.seen()
        self.assertAlmostEqual(till - from_, 5000, delta=20)
        self.assertAlmostEqual((3000 - from_) / (till - from_), 0.3, delta=0.01)
        ticks = self.ticks()
        self.assertTrue(1.5 <= ticks[0] <= 2.5 and 6 <= ticks[-1] <= 6.5, ticks)
        self.wheel(0.5, 100, "shift")
        moved, end = self.seen()
        self.assertGreater(moved, from_)
        self.assertAlmostEqual(end - moved, till - from_, delta=1)
        for _ in range(5):
            self.wheel(0.5, 900, "shift")
        self.assertEqual(round(self.seen()[1]), 10000)
        for _ in range(4):
            self.wheel(0.5, 900, "ctrl")
        self.assertEqual(self.seen(), [0, 10000])
        self.assertEqual(self.browser.faults(), [])

    def test_drawn(self):
        """What is zoomed is drawn where its time is: the end of a cue, the playhead, and a click."""
        self.begin()
        self.browser.run("move(5000)")
        self.browser.click("#time-nearer")
        self.browser.click("#time-nearer")
        from_, till = self.seen()
        self.assertAlmostEqual(till - from_, 10000 / 2.25, delta=1)
        left, right, cursor, grip = self.browser.run(
            "const of = css => document.querySelector(css).getBoundingClientRect(), frame = of('#heights rect[fill=none]');"
            "const grips = [...document.querySelectorAll('#heights .grip')].map(it => it.getBoundingClientRect());"
            "const ink = document.querySelector('#heights line[stroke-width=\"1.3\"]').getBoundingClientRect();"
            "return [frame.left, frame.right, ink.left, grips.map(it => it.left + it.width / 2)]")
        at = lambda ms: left + (right - left) * (ms - from_) / (till - from_)
        self.assertAlmostEqual(cursor, at(5000), delta=1.5)
        self.assertEqual([round(it - at(5000)) for it in grip], [0])  # of the three ends that of cue 2 alone is in view
        x, y = self.at_chart(0.25)
        self.browser.drag((x, y), (x, y))
        self.assertAlmostEqual(self.at(), from_ + (till - from_) / 4, delta=15)
        # Nothing is drawn beside the frame.
        over = self.browser.run(
            "const plot = document.querySelector('#heights svg'); return [getComputedStyle(plot).overflow,"
            "plot.getBoundingClientRect().right]")
        self.assertEqual(over[0], "hidden")
        self.assertLessEqual(over[1], right + 1.5)

    def test_stretch(self):
        """In a part of the time the end of a cue is dragged by as much as is drawn: by a tenth of 10 / 2.25 seconds."""
        self.begin()
        self.browser.run("move(5000)")
        self.browser.click("#time-nearer")
        self.browser.click("#time-nearer")
        self.seen()
        x, y, wide = self.browser.run(
            "const box = document.querySelector('#heights .grip').getBoundingClientRect();"
            "return [box.left + box.width / 2, box.top + box.height / 2,"
            "document.querySelector('#heights rect[fill=none]').getBoundingClientRect().width]")
        self.browser.drag((x, y), (x + wide / 10, y))
        self.wait(lambda: "cue 3s" not in self.text(), "nothing was written")
        number = self.browser.run("return Number(wholeText().match(/cue ([0-9.]+)s  # aside/)[1])")
        self.assertAlmostEqual(number, 3 + 1 / 2.25, delta=0.03)
        self.ready()
        from_, till = self.seen()  # as much of the longer show is seen
        self.assertAlmostEqual(till - from_, 10000 / 2.25, delta=1)

    def test_bar(self):
        """A bar says which part is seen, and goes to another; while it plays the charts follow the playhead."""
        self.begin()
        self.assertFalse(self.browser.run("return document.getElementById('time-scroll').checkVisibility()"))
        self.browser.run("move(0)")
        for _ in range(3):
            self.browser.click("#time-nearer")
        self.assertEqual(self.seen()[0], 0)
        self.browser.run("const it = document.getElementById('time-scroll'); it.scrollLeft = it.scrollWidth / 2")
        self.wait(lambda: abs(self.seen()[0] - 5000) < 20, "the charts don't follow the bar")
        self.browser.run("move(1000)")
        self.assertLessEqual(self.seen()[0], 1000)
        self.browser.run("move(9000)")
        from_, till = self.seen()
        self.assertTrue(from_ <= 9000 <= till, (from_, till))
        self.browser.click("#time-all")
        self.assertEqual(self.seen(), [0, 10000])
        self.assertFalse(self.browser.run("return document.getElementById('time-scroll').checkVisibility()"))

    def test_many_cues(self):
        """Of a hundred cues none has a grip until less of the time is seen."""
        self.begin("choreo 2\ndrone a 0 0 1m 0\ndrone b 1m 0 1m 0\n" + "cue 1s\na hold\nend\n" * 100)
        grips = "return document.querySelectorAll('#heights .grip').length"
        self.assertEqual(self.browser.run(grips), 0)
        for _ in range(7):
            self.browser.click("#time-nearer")
        self.seen()
        self.assertGreaterEqual(self.browser.run(grips), 4)

    def test_two_fingers(self):
        """Two fingers that part on a chart show less of the time, and the playhead stays."""
        self.begin(size=(390, 844))
        touch = {"cmd": "Emulation.setTouchEmulationEnabled", "params": {"enabled": True}}
        self.browser.ask("POST", "/goog/cdp/execute", touch)
        self.addCleanup(self.browser.ask, "POST", "/goog/cdp/execute", {**touch, "params": {"enabled": False}})
        self.browser.run("document.getElementById('heights').scrollIntoView({block: 'center'})")
        x, y = self.at_chart(0.5)
        at = [self.browser.ask("POST", "/goog/cdp/execute", {"cmd": "Input.dispatchTouchEvent", "params": {
            "type": kind, "touchPoints": [{"x": x + dx, "y": y, "id": k} for k, dx in enumerate(xs)]}}) or self.at()
            for kind, xs in (("touchStart", (-40,)), ("touchStart", (-40, 40)), ("touchMove", (-60, 60)),
                             ("touchMove", (-80, 80)), ("touchEnd", ()))]
        from_, till = self.seen()
        self.assertAlmostEqual(till - from_, 5000, delta=400)
        self.assertEqual(at[-1], at[1])


class Names(Timeline):
    def test_names(self):
        """A cue is called by the comment at the end of its line, or by the line of comment right above it."""
        self.begin()
        self.assertEqual(self.browser.run("return [...document.querySelectorAll('#heights .cue-name')].map(it => it.textContent)"),
                         ["1 rise", "2 aside", "3"])
        self.put_cursor("# aside")
        self.browser.type(" and back")
        self.ready()
        self.assertEqual(self.browser.run("return cueNames"), ["rise", "aside and back", ""])

    def test_short(self):
        """A name is drawn as far as its block has room, and is there in full for who points at it."""
        name = "a name that is longer than its block can ever be, all told"
        self.begin(SHOW.replace("# rise", "# " + name))
        words = self.browser.run("return document.querySelector('#heights .cue-name').textContent")
        self.assertTrue(words.startswith("1 a name") and words.endswith("…"), words)
        wide = self.browser.run("const [a, b] = ['.cue', '.cue-name'].map(it => document.querySelector('#heights ' + it)"
                                ".getBoundingClientRect().width); return a - b")
        self.assertGreater(wide, 0)
        self.assertIn(name, self.browser.run("return document.querySelector('#heights .cue').textContent"))

    def test_click(self):
        """A click on a block goes there, in the time and in the text, and the block is marked."""
        self.begin()
        x, y, _ = self.block(2)
        self.browser.drag((x, y), (x, y))
        self.assertAlmostEqual(self.at(), 3500, delta=30)
        self.assertEqual(self.browser.run("return state.lines[cursorLine() - 1]"), "cue 3s  # aside")
        marked = "return [...document.querySelectorAll('#heights .cue.here')].map(it => it.textContent.slice(0, 5))"
        self.assertEqual(self.browser.run(marked), ["cue 2"])
        self.assertEqual(self.text(), SHOW)


class Carry(Timeline):
    def carry(self, k, other, side, *held):
        """Drags the block of a cue into the left or the right half of another one."""
        (x, y, _), (to, _, wide) = self.block(k), self.block(other)
        if held:
            self.browser.ask("POST", "/actions", {"actions": [{"type": "key", "id": "keys", "actions": [
                {"type": "keyDown", "value": key} for key in held]}]})
        self.browser.drag((x, y), (to + side * wide / 4, y))
        if held:
            self.browser.ask("POST", "/actions", {"actions": [{"type": "key", "id": "keys", "actions": [
                {"type": "keyUp", "value": key} for key in held]}]})

    def test_drag(self):
        """A cue that is dragged stands elsewhere in the text, with the comment above it and an empty line; one undo
        takes it back."""
        first, second, third = ACTS
        head, tail = third.split("\n\n")
        cases = ((1, 3, 1, [second, third, first]), (2, 1, -1, [second, first, third]),
                 (1, 2, 1, [second, first, third]), (3, 1, -1, [tail, first, second + "\n" + head + "\n"]))
        for k, other, side, wanted in cases:
            self.begin()
            self.carry(k, other, side)
            self.assertEqual(self.text(), HEAD + "\n".join(wanted))
            self.assertEqual(self.selected(), "")
            self.ready()
            self.assertEqual(self.browser.run("return cueNames[cueAt(now)]"), ["rise", "aside", ""][k - 1])
            self.browser.keys("z", CONTROL)
            self.assertEqual(self.text(), SHOW)
        self.assertEqual(self.browser.faults(), [])

    def test_copy(self):
        """With Ctrl a copy is written there, and the cue stays."""
        self.begin()
        self.carry(2, 3, 1, CONTROL)
        self.assertEqual(self.text(), SHOW + "\n" + ACTS[1])
        self.ready()
        self.assertEqual(self.browser.run("return flight.cues.map(([from]) => from)"), [0, 2000, 5000, 10000])

    def test_back(self):
        """A cue that is dragged and brought back, or hardly moved, changes nothing."""
        self.begin()
        self.carry(2, 2, 1)
        self.assertEqual(self.text(), SHOW)
        self.carry(2, 1, 1)
        self.assertEqual(self.text(), SHOW)

    def test_refused(self):
        """A cue that makes the show wrong at another place is written there, and `check` says what is wrong."""
        text = ("choreo 2\ndrone a 0 0 1m 0\ndrone b 1m 0 1m 0\ncue 2s\na move 0 2m 1m 0\nend\n"
                "cue 4s\nb move 0 0 1m 0\nend\n")
        self.begin(text)
        self.says("accepted")
        self.browser.run("move(5000)")
        self.browser.click("#cue-earlier")
        self.assertEqual(self.text(), "choreo 2\ndrone a 0 0 1m 0\ndrone b 1m 0 1m 0\ncue 4s\nb move 0 0 1m 0\nend\n"
                                      "cue 2s\na move 0 2m 1m 0\nend\n")
        self.says("TOO NEAR: a and b in cue 1")

    def test_buttons(self):
        """Buttons carry the cue at the playhead, again and again, and at the ends they do nothing."""
        self.begin()
        self.browser.run("move(1000)")
        first, second, third = ACTS
        note, tail = third.split("\n\n")
        note += "\n"  # it stands apart from its cue, and stays
        for css, wanted in (("#cue-later", (second, first, third)), ("#cue-later", (second, third, first)),
                            ("#cue-later", (second, third, first)), ("#cue-earlier", (second, note, first, tail)),
                            ("#cue-copy", (second, note, first, first, tail))):
            self.browser.click(css)
            self.assertEqual(self.text(), HEAD + "\n".join(wanted))
            self.ready()

    def test_remove(self):
        """The cue at the playhead is taken out, with the comment above it and an empty line, the last one too; and undo
        writes it again."""
        first, second, third = ACTS
        note, tail = third.split("\n\n")
        for ms, wanted, ends in ((1000, [second, third], 8000), (3000, [first, third], 7000),
                                 (9000, [first, second, note + "\n"], 5000)):
            self.begin()
            self.browser.run("move(arguments[0])", ms)
            self.browser.click("#cue-remove")
            self.assertEqual(self.text(), HEAD + "\n".join(wanted))
            self.ready()
            self.assertEqual(self.browser.run("return flight.end"), ends)
            self.browser.click("#undo")
            self.assertEqual(self.text(), SHOW)
        self.begin("choreo 2\ndrone a 0 0 1m 0\ncue 2s\nend\n")
        self.browser.click("#cue-remove")
        self.assertEqual(self.text(), "choreo 2\ndrone a 0 0 1m 0\n")
        self.wait(lambda: "there is no cue yet" in self.words("before"), "the drone isn't shown")
        self.assertEqual(self.browser.faults(), [])

    def test_figure(self):
        """Of cues that a figure flies the `perform` line is carried, and the figure stays."""
        head = "choreo 2\ndrone a 0 0 1m 0\nfigure f r\ncue 2s\nr move 0 1m 1m 0\nend\ncue 1s\nr move 0 0 1m 0\nend\nend\n"
        self.begin(head + "perform f none 0 0 0 0 a\ncue 4s\na hold\nend\n")
        self.browser.run("move(500)")
        self.browser.click("#cue-later")  # of the same figure: nothing changes
        self.assertIn("a\ncue 4s", self.text())
        self.carry(1, 3, 1)
        self.assertEqual(self.text(), head + "cue 4s\na hold\nend\nperform f none 0 0 0 0 a\n")


class Lanes(Timeline):
    def test_lanes(self):
        """A lane of each drone has its acts where they are flown; a click chooses the drone, and goes there."""
        self.begin()
        self.assertFalse(self.browser.run("return document.getElementById('lane-rows').checkVisibility()"))
        high = self.browser.run("return document.getElementById('room').clientHeight")
        self.browser.click("#lanes-open")
        rows = ("return [...document.querySelectorAll('#lane-rows .lane')].map(it => { const box = it.getBoundingClientRect(),"
                "plot = document.querySelector('#lane-rows svg').getBoundingClientRect();"
                "return [it.textContent, (box.left - plot.left) / plot.width, (box.right - plot.left) / plot.width]; })")
        found = self.browser.run(rows)
        self.assertEqual([words for words, _, _ in found], ["a in cue 1: move", "a in cue 3: move", "b in cue 2: move",
                                                            "b in cue 3: move"])
        for (_, begin, end), (from_, till) in zip(found, ((0, 0.2), (0.5, 1), (0.2, 0.5), (0.5, 1))):
            self.assertAlmostEqual(begin, from_, delta=0.01)
            self.assertAlmostEqual(end, till, delta=0.01)
        self.wait(lambda: self.browser.run("return document.getElementById('space').clientHeight") < high - 20,
                  "the view in space isn't smaller")
        x, y = self.browser.run("const box = document.querySelectorAll('#lane-rows .lane')[2].getBoundingClientRect();"
                                "return [box.left + box.width / 2, box.top + box.height / 2]")
        self.browser.drag((x, y), (x, y))
        self.assertEqual(self.browser.run("return [now, [...chosen]]"), [2001, [1]])
        self.browser.click("#lanes-open")
        self.assertFalse(self.browser.run("return document.getElementById('lane-rows').checkVisibility()"))
        self.assertEqual(self.browser.faults(), [])

    def test_formation(self):
        """An act that a formation gives is one, too, and a new text has new lanes."""
        self.begin("choreo 2\ndrone a 0 0 1m 0\ndrone b 1m 0 1m 0\nformation f\nat a 0 1m 1m 0\nend\ncue 2s\nform f move\nend\n")
        self.browser.click("#lanes-open")
        names = "return [...document.querySelectorAll('#lane-rows .lane')].map(it => it.textContent)"
        self.assertEqual(self.browser.run(names), ["a in cue 1: form"])
        self.put_cursor("form f move\nend\n")
        self.browser.type("cue 1s\nb turn 90deg\nend\n")
        self.wait(lambda: self.browser.run(names) == ["a in cue 1: form", "b in cue 2: turn"], "not drawn anew")


if __name__ == "__main__":
    unittest.main()
