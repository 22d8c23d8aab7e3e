#!/usr/bin/env python3
"""Writes the first show of docs/STUDIO.md in the studio's page, as the document says it, and takes its pictures anew:

    python3 tests/studio_pictures.py FOLDER [PROGRAM]

Chromium and chromedriver are led as in tests/test_studio_page.py. Without PROGRAM the one that ./show built is asked;
the pictures show what the page says of its proof. Each step is looked at, and the text at the end is compared with the
one in the document.
"""
import base64
import os
import re
import sys
import tempfile
import time

sys.dont_write_bytecode = True
sys.path.insert(0, os.path.dirname(os.path.abspath(__file__)))
from test_studio import PROGRAM, TOP, Running
from test_studio_page import CONTROL, Browser, Page

SIZE = 1120, 700
ENTER, NULL, BACK = "\uE007", "\uE000", "\uE003"
SQUARE = {"a": (-0.5, -0.5), "b": (0.5, -0.5), "c": (0.5, 0.5), "d": (-0.5, 0.5)}


class Session(Page):
    """A session of somebody who writes a first show."""

    def __init__(self, folder, program):
        super().__init__("test_write_a_show")
        self.browser, self.folder, self.program = Browser(), folder, program
        self.begun = time.monotonic()

    def begin(self, path):
        """Opens the studio on a show that isn't there yet."""
        self.studio = Running(None, ("--program", self.program), path)
        self.addCleanup(self.studio.end)
        self.browser.size(*SIZE)
        self.browser.ask("POST", "/url", {"url": "http://127.0.0.1:%s/%s/" % (self.studio.port, self.studio.token)})
        self.accepted()

    def accepted(self):
        """Waits until the show is accepted, and all is known of it."""
        self.wait(lambda: "PROVED" in self.verdict() and self.browser.run("return Boolean(found.notes)"), "not accepted")

    def picture(self, name, settle=1.0):
        """Takes a picture of the page."""
        self.browser.ask("POST", "/actions", {"actions": [{"type": "pointer", "id": "mouse", "actions": [
            {"type": "pointerMove", "duration": 0, "x": SIZE[0] // 3, "y": 20}]}]})  # beside all buttons
        self.shoot(name, settle)

    def shoot(self, name, settle):
        """The same with the mouse where it is."""
        time.sleep(settle)
        with open(os.path.join(self.folder, name + ".png"), "wb") as file:
            file.write(base64.b64decode(self.browser.ask("GET", "/screenshot")))

    def fill(self, *numbers):
        """Writes numbers into the field, each followed by Enter."""
        for number in numbers:
            self.browser.type("%s%s%s%s" % (CONTROL + "a", NULL, number, ENTER), "#number-value")

    def end_of(self, words):
        """Puts the cursor at the end of the last line that begins with these words."""
        self.browser.run("const it = document.getElementById('text'), at = ('\\n' + it.value).lastIndexOf('\\n' + arguments[0]);"
                         "const end = it.value.indexOf('\\n', at); it.focus(); it.setSelectionRange(end, end)", words)
        time.sleep(0.3)

    def insert(self, words, act=None):
        """Takes an entry of the menu, with another act where one is named."""
        self.browser.click("#insert")
        if act:
            self.wait(lambda: self.browser.run(
                "const it = document.querySelector('#menu select'); if (!it) return false; it.value = arguments[0];"
                "it.dispatchEvent(new Event('change')); return true", act), "no acts in the menu")
        self.press(words)
        time.sleep(0.3)

    def put_drones(self):
        """Step 2: four drones on the corners of a square."""
        text = self.text()
        self.browser.run("const it = document.getElementById('text'); it.focus();"
                         "it.setSelectionRange(arguments[0], it.value.length)", text.index("\ncue"))
        self.browser.type("\uE017")
        for name, (x, y) in SQUARE.items():
            if name in "cd":
                self.end_of("drone")
                self.insert("drone")
            self.put_cursor(re.search("drone %s +" % name, self.text())[0])
            time.sleep(0.2)
            if name == "b":
                self.picture("studio_numbers")
            self.fill(x, y, 0.5)
        self.choose_two()
        self.end_of("drone")

    def choose_two(self):
        """Chooses c and d by a rectangle, from above, and leaves them again."""
        self.wait(lambda: self.browser.run("return flightVersion === version && flight.names.length") == 4, "no four")
        self.browser.run("setView('from above')")
        left, right = self.browser.run("""
            const {left, top} = document.getElementById("space").getBoundingClientRect();
            return [[3, -40], [2, 40]].map(([k, by]) => view.to(placeAt(k, 0)).map((v, side) => v + [left, top][side] + by))""")
        mouse = lambda *acts: self.browser.ask("POST", "/actions", {"actions": [
            {"type": "key", "id": "keys", "actions": [{"type": "keyDown", "value": CONTROL}]},
            {"type": "pointer", "id": "mouse", "actions": [{"type": "pause"}, *acts]}]})
        at = lambda point: {"type": "pointerMove", "duration": 60, "x": round(point[0]), "y": round(point[1])}
        mouse(at(left), {"type": "pointerDown", "button": 0}, at(right))
        self.shoot("studio_chosen", 0.6)
        mouse({"type": "pointerUp", "button": 0})
        self.browser.ask("DELETE", "/actions")
        self.wait(lambda: self.browser.run("return [...chosen]") == [2, 3], "not chosen")
        self.browser.keys("\uE00C")
        self.browser.run("setView('in space')")

    def rise(self):
        """Step 3: all rise in five seconds."""
        self.insert("formation with")
        self.end_of("end")
        self.browser.click("#insert")
        self.wait(lambda: self.browser.run("return document.querySelectorAll('#menu button').length") > 1, "no menu")
        self.picture("studio_menu", 0.3)
        self.press("cue of 3 s with")
        time.sleep(0.3)
        self.fill(5)
        for name in SQUARE:
            self.put_cursor("%s move %gm %gm " % (name, *SQUARE[name]))
            time.sleep(0.2)
            self.fill(1.5)
        self.accepted()

    def cross(self):
        """Step 4: two change places, are refused, and the cure is looked at and left."""
        before = self.text()
        self.end_of("end")
        self.insert("cue of 3 s with")
        self.fill(10)
        cue = self.text().rindex("cue")
        places = {name: "%s move %gm %gm 1.5m 0" % (name, *SQUARE[name]) for name in SQUARE}
        self.rename(cue, {"a": "c", "c": "a"}, places)
        self.wait(lambda: "TOO NEAR" in self.verdict() and self.browser.run("return Boolean(found.marks)"), "not refused")
        self.browser.click("#verdict")
        self.picture("studio_refused")
        self.browser.click("#cure")
        self.wait(lambda: self.browser.run("return document.getElementById('offer').open"), "nothing is offered")
        self.picture("studio_cure")
        self.browser.click("#leave")
        for _ in range(40):
            if self.text() != before:
                self.browser.type(CONTROL + "z" + NULL)
        self.assertEqual(self.text(), before)
        self.accepted()

    def rename(self, cue, names, places):
        """Writes other names before the places of the last cue, letter by letter."""
        for owner, words in places.items():
            self.browser.run("const it = document.getElementById('text'), at = it.value.indexOf(arguments[1], arguments[0]);"
                             "it.focus(); it.setSelectionRange(at - 1, at)", cue, words[1:])
            self.browser.type(names.get(owner, owner))

    def turn(self):
        """Step 5: a quarter of a turn, and back."""
        for sense in ("ccw", "cw"):
            self.end_of("end")
            self.insert("cue of 3 s with", "swing " + sense)
            self.fill(10)
            self.accepted()

    def come_back(self):
        """Step 6: down to the starts."""
        self.end_of("end")
        self.insert("cue of 3 s without")
        self.fill(5)
        self.end_of("cue")
        self.insert("form place1")
        self.accepted()
        self.browser.run("move(9000); onPick(9000)")
        self.picture("studio", 2.5)


def show_of_document():
    """The show that docs/STUDIO.md has at its end."""
    with open(os.path.join(TOP, "docs", "STUDIO.md")) as file:
        return re.search("^```\n(choreo 2\n.*?)^```", file.read(), re.M | re.S)[1]


def main():
    folder, program = sys.argv[1], sys.argv[2] if len(sys.argv) > 2 else PROGRAM
    with tempfile.TemporaryDirectory() as place:
        session = Session(folder, program)
        try:
            session.begin(os.path.join(place, "first_show.choreo"))
            session.picture("studio_template")
            session.browser.click("#told button")
            for step in (session.put_drones, session.rise, session.cross, session.turn, session.come_back):
                step()
                print("%-12s %5.1f s: %s" % (step.__name__, time.monotonic() - session.begun, session.words("verdict")))
            session.browser.click("#save")
            session.wait(lambda: session.words("state") == "saved", "not saved")
            session.assertEqual(session.text().split("\n\n", 1)[1], show_of_document().split("\n\n", 1)[1])
        finally:
            session.browser.end()
            session.doCleanups()
    return 0


if __name__ == "__main__":
    raise SystemExit(main())
