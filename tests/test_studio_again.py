"""The page of ./show studio in Chromium: it goes on after its studio was started again, and its buttons ask the program of
which its bar speaks."""
from __future__ import annotations

import os
import shutil
import signal
import subprocess
import sys
import tempfile
import unittest

sys.dont_write_bytecode = True
sys.path.insert(0, os.path.dirname(os.path.abspath(__file__)))
from common import wants_program
from hemtoghai.program import words_of
from test_studio import GOOD, NEAR, PROGRAM, Running, STAND_IN, WAIT
from test_studio_flight import Flight

MORE = "# not saved\n"
FORMED = """choreo 2
drone a 0 0 1m 0
drone b 1m 0 1m 0
formation turned
at a 1m 1m 1m 0
at b 0 1m 1m 0
end
cue 4s
form turned move
end
"""


class Tabs(Flight):
    """What is asked of several tabs."""

    def start(self, path: str, *words: str) -> Running:
        """A studio of a file that is there."""
        studio = Running(None, ("--program", self.program, *words), path)
        self.addCleanup(studio.end)
        return studio

    def tab(self, address: str) -> str:
        """Another tab, which is shown, at an address."""
        new = str(self.browser.ask("POST", "/window/new", {"type": "tab"})["handle"])
        self.show(new)
        self.browser.size(1280, 800)
        self.browser.ask("POST", "/url", {"url": address})
        return new

    def show(self, tab: str) -> None:
        """Shows a tab that is there."""
        self.browser.ask("POST", "/window", {"handle": tab})
        self.browser.ask("POST", "/goog/cdp/execute", {"cmd": "Page.bringToFront", "params": {}})

    def close(self, tab: str, other: str) -> None:
        """Closes a tab, and shows another one."""
        self.show(tab)
        self.browser.ask("DELETE", "/window")
        self.show(other)


class Again(Tabs):
    def setUp(self) -> None:
        folder = tempfile.TemporaryDirectory()
        self.addCleanup(folder.cleanup)
        self.path = os.path.join(folder.name, "show.choreo")
        with open(self.path, "w") as file:
            file.write(GOOD)

    def address(self, studio: Running) -> str:
        return "http://127.0.0.1:%s/%s/" % (studio.port, studio.token)

    def left(self) -> "tuple[Running, str]":
        """A studio that has ended, and its tab, in which a line was typed and the playhead moved."""
        studio = self.start(self.path)
        self.browser.size(1280, 800)
        self.browser.ask("POST", "/url", {"url": self.address(studio)})
        self.says("accepted")
        self.put_cursor(GOOD)
        self.browser.type(MORE)
        self.says("accepted")
        self.browser.run("move(700)")
        return studio, str(self.browser.ask("GET", "/window"))

    def ended(self, studio: Running) -> None:
        """Ends a studio as Ctrl-C does."""
        studio.process.send_signal(signal.SIGINT)
        self.assertEqual(studio.process.wait(WAIT), 0)

    def goes_on(self, tab: str, studio: Running) -> None:
        """Looks at whether a tab goes on with a studio: with its text, its playhead and its undo."""
        self.show(tab)
        self.wait(lambda: self.browser.run("return location.pathname") == "/%s/" % studio.token, "it doesn't go on")
        self.says("accepted")
        self.assertEqual((self.text(), self.at()), (GOOD + MORE, 700))
        self.browser.click("#undo")
        self.assertEqual(self.text(), GOOD)

    def test_seen(self) -> None:
        """A page that was looked at says that its studio has ended, and goes on once the new one has a page."""
        first, old = self.left()
        self.ended(first)
        self.wait(lambda: "The studio has ended" in self.words("verdict"), "it doesn't say so")
        self.assertIn("start the studio again, and this page goes on", self.words("verdict"))
        second = self.start(self.path, "--port", first.port)
        self.assertNotEqual(first.token, second.token)
        new = self.tab(self.address(second))
        self.says("accepted")
        self.goes_on(old, second)
        self.close(new, old)

    def test_hidden(self) -> None:
        """A page that was hidden meanwhile asks for the new one as soon as it is seen; without a page of the new studio it
        says what to do."""
        first, old = self.left()
        other = self.tab("about:blank")
        self.ended(first)
        second = self.start(self.path, "--port", first.port)
        self.show(old)
        self.wait(lambda: "was started again" in self.words("verdict"), "it doesn't say so")
        self.show(other)
        self.browser.ask("POST", "/url", {"url": self.address(second)})
        self.says("accepted")
        self.goes_on(old, second)
        self.close(other, old)

    def test_another_file(self) -> None:
        """A page doesn't go over to the studio of another file at the same port."""
        first, old = self.left()
        self.ended(first)
        self.wait(lambda: "The studio has ended" in self.words("verdict"), "it doesn't say so")
        other = shutil.copy(self.path, os.path.join(os.path.dirname(self.path), "other.choreo"))
        second = self.start(other, "--port", first.port)
        new = self.tab(self.address(second))
        self.says("accepted")
        self.show(old)
        self.wait(lambda: "was started again" in self.words("verdict"), "it doesn't say so")
        self.assertEqual(self.browser.run("return location.pathname"), "/%s/" % first.token)
        self.close(new, old)


class Buttons(Flight):
    def asks(self, lines: str) -> None:
        """Has a program be asked that answers so to `check`, and fails in all else."""
        folder = tempfile.TemporaryDirectory()
        self.addCleanup(folder.cleanup)
        self.program = os.path.join(folder.name, "program")
        with open(self.program, "w") as file:
            file.write("#!/bin/sh\ncat > /dev/null\n[ $1 = check ] || exit 70\n%s\n" % lines)
        os.chmod(self.program, 0o755)

    def offered(self, button: str) -> str:
        """What is said after a click on a button, with the whole report."""
        self.browser.click("#" + button)
        self.wait(lambda: self.browser.run("return document.getElementById('offer').open"), "nothing is offered")
        said = self.browser.run("return ['offer-said', 'offer-more'].map(id => document.getElementById(id).textContent)")
        self.browser.click("#leave")
        return "\n".join(said)

    def test_accepted(self) -> None:
        """Deal and Simulate ask the program of which the bar speaks: this one alone says that it lasts 4.321 s."""
        answer = "ok drones 2 cues 1 duration_ms 4321"
        self.asks("echo " + answer)
        self.open(FORMED)
        self.says("2 drones, 1 cue, 4.32 s")
        for button in ("deal", "fly"):
            self.assertIn("check: " + answer, self.offered(button), button)

    def test_refused(self) -> None:
        """So does Cure: this program alone names the first part of the cue."""
        answer = "error 5 pair a b cue 1 part 0 of 64"
        self.asks("echo %s; exit 5" % answer)
        self.open(NEAR)
        self.wait(lambda: "a and b in cue 1" in self.verdict(), "not refused")
        self.assertIn("check: " + answer, self.offered("cure"))

    def test_tools_alone(self) -> None:
        """What asks another program runs the tools of the buttons alone, and flies no real drone."""
        for words in (("fly", "--radio", "radio://0", "-"), ("release", "-"), ("why.cures_of", "-")):
            done = subprocess.run(words_of("studio_work", "--tool", STAND_IN, *words), input=GOOD.encode(),
                                  stdout=subprocess.PIPE, stderr=subprocess.PIPE, timeout=WAIT)
            self.assertEqual((done.returncode, b"is no tool of the page" in done.stderr), (70, True), (words, done.stderr))

    @wants_program
    def test_flown(self) -> None:
        """Simulate flies a show with the program of the bar, also where that is a copy elsewhere."""
        folder = tempfile.TemporaryDirectory()
        self.addCleanup(folder.cleanup)
        self.program = shutil.copy(PROGRAM, folder.name)
        self.open(GOOD)
        self.says("accepted")
        said = self.offered("fly")
        self.assertIn("landed", said)
        self.assertIn("a at (0.00, 0.00, 0.00) m, disarmed, 1 start", said)


if __name__ == "__main__":
    unittest.main()
