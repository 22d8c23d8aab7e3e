"""./show studio in Chromium: a show is typed, the verdict follows, the blocked pair is clicked, played and saved.

The browser is led by chromedriver, over HTTP and with the standard library alone. Without Chromium and chromedriver the
tests are skipped.
"""
import http.client
import json
import os
import re
import shutil
import statistics
import subprocess
import sys
import tempfile
import time
import unittest

sys.dont_write_bytecode = True
sys.path.insert(0, os.path.dirname(os.path.abspath(__file__)))
import test_studio_quantities as same_rule
from test_studio import GOOD, in_units, NEAR, STAND_IN, WAIT, PROGRAM, Running, example

CHROMIUM = shutil.which("chromium") or shutil.which("chromium-browser") or shutil.which("google-chrome")
DRIVER = shutil.which("chromedriver")
ELEMENT = "element-6066-11e4-a52e-4f735466cecf"  # the word of the protocol for an element
CONTROL, DELETE, TAB = "\uE009", "\uE017", "\uE004"
SOON = 5.0  # seconds in which a key has to be on the screen, on a machine that has much else to do


# A page's modules are reached by its import map; they were read by the page itself, so that no policy forbids it.
INSIDE = """
const words = arguments, work = function () { with (window.inside || {}) { %s } };
const map = !window.inside && document.querySelector("script[type=importmap]");
if (!map) return work.apply(null, words);
const names = Object.keys(JSON.parse(map.textContent).imports);
return Promise.all(names.map(name => import(name))).then(modules => {
  const {set, state} = modules[names.indexOf("page/state.js")], homes = [state, ...modules];
  const home = key => homes.find(it => typeof key === "string" && key in it);
  window.inside = new Proxy({}, {has: (_, key) => Boolean(home(key)), get: (_, key) => home(key) && home(key)[key],
                                 set: (_, key, value) => { set({[key]: value}); return true; }});
  return work.apply(null, words);
});
"""


def large_show():
    """32 drones and 1,000 cues; in each cue four of them fly half a metre there or back."""
    lines = ["choreo 1", "memory 2 0"]
    places = [(1500000 * (k % 8), 1500000 * (k // 8)) for k in range(32)]
    lines += ["drone d%d %d %d 1000000 0" % (k + 1, x, y) for k, (x, y) in enumerate(places)]
    for cue in range(1000):
        lines.append("cue 1000")
        lines += ["d%d move %d %d 1000000 0" % (k + 1, places[k][0] + 500000 * (1 - cue // 8 % 2), places[k][1])
                  for k in range(cue % 8, 32, 8)]
        lines.append("end")
    return "\n".join(lines) + "\n"


class NoBrowser(Exception):
    """Chromium can't be begun here."""


class Browser:
    """Chromium without a window, by the WebDriver protocol."""

    def __init__(self):
        self.driver = subprocess.Popen([DRIVER, "--port=0"], stdout=subprocess.PIPE, stderr=subprocess.DEVNULL,
                                       universal_newlines=True)
        try:
            self.begin()
        except (AssertionError, OSError, TypeError, ValueError) as error:
            self.driver.kill()
            self.driver.communicate(timeout=WAIT)
            raise NoBrowser("Chromium doesn't begin: %s" % error)

    def begin(self):
        """Begins a session, once the driver says at which port it listens."""
        for line in self.driver.stdout:
            found = re.search(r"successfully on port (\d+)", line)
            if found:
                break
        self.port, self.path = int(found[1]), ""
        words = ["--headless=new", "--no-sandbox", "--disable-dev-shm-usage", "--disable-gpu", "--window-size=1280,800"]
        made = self.ask("POST", "/session", {"capabilities": {"alwaysMatch": {
            "browserName": "chrome", "goog:chromeOptions": {"binary": CHROMIUM, "args": words},
            "goog:loggingPrefs": {"browser": "ALL"}}}})
        self.path = "/session/" + made["sessionId"]
        self.ask("POST", "/timeouts", {"script": 1000 * WAIT})

    def ask(self, method, path, body=None):
        """The value of an answer."""
        link = http.client.HTTPConnection("127.0.0.1", self.port, timeout=180)
        link.request(method, self.path + path, None if body is None else json.dumps(body))
        value = json.loads(link.getresponse().read())["value"]
        link.close()
        if isinstance(value, dict) and "error" in value:
            raise AssertionError("%s: %s" % (value["error"], value["message"][:300]))
        return value

    def run(self, script, *words):
        """What a script returns. In it what the page's modules export, and what its state has, are known by name."""
        return self.ask("POST", "/execute/sync", {"script": INSIDE % script, "args": list(words)})

    def size(self, width, height):
        """Sets the size of the page."""
        self.ask("POST", "/goog/cdp/execute", {"cmd": "Emulation.setDeviceMetricsOverride", "params": {
            "width": width, "height": height, "deviceScaleFactor": 1, "mobile": width < 500}})

    def element(self, css):
        """An element's path."""
        found = self.ask("POST", "/element", {"using": "css selector", "value": css})
        return "/element/" + found[ELEMENT]

    def click(self, css):
        """Clicks an element."""
        self.ask("POST", self.element(css) + "/click", {})

    def type(self, words, css="#text"):
        """Types into an element, at its cursor, key by key."""
        self.ask("POST", self.element(css) + "/value", {"text": words})

    def keys(self, words, *held):
        """Presses keys wherever the focus is, while others are held."""
        acts = [{"type": "keyDown", "value": key} for key in held]
        acts += [{"type": kind, "value": key} for key in words for kind in ("keyDown", "keyUp")]
        acts += [{"type": "keyUp", "value": key} for key in held]
        self.ask("POST", "/actions", {"actions": [{"type": "key", "id": "keys", "actions": acts}]})

    def drag(self, begin, end, kind="mouse"):
        """Presses the mouse at a point of the page, moves it in steps, and lets it go; a click where both are the same.
        The same with a finger, whose kind is `touch`."""
        steps = [[round(a + (b - a) * k / 4) for a, b in zip(begin, end)] for k in range(1, 5)] if begin != end else []
        moves = [{"type": "pointerMove", "duration": 20, "x": x, "y": y} for x, y in steps]
        acts = [{"type": "pointerMove", "duration": 0, "x": round(begin[0]), "y": round(begin[1])},
                {"type": "pointerDown", "button": 0}, *moves, {"type": "pointerUp", "button": 0}]
        self.ask("POST", "/actions", {"actions": [
            {"type": "pointer", "id": kind, "parameters": {"pointerType": kind}, "actions": acts}]})

    def faults(self):
        """What the browser complained of."""
        return [row["message"] for row in self.ask("POST", "/se/log", {"type": "browser"}) if row["level"] == "SEVERE"]

    def end(self):
        """Ends the browser."""
        try:
            self.ask("DELETE", "")
        finally:
            self.driver.kill()
            self.driver.communicate(timeout=WAIT)


@unittest.skipUnless(CHROMIUM and DRIVER, "no Chromium with chromedriver")
class Led(unittest.TestCase):
    """A page that is led, and what is asked of it; without a test."""

    @classmethod
    def setUpClass(cls):
        try:
            cls.browser = Browser()
        except NoBrowser as error:
            raise unittest.SkipTest(str(error))
        cls.addClassCleanup(cls.browser.end)
        cls.program = STAND_IN
        if os.access(PROGRAM, os.X_OK):  # a copy has no record, and so the page says the same of both
            folder = tempfile.TemporaryDirectory()
            cls.addClassCleanup(folder.cleanup)
            cls.program = shutil.copy(PROGRAM, folder.name)

    def open(self, text, *words, size=(1280, 800)):
        """A studio, whose page is open."""
        studio = Running(text, ("--program", self.program, *words))
        self.addCleanup(studio.end)
        self.studio = studio
        self.browser.size(*size)
        self.browser.ask("POST", "/url", {"url": "http://127.0.0.1:%s/%s/" % (studio.port, studio.token)})
        self.browser.faults()  # those of the page before
        return studio

    def verdict(self):
        """The words of the verdict, or nothing while it is of an older text."""
        return self.browser.run("const it = document.getElementById('verdict');"
                                "return it.classList.contains('old') ? '' : it.innerText")

    def wait(self, found, what):
        """Waits until something is so; `what` says what isn't, as words or as what gives them then."""
        until = time.monotonic() + WAIT
        while time.monotonic() < until:
            value = found()
            if value:
                return value
            time.sleep(0.05)
        return self.fail("%s; the verdict: %s" % (what() if callable(what) else what, self.words("verdict")))

    def words(self, name):
        """The words of an element."""
        return self.browser.run("return document.getElementById(arguments[0]).innerText", name)

    def says(self, words):
        """Waits for a verdict, and for the flight that is drawn with it."""
        if not words.startswith("line"):
            self.wait(lambda: self.verdict() and self.browser.run(
                "return document.getElementById('flight').className") == "flight", "no flight")
        return self.wait(lambda: words in self.verdict() and self.verdict(), "no verdict %r" % words)

    def text(self):
        """The text of the page."""
        return self.browser.run("return wholeText()")

    def at(self):
        """The slider's milliseconds."""
        return float(self.browser.run("return document.getElementById('slider').value"))

    def put_cursor(self, words):
        """Puts the cursor behind these words, and waits until the page says in which line it is."""
        line = self.browser.run(
            "const [words] = arguments, at = wholeText().indexOf(words) + words.length, line = lineAt(at) + 1;"
            "showLines(line, line, false); select(at, at); return line", words)
        self.wait(lambda: re.match(r"line %d\b" % line, self.words("where")), "the cursor isn't in line %d" % line)

    def press(self, words):
        """Presses the button of the menu that begins with these words."""
        self.wait(lambda: self.browser.run(
            "const it = [...document.querySelectorAll('#menu button')].find(it => it.textContent.startsWith(arguments[0]));"
            "if (it) it.click(); return Boolean(it)", words), "no %r in the menu" % words)

    def number(self):
        """The words, the number and the unit of the field of numbers, or None where it is hidden."""
        return self.browser.run("const it = document.getElementById('number'); return it.hidden ? null :"
                                "[it.firstElementChild.innerText, it.querySelector('input').value, it.lastElementChild.innerText]")



class Page(Led):
    def test_write_a_show(self):
        """A show is typed, refused, looked at, mended and saved."""
        studio = self.open("choreo 1\n")
        self.says("line 1: no-drone")
        self.put_cursor("choreo 1\n")
        typed = NEAR[len("choreo 1\n"):]
        self.browser.type(typed)
        self.assertEqual(self.text(), "choreo 1\n" + typed)  # no key was lost
        self.says("TOO NEAR: a and b in cue 1")
        # A click on the verdict goes to the instant and to the lines.
        self.browser.click("#verdict")
        self.assertEqual(round(self.at()), 1500)
        self.assertEqual(self.browser.run("return document.querySelectorAll('#paper .pair').length"), 2)
        line = self.browser.run("const it = document.getElementById('text');"
                                "return it.value.slice(0, it.selectionStart).split('\\n').length")
        self.assertEqual(line, 5)
        # b goes higher, and the show is accepted.
        self.put_cursor("b move 0 0 ")
        self.browser.type(DELETE * len("1000000") + "1700000")
        self.says("TOO NEAR")
        self.put_cursor("drone b 1000000 0 ")
        self.browser.type(DELETE * len("1000000") + "1700000")
        self.says("accepted")
        self.assertEqual(self.browser.run("return document.querySelectorAll('#paper .pair').length"), 0)
        self.assertIn("changed", self.words("state"))
        self.browser.click("#save")
        self.wait(lambda: studio.read() == self.text().encode(), "not saved")
        self.assertEqual(studio.read("~"), b"choreo 1\n")
        self.assertEqual(self.browser.faults(), [])

    def test_fault(self):
        self.open(GOOD)
        self.says("accepted")
        self.put_cursor("cue 2000")
        self.browser.type("s")
        self.says("line 4: bad-number")
        marked = self.browser.run("const it = document.querySelector('#paper .fault'); return it && it.innerText")
        self.assertIn("bad-number", marked)
        self.assertIn("whole numbers", self.words("found"))
        # The flight is that of the text before, and says so; undo takes the key back.
        self.assertTrue(self.browser.run("return document.getElementById('flight').classList.contains('old')"))
        self.browser.type(CONTROL + "z")
        self.says("accepted")
        self.assertEqual(self.text(), GOOD)

    def test_keys_while_results_come(self):
        """Keys arrive while verdicts do: none is lost, and the last verdict is that of the last text."""
        self.open(GOOD)
        self.says("accepted")
        self.put_cursor(GOOD)
        comment = "".join("# %d the quick brown fox jumps over the lazy dog\n" % k for k in range(12))
        for at in range(0, len(comment), 7):
            self.browser.type(comment[at:at + 7])
        self.browser.type("cue 500\nend\n")
        self.assertEqual(self.text(), GOOD + comment + "cue 500\nend\n")
        self.says("2 drones, 2 cues, 2.5")
        self.assertEqual(self.browser.faults(), [])

    def test_tab(self):
        self.open(GOOD)
        self.says("accepted")
        self.put_cursor("cue 2000\n")
        self.browser.type(TAB)
        self.assertEqual(self.text(), GOOD.replace("a move", "  a move"))
        self.says("accepted")
        self.browser.type(CONTROL + "z")
        self.assertEqual(self.text(), GOOD)

    def test_end(self):
        """The studio ends once that was asked, and the text stays on the page."""
        studio = self.open(GOOD)
        self.says("accepted")
        self.browser.click("#end")
        self.assertIn("End the studio, also for its other tabs?", self.words("told"))
        self.browser.click("#told button:nth-of-type(2)")
        self.assertEqual((self.words("told"), studio.process.poll()), ("", None))
        self.browser.click("#end")
        self.browser.click("#told button")
        self.assertEqual(studio.process.wait(WAIT), 0)
        self.wait(lambda: "has ended" in self.words("verdict"), "it doesn't say so")
        self.assertEqual(self.text(), GOOD)

    def test_plays(self):
        self.open(GOOD.replace("2000", "60000"))
        self.says("accepted")
        self.browser.run("document.getElementById('speed').value = '0.1'")  # ten minutes: it doesn't end meanwhile
        self.browser.click("#go")
        self.wait(lambda: self.at() > 50, "it doesn't play")
        self.browser.click("#go")
        self.wait(lambda: self.words("go") == "Play", "it doesn't stop")
        at = self.at()
        time.sleep(0.3)
        self.assertEqual(self.at(), at)
        # Views, zoom, names.
        for name in ("from above", "from the front", "from the right", "in space"):
            self.browser.run("for (const it of document.querySelectorAll('#views button'))"
                             "if (it.textContent === arguments[0]) it.click()", name)
            pressed = self.browser.run("return document.querySelector('#views [aria-pressed=true]').textContent")
            self.assertEqual(pressed, name)
        self.browser.click("#nearer")
        self.browser.click("#legend button")
        self.assertEqual(self.browser.run("return document.querySelectorAll('#legend [aria-pressed=true]').length"), 1)
        self.assertEqual(self.browser.faults(), [])

    def test_cues_and_lines(self):
        """From the cursor to the cue, and from the chart to the lines."""
        self.open(GOOD + "cue 3000\nb hold\nend\n")
        self.says("2 cues")
        self.put_cursor("b hold")
        self.wait(lambda: self.words("where") == "line 8 · cue 2", "no cue")
        self.browser.click("#to-cue")
        self.assertAlmostEqual(self.at(), 2000, delta=5)
        self.browser.run("const box = document.getElementById('heights').getBoundingClientRect();"
                         "const at = {clientX: box.left + 60, clientY: box.top + 50, bubbles: true};"
                         "document.getElementById('heights').dispatchEvent(new PointerEvent('pointerdown', at));"
                         "document.getElementById('heights').dispatchEvent(new MouseEvent('click', at))")
        cursor = self.browser.run("const it = document.getElementById('text'); return [it.selectionStart, it.selectionEnd]")
        self.assertEqual(cursor, 2 * [GOOD.index("cue 2000")])  # nothing is selected

    def test_cure(self):
        studio = self.open(NEAR)
        self.says("TOO NEAR")
        self.browser.click("#cure")
        self.wait(lambda: self.browser.run("return document.getElementById('offer').open"), "nothing is offered")
        self.assertIn("cured in cue 1", self.words("offer-said"))
        self.assertTrue(self.browser.run("return document.querySelectorAll('#offered .added').length"))
        self.browser.click("#take")
        self.says("accepted")
        self.assertEqual(self.browser.faults(), [])
        self.assertEqual(studio.read(), NEAR.encode())  # only Save writes
        self.browser.type(CONTROL + "z")
        self.says("TOO NEAR")
        self.assertEqual(self.text(), NEAR)

    def test_found_of_older_text(self):
        """What is listed of an older text fades below the verdict on a newer one."""
        self.open(NEAR)
        self.wait(lambda: "1 place where two are blocked" in self.words("found"), "no place")
        self.wait(lambda: self.browser.run("return Boolean(found.notes)"), "no notes")
        faded = self.browser.run(
            "const it = document.getElementById('found'), before = it.className;"
            "take({...found.verdict, status: 0, line: 'ok drones 2 cues 1 duration_ms 3000'});"
            "return [before, it.className]")
        self.assertEqual(faded, ["", "old"])

    def test_conflict(self):
        studio = self.open(GOOD)
        self.says("accepted")
        self.put_cursor(GOOD)
        self.browser.type("# mine\n")
        studio.write("choreo 1\n# theirs\n")
        self.browser.click("#save")
        self.wait(lambda: "by another program" in self.words("told"), "no warning")
        self.assertEqual(studio.read(), b"choreo 1\n# theirs\n")

    def test_kept(self):
        """A text that wasn't saved is there again."""
        self.open(GOOD)
        self.says("accepted")
        self.put_cursor(GOOD)
        self.browser.type("# not saved\n")
        self.says("accepted")
        self.browser.ask("POST", "/refresh", {})
        self.wait(lambda: "wasn't saved" in self.words("told"), "not kept")
        self.assertEqual(self.text(), GOOD + "# not saved\n")
        self.browser.run("[...document.querySelectorAll('#told button')][1].click()")
        self.assertEqual(self.text(), GOOD)

    def test_half_typed(self):
        """A line that is half typed isn't called faulty at once."""
        self.open(GOOD)
        self.says("accepted")
        self.put_cursor(GOOD)
        self.browser.run(
            "const bar = document.getElementById('verdict');"
            "document.getElementById('text').addEventListener('input', () => { window.typedAt = performance.now(); });"
            "new MutationObserver(() => { if (!window.saidAt && bar.innerText.includes('bad-'))"
            "window.saidAt = performance.now(); }).observe(bar, {childList: true, subtree: true})")
        self.browser.type("c")
        self.says("line 7: bad-")
        self.assertGreater(self.browser.run("return saidAt - typedAt"), 400)

    def test_older_result(self):
        """A result of an older text that comes after a key isn't shown for the newer one, not even until its pause ends."""
        self.open(GOOD)
        self.says("accepted")
        # The next answer waits until it is let go.
        self.browser.run("window.own = window.fetch; window.fetch = async (...words) => { const answer = await own(...words);"
                         "if (words[0] === 'judge') { const body = await answer.text(); window.arrived = true;"
                         "await new Promise(go => { window.letGo = go; }); return new Response(body); } return answer; }")
        self.put_cursor(GOOD)
        self.browser.type("cue 500\nend\n")
        self.wait(lambda: self.browser.run("return window.arrived"), "no answer")
        said = self.browser.run(
            "const it = document.getElementById('text'); window.fetch = own; it.value += 'cue 2.5\\nend\\n';"
            "it.dispatchEvent(new InputEvent('input')); letGo();"
            "return new Promise(go => setTimeout(() => { const bar = document.getElementById('verdict');"
            "go([bar.classList.contains('old'), bar.innerText]); }, 20))")
        self.assertEqual((said[0], "2 cues" in said[1]), (True, False), said)
        self.says("line 9: bad-number")

    def test_closed_tab(self):
        """What was typed in a tab that is closed at once is there in the next one, and isn't in the file."""
        studio = self.open(GOOD)
        self.says("accepted")
        self.put_cursor(GOOD)
        self.browser.type("# typed in a tab that is closed\n")
        old = self.browser.ask("GET", "/window")
        new = self.browser.ask("POST", "/window/new", {"type": "tab"})["handle"]
        self.browser.ask("POST", "/window", {"handle": old})
        self.browser.ask("DELETE", "/window")
        self.browser.ask("POST", "/window", {"handle": new})
        self.browser.size(1280, 800)
        self.browser.ask("POST", "/url", {"url": "http://127.0.0.1:%s/%s/" % (studio.port, studio.token)})
        self.wait(lambda: "wasn't saved" in self.words("told"), "not kept")
        self.assertEqual(self.text(), GOOD + "# typed in a tab that is closed\n")
        self.assertEqual(studio.read(), GOOD.encode())

    def test_kept_while_typing(self):
        """The browser keeps the text also while keys come without a pause."""
        self.open(GOOD)
        self.says("accepted")
        self.put_cursor(GOOD)
        kept = self.browser.run(
            "const it = document.getElementById('text'); let count = 0;"
            "return new Promise(go => { const timer = setInterval(() => { it.setRangeText('# x\\n', it.value.length,"
            "it.value.length, 'end'); it.dispatchEvent(new InputEvent('input')); count += 1;"
            "if (count === 12) { clearInterval(timer); go(localStorage.getItem(file.key)); } }, 100); })")
        self.assertTrue(kept and json.loads(kept)["text"].startswith(GOOD + "# x\n"), kept)

    def test_two_saves(self):
        """Saving twice at once is no conflict, and the last letter is in the file."""
        studio = self.open(GOOD)
        self.says("accepted")
        self.put_cursor(GOOD)
        self.browser.type("# one\n" + CONTROL + "s" + "\uE000# two\n" + CONTROL + "s")
        self.wait(lambda: studio.read() == (GOOD + "# one\n# two\n").encode(), "not saved")
        self.wait(lambda: self.words("state") == "saved", "it doesn't say so")
        self.assertEqual(self.words("told"), "")

    def test_stale_cure(self):
        """A cure of an older text isn't offered, since it would take letters away."""
        self.open(NEAR)
        self.says("TOO NEAR")
        # The answer waits until it is let go.
        self.browser.run("window.own = window.fetch; window.fetch = async (...words) => { const answer = await own(...words);"
                         "if (words[0] === 'cure') await new Promise(go => { window.letGo = go; }); return answer; };"
                         "document.getElementById('cure').click()")
        self.wait(lambda: self.browser.run("return Boolean(window.letGo)"), "no answer")
        self.put_cursor(NEAR)
        self.browser.type("# typed meanwhile\n")
        self.browser.run("letGo()")
        self.wait(lambda: "changed meanwhile" in self.words("told"), "it doesn't say so")
        self.assertFalse(self.browser.run("return document.getElementById('offer').open"))
        self.assertEqual(self.text(), NEAR + "# typed meanwhile\n")

    def test_touch_is_proved(self):
        """TOO NEAR says where the program's own `explain` names the touch."""
        with tempfile.TemporaryDirectory() as folder:
            program = os.path.join(folder, "program")
            with open(program, "w") as file:
                file.write("#!/bin/sh\nif [ $1 = explain -a $2 != --all ]; then cat > /dev/null; echo touch pair a b cue 1 at 15 of 32\n"
                           "else exec %s \"$@\"; fi\n" % STAND_IN)
            os.chmod(program, 0o755)
            self.open(NEAR, "--program", program)
            self.wait(lambda: "they touch at 1.41 s (explain)" in self.verdict(), "no touch")
            said = self.verdict()
            self.assertIn("TOO NEAR: a and b in cue 1", said)
            self.assertIn("lines 5, 6: nearest at 1.50 s with", said)  # the other instant, and what it is

    def test_most_margin(self):
        """A show that is accepted with the most that the language has isn't said to have that limit of its own."""
        self.open("choreo 2\ndrone a 0 0 1m 0\ndrone b 9m 0 1m 0\ncue 2s\na move 0 1m 1m 0\nend\n")
        self.says("accepted")
        self.wait(lambda: "late 1,000 ms, the most that the language has" in self.words("found"), "not said")

    def test_menu(self):
        """A cue with a line for each drone, with the numbers of where they are; then a drone, by keys."""
        self.open(GOOD)
        self.says("accepted")
        self.put_cursor(GOOD)
        self.browser.click("#insert")
        self.press("cue of 3 s with")
        cue = "\ncue 3000\na move 0 1000000 1000000 0\nb move 1000000 0 1000000 0\nend\n"
        self.wait(lambda: self.text() == GOOD + cue, "nothing was written")
        self.assertEqual(self.number(), ["length of cue", "3", "s"])
        self.says("2 cues")
        self.put_cursor("drone b 1000000 0 1000000 0\n")
        self.browser.type(CONTROL + " ")
        self.press("drone")
        self.wait(lambda: "drone b 1000000 0 1000000 0\ndrone c 1500000 0 1000000 0\n" in self.text(), "no drone")
        # In a cue those without a line are offered.
        self.put_cursor("b move 1000000 0 1000000 0")
        self.browser.click("#insert")
        self.press("c")
        self.wait(lambda: "b move 1000000 0 1000000 0\nc move 1500000 0 1000000 0\nend" in self.text(), "no act")
        self.assertEqual(self.number(), ["x of c", "1.5", "m"])
        self.says("3 drones, 2 cues")
        for _ in range(3):
            self.browser.run("undo()")
        self.assertEqual(self.text(), GOOD)
        self.assertEqual(self.browser.faults(), [])

    def test_order_of_menu(self):
        """In a cue what moves all drones stands above the single ones. A click on the cue's button leaves the keys to
        the text."""
        formation = "formation f\nat a 0 0 1000000 0\nat b 1000000 0 1000000 0\nend\n"
        self.open(GOOD.replace("cue 2000", formation + "cue 2000") + "cue 500\nend\n")
        self.says("2 cues")
        self.put_cursor("cue 500")
        self.browser.click("#insert")
        words = "return [...document.querySelectorAll('#menu button')].map(it => it.innerText)"
        self.wait(lambda: self.browser.run(words) == ["all 2", "form f", "a", "b"], "another menu")
        self.browser.run("closeMenu(true)")
        self.wait(lambda: self.words("where") == "line 11 · cue 2", "no cue")
        self.browser.click("#to-cue")
        self.assertAlmostEqual(self.at(), 2000, delta=5)
        self.assertEqual(self.browser.run("return document.activeElement.id"), "text")
        self.assertEqual(self.browser.faults(), [])

    def test_acts_of_menu(self):
        """Another act in the menu: a quarter circle around the middle of all drones. Then the field of numbers waits for
        the length of the cue, in seconds, and Ctrl-Z there takes the cue away."""
        self.open(GOOD)
        self.says("accepted")
        for undone in (True, False):
            self.put_cursor(GOOD)
            self.browser.click("#insert")
            self.wait(lambda: self.browser.run(
                "const it = document.querySelector('#menu select'); if (!it) return false; it.value = 'swing cw';"
                "it.dispatchEvent(new Event('change')); return true"), "no acts in the menu")
            self.press("cue of 3 s with a line of each drone: swing cw")
            cue = "\ncue 3000\na swing cw 500000 500000 0\nb swing cw 500000 500000 0\nend\n"
            self.wait(lambda: self.text() == GOOD + cue, "nothing was written")
            self.assertEqual(self.browser.run("return document.activeElement.id"), "number-value")
            self.browser.type(CONTROL + "z" if undone else "5\uE007", "#number-value")
            self.wait(lambda: self.text() == GOOD + ("" if undone else cue.replace("3000", "5000")), "another text")
            self.assertEqual(self.browser.run("return document.activeElement.id"), "text")
        self.says("2 cues, 7.0 s")
        self.assertEqual(self.browser.faults(), [])

    def test_number(self):
        """The number under the cursor in metres and seconds, written back in micrometres and milliseconds."""
        self.open(GOOD)
        self.says("accepted")
        self.put_cursor("drone b 1000")
        self.wait(lambda: self.number() == ["x of b", "1", "m"], "no number")
        self.browser.click("#number-value")
        self.browser.type(CONTROL + "a" + "\uE000" + "1.25", "#number-value")
        self.assertIn("drone b 1250000 0 1000000 0\n", self.text())
        self.browser.type("\uE007", "#number-value")  # Enter: the next number
        self.wait(lambda: self.number() == ["y of b", "0", "m"], "not the next one")
        self.browser.type("\uE013\uE013\uE015", "#number-value")  # up, up, down
        self.assertIn("drone b 1250000 100000 1000000 0\n", self.text())
        self.browser.type(CONTROL + "a" + "\uE000" + "x", "#number-value")
        self.assertIn("drone b 1250000 100000 1000000 0\n", self.text())  # that is no number
        self.put_cursor("cue 2")
        self.wait(lambda: self.number() == ["length of cue", "2", "s"], "no number")
        self.put_cursor("1000000 1000000 0\ne")
        self.wait(lambda: self.number() is None, "a number")
        self.says("accepted")
        self.assertEqual(self.browser.faults(), [])

    def test_number_in_units(self):
        """The number under the cursor of a text in `choreo 2`, whatever its unit is there; it is written back in metres,
        in seconds or in milliseconds below one, and in degrees. The field takes a unit, too."""
        text = in_units(GOOD)
        self.open(text.replace("drone b 1m", "drone b 100cm"))
        self.says("accepted")
        self.put_cursor("drone b 100c")
        self.wait(lambda: self.number() == ["x of b", "1", "m"], "no number")
        self.browser.click("#number-value")
        self.browser.type("\uE007", "#number-value")  # Enter: nothing was changed, and the next number
        self.wait(lambda: self.number() == ["y of b", "0", "m"], "not the next one")
        self.assertIn("drone b 100cm 0 1m 0\n", self.text())
        self.browser.type("\uE013\uE013\uE015", "#number-value")  # up, up, down
        self.assertIn("drone b 100cm 0.1m 1m 0\n", self.text())
        for typed, wanted in (("1.25", "1.25m"), ("-0.05", "-0.05m"), ("-30cm", "-0.3m"), ("x", "-0.3m"), ("2s", "2m"),
                              ("-.5m", "-0.5m"), ("0", "0")):
            self.browser.type(CONTROL + "a" + "\uE000" + typed, "#number-value")
            self.assertIn("drone b 100cm %s 1m 0\n" % wanted, self.text())
        self.put_cursor("drone b 100cm 0 1m 0")
        self.wait(lambda: self.number() == ["yaw of b", "0", "°"], "no yaw")
        self.browser.type(CONTROL + "a" + "\uE000" + "90.5", "#number-value")
        self.assertIn("drone b 100cm 0 1m 90.5deg\n", self.text())
        self.put_cursor("cue 2")
        self.wait(lambda: self.number() == ["length of cue", "2", "s"], "no number")
        self.browser.type(CONTROL + "a" + "\uE000" + "0.25", "#number-value")
        self.assertIn("\ncue 250ms\n", self.text())
        self.says("accepted")
        self.assertEqual(self.browser.faults(), [])

    def test_menu_in_units(self):
        """What the menu writes into a text in `choreo 2` has units."""
        text = in_units(GOOD)
        self.open(text)
        self.says("accepted")
        self.put_cursor(text)
        self.browser.click("#insert")
        self.press("cue of 3 s with")
        cue = "\ncue 3s\na move 0 1m 1m 0\nb move 1m 0 1m 0\nend\n"
        self.wait(lambda: self.text() == text + cue, "nothing was written")
        self.assertEqual(self.number(), ["length of cue", "3", "s"])
        self.put_cursor("drone b 1m 0 1m 0\n")
        self.browser.type(CONTROL + " ")
        self.press("drone")
        self.wait(lambda: "drone b 1m 0 1m 0\ndrone c 1.5m 0 1m 0\n" in self.text(), "no drone")
        self.put_cursor("b move 1m 0 1m 0")
        self.browser.click("#insert")
        self.press("c")
        self.wait(lambda: "b move 1m 0 1m 0\nc move 1.5m 0 1m 0\nend" in self.text(), "no act")
        self.put_cursor("drone c 1.5m 0 1m 0\n")
        self.browser.click("#insert")
        self.press("formation with")
        formation = "\nformation place1\nat a 0 0 1m 0\nat b 1m 0 1m 0\nat c 1.5m 0 1m 0\nend\n"
        self.wait(lambda: formation in self.text(), "no formation")
        self.assertEqual(self.number(), ["x of a", "0", "m"])
        self.says("3 drones, 2 cues")
        self.assertEqual(self.browser.faults(), [])

    def test_stretch_in_units(self):
        """The end of a cue is dragged in a text in `choreo 2`."""
        text = in_units(GOOD)
        self.open(text)
        self.says("accepted")
        self.wait(lambda: self.browser.run("return Boolean(found.notes)"), "no notes")
        for milliseconds, word in ((1500, "1.5s"), (990, "990ms"), (70000, "65.535s")):
            self.wait(lambda: self.browser.run("return flightVersion === version"), "no flight of this text")
            self.browser.run("stretchCue(0, arguments[0])", milliseconds)
            self.assertEqual(self.text(), text.replace("2s", word))
        self.says("1 cue, 65.5")
        self.assertEqual(self.browser.faults(), [])

    def test_same_rule(self):
        """The page reads and writes quantities as quantities.py does."""
        self.open(in_units(GOOD))
        words, numbers = same_rule.table()
        came = self.browser.run("const [words, numbers] = arguments; return %s" % same_rule.BOTH, words, numbers)
        self.assertEqual(came, [same_rule.read(words), same_rule.written(numbers)])

    def test_stretch(self):
        """The end of a cue is dragged: its number stands in the text, and one undo takes it back."""
        self.open(GOOD)
        self.says("accepted")
        self.wait(lambda: self.browser.run("return Boolean(found.notes)"), "no notes")
        where = ("const box = document.querySelector('#heights .grip').getBoundingClientRect();"
                 "const chart = document.getElementById('heights').getBoundingClientRect();"
                 "return [box.left + box.width / 2, box.top + box.height / 2, chart.width - 60]")
        x, y, wide = self.browser.run(where)
        self.browser.drag((x, y), (x - wide / 2, y))
        self.wait(lambda: "cue 2000" not in self.text(), "nothing was written")
        length = int(re.search("cue ([0-9]+)", self.text())[1])
        self.assertAlmostEqual(length, 1000, delta=30)
        self.assertEqual(self.text(), GOOD.replace("2000", str(length)))
        self.says("1 cue, %.1f" % (length / 1000))
        self.browser.run("undo()")
        self.assertEqual(self.text(), GOOD)
        self.browser.drag((x, y), (x, y))
        self.assertEqual(self.text(), GOOD)
        self.assertEqual(self.browser.faults(), [])

    def test_stretch_by_finger(self):
        """On a telephone the end of a cue is wide enough for a finger."""
        emulate = {"cmd": "Emulation.setTouchEmulationEnabled", "params": {"enabled": True}}
        self.browser.ask("POST", "/goog/cdp/execute", emulate)
        self.addCleanup(self.browser.ask, "POST", "/goog/cdp/execute", {**emulate, "params": {"enabled": False}})
        self.open(GOOD + "cue 2000\nend\n", size=(390, 844))
        self.says("2 cues")
        self.wait(lambda: self.browser.run("return Boolean(found.notes)"), "no notes")
        x, y, wide = self.browser.run(
            "document.getElementById('heights').scrollIntoView({block: 'center'});"
            "const box = document.querySelector('#heights .grip').getBoundingClientRect();"
            "return [box.left + box.width / 2, box.top + box.height / 2, box.width]")
        self.assertEqual(wide, 22)
        self.browser.drag((x + 9, y), (x - 40, y), "touch")
        self.wait(lambda: self.text().count("cue 2000") == 1, "nothing was written")
        self.says("2 cues, 3.")
        self.assertEqual(self.browser.faults(), [])

    def test_pick(self):
        """A click on a drone in space marks its lines, a click beside all takes the marks away."""
        self.open(GOOD)
        self.says("accepted")
        self.wait(lambda: self.browser.run("return Boolean(found.notes)"), "no notes")
        x, y = self.browser.run("const box = document.getElementById('space').getBoundingClientRect();"
                                "const [x, y] = view.to(placeAt(0, now)); return [box.left + x, box.top + y]")
        self.browser.drag((x, y), (x, y))
        own = "return [...document.querySelectorAll('#paper .own .words')].map(it => it.innerText)"
        self.assertEqual(self.browser.run(own), ["drone a 0 0 1000000 0", "a move 0 1000000 1000000 0"])
        self.assertEqual(self.browser.run("return document.querySelectorAll('#legend [aria-pressed=true]').length"), 1)
        self.browser.drag((x - 60, y - 90), (x - 60, y - 90))
        self.assertEqual(self.browser.run(own), [])
        self.assertEqual(self.text(), GOOD)

    def test_watch(self):
        studio = self.open(NEAR, "--watch")
        self.says("TOO NEAR")
        self.assertTrue(self.browser.run("return document.getElementById('editor').hidden"))
        studio.write(GOOD)
        self.says("accepted")

    def test_names(self):
        """What stands in a text is text on the page, too."""
        self.open(GOOD + "# <img src=x onerror=\"document.title='bad'\">\n<b>x</b> 1\n", "--watch")
        self.says("line 8: bad-word")
        self.assertEqual(self.browser.run("return document.querySelectorAll('#found b, #found img').length"), 0)
        self.assertNotEqual(self.browser.run("return document.title"), "bad")

    def test_narrow(self):
        """Nothing is wider than a telephone."""
        self.open(example("formation_change"), size=(390, 844))
        self.says("accepted")
        self.assertEqual(self.browser.run("return document.documentElement.scrollWidth"), 390)
        # The charts are as wide as their room from the first flight on.
        self.wait(lambda: self.browser.run("return Boolean(found.notes)"), "no notes")
        wide = "return ['heights', 'share'].map(it => " \
               "document.querySelector(`#${it} rect[fill=none]`).width.baseVal.value)"
        self.assertEqual([width > 250 for width in self.browser.run(wide)], [True, True])
        self.assertEqual(self.browser.faults(), [])
        self.open(example("formation_change"), size=(1280, 800))
        self.says("accepted")
        size = self.browser.run("const it = document.documentElement; return [it.scrollWidth, it.scrollHeight]")
        self.assertEqual(size, [1280, 800])

    def test_room(self):
        """The view in space is as high as its room, also after the bar and the lists have got their words."""
        self.open(example("formation_change"))
        self.says("accepted")
        same = "const room = document.getElementById('room'); return room.clientHeight ===" \
               "document.getElementById('space').clientHeight && room.clientHeight > 250"
        self.wait(lambda: self.browser.run(same), "another height")
        self.browser.run("tell('words '.repeat(400))")
        self.wait(lambda: self.browser.run(same.replace("> 250", "> 0")), "another height")
        self.assertEqual(self.browser.faults(), [])

    def test_large(self):
        """32 drones by 1,000 cues: only lines that can be seen are drawn, and each key is soon on the screen."""
        text = large_show()
        with tempfile.TemporaryDirectory() as folder:
            program = os.path.join(folder, "program")
            with open(program, "w") as file:
                file.write("#!/bin/sh\ncat > /dev/null\n[ $1 = check ] || exit 2\n"
                           "echo ok drones 32 cues 1000 duration_ms 1000000\n")
            os.chmod(program, 0o755)
            self.open(text, "--program", program)
            self.says("32 drones, 1,000 cues")
            self.put_cursor("cue 1000\n" + text.partition("cue 1000\n")[2][:4])
            self.browser.run(
                "let at = 0; window.took = []; addEventListener('keydown', event => { at = event.timeStamp; }, true);"
                "document.getElementById('text').addEventListener('input', () => requestAnimationFrame(() => setTimeout("
                "() => took.push(performance.now() - at))))")
            for key in "# 1234567":
                self.browser.type(key)
            self.wait(lambda: len(self.browser.run("return took")) == 9, "not drawn")
            self.assertLess(statistics.median(self.browser.run("return took")), 1000 * SOON)
            self.assertLess(self.browser.run("return document.querySelectorAll('#paper > div').length"), 100)
            self.wait(lambda: "32 drones, 1,000 cues" in self.verdict(), "no verdict")  # the flight takes longer
            self.assertEqual(self.browser.faults(), [])


if __name__ == "__main__":
    unittest.main()
