"""./show studio in Chromium with a long text, of which the field holds a window of lines: typing, selection, the
clipboard, undo, finding and jumps are of the whole text, and no letter is lost. Without Chromium these are skipped."""
import os
import random
import sys
import time
import unittest

sys.dont_write_bytecode = True
sys.path.insert(0, os.path.dirname(os.path.abspath(__file__)))
import test_studio_page as page

CONTROL, SHIFT, NULL, DELETE, BACK, ENTER, ESCAPE = "\uE009", "\uE008", "\uE000", "\uE017", "\uE003", "\uE007", "\uE00C"
HOME, END, PAGE_DOWN, PAGE_UP, LEFT, RIGHT, DOWN = "\uE011", "\uE010", "\uE00F", "\uE00E", "\uE012", "\uE014", "\uE015"
NOTES = ["# note %d of a long text" % k for k in range(3000)]
BEGIN = ["choreo 1", "drone a 0 0 1000000 0", "drone b 1000000 0 1000000 0"]
CUES = ["cue 2000", "a move 0 1000000 1000000 0", "end"]
LAST = ["cue 1000", "b hold", "end", ""]
TEXT = "\n".join(BEGIN + NOTES[:1500] + CUES + NOTES[1500:] + LAST)
# What a line that is drawn says, and how far it is from its place beside the field.
DRAWN = """const [number] = arguments, row = [...document.querySelectorAll('#paper > div')].find(
    it => it.querySelector('.number').textContent === String(number));
  if (!row) return null;
  const box = row.getBoundingClientRect(), own = document.getElementById('text').getBoundingClientRect();
  const sees = document.getElementById('scroller').getBoundingClientRect();
  const parts = [...row.querySelector('.words').childNodes].filter(it => it.className !== 'say');
  return [parts.map(it => it.textContent).join(''), Math.round(box.top - own.top - 8 - 20 * (number - 1 - held[0])),
          box.top >= sees.top - 1 && box.bottom <= sees.bottom + 1];"""


class Window(page.Led):
    @classmethod
    def setUpClass(cls):
        super().setUpClass()
        cls.program = page.STAND_IN

    def begin(self, text=TEXT):
        """A page with a long text."""
        self.open(text)
        self.says("accepted")
        self.assertEqual(self.text(), text)

    def holds(self):
        """How many lines the field holds: a part of a long text, and what the text has there."""
        first, last, own, lines = self.browser.run("return [...held, field.value, lines.length]")
        self.assertEqual(own, "\n".join(self.text().split("\n")[first:last]))
        self.assertEqual(len(self.text().split("\n")), lines)
        return last - first

    def is_drawn(self, number):
        """A line of the text is in view, with its words, and where the field has it."""
        line = self.text().split("\n")[number - 1]
        self.wait(lambda: self.browser.run(DRAWN, number) == [line, 0, True], "line %d isn't drawn: %s" % (
            number, self.browser.run(DRAWN, number)))

    def selected(self):
        """What is selected of the text, and of the field."""
        return self.browser.run("readSelection(); return [textBetween(selectionFrom(), selectionTo()),"
                                "field.value.slice(field.selectionStart, field.selectionEnd)]")

    def keys(self, *keys):
        """Presses keys in the field, one after the other."""
        for key in keys:
            self.browser.type(key + NULL)

    def click(self, number, column=0, shift=False):
        """Clicks into a line that is in view, before a letter."""
        self.is_drawn(number)
        x, y = self.browser.run(
            "const [number, column] = arguments, row = [...document.querySelectorAll('#paper > div')].find("
            "it => it.querySelector('.number').textContent === String(number)), range = document.createRange();"
            "const words = row.querySelector('.words'), box = words.getBoundingClientRect();"
            "return [box.left + 1 + column * box.width / words.textContent.length, box.top + 10]", number, column)
        for kind in ("mousePressed", "mouseReleased"):
            self.browser.ask("POST", "/goog/cdp/execute", {"cmd": "Input.dispatchMouseEvent", "params": {
                "type": kind, "x": x, "y": y, "button": "left", "clickCount": 1, "modifiers": 8 if shift else 0}})

    def scroll(self, number):
        """Scrolls so that a line is at the top."""
        self.browser.run("document.getElementById('scroller').scrollTop = 20 * (arguments[0] - 2)", number)
        self.is_drawn(number)

    def test_typing(self):
        """Keys at the begin, in the middle and at the end: each is in the text at the cursor, and on the screen."""
        self.begin()
        text = TEXT
        for before, number in (("choreo 1", 1), ("# note 1400 of", 1404), ("b hold", 3008)):
            self.put_cursor(before)
            self.assertLess(self.holds(), 300)
            self.browser.type(" # 12")
            text = text.replace(before, before + " # 12", 1)
            self.assertEqual(self.text(), text)
            self.is_drawn(number)
            self.browser.type(BACK + BACK + "x" + DELETE)  # Delete joins with the next line, or takes a letter
            after = text[text.index(before + " # 12") + len(before) + 5:]
            text = text[:len(text) - len(after) - 2] + "x" + after[1:]
            self.assertEqual(self.text(), text)
            self.browser.type(ENTER + "#")
            text = text.replace(before + " # x", before + " # x\n#", 1)
            self.assertEqual(self.text(), text)
            self.assertLess(self.holds(), 300)
        self.assertEqual(self.browser.faults(), [])

    def test_click(self):
        """A click sets the cursor where it is, also after a scroll."""
        self.begin()
        for number in (1200, 2400, 40):
            self.scroll(number)
            self.click(number + 3, 6)
            self.wait(lambda: self.words("where").startswith("line %d" % (number + 3)), "another line")
            self.browser.type("X" + NULL)
            lines = TEXT.split("\n")
            lines[number + 2] = lines[number + 2].replace("note", "noteX")
            self.assertEqual(self.text(), "\n".join(lines))
            self.keys(CONTROL + "z")
            self.assertEqual(self.text(), TEXT)

    def test_away(self):
        """Keys go to the cursor, also where something else is in view, and then the cursor is in view."""
        self.begin()
        self.put_cursor("# note 100 of")
        self.scroll(2000)
        self.assertTrue(self.browser.run("return document.getElementById('editor').classList.contains('away')"))
        self.assertLess(self.holds(), 300)
        self.browser.type("xy")
        self.assertEqual(self.text(), TEXT.replace("# note 100 of", "# note 100 ofxy"))
        self.is_drawn(104)
        self.assertFalse(self.browser.run("return document.getElementById('editor').classList.contains('away')"))
        self.scroll(2500)
        self.keys(DOWN)
        self.wait(lambda: self.words("where").startswith("line 105"), "the cursor isn't one line lower")
        self.is_drawn(105)

    def drag(self):
        """Selects by the mouse from the fourth line in view on, while the text scrolls by 1,500 lines below it."""
        self.scroll(100)
        mouse = lambda kind, y: self.browser.ask("POST", "/goog/cdp/execute", {
            "cmd": "Input.dispatchMouseEvent", "params": {"type": kind, "x": x, "y": y, "button": "left", "buttons": 1,
                                                          "clickCount": 1}})
        x, top = self.browser.run("const box = scroller.getBoundingClientRect(); return [box.left + 59, box.top]")
        mouse("mousePressed", top + 8 + 20 * 4)  # line 101 is the one below the line at the top
        for number in range(200, 1700, 100):
            self.browser.run("document.getElementById('scroller').scrollTop = 20 * (arguments[0] - 2)", number)
            self.is_drawn(number)
            mouse("mouseMoved", top + 30 + 20 * (number // 100 % 3))
        mouse("mouseMoved", top + 8 + 20 * 4)
        mouse("mouseReleased", top + 8 + 20 * 4)

    def test_drag(self):
        """A selection by the mouse goes on while the text scrolls below it, past the ends of the window."""
        self.begin()
        self.drag()
        lines = TEXT.split("\n")
        begin, last = (self.browser.run("readSelection(); return lineAt(%s)" % it) for it in ("anchor", "head"))
        self.assertEqual(last - begin, 1500)
        self.assertEqual(self.selected()[0], "\n".join(lines[begin:last]) + "\n")
        self.assertLess(self.holds(), 300)
        self.keys(BACK)
        self.assertEqual(self.text(), "\n".join(lines[:begin] + lines[last:]))

    def test_drag_late(self):
        """The same where the browser tells of what is selected only after the text was scrolled."""
        self.begin()
        self.browser.run("addEventListener('selectionchange', event => event.stopPropagation(), true)")
        self.drag()
        begin, last = (self.browser.run("readSelection(); return lineAt(%s)" % it) for it in ("anchor", "head"))
        self.assertEqual(last - begin, 1500)

    def test_composition(self):
        """Letters that are put together from several keys are one step, however long that takes; what follows isn't."""
        self.begin()
        compose = lambda name, **more: self.browser.ask("POST", "/goog/cdp/execute", {"cmd": "Input." + name,
                                                                                      "params": more})
        self.put_cursor("# note 1600 of")
        for part in ("k", "か", "かn", "かな"):
            compose("imeSetComposition", text=part, selectionStart=len(part), selectionEnd=len(part))
            time.sleep(1.1 if part == "か" else 0)  # keys that come later are a step of their own else
        compose("insertText", text="かな")
        composed = TEXT.replace("# note 1600 of", "# note 1600 ofかな")
        self.assertEqual(self.text(), composed)
        time.sleep(1.1)
        self.browser.type("x")
        self.keys(CONTROL + "z")
        self.assertEqual(self.text(), composed)
        self.keys(CONTROL + "z")
        self.assertEqual(self.text(), TEXT)

    def test_menu(self):
        """The menu opens at the cursor, also where something else is in view."""
        self.begin()
        self.put_cursor("# note 1600 of")
        self.scroll(100)
        self.browser.click("#insert")
        self.press("cue of 3 s without")
        after = "# note 1600 of a long text\n"
        self.wait(lambda: self.text() == TEXT.replace(after, after + "\ncue 3000\nend\n"), "nothing was written")
        self.is_drawn(1609)
        self.assertEqual(self.number(), ["length of cue", "3", "s"])

    def test_pages(self):
        """Ends and pages by keys, with Shift as well."""
        self.begin()
        self.put_cursor("choreo 1")
        self.keys(CONTROL + END)
        self.is_drawn(3010)
        self.keys(CONTROL + SHIFT + HOME)
        self.assertEqual(self.selected()[0], TEXT)
        self.keys(RIGHT)
        self.assertEqual(self.browser.run("return [anchor, head]"), [len(TEXT)] * 2)
        self.is_drawn(3010)
        self.keys(CONTROL + HOME, PAGE_DOWN, PAGE_DOWN)
        by = self.browser.run("return Math.floor(viewHeight / 20) - 2")
        self.assertEqual(self.words("where"), "line %d" % (1 + 2 * by))
        self.keys(PAGE_UP, SHIFT + PAGE_UP)
        self.assertEqual(self.selected()[0], "\n".join(TEXT.split("\n")[:by]) + "\n")

    def test_all(self):
        """All is selected, copied, cut and pasted as a whole, and undone."""
        self.begin()
        self.put_cursor("# note 1400 of")
        self.keys(CONTROL + "a", CONTROL + "c", CONTROL + END, CONTROL + "v")
        self.assertEqual(self.text(), TEXT + TEXT)
        self.assertLess(self.holds(), 300)
        self.keys(CONTROL + "a", CONTROL + "x")
        self.assertEqual(self.text(), "")
        self.browser.type("# other\n")
        self.assertEqual(self.text(), "# other\n")
        self.keys(CONTROL + "z")
        self.assertEqual(self.text(), "")
        self.keys(CONTROL + "z")
        self.assertEqual(self.text(), TEXT + TEXT)
        self.keys(CONTROL + "a")
        self.browser.type("x" + NULL)  # a letter in place of all
        self.assertEqual(self.text(), "x")
        for _ in range(2):
            self.keys(CONTROL + "z")
        self.assertEqual(self.text(), TEXT)
        self.keys(CONTROL + "y")
        self.assertEqual(self.text(), TEXT + TEXT)
        self.assertEqual(self.browser.faults(), [])

    def test_thousand_lines(self):
        """A thousand lines are selected from a click to a click with Shift, copied, pasted in the middle, and undone;
        what is judged then is this text."""
        self.begin()
        self.scroll(1600)
        self.click(1602)
        self.scroll(2600)
        self.click(2602, shift=True)
        lines = TEXT.split("\n")
        block = "\n".join(lines[1601:2601]) + "\n"
        self.assertEqual(self.selected()[0], block)
        self.keys(CONTROL + "c")
        self.put_cursor("# note 700 of a long text\n")
        self.keys(CONTROL + "v")
        wanted = TEXT.replace("# note 701 of", block + "# note 701 of", 1)
        self.assertEqual(self.text(), wanted)
        self.is_drawn(1705)
        self.browser.type("wrong\n")
        self.says("line 1705: bad-word")
        self.is_drawn(1705)
        self.keys(CONTROL + "z", CONTROL + "z")
        self.assertEqual(self.text(), TEXT)
        self.says("accepted")
        self.put_cursor("# note 1600 of a long text")
        self.scroll(1600)
        self.click(1602)
        self.scroll(2600)
        self.click(2602, shift=True)
        self.keys(DELETE)
        self.assertEqual(self.text(), TEXT.replace(block, ""))
        self.browser.type("wrong\n")
        self.says("line 1602: bad-word")
        self.assertEqual(self.browser.faults(), [])

    def test_timeline(self):
        """A click into the timeline puts the cursor before its cue, far away in the text, and selects nothing."""
        self.begin()
        self.wait(lambda: self.browser.run("return Boolean(found.notes)"), "no notes")
        for share, first, words in ((0.95, 3007, "cue 1000\nb hold\nend"), (0.2, 1504, "\n".join(CUES))):
            self.browser.run("move(arguments[0] * flight.end); onPick(now)", share)
            self.assertEqual(self.selected(), ["", ""])
            self.assertEqual(self.browser.run("return wholeText().slice(head, head + arguments[0])", len(words)), words)
            self.is_drawn(first)
        self.browser.run("field.focus()")
        self.browser.type("# x" + NULL)
        self.assertEqual(self.text(), TEXT.replace("\n".join(CUES), "# x" + "\n".join(CUES)))

    def test_find(self):
        """Words are found in the whole text: how many there are, the next, the one before, and from the end anew."""
        self.begin()
        self.put_cursor("choreo 1")
        self.keys(CONTROL + "f")
        self.browser.type("NOTE 29", "#find-words")
        self.assertEqual(self.words("find-count"), "1 of 111")  # 29, 290 to 299, 2900 to 2999
        self.is_drawn(33)
        self.browser.type(ENTER, "#find-words")
        self.assertEqual((self.words("find-count"), self.selected()[0]), ("2 of 111", "note 29"))
        self.is_drawn(294)
        self.browser.type(SHIFT + ENTER + ENTER + NULL, "#find-words")
        self.assertEqual(self.words("find-count"), "111 of 111")
        self.is_drawn(3006)
        self.assertEqual(self.browser.run("return [...document.querySelectorAll('#paper .hit.shown')].map("
                                          "it => it.textContent).join('')"), "note 29")
        self.browser.type(ENTER, "#find-words")
        self.assertEqual(self.words("find-count"), "1 of 111")
        self.browser.type(ESCAPE, "#find-words")
        self.assertEqual(self.selected(), ["note 29", "note 29"])
        self.assertEqual(self.browser.run("return document.activeElement.id"), "text")
        self.browser.type("found" + NULL)
        self.assertEqual(self.text(), TEXT.replace("note 29", "found", 1))
        self.assertEqual(self.browser.run("return document.querySelectorAll('#paper .hit').length"), 0)
        self.keys(CONTROL + "f")
        self.browser.type(CONTROL + "a" + NULL + "nothing of this", "#find-words")
        self.assertEqual(self.words("find-count"), "nowhere")
        self.assertEqual(self.browser.faults(), [])

    def test_undo(self):
        """What is typed without a pause is a step, what is typed at another place is another; undo shows where."""
        self.begin()
        self.put_cursor("# note 10 of")
        self.browser.type("abc")
        self.put_cursor("# note 2500 of")
        self.browser.type("def" + BACK)
        self.scroll(1000)
        self.keys(CONTROL + "z")
        self.assertEqual(self.text(), TEXT.replace("# note 10 of", "# note 10 ofabc"))
        self.is_drawn(2507)
        self.keys(CONTROL + "z")
        self.assertEqual(self.text(), TEXT)
        self.is_drawn(14)
        self.keys(CONTROL + "z")  # nothing is left
        self.assertEqual(self.text(), TEXT)
        self.keys(CONTROL + SHIFT + "z", CONTROL + "y", CONTROL + "y")
        wanted = TEXT.replace("# note 10 of", "# note 10 ofabc").replace("note 2500 of", "note 2500 ofde")
        self.assertEqual(self.text(), wanted)

    def test_lines_are_sent(self):
        """A request has the lines alone that changed, and a verdict of another text isn't shown."""
        self.begin()
        self.browser.run("window.bodies = []; window.loses = false; const own = fetch; window.fetch = (path, words) => {"
                         "if (path === 'judge') bodies.push(words.body);"
                         "if (path === 'judge' && loses) { const it = JSON.parse(words.body); loses = false;"
                         "it.put = ['# note of some text']; it.length += it.put[0].length - lines[it.line - 1].length;"
                         "words.body = JSON.stringify(it); } return own(path, words); }")
        self.put_cursor("# note 2000 of")
        for key in "xyz":
            self.browser.type(key)
            self.says("accepted")
        bodies = self.browser.run("return bodies")
        self.assertTrue(bodies and max(map(len, bodies)) < 300, [len(body) for body in bodies])
        # A page that loses count: the studio has another text then, and says so by its SHA-256.
        self.browser.run("window.loses = true")
        self.browser.type("w")
        self.wait(lambda: "another text was judged" in self.verdict(), "it doesn't say so")
        self.browser.type("v")
        self.says("accepted")
        self.assertEqual(self.text(), TEXT.replace("# note 2000 of", "# note 2000 ofxyzwv"))

    def test_kept(self):
        """Of a text of more than 200,000 letters the browser keeps the lines that changed, and has all of it again."""
        text = TEXT + "# %s\n" % ("more " * 20) * 2500
        self.begin(text)
        for before in ("# note 2 of", "# note 2900 of", "# note 2800 of"):  # far apart all would be kept anew
            self.put_cursor(before)
            self.browser.type(" # typed\n# and typed")
            text = text.replace(before, before + " # typed\n# and typed")
            self.browser.run("keep()")
        self.assertEqual(self.text(), text)
        sizes = self.browser.run("return [file.key, `${file.key} lines`].map(name => localStorage.getItem(name).length)")
        self.assertTrue(sizes[0] > 200000 > sizes[1], sizes)
        self.browser.ask("POST", "/refresh", {})
        self.wait(lambda: "wasn't saved" in self.words("told"), "not kept")
        self.assertEqual(self.text(), text)
        self.browser.run("localStorage.clear()")

    def test_model(self):
        """A thousand random changes: lines, offsets, forms, what a request has, and undo are those of a plain text."""
        self.begin()
        rolled = random.Random(5)
        put = ["", "x", "\n", "form f move\n", "\n\n# ä 漢 😀\n"]
        changes = [[rolled.random(), rolled.random() ** 4, rolled.choice(put)] for _ in range(1000)]
        said = self.browser.run("""
            const [changes, begin] = arguments, out = [];
            setContent(begin); hold(...windowAt(...linesInView()));
            let plain = begin, old = begin, oldLines = begin.split("\\n"); known = 1;
            for (const [at_, long, put] of changes) {
              const from = Math.floor(at_ * plain.length), to = Math.min(plain.length, from + Math.floor(long * 300));
              const safe = k => k > 0 && /[\\udc00-\\udfff]/.test(plain[k] || "") ? k + 1 : k;
              const [a, b] = [safe(from), safe(to)];
              edit(a, b, put, false);
              plain = plain.slice(0, a) + put + plain.slice(b);
              const run = changedLines("judged"), again = oldLines.slice();
              again.splice(run.line - 1, run.gone, ...run.put);
              const all = plain.split("\\n"), ok = [textLength() === plain.length, lines.length === all.length,
                lines.every((line, k) => line === all[k]), starts.every((start, k) => !k || plain[start - 1] === "\\n"),
                again.join("\\n") === plain, formLines === all.filter(isFormLine).length,
                widest === Math.max(...all.map(columnsOf)), textBetween(a, a + 9) === plain.slice(a, a + 9)];
              if (ok.includes(false)) return [out.length, ok];
              out.push(1);
              if (out.length % 7 === 0) [runs.judged, oldLines] = [null, all];
            }
            for (let step = stepBack(); step; step = stepBack()) change(step.from, step.to, step.words);
            const back = wholeText() === begin;
            for (let step = stepForth(); step; step = stepForth()) change(step.from, step.to, step.words);
            return [out.length, back, wholeText() === plain];""", changes, "\n".join(TEXT.split("\n")[1300:1700]))
        self.assertEqual(said, [1000, True, True])


if __name__ == "__main__":
    unittest.main()
