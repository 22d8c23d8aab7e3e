"""What stays in the page of ./show studio over a reload, how wide its text is, and the film of a flight, in Chromium."""
import os
import sys
import unittest

sys.dont_write_bytecode = True
sys.path.insert(0, os.path.dirname(os.path.abspath(__file__)))
from test_studio import GOOD, NEAR
from test_studio_page import CONTROL
from test_studio_timeline import SHOW, Timeline


class Stays(Timeline):
    def reload(self):
        """Loads the page anew, and waits for its flight."""
        self.browser.ask("POST", "/refresh", {})
        self.ready()

    def setUp(self):
        super().setUp()
        self.addCleanup(self.browser.run, "localStorage.clear(); sessionStorage.clear(); onpagehide = null")

    def test_view(self):
        """After a reload the playhead, the view, the part of the time, the charts and the chosen drones are as they
        were."""
        self.begin()
        self.browser.run("setView('from the front'); zoomBy(2, [100, 100]); move(4321); zoomTime(2, 4000); drawTimes();"
                         "document.querySelectorAll('#legend button')[1].click()")
        self.browser.click("#lanes-open")
        for name, words in (("chart-kind", "y"), ("far-in", "m"), ("speed", "2")):
            self.browser.run("const it = document.getElementById(arguments[0]); it.value = arguments[1];"
                             "it.dispatchEvent(new Event('change'))", name, words)
        asked = ("return [now, turn, tilt, zoom, aside, timeZoom, timeFrom, chartKind, farIn, [...chosen],"
                 "document.getElementById('lanes').hidden, document.getElementById('speed').value,"
                 "document.getElementById('chart-kind').value]")
        before = self.browser.run(asked)
        self.assertEqual((before[0], before[9], before[10:]), (4321, [1], [False, "2", "y"]))
        self.reload()
        self.assertEqual(self.browser.run(asked), before)
        self.assertAlmostEqual(self.at(), 4321, delta=3)  # the slider has steps
        self.assertIn("y in m", self.browser.run("return document.getElementById('heights').textContent"))
        self.assertEqual(self.browser.faults(), [])

    def test_undo(self):
        """After a reload undo takes back what was typed before, and the cursor is where it was."""
        self.begin()
        self.put_cursor("# aside")
        self.browser.type(" now")
        changed = SHOW.replace("# aside", "# aside now")
        self.assertEqual(self.text(), changed)
        self.ready()
        where = self.words("where")
        self.reload()
        self.assertEqual((self.text(), self.words("where")), (changed, where))
        self.browser.click("#undo")
        self.assertEqual(self.text(), SHOW)
        self.reload()
        self.browser.click("#redo")
        self.assertEqual(self.text(), changed)
        self.browser.click("#undo")
        self.assertEqual(self.text(), SHOW)

    def test_other_text(self):
        """Undo of another text isn't taken: the file was changed meanwhile."""
        studio = self.open(SHOW)
        self.ready()
        self.put_cursor("# aside")
        self.browser.type("x")
        self.browser.click("#save")
        self.wait(lambda: self.words("state") == "saved", "not saved")
        studio.write(GOOD)
        self.reload()
        self.assertEqual(self.text(), GOOD)
        self.assertTrue(self.browser.run("return document.getElementById('undo').disabled"))
        self.browser.keys("z", CONTROL)
        self.assertEqual(self.text(), GOOD)

    def test_refused(self):
        """A refused show that is loaded anew stays at the playhead, and the first time it goes to what is refused."""
        self.begin(NEAR)
        self.assertEqual(round(self.at()), 1500)
        self.browser.run("move(700)")
        self.reload()
        self.assertEqual(round(self.at()), 700)


class Splitter(Timeline):
    def widths(self):
        """The widths of the text and of the view in space."""
        return self.browser.run("return ['.side', '#space'].map(css => document.querySelector(css).getBoundingClientRect().width)")

    def test_drag(self):
        """The line between text and flight is dragged, or moved by the arrows; it stays over a reload, a double click
        puts it back, and no part gets too narrow."""
        self.begin()
        self.addCleanup(self.browser.run, "localStorage.clear()")
        text, space = self.widths()
        x, y = self.browser.run("const box = document.getElementById('splitter').getBoundingClientRect();"
                                "return [box.left + box.width / 2, box.top + box.height / 2]")
        self.browser.drag((x, y), (x - 120, y))
        after = self.widths()
        self.assertAlmostEqual(after[0], text - 120, delta=3)
        self.wait(lambda: abs(self.widths()[1] - space - 120) < 3, "the view isn't wider")
        self.browser.run("document.getElementById('splitter').focus()")
        self.browser.keys("\uE014")
        self.assertAlmostEqual(self.widths()[0], after[0] + 0.02 * 1280, delta=3)
        self.browser.ask("POST", "/refresh", {})
        self.ready()
        self.assertAlmostEqual(self.widths()[0], after[0] + 0.02 * 1280, delta=3)
        self.browser.drag((x - 94, y), (10, y))
        self.assertAlmostEqual(self.widths()[0], 0.2 * 1280, delta=3)
        self.browser.run("document.getElementById('splitter').dispatchEvent(new Event('dblclick'))")
        self.assertAlmostEqual(self.widths()[0], text, delta=1)
        self.assertEqual((self.text(), self.browser.faults()), (SHOW, []))

    def test_all_open(self):
        """With lanes and formation tools open the charts get lower, so that the view in space stays; both end within the
        window, and get their heights back."""
        self.begin()
        sizes = ("return ['room', 'heights'].map(id => document.getElementById(id).clientHeight).concat("
                 "document.getElementById('near').getBoundingClientRect().bottom - innerHeight)")
        heights = {}
        for size, least in (((1280, 800), 160), ((1120, 700), 110)):
            self.browser.size(*size)
            heights[size] = self.browser.run(sizes)[1]
            self.browser.click("#form")
            self.browser.click("#lanes-open")
            self.browser.run("[...document.querySelectorAll('#tools-kinds button')].find(it => it.textContent === 'Ring').click()")
            self.wait(lambda: "nearest: a and b" in self.words("tools-said"), "no preview")
            self.wait(lambda: self.browser.run(sizes)[0] >= least, lambda: "a view of %s" % self.browser.run(sizes))
            _, chart, below = self.browser.run(sizes)
            self.assertTrue(70 <= chart <= heights[size] and below <= 0, (size, chart, below))
            self.browser.click("#tools-leave")
            self.browser.click("#form")
            self.browser.click("#lanes-open")
            self.wait(lambda: self.browser.run(sizes)[1] == heights[size], "the charts stay lower")
        self.assertEqual(self.browser.faults(), [])

    def test_small(self):
        """On a telephone there is none."""
        self.begin(size=(390, 844))
        self.assertFalse(self.browser.run("return document.getElementById('splitter').checkVisibility()"))
        self.assertLessEqual(self.browser.run("return document.documentElement.scrollWidth"), 390)


class Film(Timeline):
    def start(self, text=GOOD):
        """A page that notes what is downloaded, whose recording was begun."""
        self.begin(text)
        self.browser.run("window.films = []; const own = URL.createObjectURL; URL.createObjectURL = it => { films.push(it);"
                         "return own.call(URL, it); };"
                         "HTMLAnchorElement.prototype.click = function () { window.filmName = this.download; };")
        self.browser.run("setView('from above'); move(1000)")
        self.browser.click("#film")

    def test_film(self):
        """The flight is recorded from its start to its end: a film that the browser plays, as large as the view, whose
        last picture has the drone where it ends."""
        self.start()
        self.assertIn("2 s at this speed", self.words("told"))
        self.wait(lambda: self.browser.run("return films.length") == 1, "no film")
        self.assertEqual(self.browser.run("return filmName"), "show.webm")
        self.wait(lambda: "show.webm is among your downloads" in self.words("told"), "it doesn't say so")
        found = self.browser.run("""
            return (async () => {
              const blob = films[0], film = document.createElement("video"), canvas = document.getElementById("space");
              const begin = [...new Uint8Array(await blob.slice(0, 4).arrayBuffer())];
              film.muted = true;
              film.src = URL.createObjectURL(blob);
              const until = name => new Promise((go, fail) => { film["on" + name] = go; film.onerror = () => fail(film.error); });
              await until("loadeddata");
              const pen = new OffscreenCanvas(film.videoWidth, film.videoHeight).getContext("2d", {willReadFrequently: true});
              // How many pixels near a place of the flight are of another colour than the background and the grid.
              const blue = place => {
                pen.drawImage(film, 0, 0);
                const [x, y] = view.to(place), {data} = pen.getImageData(x - 4, y - 4, 8, 8);
                let many = 0;
                for (let k = 0; k < data.length; k += 4) if (data[k + 2] - data[k] > 60) many += 1;
                return many;
              };
              const ends = [placeAt(0, 0), placeAt(0, flight.end)];
              film.currentTime = 0.1;  // the first pictures of a recording may be empty
              await until("seeked");
              const first = ends.map(blue);
              film.currentTime = 1e6;
              await until("seeked");
              return [begin, [film.videoWidth, film.videoHeight], [canvas.width, canvas.height], first, ends.map(blue),
                      film.currentTime];
            })()""")
        begin, size, wanted, first, last, lasts = found
        self.assertEqual(begin, [0x1A, 0x45, 0xDF, 0xA3])
        self.assertEqual([abs(a - b) <= 1 for a, b in zip(size, wanted)], [True, True], (size, wanted))
        self.assertTrue(first[0] > first[1] and last[1] > last[0], (first, last))
        self.assertTrue(1.5 < lasts < 12, lasts)
        self.assertEqual((self.browser.run("return caption"), self.text(), self.browser.faults()), (None, GOOD, []))

    STOPS = ("document.querySelector('#told button').click()", "document.getElementById('film').click()",
             "replaceText(wholeText() + '# x\\n')")

    def is_stopped(self):
        """The page says that the recording was stopped; nothing is played, and there is no film."""
        self.wait(lambda: "was stopped" in self.words("told"), lambda: "it doesn't say so, but %s; at %s" % (
            self.words("told"), self.at()))
        self.is_played(False)
        self.assertEqual(self.browser.run("return [films.length, caption, document.getElementById('film').ariaPressed]"),
                         [0, None, "false"])

    def test_stopped(self):
        """A recording that is stopped, or whose text changes, gives no film, and the page says so."""
        for work in (lambda: self.browser.click("#told button"), lambda: self.browser.click("#film"),
                     lambda: self.browser.run(self.STOPS[2])):
            self.start(SHOW.replace("cue 5s", "cue 60s"))
            self.wait(lambda: self.browser.run("return caption !== null") and self.at() > 200, "it isn't recorded")
            work()
            self.is_stopped()

    def test_stopped_at_once(self):
        """The same where it is stopped before it began: within the frame in which the button was clicked."""
        self.start(SHOW.replace("cue 5s", "cue 60s"))
        self.browser.click("#film")
        for work in self.STOPS:
            self.is_stopped()
            self.browser.run("document.getElementById('film').click(); " + work)
        self.is_stopped()


if __name__ == "__main__":
    unittest.main()
