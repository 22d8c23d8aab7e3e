"""Music beside a show in the page of ./show studio, in Chromium: it is played with the flight, its beats are marked by
hand or tapped, and the end of a cue goes to a beat."""
import io
import math
import os
import struct
import sys
import tempfile
import unittest
import urllib.error
import urllib.request
import wave

sys.dont_write_bytecode = True
sys.path.insert(0, os.path.dirname(os.path.abspath(__file__)))
from test_studio import Running
from test_studio_flight import TWO
from test_studio_page import CONTROL
from test_studio_timeline import SHOW, Timeline

LONG = TWO.replace("cue 3000", "cue 65000\nb hold\nend\ncue 35000")


def tone(seconds):
    """A file of sound, so many seconds long: a quiet tone of 440 Hz."""
    out, rate = io.BytesIO(), 8000
    with wave.open(out, "wb") as file:
        file.setnchannels(1)
        file.setsampwidth(2)
        file.setframerate(rate)
        file.writeframes(b"".join(struct.pack("<h", round(500 * math.sin(2 * math.pi * 440 * k / rate)))
                                  for k in range(seconds * rate)))
    return out.getvalue()


class Music(Timeline):
    def begin_with(self, text, music=None, name="show.wav"):
        """A page of a show that has music beside it, or none."""
        studio = Running(text, ("--program", self.program))
        self.addCleanup(studio.end)
        if music is not None:
            with open(os.path.join(studio.folder.name, name), "wb") as file:
                file.write(music)
        self.studio = studio
        self.browser.size(1280, 800)
        self.browser.ask("POST", "/url", {"url": "http://127.0.0.1:%s/%s/" % (studio.port, studio.token)})
        self.browser.faults()
        self.ready()
        self.browser.run("localStorage.clear()")

    def heard(self):
        """Where the music is in seconds, whether it plays, how fast, and where the flight is."""
        return self.browser.run("const it = heardAudio(); return it && [it.currentTime, !it.paused, it.playbackRate, now / 1000]")

    def is_heard(self, speed):
        """Waits until the music plays at this speed where the flight is, within two seconds: a busy machine lags."""
        def found():
            at, plays, rate, now = self.heard()
            return plays and rate == speed and abs(at - now) < 2
        self.wait(found, "not where the flight is: %s" % self.heard())

    def test_with_the_flight(self):
        """The file beside the show is played from where the playhead is, as fast as the flight, goes where that goes,
        and stops with it."""
        self.begin_with(LONG, tone(103))
        self.wait(lambda: self.heard() is not None, "no music was read")
        self.browser.run("move(30000)")
        self.assertEqual(self.heard()[1], False)
        self.browser.click("#go")
        self.is_heard(1)
        self.browser.run("move(70000)")
        self.is_heard(1)
        self.assertGreater(self.heard()[0], 65)
        self.browser.click("#go")
        self.assertEqual(self.heard()[1], False)
        self.browser.run("const it = document.getElementById('speed'); it.value = '0.5'; move(10000)")
        self.browser.click("#go")
        self.is_heard(0.5)
        self.assertLess(self.heard()[0], 60)
        self.browser.click("#go")
        self.assertEqual((self.heard()[1], self.text(), self.browser.faults()), (False, LONG, []))

    def test_ends(self):
        """Music that is shorter than the flight ends, and the flight goes on."""
        self.begin_with(TWO, tone(1))
        self.wait(lambda: self.heard() is not None, "no music was read")
        self.browser.click("#go")
        self.wait(lambda: self.heard()[3] > 1.6, "the flight doesn't go on")
        self.assertEqual(self.heard()[1], False)
        self.assertTrue(self.plays())
        self.browser.click("#go")

    def test_chosen(self):
        """A file of another place is taken by the button, and one that is no music is called so."""
        self.begin_with(TWO)
        self.assertIsNone(self.heard())
        with tempfile.TemporaryDirectory() as folder:
            for name, data in (("other.wav", tone(5)), ("wrong.mp3", b"no music at all")):
                path = os.path.join(folder, name)
                with open(path, "wb") as file:
                    file.write(data)
                self.browser.run("document.getElementById('music-file').hidden = false")
                self.browser.type(path, "#music-file")
                if name == "other.wav":
                    self.wait(lambda: self.heard() is not None, "not taken")
                    self.assertIn("other.wav", self.browser.run("return document.getElementById('music').title"))
            self.wait(lambda: "can't play wrong.mp3" in self.words("told"), "it doesn't say so")

    def test_served(self):
        """The studio serves that file alone, as what it is, and says where there is none or where it is too large."""
        studio = Running(TWO)
        self.addCleanup(studio.end)
        address = "http://127.0.0.1:%s/%s/music" % (studio.port, studio.token)

        def asked():
            try:
                with urllib.request.urlopen(address, timeout=20) as answer:
                    return answer.status, answer.headers["Content-Type"], answer.read()
            except urllib.error.HTTPError as error:
                return error.code, error.headers["Content-Type"], error.read()
        self.assertEqual(asked()[0], 404)
        path = os.path.join(studio.folder.name, "show.ogg")
        with open(path, "wb") as file:
            file.write(b"OggS and more")
        self.assertEqual(asked(), (200, "audio/ogg", b"OggS and more"))
        os.truncate(path, (1 << 27) + 1)
        self.assertEqual(asked()[0], 404)
        self.assertIn(b"too large", asked()[2])


class Beats(Timeline):
    def setUp(self):
        super().setUp()
        self.begin()
        self.browser.run("localStorage.removeItem(`${file.key} beats`)")
        self.addCleanup(self.browser.run, "localStorage.clear()")

    def beats(self):
        return self.browser.run("return beats")

    def test_by_hand(self):
        """A beat is marked at the playhead by the button or by B, and taken away there; it is drawn, kept over a reload,
        and the text has nothing of it."""
        for ms in (3500, 1000):
            self.browser.run("move(arguments[0])", ms)
            self.browser.click("#beat")
        self.browser.run("move(4000)")
        self.browser.keys("b")
        self.assertEqual(self.beats(), [1000, 3500, 4000])
        drawn = self.browser.run("const frame = document.querySelector('#share rect[fill=none]'), of = key => Number(frame.getAttribute(key));"
                                 "return [...document.querySelectorAll('#share .beat')].map(it =>"
                                 "Math.round(1000 * (Number(it.getAttribute('x1')) - of('x')) / of('width')) / 1000)")
        self.assertEqual(drawn, [0.1, 0.35, 0.4])
        self.browser.run("move(3510)")
        self.browser.keys("b")
        self.assertEqual(self.beats(), [1000, 4000])
        self.browser.ask("POST", "/refresh", {})
        self.ready()
        self.wait(lambda: self.beats() == [1000, 4000], "not kept")
        self.browser.click("#beats-none")
        self.assertEqual(self.beats(), [])
        self.assertEqual((self.text(), self.words("state")), (SHOW, "saved"))
        self.put_cursor("# rise")
        self.browser.type("b")  # in the text it is a letter
        self.assertEqual((self.beats(), "# riseb" in self.text()), ([], True))

    def test_tapped(self):
        """Beats that are tapped while it plays are where the playhead was, and even ones fit them best: of taps at
        1.02, 1.48, 2.02, 2.98 s, one of which is missing, the line has 0.4931 s a beat."""
        self.browser.click("#go")
        for _ in range(3):
            before = self.browser.run("return now")
            self.wait(lambda: self.browser.run("return now") > before + 20, "it doesn't play")
            self.browser.keys("b")
        self.browser.click("#go")
        taps = self.beats()
        self.assertTrue(0 < taps[0] < taps[1] < taps[2] <= self.browser.run("return now"), taps)
        self.browser.run("set({beats: [1020, 1480, 2020, 2980]})")
        self.browser.click("#beats-even")
        # By hand: turns 0, 1, 2, 4 around 1.75, times around 1875: slope (1.75 * 855 + .75 * 395 + .25 * 145 + 2.25 * 1105)
        # / (1.75^2 + .75^2 + .25^2 + 2.25^2) = 4315 / 8.75 = 493.1; the first 1875 - 1.75 * 493.1 = 1012, less two beats 25.7.
        found = self.beats()
        self.assertEqual(found[:4], [26, 519, 1012, 1505])
        self.assertTrue(9500 < found[-1] <= 10000, found[-1])

    def test_snap(self):
        """The end of a cue that is dragged near a beat goes to it, and else to a round length."""
        self.browser.run("set({beats: [2613]}); drawTimes()")
        place = ("const box = document.querySelector('#heights .grip').getBoundingClientRect();"
                 "const wide = document.querySelector('#heights rect[fill=none]').getBoundingClientRect().width;"
                 "return [box.left + box.width / 2, box.top + 4, wide / 10000]")
        x, y, each = self.browser.run(place)
        self.browser.drag((x, y), (x + 600 * each, y))
        self.wait(lambda: "cue 2.613s" in self.text(), "not at the beat")
        self.browser.keys("z", CONTROL)
        self.ready()
        self.browser.drag((x, y), (x + 1500 * each, y))
        self.wait(lambda: "cue 2s" not in self.text(), "nothing was written")
        length = self.browser.run("return Number(wholeText().match(/cue ([0-9.]+)s/)[1])")
        self.assertAlmostEqual(length, 3.5, delta=0.03)
        self.assertEqual(round(100 * length) / 100, length)
        self.assertEqual(self.browser.faults(), [])


if __name__ == "__main__":
    unittest.main()
