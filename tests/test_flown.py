"""./show flown: logs with known strays, offsets and clocks."""
import math
import os
import random
import re
import subprocess
import tempfile
import unittest

import common
from hemtoghai.geometry import curves


class Flown(unittest.TestCase):
    def setUp(self):
        self.room = tempfile.TemporaryDirectory()
        self.addCleanup(self.room.cleanup)
        self.show = os.path.join("examples", "formation_change.choreo")
        self.flown = common.example("formation_change")[1]

    def log(self, late={}, stray=0.0, stamps=False, also=lambda name, t: (0, 0, 0), every=50, leave=(), along=False, drift={},
            variance=lambda name, t: "2e-05"):
        """Writes a log of a flight; its path. A stray is in the plane, by chance, or with `along` by turns with the
        way."""
        path, chance = os.path.join(self.room.name, "log.csv"), random.Random(1)
        with open(path, "w") as file:
            file.write("time,drone,x,y,z,variance%s\n" % (",stamp" if stamps else ""))
            for k, (name, curve) in enumerate(curves.curves_of(self.flown).items()):
                for t in range(-500, self.flown.milliseconds + 700, every):
                    if name in leave:
                        continue
                    at, turn = curve.at(t * (1 - drift.get(name, 0)) - late.get(name, 0)), chance.random() * 7
                    if along:
                        turn = t / 370 + k
                    at = [at[0] + stray * math.cos(turn), at[1] + stray * math.sin(turn), at[2]]
                    at = [(v + w) / 1000 for v, w in zip(at, also(name, t))]
                    words = ["%.6f" % v for v in at]
                    time = t + (chance.random() * 40 * (k + 1) if stamps else 0)
                    stamp = [str((t + 16770000 + 1000 * k) % 2 ** 24)] if stamps else []
                    file.write(",".join(["%.4f" % (time / 1000), name, *words, variance(name, t), *stamp]) + "\n")
        return path

    def judged(self, path, *words):
        status, out, said = common.run("flown", *words, self.show, path)
        self.assertEqual(said, "")
        rows = {line.split()[0]: line.split()[1:] for line in out.split("\n")[1:1 + len(self.flown.names)]}
        return status, rows, out

    def test_the_shows_own_lines(self):
        # stray 50 and late 200 stand in the show; words on the command line come before them.
        with open(os.path.join(common.TOP, self.show)) as file:
            text = file.read() + "\nstray 50\nlate 200\n"
        path = self.log(late={"a": 120, "d": -60}, stray=40)
        for words, wanted, line in (((), 0, "within 50 mm of the curve at an instant within 200 ms"),
                                    (("--stray", "30"), 1, "within 30 mm of the curve at an instant within 200 ms"),
                                    (("--late", "40"), 1, "within 50 mm of the curve at an instant within 40 ms")):
            status, out, _ = common.run("flown", *words, "-", path, text=text)
            self.assertEqual((status, line in out), (wanted, True), out)
        self.assertNotIn("stray is 0", out)
        # without the lines it says why nothing is kept
        status, out, _ = common.run("flown", self.show, path)
        self.assertEqual((status, "stray is 0, which no drone keeps" in out), (1, True))

    def test_window(self):
        # 180 ms apart is within 182 of each other, and not within 170: at 0.5 mm some sample tells.
        path = self.log(late={"a": 120, "d": -60})
        self.assertEqual(self.judged(path, "--stray", "0.5", "--late", "182")[0], 0)
        status, _, out = self.judged(path, "--stray", "0.5", "--late", "170")
        self.assertEqual(status, 1, out)

    def test_best_start_and_stray(self):
        # Strays of exactly 40 mm in all directions: the best start is the true one to a millisecond, and at it the
        # greatest distance is 40 mm. The fit of least squares would be off by what strays and speeds have in common.
        path = self.log(late={"a": 80, "d": -30}, stray=40, along=True)
        _, rows, out = self.judged(path, "--stray", "41", "--late", "200")
        self.assertTrue(abs(int(rows["a"][2]) - 80) <= 1 and abs(int(rows["d"][2]) + 30) <= 1, out)
        for name in "abcd":
            self.assertTrue(39 <= float(rows[name][3]) <= 41, out)

    def test_a_clock_that_drifts(self):
        # 20 ms in the whole flight: within 30 ms of each other, not within 5.
        path = self.log(drift={"a": 20.0 / self.flown.milliseconds})
        self.assertEqual(self.judged(path, "--stray", "0.5", "--late", "30")[0], 0)
        self.assertEqual(self.judged(path, "--stray", "0.5", "--late", "5")[0], 1)

    def test_gaps_are_told(self):
        path = self.log()
        with open(path) as file:
            rows = [row for row in file.read().split("\n") if not re.match("[34][.].*,b,", row)]
        with open(path, "w") as file:
            file.write("\n".join(rows))
        _, rows, out = self.judged(path)
        # b has no sample from 3.00 to 4.95 s
        self.assertEqual((rows["b"][1], rows["a"][1]), ("2050", "50"), out)
        self.assertIn("greatest gap between samples 2050 ms", out)

    def test_exact(self):
        status, rows, out = self.judged(self.log(), "--stray", "0.1", "--late", "0")
        self.assertEqual(status, 0, out)
        self.assertTrue(all(abs(int(rows[name][2])) <= 1 for name in ("a", "d")), out)
        self.assertIn("KEPT: 724 of 724 samples", out)

    @common.wants_program
    def test_curves(self):
        with open(os.path.join(common.TOP, self.show), "rb") as show:
            done = subprocess.run([common.PROGRAM, "play", "--step", "77"], stdin=show,
                                  stdout=subprocess.PIPE, timeout=60)
        self.assertEqual(done.returncode, 0)
        rows = done.stdout.decode().split("\n")
        places = curves.curves_of(self.flown)
        for words in (row.split() for row in rows if row):
            at = places[words[1]].at(int(words[0]))
            self.assertTrue(all(abs(v * 1000 - int(w) - 0.5) <= 0.5001 for v, w in zip(at, words[2:5])))

    def test_late(self):
        path = self.log(late={"a": 120, "d": -60})
        status, rows, out = self.judged(path, "--stray", "5", "--late", "200")
        self.assertEqual((status, rows["a"][2], rows["d"][2]), (0, "120", "-60"), out)
        self.assertIn("180 ms apart", out)
        status, _, out = self.judged(path, "--stray", "5", "--late", "100")
        self.assertEqual(status, 1)
        self.assertIn("NOT KEPT", out)

    def test_stray(self):
        path = self.log(stray=40)
        self.assertEqual(self.judged(path, "--stray", "44", "--late", "0")[0], 0)
        self.assertEqual(self.judged(path, "--stray", "36", "--late", "0")[0], 1)

    def test_which(self):
        path = self.log(also=lambda name, t: (300 if name == "c" and t == 4000 else 0, 0, 0))
        status, rows, out = self.judged(path, "--stray", "100", "--late", "100")
        self.assertEqual((status, rows["c"][-1]), (1, "1"))
        self.assertIn("the farthest is c, 300.0 mm at 4.00 s", out)

    def test_stamps(self):
        path = self.log(stamps=True, every=20)
        status, rows, out = self.judged(path, "--stray", "8", "--late", "10")
        self.assertEqual(status, 0, out)
        # the stamps begin anew 7.2 s after the start; all samples of 9 s count, and those of up to 0.16 s before that came
        # after the log's zero
        self.assertTrue(all(450 <= int(row[0]) <= 459 for row in rows.values()), out)
        text = "\n".join(",".join(row.split(",")[:6]) for row in open(path).read().split("\n"))
        with open(path, "w") as file:
            file.write(text)
        self.assertEqual(self.judged(path, "--stray", "8", "--late", "10")[0], 1)

    def reborn(self, at, off=3.0, back=None):
        """A log with stamps in which b's begin anew at a time, and from then on it is so many metres off."""
        path = self.log(every=50)
        with open(path) as file:
            before, rows = file.read().split("\n")[1:-1], []
        for row in before:
            time, name, x, *rest = row.split(",")
            t = float(time)
            is_new = name == "b" and t >= at and (back is None or t < back)
            stamp = round(1000 * (t - at)) if is_new else 50000 + round(1000 * t)
            rows.append(",".join([time, name, "%.6f" % (float(x) + off * is_new), *rest, "%d" % stamp]))
        with open(path, "w") as file:
            file.write("\n".join(["time,drone,x,y,z,variance,stamp", *rows]) + "\n")
        return path

    def test_a_drone_that_started_anew(self):
        # Its stamps go back: what comes then isn't dropped, and the log is never KEPT, however good its places are.
        end = self.flown.milliseconds / 1000
        for at in (2.0, end - 0.9, end - 0.5, end - 0.1):
            status, rows, out = self.judged(self.reborn(at), "--stray", "50", "--late", "100")
            # each 50 ms from then to the end
            self.assertEqual((status, int(rows["b"][-1]), "NOT KEPT: " in out), (1, round((end - at) * 20) + 1, True), out)
            status, _, out = self.judged(self.reborn(at, 0.0), "--stray", "50", "--late", "100")
            self.assertEqual((status, "NOT KNOWN: " in out), (1, True), out)
            self.assertIn("b has a new life from %.2f s on" % at, out)
        # a clock that leaps, for 0.8 s: 16 samples of b
        status, rows, out = self.judged(self.reborn(3.0, back=3.8), "--stray", "50", "--late", "100")
        self.assertEqual((status, rows["b"][-1]), (1, "16"), out)
        self.assertIn("b has a ", out)
        # before the start, or after the end, it is none of the flight
        for at in (-0.3, end + 0.3):
            status, _, out = self.judged(self.reborn(at, 0.0), "--stray", "50", "--late", "100")
            self.assertEqual(status, 0, out)

    def test_the_show_moves_with_the_clock(self):
        # All are 900 ms late, or early, by the log's clock, and b is 3 m off in its last, or first, half second.
        end = self.flown.milliseconds
        for late, when in ((900, lambda t: end + 400 < t <= end + 900), (-450, lambda t: -450 <= t < -100)):
            also = lambda name, t, when=when: (3000 if name == "b" and when(t) else 0, 0, 0)
            path = self.log(late=dict.fromkeys("abcd", late), also=also)
            status, rows, out = self.judged(path, "--stray", "50", "--late", "100")
            self.assertEqual((status, "NOT KEPT: " in out), (1, True), (late, out))
            path = self.log(late=dict.fromkeys("abcd", late))
            self.assertEqual(self.judged(path, "--stray", "50", "--late", "100")[0], 0)

    def test_left_out(self):
        # every 50 ms from 500 ms before the start: 10 of each of four; after the end of 9 s 13, to 650 ms after it
        _, _, out = self.judged(self.log())
        self.assertEqual(self.flown.milliseconds, 9000)
        self.assertIn("left out: 40 samples before the start and 52 after the end\n", out)

    def whole(self, ends={}, until={}, below={}):
        """The path of a log of a flight in which each drone stands below its first place, without more 1000 mm, until
        1 s before the show, and again from 2 s after its end on, beside there by so many; and that has it until some
        time after that end, without more 4000 ms."""
        path, end, rows = self.log(), self.flown.milliseconds, []
        for name, curve in curves.curves_of(self.flown).items():
            for t in (*range(-3000, -500, 50), *range(end + 700, end + 4050, 50)):
                at = curve.at(0 if t > end + 2000 else t)
                if not -1000 <= t <= end + 2000:
                    at[2] -= below.get(name, 1000)
                if t > end + 2000:
                    at = [v + w for v, w in zip(at, ends.get(name, (0, 0, 0)))]
                if t <= end + until.get(name, 4000):
                    rows.append("%.4f,%s,%.6f,%.6f,%.6f,2e-05\n" % (t / 1000, name, *(v / 1000 for v in at)))
        with open(path, "a") as file:
            file.write("".join(rows))
        return path

    def test_home(self):
        # Within 300 mm beside where it stood, and 120 mm above or below, a drone is home, also where it is switched off
        # there; at 301 and 121 the show was kept, and it isn't home, which is no yes. Nor is one that is missing more
        # than a second before the end of the log, 13 s after the start.
        def judged(*given):
            status, _, out = self.judged(self.whole(*given), "--stray", "5", "--late", "5")
            found = re.search("not home at the end of the log: (.*)\n", out)
            self.assertEqual(out.count("\nthat is of the show: of the ways"), not status)
            return status, re.search("(?m)^([A-Z ]+): 724 of 724 samples", out)[1], found and found[1].split("; ")
        self.assertEqual(judged({"a": (180, -240, 120), "b": (300, 0, -120), "c": (0, 300, 0)}, {"c": 2500, "d": 2999}),
                         (0, "KEPT", None))
        ends = {"a": (301, 0, 0), "b": (0, 0, 121), "c": (301, 0, 0), "d": (0, 0, -121)}
        self.assertEqual(judged(ends, {"c": 2950}), (
            1, "NOT HOME", ["a is 301 mm beside where it stood, and 0 mm above that",
                            "b is 0 mm beside where it stood, and 121 mm above that", "c is missing from 11.95 s on",
                            "d is 0 mm beside where it stood, and -121 mm above that"]))
        self.assertEqual(judged({"d": (0, 301, 0)}, {"d": 3000}),
                         (1, "NOT HOME", ["d is 301 mm beside where it stood, and 0 mm above that"]))
        # Who is 100 mm below its first place isn't taken to stand on a pad, and who is 101 mm below it is. One without
        # a pad only has to be in the log to its end.
        self.assertEqual(judged({"a": (0, 3000, 0), "b": (0, 3000, 0)}, {"c": 2999, "d": 2999},
                                {"a": 100, "b": 101, "c": 100, "d": 101}),
                         (1, "NOT HOME", ["b is 3000 mm beside where it stood, and 0 mm above that",
                                          "c is missing from 11.95 s on"]))

    def test_a_log_that_begins_in_the_show(self):
        # A drone that sinks by 0.8 m in 2 s, at one speed, is 200 mm lower at its first sample, after 0.5 s: no pad.
        path = os.path.join(self.room.name, "late.csv")
        with open(path, "w") as file:
            file.write("time,drone,x,y,z,variance\n" + "".join(
                "%.1f,a,0,0,%.3f,1e-5\n" % (t / 10, 1 - 0.04 * t) for t in range(5, 21)))
        text = "choreo 1\nstray 20\nlate 20\ndrone a 0 0 1000000 0\ncue 2000\na line 0 0 200000 0\nend\n"
        status, out, _ = common.run("flown", "-", path, text=text)
        self.assertEqual((status, "KEPT: 16 of 16 samples" in out), (0, True), out)

    def test_how_fly_ended(self):
        # A last line of `fly` by which the flight wasn't kept leaves no KEPT; other lines that begin so say nothing.
        for end, wanted in (("", (0, "KEPT")), ("# fly: kept\n", (0, "KEPT")), ("# by hand\n#\n", (0, "KEPT")),
                            ("# fly: not kept\n", (1, "NOT KEPT")), ("# fly: not kept", (1, "NOT KEPT")),
                            ("# fly: not kept\r\n", (1, "NOT KEPT"))):
            path = self.whole({})
            with open(path, "a", newline="") as file:
                file.write(end)
            status, _, out = self.judged(path, "--stray", "5", "--late", "5")
            word = next(line for line in out.split("\n") if "KEPT: " in line).split(":")[0]
            self.assertEqual((status, word, "`fly` ended this flight with a fault" in out), (*wanted, wanted[0] == 1), end)

    def test_home_comes_last(self):
        # what a sample says of the show comes first, and who isn't home is named all the same
        status, _, out = self.judged(self.whole({"a": (3000, 0, 0)}), "--stray", "0", "--late", "0")
        self.assertEqual((status, "NOT KEPT: " in out, "NOT HOME" in out), (1, True, False))
        self.assertIn("not home at the end of the log: a is 3000 mm beside", out)

    def test_a_log_that_stops(self):
        # 400 ms before the end of 9 s nothing is known of that, though no gap is as long as a second
        for last, status in ((8.6, 1), (8.75, 0)):
            path = self.spoiled(lambda rows, last=last: [
                row for row in rows if not row or row[0] == "t" or float(row.split(",")[0]) <= last])
            came, _, out = self.judged(path, "--stray", "5", "--late", "5")
            self.assertEqual((came, "has no sample in the last 400 ms" in out), (status, bool(status)), out)

    def test_variances(self):
        # sqrt(0.004) is 63 mm: one sample above it, or of no number, and the log isn't kept
        for word, words, status, said in (("0.004", (), 0, ""), ("0.0041", (), 1, "variance up to 0.0041 m^2"),
                                          ("nan", (), 1, "variance up to inf m^2"), ("-1", (), 1, "variance up to inf m^2"),
                                          ("0.0041", ("--unsure", "0.01"), 0, "")):
            path = self.log(variance=lambda name, t, word=word: word if (t, name) == (4000, "c") else "2e-05")
            came, _, out = self.judged(path, "--stray", "5", "--late", "5", *words)
            self.assertEqual((came, "NOT KNOWN: " in out, said in out), (status, bool(status), True), out)
            self.assertEqual("not sure of their places: c at 1 sample, first at 4.00 s" in out, bool(status), out)
            self.assertNotIn("no variance", out)
        # not before the start
        path = self.log(variance=lambda name, t: "1" if (t, name) == (-400, "c") else "2e-05")
        self.assertEqual(self.judged(path, "--stray", "5", "--late", "5")[0], 0)

    def test_no_variances(self):
        # where nobody knows how sure a drone was, at one sample or at all 181 in 9 s, nothing is kept
        path = self.log(variance=lambda name, t: "" if (t, name) == (4000, "c") else "2e-05")
        status, _, out = self.judged(path, "--stray", "5", "--late", "5")
        self.assertEqual((status, "NOT KNOWN: 724 of 724" in out), (1, True), out)
        self.assertIn("no variance says how sure they were of their places: c at 1 sample\n", out)
        with open(path) as file:
            rows = [row.split(",")[:5] for row in file]
        with open(path, "w") as file:
            file.write("".join(",".join(row) + "\n" for row in rows))
        status, _, out = self.judged(path, "--stray", "5", "--late", "5")
        self.assertEqual((status, "NOT KNOWN: 724 of 724" in out), (1, True), out)
        self.assertIn("places: a at 181 samples; b at 181 samples; c at 181 samples; d at 181 samples\n", out)

    def test_bad_logs(self):
        for text, said in (("time,drone,x,y,z\n1,a,b,c,d\n", "row 1"), ("", "no sample during the show of a, b, c, d"),
                           ("1,a,0,0,0\n", "of b, c, d")):
            path = os.path.join(self.room.name, "bad.csv")
            with open(path, "w") as file:
                file.write(text)
            status, out, error = common.run("flown", self.show, path)
            self.assertEqual((status, out), (70, ""))
            self.assertIn(said, error)
        self.assertEqual(common.run("flown", self.show, "no.csv")[0], 70)
        status, _, error = common.run("flown", self.show, self.log(leave=["b"]))
        self.assertEqual((status, "of b" in error), (70, True))

    def spoiled(self, change):
        """The path of a log of an exact flight, after a function changed its rows."""
        path = self.log()
        with open(path) as file:
            rows = file.read().split("\n")
        with open(path, "w") as file:
            file.write("\n".join(change(rows)))
        return path

    def test_too_little(self):
        # A log that doesn't cover the show is never KEPT, however good its samples are: one sample, none in the first or
        # the last second, a gap, and four samples of one drone.
        def of(name, keep):
            return lambda rows: [row for row in rows if ",%s," % name not in row or keep(float(row.split(",")[0]))]
        end = self.flown.milliseconds / 1000
        for change, said in ((of("b", lambda t: t == 4.0), "b has no sample from [0-9.]+ to [0-9.]+ s"),
                             (of("b", lambda t: t > 1.2), "b has no sample from 0.00 to 1.25 s"),
                             (of("b", lambda t: t < end - 1.2), "b has no sample from [0-9.]+ to %.2f s" % end),
                             (of("b", lambda t: not 3 < t < 4.1), "b has no sample from 3.00 to 4.10 s")):
            status, _, out = self.judged(self.spoiled(change), "--stray", "5", "--late", "5")
            self.assertEqual((status, "NOT KNOWN: " in out), (1, True), out)
            self.assertRegex(out, "the log doesn't cover the show: %s\n" % said)
        path = self.spoiled(of("b", lambda t: t == int(t) and int(t) % 3 == 0))
        status, _, out = self.judged(path, "--stray", "5", "--late", "5", "--gap", "4000")
        self.assertEqual((status, "b has 4 samples in all" in out), (1, True), out)
        self.assertEqual(self.judged(self.log(every=500), "--stray", "5", "--late", "5")[0], 0)

    def test_no_numbers(self):
        # A number that isn't finite, or no place of any room, makes a log none.
        for column, word in ((0, "nan"), (2, "nan"), (3, "inf"), (4, "-inf"), (2, "1e30"), (0, "1e300")):
            def change(rows, column=column, word=word):
                cells = rows[50].split(",")
                cells[column] = word
                return [*rows[:50], ",".join(cells), *rows[51:]]
            status, out, error = common.run("flown", "--stray", "50", self.show, self.spoiled(change))
            self.assertEqual((status, out), (70, ""), word)
            self.assertIn("row 50 of the samples isn't time,drone,x,y,z in seconds and metres", error)
        path = self.spoiled(lambda rows: [*rows[:50], "x" * 200000, *rows[50:]])
        status, out, error = common.run("flown", self.show, path)
        self.assertEqual((status, "this is no CSV file" in error), (70, True), error)
        for words in (("--stray", "nan"), ("--late", "inf"), ("--gap", "nan"), ("--stray", "-1")):
            self.assertEqual(common.run("flown", *words, self.show, self.log())[0], 2, words)

    def test_strangers(self):
        path = self.log()
        with open(path, "a") as file:
            file.write("1,who,0,0,0,0\n")
        status, out, _ = common.run("flown", "--stray", "1", self.show, path)
        self.assertEqual((status, out.split("\n")[0]), (0, "not of the show, and left out: who"))


if __name__ == "__main__":
    unittest.main()
