"""./show fly over simulated drones, with a clock of their own: whole flights, the fault of each stage, and both Ctrl-C.

The simulated drones are from the same memory of the firmware as the tool; no drone was ever flown. All flights are
begun before the first test, and each test waits for its own.
"""
import os
import re
import subprocess
import tempfile
import unittest

import common
import flights

SHOW = os.path.join("examples", "crossing_cured.choreo")
AT_ONCE = 3
# Take-off waits for no landings beside a drone that may not hear: there are many of them, and few flights want them.
WORDS = ["--simulate", "--silence", "3", "--patience", "0"]
# Two that hover so high, and so long, that no signal comes too late: up they take 8 s and down 10 s.
HIGH = "choreo 1\ndrone a 0 0 4000000 0\ndrone b 1500000 0 4000000 0\ncue 60000\nend\n"
ON_THE_FLOOR = """choreo 1
drone a 0 0 0 0
drone b 1000000 0 0 0
cue 3000
a move 0 0 1000000 0
b move 1000000 0 1000000 0
end
cue 3000
a move 0 0 0 0
b move 1000000 0 0 0
end
"""
ABOVE = """choreo 1
drone a 0 0 500000 0
drone b 0 0 1500000 0
cue 3000
end
"""
PASSING = """choreo 1
drone a 0 0 500000 0
drone b 1000000 0 1500000 0
cue 4000
a move 1000000 0 500000 0
end
cue 1000
end
cue 3000
b move 2000000 0 1500000 0
end
"""


def wide_show():
    """Twelve drones, two metres apart, that fly all alike for 20 s at up to 1.9 m/s; they may stray by 45 mm and be
    120 ms late."""
    at = [(k % 4 * 2000000, k // 4 * 2000000) for k in range(12)]
    rows = ["choreo 1", "stray 45", "late 120"] + ["drone d%d %d %d 1000000 0" % (k, *place) for k, place in enumerate(at)]
    for x, y, z in 2 * ((1, 0, 0), (1, 1, 0), (0, 1, 0.6), (0, 0, 0), (1, 0, 0.6)):
        rows += ["cue 2000", *("d%d move %d %d %d 0" % (k, a + 1200000 * x, b + 1200000 * y, 1000000 + int(1000000 * z))
                               for k, (a, b) in enumerate(at)), "end"]
    return "\n".join(rows) + "\n"


def fly(words, show=SHOW, text="yes\nyes\nyes\nleave\n", script=(), more=""):
    """The status, the output and the log of a simulated flight; the rows of a script say what else the crew does, and
    `more` is a text in Python that is run before."""
    with tempfile.TemporaryDirectory() as place:
        room = common.Folder()
        room.place, log = place, os.path.join(place, "log.csv")
        room.write("typed", text)
        if "\n" in show:
            room.write("show.choreo", show)
            show = room.path("show.choreo")
        if script:
            room.write("script", flights.script(*script))
            words = [*words, "--script", room.path("script")]
        with open(room.path("typed"), "rb") as typed:
            done = flights.flown(*WORDS, "--log", log, *words, show, stdin=typed, more=more)
        rows = ""
        if os.path.exists(log):
            with open(log) as file:
                rows = file.read()
        return done.returncode, done.stdout, rows


def terminal_gone():
    """A flight whose terminal is gone, which is told so after the start: its status, what it told on standard error, and
    its log."""
    with tempfile.TemporaryDirectory() as place:
        room = common.Folder()
        room.place = place
        room.write("show.choreo", HIGH)
        # in the landing or after it: neither may stop a motor
        room.write("script", flights.script((0, "press:HUP", "started"), (0.1, "press:TERM", "")))
        reading, writing = os.pipe()
        os.close(reading)
        done = flights.flown(*WORDS, "--yes", "--log", room.path("log.csv"), "--script", room.path("script"),
                             room.path("show.choreo"), stdout=writing, stderr=subprocess.PIPE)
        os.close(writing)
        with open(room.path("log.csv")) as file:
            return done.returncode, done.stderr, file.read()


def b(fault):
    """The words for a fault of b."""
    return ["--fault", "b:" + fault]


YES = "yes\nyes\nyes\nleave\n"


def ctrl_c(*words):
    """The rows of Ctrl-C after some words, and again after others."""
    return [(0, "press:INT", it) for it in words]


FLIGHTS = {
    "twelve": (["--yes", "--sim", "stray=40", "--sim", "late=80"], wide_show()),
    "whole": (["--sim", "stray=30", "--sim", "late=40"],),
    "lossy": (["--sim", "loss=20", "--sim", "seed=3", "--late", "200"],),
    "unicast": (["--unicast"],), "copies": (["--copies", "3", "--late", "500"],),
    "floor": ([], ON_THE_FLOOR), "above": ([], ABOVE), "passing": ([], PASSING), "passing falls": (b("falls:4.6"), PASSING),
    "stray": (["--sim", "stray=100"],), "look": (["--only", "look"],), "upload": (["--only", "upload"],),
    "old": (["--fault", "a:old", *b("old"), "--only", "upload"],),
    "no upload": ([], SHOW, "no\n"), "no take-off": ([], SHOW, "yes\nno\n"), "no start": ([], SHOW, "yes\nyes\nno\n"),
    "hangs up": ([], SHOW, ""), "deaf unicast": (b("deaf") + ["--unicast"],),
    "jumps": (["--only", "look"], "examples/every_act.choreo"),
    "let through": (["--only", "upload", "--jump", "9", *(word for name in "abc" for word in ("--fault", name + ":memory"))],
                    "examples/every_act.choreo"),
    "early Ctrl-C": ([], SHOW, "", ctrl_c("check:")),
    "Ctrl-C": ([], HIGH, YES, ctrl_c("started")),
    "Ctrl-C on the way up": ([], SHOW, "yes\nyes\n", ctrl_c("taking off")),
    "two Ctrl-C": ([], HIGH, YES, ctrl_c("started", "Ctrl-C: landing")),
    "two Ctrl-C, deaf": (b("deaf") + ["--unicast"], HIGH, YES, ctrl_c("started", "Ctrl-C: landing")),
    "Ctrl-C in a landing": (b("falls:1.2"), HIGH, YES, ctrl_c("; landing all")),
    "two in a landing": (b("falls:1.2"), HIGH, YES, ctrl_c("; landing all", "the landing goes on")),
    "forgets": (["--no-home", *b("forgets")],),  # the packets are those of the show
    **{fault: (b(fault),) for fault in (
        "dead", "outdated", "empty", "unsettled", "astray", "memory", "locked", "deaf", "lost", "unarmed", "stays",
        "stuck", "deafens", "refuses", "wanders:2", "falls:4", "drains:2", "hovers")},
}
RUNS = flights.Flights(AT_ONCE, {**{name: (fly, *given) for name, given in FLIGHTS.items()}, "terminal": (terminal_gone,)})
begun, forget, setUpModule = RUNS.begun, RUNS.forget, RUNS.set_up


def last_heights(rows):
    """By drone the last height in a log, in metres."""
    return {row.split(",")[1]: float(row.split(",")[4]) for row in rows.split("\n")[1:] if "," in row}


@common.wants_program
class Flights(unittest.TestCase):
    def flown(self, name, status, *lines, without=(), ends=None):
        """The output of a flight, after a look at its status, at lines that it has or hasn't, and at how its drones
        end: by name the end of the line that says so."""
        came, out, rows = begun(name).result()
        self.assertEqual(came, status, name + ":\n" + out)
        if "taking off" in out:
            self.assertEqual(rows.rsplit("\n", 2)[1:], ["# fly: kept" if status == 0 else "# fly: not kept", ""], name)
        for line in lines:
            self.assertRegex(out, line, name)
        for line in without:
            self.assertNotIn(line, out, name)
        for drone, end in (ends or {}).items():
            self.assertRegex(out, "simulated: %s at .*%s( after [0-9]+ ms)?\n" % (drone, end), name + ":\n" + out)
        return out, rows

    def test_whole(self):
        on_floor = r", 0.0[0-9]\) m, disarmed, 1 start"
        out, rows = self.flown(
            "whole", 0, "Upload\\? Type yes: ", "uploaded and read back", "Take off\\? Type yes: ", "taking off, 2 drones: ",
            "at the first places: a [0-9]+ mm off, b [0-9]+ mm off", "Start\\? Type yes: ", "started: by one packet to all", "flown: 7.0 s",
            "landed\n", ends={"a": on_floor, "b": on_floor})
        # The show says nothing of strays, so no flight is within them.
        judged = flights.judged(rows, SHOW)
        self.assertEqual((judged[0], "stray is 0, which no drone keeps" in judged[1]), (1, True), judged)

    def test_strays_and_starts_are_found(self):
        # Twelve drones that stray by 40 mm and start within 80 ms: what the log says is within a tenth of that.
        out, rows = self.flown("twelve", 0, "landed\n", "taking off, 12 drones")
        status, said, told = flights.judged(rows, wide_show())
        self.assertEqual((status, "KEPT: " in said), (0, True), said + told)
        apart, far = re.search("by the log's clock, ([0-9]+) ms apart; so late the farthest is d[0-9]+, ([0-9.]+) mm", said).groups()
        # the simulated drones' own starts are as far apart as was asked for, but for what a busy machine adds
        true = max(map(int, re.findall("start after ([0-9]+) ms", out)))
        self.assertTrue(74 <= true <= 110, out)
        self.assertTrue(abs(int(apart) - true) <= true / 10, (said, true))
        self.assertTrue(36 <= float(far) <= 44, said)
        strays = [float(line.split()[4]) for line in said.split("\n")[1:13]]
        self.assertTrue(all(36 <= stray <= 44 for stray in strays), said)
        self.assertTrue(all(height < 0.2 for height in last_heights(rows).values()))

    def test_lossy(self):
        self.flown("lossy", 0, "landed\n")

    def test_unicast(self):
        self.flown("unicast", 0, "started: by packets within [0-9]+ ms; all answered within [0-9]+ ms")
        # three copies, and a drone begins anew at each that it hears
        self.flown("copies", 0, "started: by packets within", ends={"a": "3 starts", "b": "3 starts"})

    def test_places(self):
        # each drone has to rise and to land: the director flies nobody who begins or ends the show on the floor
        self.flown("floor", 1, "not flown: no way up: the show of a, b begins on the floor, and each drone has to be brought up: have it 200 mm "
                   "above its pad there\n", without=["firmware"])
        self.flown("above", 1, "not flown: no way up: a and b come too near: pads 0 mm apart from above, places 0; put their pads",
                   without=["taking off", "uploaded", "firmware"])
        self.flown("passing", 0, "taking off, 2 drones: b a, 3.0 s\n", "landed\n")
        # b falls onto the floor below a: a doesn't land on it, but flies on, and goes to its own pad.
        self.flown("passing falls", 1, r"FAULT: b has tumbled; flying on: a landing of all now isn't shown apart \(a and b\)\n",
                   "NOT JUDGED beside b", without=["flown:"])

    def test_only(self):
        self.flown("look", 0, "firmware", without=["uploaded", "Upload?"])
        self.flown("upload", 0, "uploaded and read back", without=["taking off", "Take off?"])
        self.flown("old", 0, "uploaded and read back")

    def test_nobody_says_yes(self):
        down = r", 0.0[0-9]\) m, disarmed, 0 starts"
        self.flown("no upload", 1, "nobody said yes", without=["uploaded", "taking off"], ends={"a": down, "b": down})
        self.flown("no take-off", 1, "nobody said yes", "uploaded", without=["taking off"], ends={"a": down, "b": down})
        self.flown("no start", 1, "FAULT: nobody said yes; landing all", "landed\n", without=["started"], ends={"a": down, "b": down})
        self.flown("hangs up", 1, "nobody said yes", without=["uploaded"])

    def test_not_flown(self):
        stays = r"\(1.00, 0.00, 0.00\) m, disarmed, 0 starts"
        for fault, said in (("dead", "no answer from b"), ("outdated", "b: protocol 3 is older"), ("empty", "b: 3.30 V, and 3.80 are"),
                            ("unsettled", "b: its estimator isn't settled"), ("astray", "b: stands 500 mm aside"),
                            ("memory", "b: its trajectory memory is 3, and the show's line `memory` names 2"),
                            ("locked", "b: can't be armed"), ("deaf", "b: doesn't answer a broadcast")):
            ends = {"a": r"\(0.00, 0.00, 0.00\) m, disarmed, 0 starts", **({} if fault == "astray" else {"b": stays})}
            # where one doesn't answer none is opened, and so nothing is known of them in the end
            self.flown(fault, 1, said, without=["taking off", "uploaded", "Take off?"], ends={} if fault == "dead" else ends)

    def test_not_uploaded(self):
        for fault, said in (("lost", "not flown: upload: status 8, stopped before its end: b is silent for 2 s.*b, packet 0: write"),
                            ("forgets", "not flown: upload: status 14, .*: b, packet 4: read of 20 bytes at address 0 of memory 2")):
            self.flown(fault, 1, said, without=["taking off", "Take off?"], ends={"a": "disarmed, 0 starts", "b": "disarmed, 0 starts"})

    def test_not_up(self):
        down = r", 0.0[0-9]\) m, disarmed, 0 starts"
        for fault, said in (("unarmed", "not flown: b isn't armed\n"), ("stays", "FAULT: b refuses to take off: status 16; landing all\nlanded"),
                            ("stuck", "FAULT: b is [0-9]+ mm from its way; landing all\nlanded")):
            self.flown(fault, 1, said, without=["started"], ends={"a": down, "b": down})
        self.flown("stray", 1, "FAULT: ([ab] is [0-9]+ mm from its (place|way)|a drone isn't as the next step wants it for long enough); landing all\n"
                   "landed", without=["started"])

    def test_faults_in_flight(self):
        for fault, said, starts, end in (
                ("refuses", "FAULT: b refuses the start with status 16; landing all\nlanded", 1, "disarmed, 0 starts"),
                ("deafens", "FAULT: b didn't take the start; landing all\nlanded", 1, "disarmed, 0 starts"),
                ("wanders:2", "FAULT: b is (at .* m, outside of the room of show and ways|[0-9]+ mm from its curve); landing all", 1, "1 start"),
                ("falls:4", "FAULT: b has tumbled; landing all", 1, "cut, 1 start"),
                ("drains:2", "FAULT: b has 3.00 V left; landing all", 1, "disarmed, 1 start")):
            self.flown(fault, 1, said, without=["flown:"], ends={"a": r", 0.0[0-9]\) m, disarmed, %d start" % starts, "b": end})

    def test_one_that_does_not_land(self):
        # It isn't disarmed, since it would fall.
        self.flown("hovers", 1, "FAULT: b is [0-9]+ mm from its way; landing all\nNOT SEEN TO BE DOWN: b.*\nNOT SEEN TO BE DOWN: b.*\n.*landed, but for b: not disarmed; "
                   "--only land and --only stop still reach them",
                   ends={"a": r", 0.00\) m, disarmed, 1 start", "b": r", 1.00\) m, armed, 1 start"})

    def test_deaf(self):
        self.flown("deaf unicast", 0, "landed\n")

    def test_jumps(self):
        self.flown("jumps", 1, "not flown: line 41, cue 2: a jumps by 0.28 m/s on y, more than 0.03, .* --jump lets it through\n",
                   without=["firmware"])
        # That show's memory has the id 3.
        self.flown("let through", 0, "uploaded and read back")

    def test_interrupted(self):
        self.flown("early Ctrl-C", 1, "Ctrl-C: not flown", without=["taking off"])
        self.flown("Ctrl-C", 1, "Ctrl-C: landing all; once more stops the motors\nlanded\n", without=["flown:", "MOTORS"],
                   ends={"a": r", 0.0[0-9]\) m, disarmed, 1 start", "b": r", 0.0[0-9]\) m, disarmed, 1 start"})
        self.flown("Ctrl-C on the way up", 1, "Ctrl-C: landing all; once more stops the motors\nlanded\n", without=["started"],
                   ends={"a": r", 0.0[0-9]\) m, disarmed, 0 starts", "b": r", 0.0[0-9]\) m, disarmed, 0 starts"})
        # One Ctrl-C means landing, also where the landing goes on: motors stop at the second one alone.
        self.flown("Ctrl-C in a landing", 1, "FAULT: b has tumbled; landing all\n(.*\n)*the landing goes on; Ctrl-C stops all motors\n(.*\n)*landed\n",
                   without=["MOTORS"], ends={"a": "disarmed, 1 start"})
        for name in ("two Ctrl-C", "two Ctrl-C, deaf", "two in a landing"):
            self.flown(name, 60, "MOTORS STOPPED: emergency stop sent to all", without=["landed"], ends={"a": "cut, 1 start", "b": "cut, 1 start"})

    def test_terminal_is_gone(self):
        # What closes a terminal sends more than one signal: all land all the same, and no motor is stopped.
        status, told, rows = begun("terminal").result()
        self.assertEqual((status, told), (1, ""))
        self.assertTrue(all(height < 0.15 for height in last_heights(rows).values()), rows[-200:])
        self.assertLess(float(rows.split("\n")[-3].split(",")[0]), 50)

    def test_refused(self):
        status, out, error = common.run("fly", "--simulate", "examples/crossing.choreo")
        self.assertEqual((status, out + error), (5, "error 5 pair a b cue 1 part 28 of 64\n"))

    def test_words(self):
        for words in (["--sim", "what=3"], ["--sim", "stray=x"], ["--fault", "b:what"], ["--fault", "who:dead"], ["--late", "0"],
                      ["--fault", "b:silent:x"], ["--radio", "x"]):
            self.assertEqual(common.run("fly", "--simulate", *words, SHOW)[0], 2, words)
        self.assertIn("the show has no drone who\n", common.run("fly", "--simulate", "--fault", "who:dead", SHOW)[2])
        self.assertEqual(common.run("fly", SHOW)[0], 2)
        self.assertEqual(common.run("fly", "--fault", "b:dead", "--radio", "x", SHOW)[0], 2)
        self.assertEqual(common.run("fly", "--radio", "no such file", SHOW)[0], 70)


if __name__ == "__main__":
    unittest.main()
