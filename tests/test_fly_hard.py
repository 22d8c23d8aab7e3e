"""./show fly where drones, radios and people do what they seldom do: silence, a dongle that is gone, landings from speed,
pads of other heights, drones that start anew, type-ahead, and Ctrl-C at any time.

The simulated drones are from memory of the firmware, and of people who fly them; no drone was ever flown.
"""
import os
import pty
import re
import resource
import select
import signal
import subprocess
import tempfile
import threading
import time
import unittest

import common
import flights
from hemtoghai.flying import clock, crew
from test_fly import HIGH, PASSING, SHOW, WORDS, b, ctrl_c, fly, last_heights

AT_ONCE = 3
# b flies through below a's place, so that a must not come down there before b has passed.
UNDER = """choreo 1
stray 40
late 50
drone a 0 0 1700000 0
drone b -1500000 0 800000 0
cue 4000
end
cue 4000
b move 1500000 0 800000 0
end
cue 12000
end
"""
# Two that are fast: 2.2 m/s halfway.
FAST = """choreo 1
drone a 0 0 1000000 0
drone b 1500000 0 1000000 0
cue 3000
a move 0 3000000 1000000 0
b move 1500000 -3000000 1000000 0
end
cue 3000
a move 0 0 1000000 0
b move 1500000 0 1000000 0
end
"""
SHORT = HIGH.replace("60000", "3000")
WIDE = SHORT.replace("drone b 1500000", "drone b 3000000")
JUMPY = """choreo 1
drone a 0 0 1000000 0
cue 500
a move 2000000 0 1000000 0
end
cue 1000
end
"""
BELOW = """choreo 1
drone a 0 0 1000000 0
cue 4000
a move 0 0 -500000 0
end
cue 4000
a move 0 0 1000000 0
end
"""
LAYERS = "choreo 1\n" + "".join("drone d%d %d 0 %d 0\n" % (k, 1000000 * k, 3500000 - 320000 * k) for k in range(10)) + "cue 2000\nend\n"
PADS = "a 0 0 0\nb 1000000 0 500000\n"
# b wanders off towards a third one, above whose column nothing keeps it.
BESIDE = "choreo 1\nstray 40\nlate 50\n" + "".join("drone %s %d 0 1000000 0\n" % (name, 1000000 * k) for k, name in enumerate("abc")) + \
         "cue 8000\nend\n"
# Two whose places are above each other, from pads beside each other.
STACK, ASIDE = "choreo 1\ndrone a 0 0 500000 0\ndrone b 0 0 1500000 0\ncue 6000\nend\n", "a 700000 0 0\nb 0 0 0\n"
TWO = ["--sim", "dongles=2", "--late", "300"]
GONE = TWO + ["--silence", "2"]
INT, TERM = signal.SIGINT, signal.SIGTERM


def strays(height=1000000, line="stray 60\nlate 60\n"):
    """A show of two that hover, with lines `stray` and `late`."""
    return "choreo 1\n%sdrone a 0 0 %d 0\ndrone b 1500000 0 %d 0\ncue 4000\nend\n" % (line, height, height)


def with_pads(words, pads, show=SHOW, *more):
    """A flight with a file of pads."""
    with tempfile.TemporaryDirectory() as room:
        path = os.path.join(room, "pads")
        with open(path, "w") as file:
            file.write(pads)
        return fly([*words, "--pads", path], show, *more)


def typed(lines, wait_for, then, show=SHOW, seconds=90):
    """A flight at a terminal of its own, where lines are typed at once when some words have come, and that is looked at
    for two seconds more after others have: the status, or None where it still waits, and the output."""
    master, slave = pty.openpty()
    process = flights.begun(*WORDS, show, stdin=slave)
    os.close(slave)
    os.set_blocking(process.stdout.fileno(), False)
    out, until, sent = "", time.monotonic() + seconds, False
    while process.poll() is None and time.monotonic() < until:
        if select.select([process.stdout], [], [], 0.05)[0]:
            out += (process.stdout.read() or b"").decode()
        if not sent and wait_for in out:
            os.write(master, lines.encode())
            sent = True
        if then in out:
            until = min(until, time.monotonic() + 2)
    status = process.poll()
    process.kill()
    process.wait()
    out += (process.stdout.read() or b"").decode()
    process.stdout.close()
    os.close(master)
    return status, out


def piped():
    """A flight that gets three lines in one write, by a pipe that stays open: its status, and the output."""
    process = flights.begun(*WORDS, SHOW, stdin=subprocess.PIPE)
    os.write(process.stdin.fileno(), b"yes\nyes\nno\n")
    try:
        with process.stdout:
            out = process.stdout.read().decode()
        return process.wait(120), out
    finally:
        process.stdin.close()


def waits_of(out):
    """How many seconds after each thing that a script did something was said."""
    return [float(it) for it in re.findall("simulated: press:.*, and ([0-9.]+) s later something was said", out)]


def pressed(words, *signals, show=HIGH, after=0.0):
    """A flight in which signals come: each as soon as its words have come since the one before, the first so many seconds
    later. The status, the output, and by signal the seconds until something was said."""
    script = [(after if n == 0 else 0, "press:" + name, said) for n, (said, name) in enumerate(signals)]
    # who can't be reached is left, or the flight would go on as long as a battery
    status, out, _ = fly(["--yes", *words], show, "leave\n", script)
    return status, out, waits_of(out)


def going_up(*signals):
    """The same, where the first signal comes 5 s after the words: at take-off two are 3 m high then."""
    return pressed([], *signals, after=5.0)


def blocked(*signals):
    """The same, where the first signal comes 2 s after the words, and a's dongle is gone 0.5 s after the start."""
    return pressed(TWO + ["--sim", "blocks=0.5"], *signals, after=2.0)


def coming_down(*signals):
    """The same with a short show, so that the way down is flown."""
    return pressed([], *signals, show=SHORT)


# What is run before a flight in which `check` takes three seconds from when some words have come: it says how long after a
# signal the first drone is told to land, or what it says instead.
TOLD = """
import atexit
from hemtoghai.flying import clock, crew
sys.path[:0] = [common.SIMULATED]
from cflib import air
TRIGGER, ACTS, at, commanded, pressed = %r, %r, {}, air.Drone.commanded, crew.Watch.pressed
def acts():
    if "pressed" in at:
        at.setdefault("acts", clock.now())
def noted(drone, data, heard=None):
    if data[0] == 8:
        acts()
    return commanded(drone, data, heard)
def hears(text):
    if TRIGGER in text:
        stages.TAKES = 3.0
    if any(words in text for words in ACTS):
        acts()
def presses(watch, number):
    at["pressed"] = clock.now()
    pressed(watch, number)
crew.HEARS.append(hears)
crew.Watch.pressed, air.Drone.commanded = presses, noted
atexit.register(lambda: crew.say("simulated: it acts after %%.2f s" %% (at["acts"] - at["pressed"])))
"""


# What a flight says that acts on a Ctrl-C but a landing: the stage that goes to its end, or, behind that, the way back.
ACTS = "goes to its end first", "all come down"


def while_check_is_slow(trigger, after, show, pads):
    """A flight in which `check` takes three seconds from when some words have come, and so many seconds later Ctrl-C is
    pressed: the status, the output, and the seconds until one is told to land, or a line says that the stage goes to its
    end, or that all go back."""
    with tempfile.TemporaryDirectory() as place:
        room = common.Folder()
        room.place = place
        room.write("pads", pads)
        room.write("show.choreo", show)
        room.write("script", flights.script((after, "press:INT", trigger)))
        words = [*WORDS, "--yes", "--pads", room.path("pads"), "--script", room.path("script"), room.path("show.choreo")]
        done = flights.flown(*words, more=TOLD % (trigger, ACTS))
        found = re.search("simulated: it acts after ([0-9.]+) s", done.stdout)
        return done.returncode, done.stdout, found and float(found.group(1))


def stays(seconds=1):
    """Whether a flight still runs where one hovers in the end and nobody answers, and the output."""
    process = flights.begun(*WORDS, "--yes", *b("hovers"), SHOW, stdin=subprocess.DEVNULL)
    os.set_blocking(process.stdout.fileno(), False)
    out, until = "", time.monotonic() + 150
    while process.poll() is None and time.monotonic() < until:
        if select.select([process.stdout], [], [], 0.05)[0]:
            out += (process.stdout.read() or b"").decode()
        if "NOBODY ANSWERS" in out:
            until = min(until, time.monotonic() + seconds)
    status = process.poll()
    process.kill()
    process.wait()
    process.stdout.close()
    return status, out


def stands_still(after, seconds=3.0):
    """A flight that stands still for some seconds, as on a machine that sleeps, so many seconds after the show, where one
    goes home above the other: its status, and the output."""
    return fly(["--yes"], SHOW, "", [(after, "still:%g" % seconds, "flown:")])[:2]


def limited(words, size):
    """A flight in which no file gets longer than this: its status, the output, and the rows of the log."""
    with tempfile.TemporaryDirectory() as room:
        log = os.path.join(room, "log.csv")
        done = flights.flown(*WORDS, "--yes", "--log", log, *words, SHOW, limits=[(resource.RLIMIT_FSIZE, size)])
        with open(log) as file:
            return done.returncode, done.stdout, file.read()


def unread():
    """A flight whose output nobody reads, so that writing stands still: its status, and the rows of its log."""
    with tempfile.TemporaryDirectory() as room:
        log = os.path.join(room, "log.csv")
        reading, writing = os.pipe()
        os.set_blocking(writing, False)
        try:
            while True:
                os.write(writing, bytes(4096))
        except BlockingIOError:
            os.set_blocking(writing, True)
        process = subprocess.Popen([common.SHOW, "fly", *WORDS, "--yes", "--log", log,
                                    SHOW], cwd=common.TOP, stdin=subprocess.DEVNULL, stdout=writing, stderr=writing)
        os.close(writing)
        status = process.wait(240)
        os.close(reading)
        with open(log) as file:
            return status, file.read()


YES = "yes\nyes\nyes\n"  # before what is answered for one that doesn't come down
FLIGHTS = {
    "silent": (fly, b("silent:0.8"), UNDER), "silent lands": (fly, b("silent:0.8") + ["--on-silence", "land"], UNDER),
    "gap": (fly, b("gap:1") + ["--silence", "1.5"]), "sag": (fly, b("sag:1")), "drains": (fly, b("drains:1")),
    "high": (fly, b("high:0.9")), "riser": (fly, b("riser")), "pads": (with_pads, b("riser"), PADS),
    "stack": (with_pads, [], ASIDE, STACK), "stack no": (with_pads, [], ASIDE, STACK, "yes\nyes\nno\n"),
    "stack gap": (with_pads, ["--fault", "a:gap:5.8"], ASIDE, STACK),
    "stack silent": (with_pads, [*b("refuses"), "--fault", "a:silent:1.9"], ASIDE, STACK, YES + "leave\n"),
    "stack refuses": (with_pads, b("refuses"), ASIDE, STACK), "stack falls": (with_pads, b("drains:0.2"), ASIDE, STACK),
    "auto": (fly, b("auto")), "timeout": (fly, ["--fault", "d9:timeout"], LAYERS), "reboots": (fly, b("reboots")),
    "turned": (fly, b("turned")), "flying": (fly, b("flying")),
    "blocks": (fly, GONE + ["--sim", "blocks=0.5"], FAST), "dies": (fly, GONE + ["--sim", "dies=0.5"], FAST),
    "blocks lands": (fly, GONE + ["--sim", "blocks=0.5", "--on-silence", "land"], FAST),
    "falls at speed": (fly, b("falls:1.4"), FAST),
    "too fast": (fly, [], JUMPY), "low": (fly, [], BELOW), "let through": (fly, ["--accel", "70", "--only", "look"], JUMPY),
    "height 90": (fly, [], strays(90000)), "height 199": (fly, [], strays(199000)), "height 250": (fly, [], strays(250000)),
    "stray": (fly, ["--sim", "stray=75"], strays()), "stray void": (fly, ["--sim", "stray=75", "--stray", "250"], strays()),
    "copies late": (fly, ["--copies", "3", "--late", "500"], strays(line="stray 60\nlate 0\n")),
    "hovers": (fly, b("hovers"), SHOW, YES + "land\nleave\n"), "hovers stop": (fly, b("hovers"), SHOW, YES + "stop\n"),
    "only land": (fly, ["--only", "land"]), "only stop": (fly, ["--only", "stop"]),
    "type-ahead": (typed, "yes\nyes\nyes\n", "Type yes", "Take off? Type yes: "), "one write": (piped,),
    "Ctrl-C blocked": (blocked, ("started", "INT")),
    "two blocked": (blocked, ("started", "INT"), ("Ctrl-C: landing", "INT")),
    "TERM blocked": (blocked, ("started", "TERM")),
    "Ctrl-C going up": (going_up, ("taking off", "INT")),
    "two going up": (going_up, ("taking off", "INT"), ("Ctrl-C: landing", "INT")),
    "TERM": (pressed, [], ("started", "TERM")), "TERM twice": (pressed, [], ("started", "TERM"), ("Ctrl-C: landing", "TERM")),
    "Ctrl-C coming down": (coming_down, ("landing, 2", "INT")),
    "two coming down": (coming_down, ("landing, 2", "INT"), ("the landing goes on; Ctrl-C stops all motors", "INT")),
    "QUIT": (pressed, [], ("started", "QUIT")), "TSTP": (coming_down, ("started", "TSTP")),
    "slow going up": (while_check_is_slow, "taking off", 5.0, HIGH, "a 0 0 0\nb 1500000 0 0\n"),
    "slow coming down": (while_check_is_slow, "flown: ", 1.0, WIDE, "a 1000000 0 0\nb 4000000 0 0\n"),
    "slow and below": (while_check_is_slow, "taking off", 4.4, STACK, ASIDE),
    "senseless": (fly, b("senseless")), "volts": (fly, b("volts")), "loses": (fly, b("loses:1.5"), SHOW, YES + "leave\n"),
    "short": (fly, b("short")), "wreck": (fly, b("falls:4.6"), PASSING), "wanders": (fly, b("wanders:1"), BESIDE),
    "still": (stands_still, 2.0), "still above": (stands_still, 5.5), "hovers unasked": (stays,), "disk": (limited, [], 1500), "unread": (unread,),
}
RUNS = flights.Flights(AT_ONCE, FLIGHTS)
begun, forget, setUpModule = RUNS.begun, RUNS.forget, RUNS.set_up


def nearest(out):
    """How near two came to each other of which one flew, in metres."""
    return float(re.search("of which one flew: [a-z0-9]+ and [a-z0-9]+, ([0-9.]+) m", out).group(1))


def end(out, name):
    """The height of a simulated drone in the end, and what is said of it."""
    found = re.search(r"simulated: %s at \([-0-9.]+, [-0-9.]+, ([-0-9.]+)\) m, (.*)" % name, out)
    return float(found.group(1)), found.group(2)


class Signals(unittest.TestCase):
    """The watch by itself, with signals of this process."""

    def setUp(self):
        for number in (INT, TERM, signal.SIGHUP, signal.SIGQUIT, signal.SIGTSTP, signal.SIGTTIN, signal.SIGTTOU):
            self.addCleanup(signal.signal, number, signal.getsignal(number))
        clock.use(clock.REAL)
        self.watch, self.cut = crew.Watch(), threading.Event()
        self.watch.stop_motors = self.cut.set
        self.watch.flies = True
        self.watch.lands = True

    def press(self, number):
        """A signal to this process."""
        os.kill(os.getpid(), number)

    def test_before_the_end(self):
        # The second one stops the motors whatever the flight does, and the end of the flight says so.
        self.press(INT)
        self.assertFalse(self.cut.wait(0.1))
        self.press(INT)
        self.assertTrue(self.cut.wait(10))
        self.assertRaises(crew.Cut, self.watch.look)
        self.assertRaises(crew.Cut, self.watch.end)

    def test_after_the_end(self):
        # Once all are said to have landed none is stopped any more.
        self.press(INT)
        self.watch.end()
        self.press(INT)
        self.assertFalse(self.cut.wait(0.1))
        self.watch.look()

    def test_other_signals_stop_none(self):
        for number in (INT, TERM, signal.SIGHUP, signal.SIGQUIT, TERM):
            self.press(number)
        self.assertFalse(self.cut.wait(0.1))
        self.watch.end()


@common.wants_program
class Hard(unittest.TestCase):
    def flown(self, name, status, *lines, without=()):
        """The output of a flight, after a look at its status and at lines that it has or hasn't."""
        came, out = begun(name).result()[:2]
        self.assertEqual(came, status, name + ":\n" + out)
        for line in lines:
            self.assertRegex(out, line, name)
        for line in without:
            self.assertNotRegex(out, line, name)
        return out

    # ---- who is silent

    def test_silent(self):
        # The others fly on, and nobody comes down through b's curve.
        out = self.flown("silent", 1, "b is silent for 3.[0-9] s: it flies its curve on, as is assumed, and all fly on", "flown: 20.0 s",
                         "silent, and hovering at the end of its curve, as is assumed: b", "NO ANSWER to the landing: b",
                         "NOT SEEN TO BE DOWN: b; nothing from here reaches them", without=["FAULT"])
        self.assertGreater(nearest(out), 0.8)
        self.assertEqual((end(out, "a")[0], end(out, "b")[0]), (0.0, 0.8))

    def test_silent_and_landed(self):
        # Where a landing is asked for it waits until b has passed below.
        out = self.flown("silent lands", 1, "FAULT: b is silent for 3.[0-9] s; landing all", without=["flown:"])
        self.assertGreater(nearest(out), 0.3)
        self.assertEqual(end(out, "a")[0], 0.0)

    def test_gap(self):
        # Its logs were lost with the link, and are made anew: it is seen to be down, and disarmed.
        out = self.flown("gap", 0, "b is silent for 1.[5-9] s: it flies its curve on", "b is heard again\n", "landed\n", without=["NOT SEEN"])
        self.assertIn("disarmed", end(out, "b")[1])

    def test_dongle(self):
        for name in ("blocks", "dies"):
            out = self.flown(name, 1, "a is silent", "flown: 6.0 s", "NOT SEEN TO BE DOWN: a; nothing from here reaches them")
            self.assertEqual((end(out, "b")[0], "disarmed" in end(out, "b")[1]), (0.0, True), name)
        out = self.flown("blocks lands", 1, "FAULT: a is silent for 2.[0-9] s; landing all", without=["flown:"])
        self.assertEqual(end(out, "b")[0], 0.0)

    def test_above_each_other(self):
        # A landing straight down would come down on a: before the start all go back, and in the show they fly on to the way
        # down.
        back = r"a landing of all isn't shown apart \(a and b\): all come down the way that they came\nlanded\n"
        for name, status, words in (
                ("stack", 0, "flown: 6.0 s.*\n(.*\n)*landed\n"), ("stack no", 1, "FAULT: nobody said yes; " + back),
                ("stack refuses", 1, "FAULT: b refuses the start with status 16; a landing of all now isn't shown apart [(]a and b[)]: all go "
                 "back to their first places(, which is NOT JUDGED: `check` didn't answer in time)?\nFAULT: b refuses the start with status 16; " + back),
                ("stack falls", 1, r"FAULT: b has 3.00 V left; flying on: a landing of all now isn't shown apart \(a and b\)\n")):
            out = self.flown(name, status, words, without=["THIS LANDING"])
            self.assertGreater(nearest(out), 0.6, name)
            self.assertEqual((end(out, "a")[0], end(out, "b")[0]), (0.0, 0.0), name)

    def test_who_did_not_hear_may_be_where_it_was(self):
        # The lower drone's link is gone for three seconds when the way down begins: it doesn't hear that it is to go
        # aside, and the upper one doesn't come down on it.
        out = begun("stack gap").result()[1]
        self.assertRegex(out, "FAULT: a doesn't answer(.*\n)*landed\n")
        self.assertNotIn("THIS LANDING", out)
        self.assertGreater(nearest(out), 0.6, out)

    def test_a_way_home_ends_where_one_does_not_answer(self):
        # b refuses the start, and a, below it, goes silent just before all go home: the upper one's landing isn't taken for
        # judged.
        out = self.flown("stack silent", 1, "FAULT: b refuses the start", "(all come down the way that they came\na doesn't answer.*\n)?"
                         "NEITHER A LANDING NOR A WAY DOWN is shown apart: a and b\n(.*\n)*THIS LANDING ISN'T SHOWN APART: a and b\n")
        self.assertIn("end: a: NOT KNOWN: silent", out)

    def test_a_machine_that_stands_still(self):
        # Nobody is heard in that time, and nobody is taken for late, or for where it isn't.
        for name in ("still", "still above"):
            status, out = begun(name).result()
            self.assertIn(status, (0, 1), out)
            self.assertNotIn("THIS LANDING", out)
            self.assertGreater(nearest(out), 0.6, out)
            self.assertEqual((end(out, "a")[0], end(out, "b")[0]), (0.0, 0.0), out)

    # ---- before take-off

    def test_heights(self):
        self.flown("high", 1, "b: is 900 mm higher than its pad, it estimates", without=["Upload"])
        self.flown("riser", 1, "b: is 500 mm higher than its pad", without=["Upload"])
        out = self.flown("pads", 0, "landed\n", without=["hit what"])
        self.assertEqual(end(out, "b")[0], 0.5)
        for name, more in (("height 90", 110), ("height 199", 1)):
            self.flown(name, 1, "not flown: no way up: a: its place is [0-9]+ mm above its pad, and a take-off needs 200: have it %d mm" % more,
                       without=["firmware"])
        self.flown("height 250", 0, "landed\n")

    def test_looks(self):
        self.flown("turned", 1, "b: looks 90 degrees off: turn its nose to yaw 0", without=["Upload"])
        self.flown("flying", 1, "b: says that it flies", without=["Upload"])

    def test_what_check_warns_of(self):
        # Before the link is opened.
        self.flown("too fast", 1, "not flown: line 3, cue 1: a needs up to 60.12 m/s.2 on x, more than 10, .*--accel lets it through",
                   without=["firmware"])
        self.flown("low", 1, "not flown: line 3, cue 1: a goes below z 0; --low lets it through", without=["firmware"])
        self.flown("let through", 0, "firmware")

    def test_arming(self):
        self.flown("timeout", 0, "landed\n", without=["no longer armed"])
        out = self.flown("auto", 0, "arm by themselves, and are as they were switched on: b", "landed\n", without=["STILL ARMED"])
        self.assertIn("armed", end(out, "b")[1])

    def test_started_anew(self):
        # Between the read-back and take-off: its memory is zero.
        self.flown("reboots", 1, "not flown: (b doesn't hold the show any more|b is silent|b doesn't answer|upload: status 14)",
                   without=["taking off", "FAULT"])

    # ---- in flight

    def test_battery(self):
        # A sample below the least is thrust; a battery that stays there is empty.
        self.flown("sag", 0, "landed\n", without=["FAULT"])
        self.flown("drains", 1, "FAULT: b has 3.00 V left; landing all")

    def test_landing_from_speed(self):
        # a is carried on by what was judged, at most.
        out = self.flown("falls at speed", 1, "FAULT: b has tumbled; landing all", without=["isn't shown apart [(]a and b"])
        self.assertEqual(end(out, "a")[0], 0.0)

    def test_promise(self):
        # The show's own stray is where all land; a larger one is an option, and it says since when the promise is void.
        self.flown("stray", 1, "FAULT: [ab] is 7[0-9] mm from its curve(; b is 7[0-9] mm from its curve)?; landing all", without=["flown:"])
        self.flown("stray void", 0, "the promise is for 60 mm of stray: from there to 250 mm it is void",
                   "OUTSIDE OF THE PROMISE since [0-9.]+ s: [ab] is off its curve, and the show's `stray` is 60\n", "flown:",
                   "THE PROMISE WAS VOID in this flight")
        self.flown("copies late", 0, "NOTHING IS PROMISED of drones that are late",
                   "OUTSIDE OF THE PROMISE: starts went out within [0-9]+ ms, and the show's `late` is 0")

    # ---- the crew

    def test_type_ahead(self):
        # Three lines at the first question: it answers that one alone, and waits at the next.
        self.flown("type-ahead", None, "uploaded", "Take off[?] Type yes: $", without=["taking off"])
        # lines that come by a pipe at once are taken one by one
        self.flown("one write", 1, "nobody said yes; landing all", without=["started"])

    def test_one_that_hovers(self):
        self.flown("hovers", 1, "b: type land, stop or leave: b: type land, stop or leave: landed, but for b: not disarmed")
        out = self.flown("hovers stop", 60, "b: type land, stop or leave: MOTORS STOPPED")
        self.assertIn("cut", end(out, "b")[1])

    def test_only(self):
        self.flown("only land", 0, "heard: a, b\ntold to land, in 5 s", without=["firmware"])
        self.flown("only stop", 60, "Drones in the air fall[.] Type yes: MOTORS STOPPED", without=["firmware"])

    def test_no_numbers(self):
        # A drone whose estimate is no number isn't flown, and in flight is never counted as down.
        for name in ("senseless", "volts"):
            self.flown(name, 1, "b: sends a place, a yaw or a voltage that is no number|b: sends no samples", without=["Upload[?]", "taking off"])
        out = self.flown("loses", 1, "FAULT: b sends a place that is no number; landing all", "NOT SEEN TO BE DOWN: b",
                         "end: a: down, it says, .*disarmed", "end: b: NOT KNOWN: sends a place that is no number, and was at .* [0-9.]+ s ago: IT MAY BE IN THE AIR")
        self.assertIn("armed", end(out, "b")[1])

    def test_answers_that_are_cut_off(self):
        # They answer nothing: a line, and no traceback.
        self.flown("short", 1, "b doesn't answer a question on port [0-9]+", without=["Traceback", "taking off"])

    def test_where_it_is_and_not_on_its_curve(self):
        # b falls into a's column: a doesn't land on it, but goes to its own pad.
        out = self.flown("wreck", 1, "FAULT: b has tumbled; flying on: a landing of all now isn't shown apart [(]a and b[)]",
                         "NOT JUDGED beside b", "landing, 1 drone: a")
        self.assertRegex(out, r"end: a: down, it says, at [(]-?0[.]0[0-9], -?0[.]0[0-9], 0[.]0[0-9][)]")
        # b leaves its curve towards c: a landing is judged from where b is.
        out = self.flown("wanders", 1, "FAULT: b is [0-9]+ mm from its curve; (landing all|flying on: a landing of all now isn't shown apart [(]b and c[)])")

    def test_never_ends_in_the_air(self):
        status, out = begun("hovers unasked").result()
        self.assertEqual(status, None, out)
        self.assertIn("NOBODY ANSWERS: b are told to land every 5 s", out)

    def test_logs(self):
        # A log that can't be written is refused before the link; a disk that is full later changes nothing but the log.
        status, out, error = common.run("fly", "--simulate", "--yes", "--log", "/dev/full", SHOW)
        self.assertEqual((status, "firmware" in out, "No space left" in error), (70, False, True), out + error)
        status, out, error = common.run("fly", "--simulate", "--yes", "--log", "/no/such/folder/log", SHOW)
        self.assertEqual((status, "firmware" in out), (70, False), out + error)
        status, out, rows = begun("disk").result()
        self.assertEqual(status, 0, out)
        self.assertRegex(out, "THE LOG CAN'T BE WRITTEN any more: .*; all else goes on\n")
        self.assertNotIn("places are in", out)
        self.assertLessEqual(len(rows), 1500)

    def test_output_that_nobody_reads(self):
        status, rows = begun("unread").result()
        self.assertEqual(status, 0)
        self.assertTrue(rows and all(height < 0.15 for height in last_heights(rows).values()), rows[-200:])

    def test_options_that_are_no_numbers(self):
        for word in ("jump", "silence", "stray", "accel", "battery", "wander"):
            for number in ("nan", "inf", "-1", "0", "1e99"):
                status, _, error = common.run("fly", "--simulate", "--" + word, number, SHOW)
                self.assertEqual(status, 2, (word, number))
                self.assertIn("a number from", error)
        for words in (("--sim", "stray=nan"), ("--sim", "speed=inf"), ("--fault", "b:silent:nan"), ("--copies", "1.5"), ("--ceiling", "nan")):
            self.assertEqual(common.run("fly", "--simulate", *words, SHOW)[0], 2, words)

    def test_small(self):
        # Millimetres for micrometres: all of it within 40 mm.
        with tempfile.TemporaryDirectory() as room:
            path = os.path.join(room, "show.choreo")
            with open(path, "w") as file:
                file.write("choreo 1\ndrone a 0 0 1000 0\ncue 2000\na move 1000 0 1000 0\nend\n")
            status, out, _ = common.run("fly", "--simulate", "--yes", path)
        self.assertEqual((status, "not flown: all places lie within 40 mm of the origin" in out), (1, True), out)

    def test_other_signals(self):
        # Ctrl-\\ lands as SIGTERM does; Ctrl-Z does nothing.
        self.flown("QUIT", 1, "Ctrl-C: landing all(.*\n)*landed\n", without=["MOTORS"])
        self.flown("TSTP", 0, "flown: 3.0 s(.*\n)*landed\n", without=["Ctrl-C"])

    def test_acts_within_a_second(self):
        landed = "Ctrl-C: landing all; once more stops the motors(.*\n)*landed\n"
        for name, status, words in (
                ("Ctrl-C blocked", 1, "Ctrl-C: landing all"), ("two blocked", 60, "MOTORS STOPPED"), ("TERM blocked", 1, "Ctrl-C: landing all"),
                ("Ctrl-C going up", 1, landed), ("two going up", 60, "MOTORS STOPPED"),
                ("TERM", 1, landed), ("TERM twice", 1, landed),
                ("Ctrl-C coming down", 0, "the landing goes on; Ctrl-C stops all motors\nlanded\n"),
                ("two coming down", 60, "the landing goes on; Ctrl-C stops all motors\nMOTORS STOPPED")):
            out = self.flown(name, status, words, without=["\nlanded"] if status == 60 else ["MOTORS"])
            waits = begun(name).result()[2]
            self.assertTrue(waits and waits[0] < 1, (name, waits))
            if status == 60:  # the line comes half a second after the packets
                self.assertTrue(len(waits) > 1 and waits[1] < 1.2, (name, waits))
                self.assertEqual(end(out, "b")[1][:3], "cut", name)
        for name in ("Ctrl-C blocked", "TERM blocked"):
            out = self.flown(name, 1)
            self.assertEqual(end(out, "b")[0], 0.0, name)


    def test_check_is_slow(self):
        # A landing on the ways is judged beforehand: it doesn't wait for `check`.
        for name, words in (("slow going up", "Ctrl-C: landing all; once more stops the motors\n"),
                            ("slow coming down", "Ctrl-C: landing all; once more stops the motors\n"),
                            ("slow and below", "Ctrl-C")):
            status, out, wait = begun(name).result()
            self.assertEqual(status, 1, out)
            self.assertRegex(out, words, name)
            self.assertTrue(wait is not None and wait < 1, (name, wait, out))
        for name in ("slow going up", "slow coming down"):
            self.assertNotIn("goes to its end first", begun(name).result()[1], name)


if __name__ == "__main__":
    unittest.main()
