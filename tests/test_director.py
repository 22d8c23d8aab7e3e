"""The flight director as a process: its frames, what `direct` says to a small flight, and flights in which it dies, lies,
hangs or takes the ways for no flight."""
import io
import os
import re
import struct
import tempfile
import types
import unittest
import unittest.mock

import common
import flights
from hemtoghai.flying import bridge, clock, director, home, watched, ways
from hemtoghai.flying.crazyradio import Trouble
from hemtoghai.flying.director import Cause, Ended, Noted, Order, Over, To
from test_fly import HIGH, WORDS, last_heights
from test_fly_hard import ASIDE, STACK

UP = b"choreo 1\nstray 100\ndrone a 0 0 0 0\ncue 2000\na move 0 0 1000000 0\nend\n"
SHOW = b"choreo 1\nstray 50\nlate 20\ndrone a 0 0 1000000 0\ncue 1000\nend\n"
DOWN = b"choreo 1\nstray 100\ndrone a 0 0 1000000 0\ncue 2500\na move 0 0 0 0\nend\n"
# At first down by 100 mm and then up; down to 100 mm below the pad, and then up to it.
FALLS_FIRST = (UP.replace(b"a move", b"a move 0 0 -100000 0\nend\ncue 2000\na move", 1), SHOW, DOWN)
RISES_LAST = (UP, SHOW, DOWN.replace(b"a move", b"a move 0 0 -100000 0\nend\ncue 2000\na move", 1))
# What is run before a flight whose director does something else so many seconds after some bytes have come from it.
SPOILT = """
import signal
from hemtoghai.flying import clock, director
WHAT, MARK, AFTER = %r, %r, %r
take, seen, tasks = director.Director.take, [], []
def spoil(it):
    clock.wait(AFTER)
    if WHAT == "lies":
        return take(it, b"\\xFF")
    it.was_told = True
    os.kill(it.process.pid, signal.SIGKILL if WHAT == "dies" else signal.SIGSTOP)
    os.waitid(os.P_PID, it.process.pid, (os.WEXITED if WHAT == "dies" else os.WSTOPPED) | os.WNOWAIT)
def taken(it, data):
    seen.append(data)
    take(it, data)
    if MARK in b"".join(seen) and not tasks:
        tasks.append(clock.Task(lambda: spoil(it)))
director.Director.take = taken
"""
STARTED, RISEN = b"\x02\x04", b"\x01\x00\x01"


def spoilt(what, mark, after, show, pads=None):
    """A flight whose director dies, lies or hangs so many seconds after bytes of it: the status, the output and the
    log."""
    with tempfile.TemporaryDirectory() as place:
        room = common.Folder()
        room.place = place
        room.write("show.choreo", show)
        words = [*WORDS, "--yes", "--log", room.path("log.csv"), room.path("show.choreo")]
        if pads:
            room.write("pads", pads)
            words += ["--pads", room.path("pads")]
        done = flights.flown(*words, more=SPOILT % (what, mark, after), timeout=300)
        with open(room.path("log.csv")) as rows:
            return done.returncode, done.stdout, rows.read()


FLIGHTS = {
    "dies": (spoilt, "dies", STARTED, 1.0, HIGH), "lies": (spoilt, "lies", STARTED, 1.0, HIGH),
    "hangs": (spoilt, "hangs", STARTED, 1.0, HIGH), "dies going up": (spoilt, "dies", RISEN, 4.0, HIGH),
    "dies above": (spoilt, "dies", RISEN, 5.2, STACK, ASIDE),
    "dies in a stack": (spoilt, "dies", STARTED, 1.0, STACK, ASIDE),
}
# Frames of the director, as docs/PROMISES.md has them.
SAID = [
    ("01 02 00", To(2, Order(director.ARM))),
    ("01 00 01 e8 03 d0 07 00 00", To(0, Order(director.RISE, (1000,), 2000))),
    ("01 01 02 d0 07 ff ff e8 03 7c fc 70 11 01 00", To(1, Order(director.GO_TO, (2000, -1, 1000, -900), 70000))),
    ("01 01 03 00 00 a0 0f 00 00", To(1, Order(director.SINK, (0,), 4000))),
    ("02 04 01", To(None, Order(director.START, group=1))),
    ("01 02 07 01", To(2, Order(director.GROUP, group=1))),
    ("02 05", To(None, Order(director.HALT))),
    ("03 01 04", Noted(1, director.LATE)),
    ("03 02 06", Noted(2, director.OUTSIDE)),
    ("03 04 07", Noted(4, director.UNCOVERED)),
    ("04 03", Over(True, True)),
    ("04 01", Over(True, False)),
    ("04 00", Over(False, False)),
    ("05 03 01 02 2c 01", Cause(3, 1, 2, 300)),
    ("45 13", Ended(19)),
]
# Causes why three shows are no flight: the cause, the way or the seam, the drone and the cue.
CAUSES = [
    ((0, 1, 0, 0), "a isn't the drone of the way down"),
    ((1, 2, 1, 0), "b doesn't end its way down where its way up"),
    ((2, 0, 1, 4), "b doesn't rest on its way up, in stage 5"),
    ((3, 1, 0, 0), "a has no move down"),
    ((4, 0, 0, 0), "a doesn't leave its pad straight up"),
    ((5, 0, 0, 0), "a may stand farther from its pad"),
    ((6, 0, 0, 0), "a has another ellipsoid on its way up than in the show"),
    ((6, 1, 0, 0), "a has another ellipsoid on its way down than in the show"),
    ((7, 0, 0, 0), "a cause 7"),
    ((1, 9, 9, 0), "a drone cause 1"),
]
GROUPED = To(0, Order(director.GROUP, group=1))
START = To(None, Order(director.START, group=1))
RUNS = flights.Flights(3, FLIGHTS)
begun, forget, setUpModule = RUNS.begun, RUNS.forget, RUNS.set_up


class Distances(unittest.TestCase):
    def test_who_is_far(self):
        # What ./show fly says of a drone's place goes by the same distances.
        it = types.SimpleNamespace(names=["a"], aims={0: (0, 0, 1000)}, is_fresh=lambda k: True, flags=lambda k: 0,
                                   options=types.SimpleNamespace(at_start=50),
                                   ways=types.SimpleNamespace(rules=types.SimpleNamespace(stray=80)))
        for aside, far, words in ((28, [], None), (29, ["a"], "a is 50 mm from its place")):
            it.at = lambda k: [aside, aside, 1000 + aside]
            self.assertEqual(watched.Watched.far_from(it, it.aims, 50), far)
            self.assertEqual(bridge.Bridge.unfit(it, 0, 0), words)


class Notes(unittest.TestCase):
    def test_who_is_outside(self):
        # Of a drone outside of the room the crew is told where it is, and all land, in the show too.
        state = types.SimpleNamespace(where=lambda: (2.301, -0.004, 1.0))
        for in_show in (False, True):
            it = types.SimpleNamespace(names=["a", "b"], in_show=in_show,
                                       fleet=types.SimpleNamespace(states=[None, state]))
            with self.assertRaises(Trouble) as raised:
                bridge.Bridge.note(it, 1, director.OUTSIDE)
            self.assertEqual(str(raised.exception),
                             "b is at (2.30, -0.00, 1.00) m, outside of the room of show and ways")


    def page(self):
        """The faults of notes by their numbers, and whether each is grave in the steps before and after the show, as
        docs/PROMISES.md has them."""
        with open(os.path.join(common.TOP, "docs", "PROMISES.md")) as file:
            text = file.read()
        frame, = re.findall(r"(?m)^\| 3 \| a note \| .*; fault: (.*) \|$", text)
        rows = text[text.index("| Fault | Noted | Grave |"):].split("\n\n")[0].split("\n")[2:]
        grave = {row.split("|")[1].strip(): row.split("|")[3].strip().startswith("yes") for row in rows}
        return dict(row.split(" ") for row in frame.split(", ")), grave

    def test_all_of_the_page(self):
        faults, grave = self.page()
        self.assertEqual(len(faults), 8)
        self.assertEqual(list(faults.values()), list(director.FAULTS))
        self.assertEqual(set(faults.values()), set(grave))
        for number, word in faults.items():
            name = {"lost": "WRONG"}.get(word, word.upper())
            self.assertEqual(director.said_by(io.BytesIO(bytes([3, 0, int(number)]))), Noted(0, getattr(director, name)))

    def test_what_is_done(self):
        # On the ways each grave fault has all land, in words that name its drone, where it has one. So does a landing that
        # is waited for: what is flown then isn't for the director to choose. Who is silent is for the bridge to judge.
        faults, grave = self.page()
        state = types.SimpleNamespace(where=lambda: (0.0, 0.0, 1.0))
        for number, word in faults.items():
            it = types.SimpleNamespace(names=["a", "b"], in_show=False, refusals={}, to_arm=set(), wrong_with=lambda k: None,
                                       far_words=lambda k: "b is 200 mm from its way", unfit=lambda k, flags: None,
                                       is_news=lambda k: True,
                                       fleet=types.SimpleNamespace(states=[None, state]))
            if word == "silent":
                self.assertIsNone(bridge.Bridge.note(it, 1, int(number)))
                continue
            self.assertEqual(grave[word], word != "uncovered")
            with self.assertRaises(Trouble, msg=word) as raised:
                bridge.Bridge.note(it, 2 if word == "uncovered" else 1, int(number))
            self.assertRegex(str(raised.exception), "^the flight director waits with the landing: none of its windows covers it$"
                             if word == "uncovered" else "^b ", word)


class Leads(unittest.TestCase):
    def of(self, leads, **more):
        """What watches two drones of which b has tumbled, while the director leads or not."""
        it = types.SimpleNamespace(leads=leads, flying=False, silent=set(), out=set(), failed=set(), all=[0, 1], listen=lambda: [],
                                   watch=types.SimpleNamespace(look=lambda: None), is_out=lambda k: k == 1,
                                   wrong_with=lambda k: "b has tumbled" if k == 1 else None, **more)
        for name in ("is_news", "faults", "noted", "raise_all"):
            setattr(it, name, types.MethodType(getattr(watched.Watched, name), it))
        return it

    def test_who_finds_faults(self):
        # Until the first fault it is the director's to find them, and from then on Python's: who is out is said once.
        self.assertEqual((self.of(True).noted(), self.of(False).noted()), ([], ["b has tumbled"]))
        it = self.of(False)
        self.assertEqual((it.noted(), it.noted(), it.out, it.failed), (["b has tumbled"], [], {1}, {1}))

    def test_a_fault_that_was_said(self):
        # It is no news any more, but where the drone doesn't fly any more.
        it = self.of(False)
        self.assertEqual([it.is_news(k) for k in (0, 0, 1, 1)], [True, False, True, True])

    def test_a_director_that_reads_nothing(self):
        # Nobody else finds a fault meanwhile.
        for is_free in (True, False):
            it = self.of(True, told_at=clock.now() + 10, fleet=types.SimpleNamespace(states=[]),
                         director=types.SimpleNamespace(is_free=lambda: is_free))
            with self.assertRaises(Trouble) as raised:
                bridge.Bridge.tell(it)
            self.assertEqual(str(raised.exception), "b has tumbled")


class Landing(unittest.TestCase):
    def test_one_that_is_ordered(self):
        # The director orders it of both, or says that it waits with it, that it has ended, or nothing: then it begins at
        # once without the director.
        lands = [To(k, Order(director.SINK, (0,), 4001)) for k in range(2)]
        for frames, seconds, words in ((lands, 4.001, []), ([Noted(0, director.ASTRAY), *lands], 4.001, []),
                                       ([Noted(2, director.UNCOVERED), *lands], None, ["it begins without it"]),
                                       ([lands[0], Ended(8)], None, ["it begins without it"]),
                                       ([lands[0], None, lands[1]], None, ["it begins without it"])):
            said, heard, waiting = [], [], list(frames)
            it = types.SimpleNamespace(
                ways=types.SimpleNamespace(floors=[0, 0], descent=4001), begun=0, all=[0, 1], out=set(), deaf=set,
                up=lambda drones: drones, seconds_down=lambda drones: 3.0,
                director=types.SimpleNamespace(is_well=True, hear=heard.append, wait=lambda seconds: waiting.pop(0)))
            it.is_landing = lambda order: home.Home.is_landing(it, order)
            with unittest.mock.patch.object(home, "say", said.append):
                self.assertEqual(home.Home.landing_ordered(it), seconds)
            self.assertEqual([line.split(": ")[1] for line in said], words)
            self.assertEqual(heard, [b"\x04\x01"])


class Frames(unittest.TestCase):
    def test_what_is_said(self):
        for data, said in SAID:
            stream = io.BytesIO(bytes.fromhex(data))
            self.assertEqual((director.said_by(stream), stream.read()), (said, b""), data)
        for data in ("", "00", "06", "01 00 07", "02 09", "01 00 01 e8 03", "03 01", "03 01 08", "05 03 01 02 2c", "45"):
            with self.assertRaises((struct.error, KeyError), msg=data):
                director.said_by(io.BytesIO(bytes.fromhex(data)))

    def test_causes(self):
        for numbers, words in CAUSES:
            self.assertIn(words, ways.words_of(Cause(*numbers), ["a", "b"]))

    def test_what_is_told(self):
        self.assertEqual(director.clock_frames(0), b"")
        self.assertEqual(director.clock_frames(70000).hex(" "), "01 ff ff 01 71 11")
        frame = director.sample(1, 299.6, [2000.4, -1, -99999], director.READY | director.DOWN)
        self.assertEqual(frame.hex(" "), "02 01 2c 01 d0 07 ff ff 01 80 09")
        self.assertEqual((director.answer(1, 5), director.signal(director.STOP)), (b"\x03\x01\x05", b"\x04\x02"))


class Rests(unittest.TestCase):
    def test_who_ends_it(self):
        # What the director says ends it at once, a new sample after 20 ms, and nothing after 50 ms.
        for says, stirs, seconds in ((0.005, None, 0.005), (0.030, None, 0.030), (None, 0.005, 0.02), (None, 0.030, 0.030),
                                     (0.010, 0.005, 0.010), (None, None, 0.05), (0.060, 0.070, 0.05)):
            common.begin_clock()
            it = types.SimpleNamespace(said=clock.Queue(), has_news=False)

            def later(after, call):
                def run():
                    clock.wait(after)
                    call()
                if after is not None:
                    clock.Task(run)
            later(says, lambda: it.said.put(Over(True, True)))
            later(stirs, lambda: director.Director.stir(it))
            begin = clock.now()
            director.Director.rest(it, 0.02, 0.05)
            self.assertAlmostEqual(clock.now() - begin, seconds, 4, (says, stirs))
            self.assertFalse(it.has_news)
        clock.used().end()
        clock.use(clock.REAL)


@common.wants_program
class Process(unittest.TestCase):
    def setUp(self):
        clock.use(clock.REAL)

    def said(self, events, texts=(UP, SHOW, DOWN)):
        """What the director says to events, each a list of frames, to its end."""
        words = ["--near", "100", "--at", "50", "--descent", "4001", "--silence", "3000"]
        it, out = director.Director(words, texts), []
        try:
            for frames in events:
                it.hear(frames)
            it.process.stdin.close()
            while not out or not isinstance(out[-1], Ended):
                out.append(it.wait(30))
            return out
        finally:
            it.kill()

    def test_a_flight(self):
        def at(z, flags):
            return director.sample(0, 0, [0, 0, z], flags | director.SURE)
        ready, armed, down = director.READY, director.ARMED | director.READY, director.DOWN
        go, clock = director.signal(director.GO), director.clock_frames
        pad = [at(0, ready | down), director.answer(0, 0)]
        up = [*pad, go, at(0, armed | down), clock(2000), at(1000, armed), clock(1000), at(1000, armed), go]
        risen = [GROUPED, To(0, Order(director.ARM)), To(0, Order(director.RISE, (1000,), 2000)), START]
        show = [clock(500), at(1000, armed), clock(500), at(1000, armed), clock(2500), at(0, armed | down), clock(1000),
                at(0, armed | down), at(0, down)]
        flown = [To(0, Order(director.SINK, (0,), 2500)), To(None, Order(director.DISARM)), Over(True, True), Ended(0)]
        self.assertEqual(self.said(up + show), risen + flown)
        lands = [To(0, Order(director.SINK, (0,), 4001)), To(None, Order(director.HALT)), Over(False, False), Ended(20)]
        stopped = [*up, director.signal(director.LAND), director.signal(director.STOP), at(0, down)]
        self.assertEqual(self.said(stopped), risen + lands)
        refused = [*risen, Noted(0, director.REFUSED), lands[0], Ended(8)]
        self.assertEqual(self.said([*up, director.answer(0, 5)]), refused)

    def test_bounds_are_distances(self):
        # Within --near and --at on each axis, and farther in a straight line: it doesn't arm, and doesn't start.
        def at(z, flags, aside):
            return director.sample(0, 0, [aside, aside, z + aside], flags | director.SURE)
        ready, armed = director.READY | director.DOWN, director.ARMED | director.READY
        go, clock = director.signal(director.GO), director.clock_frames
        risen = [GROUPED, To(0, Order(director.ARM)), To(0, Order(director.RISE, (1000,), 2000))]
        for near, high, orders in ((57, 28, [*risen, START]), (58, 0, [GROUPED]), (57, 29, risen)):
            said = self.said([at(0, ready, near), director.answer(0, 0), go, at(0, armed | director.DOWN, near),
                              clock(2000), at(1000, armed, high), clock(1000), at(1000, armed, high), go])
            self.assertEqual([it for it in said if isinstance(it, To)][:4], orders, (near, high))

    def test_who_has_answered(self):
        # Nobody is armed before it has answered that it is in the group: after the order, which the first event brings.
        pad = director.sample(0, 0, [0, 0, 0], director.READY | director.DOWN | director.SURE)
        go, well, arms = director.signal(director.GO), director.answer(0, 0), [To(0, Order(director.ARM))]
        for events, more in (([pad, well, go], arms), ([pad, go], []), ([well, pad, go], []), ([pad, go, well], []),
                             ([well, pad, well, go], arms), ([pad, go, well, go], arms)):
            self.assertEqual(self.said(events), [GROUPED, *more, Ended(8)], events)

    def test_who_leaves_its_way(self):
        # The way up may be left by 100 mm, and by 101 mm for less than 300 ms: on the way, and where the start is waited
        # for. A sample from before the step, and one that comes late, are taken at their own instants. An order may be
        # 300 ms late: so long before its end the way is at 987.90 mm.
        def at(z, flags, age=0):
            return director.sample(0, age, [0, 0, z], flags | director.SURE)
        armed, clock = director.ARMED | director.READY, director.clock_frames
        up = [at(0, director.READY | director.DOWN), director.answer(0, 0), director.signal(director.GO),
              at(0, armed | director.DOWN)]
        risen = [GROUPED, To(0, Order(director.ARM)), To(0, Order(director.RISE, (1000,), 2000))]
        lands = [Noted(0, director.ASTRAY), To(0, Order(director.SINK, (0,), 4001))]
        high = [clock(2000), at(1000, armed), clock(1000)]
        for name, events, more in (
                ("rises", [clock(20), at(100, armed), clock(300), at(100, armed)], []),
                ("leaps", [clock(20), at(101, armed), clock(300), at(150, armed)], lands),
                ("leaps for less", [clock(20), at(101, armed), clock(299), at(150, armed)], []),
                ("seen late", [clock(20), at(101, armed), clock(400), at(150, armed, 101)], []),
                ("seen later", [clock(20), at(101, armed), clock(400), at(150, armed, 100)], lands),
                ("seen before", [clock(20), at(1200, armed, 21), clock(300), at(150, armed)], []),
                ("out of the room", [clock(20), at(5000, armed, 21), at(150, armed)],
                 [Noted(0, director.OUTSIDE), *lands[1:]]),
                ("hovers", [*high, at(1100, armed), clock(300), at(900, armed)], []),
                ("is late", [*high, at(888, armed), clock(300), at(888, armed)], []),
                ("sinks", [*high, at(887, armed), clock(300), at(887, armed)], lands)):
            self.assertEqual(self.said([*up, *events]), [*risen, *more, Ended(8)], name)

    def test_no_flight(self):
        def judged(words, *texts):
            return director.judged(director.Director(words, texts))
        self.assertEqual(judged(["--near", "100"], UP, SHOW, DOWN), [Ended(8)])
        self.assertEqual(judged(["--near", "101"], UP, SHOW, DOWN)[-1], Ended(19))
        self.assertEqual(judged([], UP, SHOW.replace(b"1000000", b"900000"), DOWN)[-1], Ended(19))
        self.assertEqual(judged([], UP, b"choreo 2\n", DOWN), [Ended(3)])

    def test_another_ellipsoid(self):
        # Ways that were judged for drones of 60 mm aren't ways of drones of 120 mm and 300 mm, nor the other way round.
        def judged(*texts):
            return director.judged(director.Director(["--near", "100"], texts))
        small = [text.replace(b"choreo 1\n", b"choreo 1\nellipsoid 60 60\n") for text in (UP, SHOW, DOWN)]
        self.assertEqual(judged(*small), [Ended(8)])
        self.assertEqual(judged(small[0], SHOW, DOWN), [Cause(6, 0, 0, 0), Ended(19)])
        self.assertEqual(judged(UP, SHOW, small[2]), [Cause(6, 1, 0, 0), Ended(19)])
        self.assertEqual(judged(UP, small[1], DOWN), [Cause(6, 0, 0, 0), Ended(19)])

    def test_the_wrong_direction(self):
        # At first down by 100 mm and then up; down to 100 mm below the pad, and then up to it.
        def judged(*texts):
            return director.judged(director.Director(["--near", "100"], texts))
        self.assertEqual(judged(*FALLS_FIRST), [Cause(4, 0, 0, 0), Ended(19)])
        self.assertEqual(judged(*RISES_LAST), [Cause(4, 1, 0, 0), Ended(19)])

    def test_it_reads(self):
        it = director.Director(["--near", "100"], [UP, SHOW, DOWN])
        try:
            self.assertTrue(it.is_well)
            it.process.kill()
            it.process.wait()
            self.assertEqual(it.wait(10), Ended(None))
            it.hear(director.clock_frames(1))
            self.assertFalse(it.is_well)
        finally:
            it.kill()


@common.wants_program
class Spoilt(unittest.TestCase):
    def flown(self, name, *lines, without=("THIS LANDING", "Traceback")):
        """A flight that ends early, with all on the floor."""
        status, out, rows = begun(name).result()
        self.assertEqual(status, 1, out)
        for line in lines:
            self.assertRegex(out, line, name)
        for line in without:
            self.assertNotIn(line, out, name)
        for drone in "ab":
            self.assertRegex(out, "end: %s: down, it says, at .*, disarmed" % drone, out)
        self.assertTrue(all(height < 0.15 for height in last_heights(rows).values()), rows[-200:])

    def test_in_the_show(self):
        ended = "the flight director ended: status None"
        for name, words in (("dies", ended), ("lies", ended), ("hangs", "the flight director takes nothing any more")):
            self.flown(name, "FAULT: %s; landing all\nlanded\n" % words)

    def test_on_the_way_up(self):
        self.flown("dies going up", "FAULT: the flight director ended: status None; landing all\nlanded\n")

    def test_above_each_other(self):
        # Where a landing would come down on another one all come home by a judged way, without the director.
        ended = "FAULT: the flight director ended: status None; "
        self.flown("dies above", ended + "a landing of all now isn't shown apart .*: the stage that is flown goes to its "
                   "end first\n", "all come down the way that they came\nlanded\n")
        self.flown("dies in a stack", ended + "flying on: a landing of all now isn't shown apart", "landing, 2 drones: b a")


if __name__ == "__main__":
    unittest.main()
