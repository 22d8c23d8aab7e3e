"""The clock of a simulated flight: time goes on only when everybody waits, in an order that is always the same; nothing
else in what flies asks for the time; and one seed gives one flight."""
import ast
import contextlib
import glob
import os
import signal
import subprocess
import sys
import tempfile
import time
import unittest

import common
from hemtoghai.flying import clock, own_clock, piped
from test_fly import SHOW, b, fly

FLYING = os.path.join(common.PYTHON, "hemtoghai", "flying")
CLOCKS = ("clock.py", "own_clock.py")
# What a module that flies takes of modules that wait by themselves: locks that nobody waits in, and the thread that
# writes to the terminal.
TAKEN = {"threading.Lock", "threading.RLock", "crew.py: queue.Queue", "crew.py: threading.Thread",
         "stages.py: concurrent.futures.ThreadPoolExecutor"}
WAIT = {"time", "threading", "queue", "select", "sched", "asyncio", "concurrent.futures", "datetime"}


def waiting(path, text):
    """What a text takes of modules that wait, or tell the time, by themselves."""
    names = set()
    for node in ast.walk(ast.parse(text)):
        if isinstance(node, ast.ImportFrom) and node.module in WAIT:
            names |= {"%s.%s" % (node.module, it.name) for it in node.names}
        if isinstance(node, ast.Attribute) and ast.unparse(node.value) in WAIT:
            names.add(ast.unparse(node))
    return {name if name in TAKEN else "%s: %s" % (os.path.basename(path), name) for name in names}


class Alone(unittest.TestCase):
    def test_nothing_else_waits(self):
        found = set()
        for path in glob.glob(os.path.join(FLYING, "**", "*.py"), recursive=True):
            if os.path.basename(path) not in CLOCKS:
                with open(path) as file:
                    found |= waiting(path, file.read())
        self.assertEqual(found - TAKEN, set())

    def test_what_waits(self):
        text = "import time, threading\nfrom time import sleep\ntime.monotonic()\nthreading.Event().wait(1)\nthreading.Lock()\n"
        self.assertEqual(waiting("a/b.py", text),
                         {"b.py: time.sleep", "b.py: time.monotonic", "b.py: threading.Event", "threading.Lock"})


class Own(unittest.TestCase):
    def setUp(self):
        common.begin_clock()
        self.begin, self.seen = clock.now(), []

    def note(self, what):
        self.seen.append((what, round(clock.now() - self.begin, 6)))

    def test_waits(self):
        # an hour and a second pass at once, each thread at its own instants
        def work():
            self.note("begins")
            clock.wait(3600)
            self.note("an hour")
        begun = time.monotonic()
        task = clock.Task(work)
        clock.wait(1)
        self.note("a second")
        task.join()
        self.note("over")
        self.assertEqual(self.seen, [("begins", 0), ("a second", 1), ("an hour", 3600), ("over", 3600)])
        self.assertLess(time.monotonic() - begun, 60)

    def test_order(self):
        # threads that wait for one instant go on in the order in which they began to wait
        def work(name, seconds):
            for _ in range(2):
                clock.wait(seconds)
                self.note(name)
        tasks = [clock.Task(lambda it=it: work(*it)) for it in (("a", 2), ("b", 1), ("c", 2))]
        for task in tasks:
            task.join()
        self.assertEqual(self.seen, [("b", 1), ("a", 2), ("c", 2), ("b", 2), ("a", 4), ("c", 4)])

    def test_a_short_wait(self):
        # time goes on by a tick at least, whatever is lost of a sum of small numbers
        until = clock.now() + 1e-12
        clock.wait(until - clock.now())
        clock.wait(1e-12)
        self.assertEqual(round(clock.now() - self.begin, 9), 2e-6)

    def test_queues(self):
        queue = clock.Queue(1)

        def work():
            for number in range(3):
                self.note("put" if queue.put(number, 5) else "full")
        task = clock.Task(work)
        with self.assertRaises(clock.Empty):
            clock.Queue().get(1)
        clock.wait(1)
        self.assertEqual((queue.get(), queue.is_empty()), (0, True))
        task.join()
        self.assertEqual((self.seen, queue.get()), ([("put", 0), ("put", 2), ("full", 7)], 1))

    def test_conditions(self):
        # all look who wait, and those for whom it isn't so wait on, to their own ends
        changed, so = own_clock.OwnCondition(clock.used()), []

        def work(name, least, seconds):
            self.note(name if changed.wait_for(lambda: len(so) >= least, seconds) else "no " + name)
        tasks = [clock.Task(lambda it=it: work(*it)) for it in (("a", 1, 9), ("b", 2, 3), ("c", 1, None))]
        clock.wait(2)
        so.append(1)
        changed.notify_all()
        for task in tasks:
            task.join()
        self.assertEqual(self.seen, [("a", 2), ("c", 2), ("no b", 3)])

    def test_a_machine_that_stands_still(self):
        clock.Task(lambda: (clock.wait(1), self.note("a")))
        clock.wait(0)
        clock.used().leap(3)
        clock.wait(0.5)
        self.note("b")
        self.assertEqual(self.seen, [("a", 3), ("b", 3.5)])

    def test_signals(self):
        # a signal wakes the first thread at that instant, which goes on with its wait where nothing is raised
        def press():
            clock.wait(2)
            clock.used().interrupt(lambda: self.note("noted"))
            clock.wait(2)
            signal.getsignal(signal.SIGINT)(signal.SIGINT, None)
        clock.Task(press)
        clock.wait(3)
        self.note("waited")
        with self.assertRaises(KeyboardInterrupt):
            clock.wait(100)
        self.note("broken off")
        self.assertEqual(self.seen, [("noted", 2), ("waited", 3), ("broken off", 4)])

    def test_speed(self):
        # no faster than so many seconds in a real one
        clock.use(own_clock.OwnClock(10))
        begun = time.monotonic()
        clock.wait(3)
        self.assertGreater(time.monotonic() - begun, 0.25)

    def test_what_is_owed(self):
        clock.used().owe(2)  # of this thread's own work
        clock.used().pay(4)
        self.note("own")
        with contextlib.closing(Echo()) as it:
            it.is_slow = True
        self.assertEqual(self.seen, [("own", 2)])


class Echo(piped.Piped):
    """A process that says each line again, after a while."""
    SAYS = "import sys\nfor line in sys.stdin:\n    sum(range(1000000)); print(line, end='', flush=True)\n"

    def __init__(self):
        self.said = clock.Queue()
        super().__init__([sys.executable, "-c", self.SAYS])

    def take(self, data):
        self.said.put(data)

    def close(self):
        self.kill()


class Processes(unittest.TestCase):
    def test_they_are_waited_for(self):
        # what a process says comes at the instant at which it was told, however long it works
        common.begin_clock()
        with contextlib.closing(Echo()) as it:
            begin = clock.now()
            for _ in range(3):
                it.input.write(b"one\n")
                it.was_told = True
                self.assertEqual(it.said.get(5), b"one\n")
            self.assertEqual(clock.now(), begin)

    def test_one_that_reads_nothing(self):
        # It is waited for no longer than a moment, and then not any more.
        common.begin_clock()
        with contextlib.closing(Echo()) as it:
            clock.wait(0.1)
            os.kill(it.process.pid, signal.SIGSTOP)
            os.waitid(os.P_PID, it.process.pid, os.WSTOPPED | os.WNOWAIT)
            it.input.write(b"one\n")
            it.was_told, begun = True, time.monotonic()
            for _ in range(100):
                clock.wait(1)
            self.assertLess(time.monotonic() - begun, 20)
            self.assertTrue(it.hangs and it.said.is_empty())


@common.wants_program
class Same(unittest.TestCase):
    def flown(self, *words, more=""):
        status, out, rows = fly(["--sim", "stray=30", "--sim", "late=40", "--sim", "loss=10", *words], SHOW, more=more)
        self.assertEqual(status, 0, out)
        return out, rows

    def test_one_seed_is_one_flight(self):
        # all that is said, and the log to the byte, also where the processor that flies has other work
        busy = "import os; os.sched_setaffinity(0, {%d})\n" % max(os.sched_getaffinity(0))
        work = [subprocess.Popen([sys.executable, "-IS", "-c", busy + "while True: pass"]) for _ in range(3)]
        try:
            first = self.flown(more=busy)
        finally:
            for it in work:
                it.kill()
                it.wait()
        second, other = self.flown(), self.flown("--sim", "seed=2")
        self.assertEqual(first[1], second[1])
        self.assertEqual(*(out.replace("places are in", "").split("\n")[:-9] for out, _ in (first, second)))
        self.assertNotEqual(first[1], other[1])

    def test_one_fault_is_one_flight(self):
        first, second = (fly(b("falls:4") + ["--sim", "stray=30"], SHOW)[2] for _ in range(2))
        self.assertEqual(first, second)
        self.assertGreater(first.count("\n"), 300)


if __name__ == "__main__":
    unittest.main()
