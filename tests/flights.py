"""Simulated flights for several tests: all are begun before the first test, some at a time, and each test waits for its
own. A flight has a clock of its own, so that it is the same on each machine, however busy it is."""
import atexit
import concurrent.futures
import os
import shutil
import subprocess
import sys
import tempfile
import unittest

import common
import forked

ANSWERS = tempfile.mkdtemp()  # what `check` said, for all flights of this run of tests
atexit.register(shutil.rmtree, ANSWERS, ignore_errors=True)
FLIES = forked.Parent(sys.executable, os.path.join(common.TOP, "tests", "flying.py"), ANSWERS)


def flown(*words, more="", **streams):
    """A flight that has ended, with all that it said; `more` is a text in Python that is run before."""
    streams = {"stdin": subprocess.DEVNULL, "stdout": subprocess.PIPE, "stderr": subprocess.STDOUT, **streams}
    return FLIES.run(["show", "fly", *words], code=more, cwd=common.TOP, universal_newlines=True, **streams)


def begun(*words, **streams):
    """A flight that has begun."""
    streams = {"stdout": subprocess.PIPE, "stderr": subprocess.STDOUT, **streams}
    return FLIES.popen(["show", "fly", *words], cwd=common.TOP, **streams)


def judged(rows, show):
    """What ./show flown says of a log, and its status."""
    with tempfile.TemporaryDirectory() as place:
        room = common.Folder()
        room.place = place
        room.write("log.csv", rows)
        if "\n" in show:
            room.write("show.choreo", show)
            show = room.path("show.choreo")
        return common.run("flown", "--gap", "10000", show, room.path("log.csv"))


def script(*rows):
    """The text of a script: rows of seconds, what is done, and the words after which it is."""
    return "".join("%g %s %s\n" % row for row in rows)


class Flights:
    """Flights of a module of tests: by name a call and what it is given."""

    def __init__(self, at_once, calls):
        self.at_once, self.calls, self.by_name, self.again = at_once, calls, {}, False
        self.pool = concurrent.futures.ThreadPoolExecutor(at_once)

    def begun(self, name):
        """A flight that is begun, or was before."""
        if name not in self.by_name:
            call, *given = self.calls[name]
            self.by_name[name] = self.pool.submit(call, *given)
        return self.by_name[name]

    def forget(self):
        """Has flights flown anew, each when a test wants it: those before may have failed on a busy machine."""
        self.pool, self.again = concurrent.futures.ThreadPoolExecutor(self.at_once), True
        self.by_name.clear()

    def set_up(self):
        """Begins all, where all tests of the module run."""
        unittest.addModuleCleanup(self.pool.shutdown)
        if os.access(common.PROGRAM, os.X_OK) and "-k" not in sys.argv and not self.again:
            for name in self.calls:
                self.begun(name)
