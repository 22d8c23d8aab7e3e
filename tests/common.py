"""What the tests have in common: the program, the simulated library and its world, and runs of commands.

The simulated library and its drones are from one memory of the firmware, never compared with a radio or a drone.
"""
import atexit
import os
import shutil
import subprocess
import sys
import tempfile
import unittest

sys.dont_write_bytecode = True
TOP = os.path.dirname(os.path.dirname(os.path.abspath(__file__)))
PYTHON = os.path.join(TOP, "python")
SIMULATED = os.path.join(PYTHON, "hemtoghai", "flying", "simulated")
sys.path[:0] = [PYTHON, SIMULATED]
sys.path.append(os.path.join(TOP, "bench"))  # the second readers, behind all others

from hemtoghai.flying import clock, own_clock
from hemtoghai.language import choreo
from hemtoghai.program import PROGRAM
from cflib import air
import forked

SHOW = os.path.join(TOP, "show")


def wants_program(test):
    """Marks a test, or a class of them, that needs the proved program: without one it is skipped. In CI, which builds
    it before, `.ci/companions` fails without it."""
    return unittest.skipUnless(os.access(PROGRAM, os.X_OK), "the program isn't built: ./show check FILE builds it")(test)


def without_record():
    """A copy of the proved program: it has no record, and so nothing is known of its proof. Where there is none, the
    stand-in of CI."""
    if not os.access(PROGRAM, os.X_OK):
        return os.path.join(TOP, ".ci", "stand_in")
    if not COPIES:
        room = tempfile.mkdtemp()
        atexit.register(shutil.rmtree, room, ignore_errors=True)
        COPIES.append(shutil.copy(PROGRAM, room))
    return COPIES[0]


COPIES = []
# `./show` with the program that is there, which CI makes without a record: nothing is proved and built for a test.
AS_BUILT = [sys.executable, "-IS", "-c", """
import sys
sys.path.insert(0, %r)
from hemtoghai import __main__, program
from hemtoghai.launching import launcher
launcher.file_for = lambda *given: program.PROGRAM
sys.argv[0] = "show"
__main__.run()
""" % PYTHON]


class Folder:
    """Files below a place."""
    place = ""

    def path(self, name):
        """The path of a file."""
        return os.path.join(self.place, name)

    def write(self, name, data, mode=0o644):
        """Writes a file of these bytes or this text, and the folders that it is in."""
        os.makedirs(os.path.dirname(self.path(name)), exist_ok=True)
        with open(self.path(name), "wb") as file:
            file.write(data if isinstance(data, bytes) else data.encode())
        os.chmod(self.path(name), mode)


def example(name):
    """The bytes of an example, and what its drones fly."""
    with open(os.path.join(TOP, "examples", name + ".choreo"), "rb") as file:
        text = file.read()
    return text, choreo.flown_of(text)


def uris(count):
    """So many drones' addresses."""
    return ["radio://0/80/2M/E7E7E7E7%02X" % (k + 1) for k in range(count)]


def begin_clock():
    """Begins a clock of a simulation, and ends the one before with its threads."""
    if isinstance(clock.used(), own_clock.OwnClock):
        clock.used().end()
    clock.use(own_clock.OwnClock())


def world(flown, faults=(), **settings):
    """Sets the simulated drones below the first places of a show, with a clock of their own; faults are (name, kind,
    number)."""
    begin_clock()
    where, by_uri = uris(len(flown.names)), {}
    for name, kind, number in faults:
        by_uri.setdefault(where[flown.names.index(name)], {})[kind] = number
    homes = {uri: [start[0] / 1e6, start[1] / 1e6, 0.0] for uri, start in zip(where, flown.starts)}
    air.WORLD.reset(homes, by_uri, **settings)
    return where


def drone(flown, name):
    """A simulated drone."""
    return air.WORLD.drones[uris(len(flown.names))[flown.names.index(name)]]


def drones(flown):
    """All simulated drones of a show."""
    return [drone(flown, name) for name in flown.names]


def make_ready(flown, loaded=False):
    """Arms drones and switches their commanders on, as a start needs it; with their trajectories in their memories."""
    for one, data, segments in zip(drones(flown), flown.data(), flown.sent):
        one.armed = one.parameters[0] = True
        if loaded:
            one.memories[2][1][:len(data)] = data
            one.table[0] = 1, 1, 0, len(segments)


def untouched(one):
    """Whether a drone was never written to."""
    return one.table == [None] * 10 and all(set(data) <= {0xFF} for _, data in one.memories)


def holds(one, data, offset=0):
    """Whether a drone's trajectory memory has these bytes, and nothing else was written anywhere."""
    for kind, held in one.memories:
        wanted = b"\xFF" * offset + data + b"\xFF" * (len(held) - offset - len(data)) if kind == 0x12 else b"\xFF" * len(held)
        if bytes(held) != wanted:
            return False
    return True


def run(*words, text=None, env=None):
    """The status, standard output and standard error of a command."""
    done = forked.SHOWS.run(["show", *words], cwd=TOP, input=text, stdout=subprocess.PIPE,
                            stderr=subprocess.PIPE, universal_newlines=True, timeout=300, env=env)
    return done.returncode, done.stdout, done.stderr
