"""Files as other programs write them, and ./show import without a process: for the tests of ./show import."""
import contextlib
import io
import json
import math
import os
import random
import tempfile
import unittest
import zipfile
from fractions import Fraction

import common  # by which the package is found
from hemtoghai import __main__
from hemtoghai.language import choreo


def drone(name, points, late=0, yaw=None, **more):
    """A drone of a show.json: its points are [seconds, place, inner points], in metres."""
    settings = {"name": name, "trajectory": {"version": 1, "points": points, "takeoffTime": late}, **more}
    if yaw:
        settings["yawControl"] = {"version": 1, "setpoints": yaw, "autoYaw": False}
    return {"type": "generic", "settings": settings}


def show(drones, version=1, **more):
    """A show.json."""
    return {"version": version, "swarm": {"drones": drones}, **more}


def archive(members):
    """The bytes of a zip with members that are JSON."""
    data = io.BytesIO()
    with zipfile.ZipFile(data, "w") as file:
        for where, node in members.items():
            file.writestr(zipfile.ZipInfo(where), json.dumps(node))
    return data.getvalue()


def skyc(trajectories):
    """The bytes of a .skyc of drones that are called Drone 1, Drone 2 ..: their points."""
    return archive({"show.json": show([drone("Drone %d" % k, points) for k, points in enumerate(trajectories, 1)])})


def bezier(points, u):
    """A place on a curve by its control points, exactly."""
    while len(points) > 1:
        points = [[a + (b - a) * u for a, b in zip(p, q)] for p, q in zip(points, points[1:])]
    return points[0]


def exact(point):
    """Numbers as fractions, as they are written."""
    return [Fraction(repr(v)) for v in point]


def where(points, t, late=0):
    """Where a drone of `skyc` is at an instant in seconds, exactly, in metres."""
    t = Fraction(t) - Fraction(repr(late))
    for before, after in zip(points, points[1:]):
        a, b = Fraction(repr(before[0])), Fraction(repr(after[0]))
        if t <= b:
            u = max(Fraction(0), (t - a) / (b - a))
            return bezier([exact(p) for p in (before[1], *after[2], after[1])], u)
    return exact(points[-1][1])


def flown_at(flown, k, t):
    """Where a drone of a show is at an instant in seconds by what it is sent, exactly, in metres."""
    t = Fraction(t) * 1000
    for milliseconds, elements in flown.by_cue[k]:
        if t <= milliseconds:
            a, c, out = t.numerator, t.denominator * milliseconds, []
            for row in elements[:3]:
                n = len(row) - 1
                total = sum(math.comb(n, j) * a ** j * (c - a) ** (n - j) * v for j, v in enumerate(row))
                out.append(Fraction(total, 1000 * c ** n))
            return out
        t -= milliseconds
    return [Fraction(row[-1], 1000) for row in elements[:3]]


def squared(p, q):
    """The square of a distance."""
    return sum((a - b) ** 2 for a, b in zip(p, q))


def wild(seed, seconds=12):
    """The points of a drone that flies smooth random curves, and begins and ends on the floor."""
    chance = random.Random(seed)
    t, at, speed, points = 0.0, [2.0 * seed, 0.0, 0.0], [0.0] * 3, [[0.0, [2.0 * seed, 0.0, 0.0], []]]
    while t < seconds:
        end = round(t + chance.uniform(0.5, 2), 3)
        last = end >= seconds
        to = [2.0 * seed, 0.0, 0.0] if last else [round(2.0 * seed + chance.uniform(-.7, .7), 3),
                                                  round(chance.uniform(-.7, .7), 3), round(chance.uniform(.5, 1.5), 3)]
        then = [0.0] * 3 if last else [chance.uniform(-.5, .5) for _ in range(3)]
        third = (end - t) / 3
        inner = [[round(p + third * v, 6) for p, v in zip(at, speed)],
                 [round(p - third * v, 6) for p, v in zip(to, then)]]
        points.append([end, to, inner])
        t, at, speed = end, to, then
    return points


class Case(unittest.TestCase):
    """A test with a folder, and tools that run within this process."""

    def setUp(self):
        room = tempfile.TemporaryDirectory()
        self.addCleanup(room.cleanup)
        self.room = room.name

    def file(self, name, data=None):
        """The path of a file in the folder, with these bytes or this text."""
        path = os.path.join(self.room, name)
        if data is not None:
            with open(path, "wb") as file:
                file.write(data if isinstance(data, bytes) else data.encode())
        return path

    def run_tool(self, name, *words):
        """The status, standard output and standard error of a command; what it doesn't catch is a fault of the test."""
        out, said = io.StringIO(), io.StringIO()
        with contextlib.redirect_stdout(out), contextlib.redirect_stderr(said):
            try:
                status = __main__.main([*name.split(), *map(str, words)])
            except SystemExit as end:
                status = end.code
        return status, out.getvalue(), said.getvalue()

    def show_of(self, *words):
        """The show that ./show import writes, as it is flown, its text, its bound in metres, and what is said."""
        status, out, said = self.run_tool("import", *words)
        self.assertEqual(status, 0, said)
        bound = Fraction(out.split("is at most ")[1].split()[0]) / 1000
        self.assertIn("at most %.2f mm" % (1000 * bound), said)
        return choreo.flown_of(out.encode()), out, bound, said
