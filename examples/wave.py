#!/usr/bin/env python3
"""Writes examples/wave.choreo: two groups of four in a row; a wave runs through each, mirrored, then they rise one
after another.

    examples/wave.py > examples/wave.choreo
"""
import os
import sys

sys.dont_write_bytecode = True
sys.path.insert(0, os.path.join(os.path.dirname(os.path.dirname(os.path.abspath(__file__))), "python"))
from hemtoghai.writing.figures import Show, cascade, mirrored, straight, turn, wave

COMMENT = """A row of eight drones in two groups. A wave runs outward through both at once, then the drones rise one
after another, and then both groups swing around their inner end, one mirrored to the other.
Shows a sine wave, a cascade and mirrored groups that fly at the same time.
Written by examples/wave.py, which uses python/hemtoghai/writing/figures.py. Run: ./show check examples/wave.choreo"""
show = Show(COMMENT, ellipsoid=(120, 300), form=1)
right = {"r%d" % (k + 1): (0.5 + 0.5 * k, 0, 1) for k in range(4)}
left = {name.replace("r", "l"): (-x, y, z) for name, (x, y, z) in right.items()}
for name, place in {**right, **left}.items():
    show.drone(name, place)


def both(paths):
    """The paths of the right group, and for the left group the same mirrored at x = 0."""
    return {**paths, **{name.replace("r", "l"): mirrored(path, "x") for name, path in paths.items()}}


waves = {name: wave(place, 0.3, cycles=3, phase=k / 4) for k, (name, place) in enumerate(right.items())}
show.fly(8, both(waves), cuts=24)
rise = {name: straight(place, (place[0], place[1], 1.6)) for name, place in right.items()}
show.fly(5, both(cascade(rise, share=0.5)), cuts=10)
show.fly(4, both({name: turn(show.at(name), (0.5, 0), 60) for name in right}), cuts=4)
show.fly(4, both({name: turn(show.at(name), (0.5, 0), -60, rise=-0.6) for name in right}), cuts=4)
print(show.text(), end="")
