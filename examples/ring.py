#!/usr/bin/env python3
"""Writes examples/ring.choreo: eight drones gather on a ring, turn it by 100 degrees, and come back.

    examples/ring.py > examples/ring.choreo
"""
import os
import sys

sys.dont_write_bytecode = True
sys.path.insert(0, os.path.join(os.path.dirname(os.path.dirname(os.path.abspath(__file__))), "python"))
from hemtoghai.writing.figures import Show, grid, ring, straight, turn

COMMENT = """Eight drones in two rows gather on a ring, the ring turns by 100 degrees, and they come back.
Shows a turn by any angle, eased at both ends: each cue has a `curve` a drone, and what is cut is cut for all at once.
Written by examples/ring.py, which uses python/hemtoghai/writing/figures.py. Run: ./show check examples/ring.choreo"""
show = Show(COMMENT, ellipsoid=(120, 300), form=1)
rows, places = grid(4, 2, 0.8), ring(8, 1.2, first=22.5)
# Drone k of the rows gets the place of the ring that lies in its direction, so that ways don't cross.
order = [4, 5, 6, 7, 3, 2, 1, 0]
for k, place in enumerate(rows):
    show.drone("d%d" % (k + 1), place)
show.fly(3, {name: straight(rows[k], places[order[k]]) for k, name in enumerate(show.names)}, cuts=2)
show.fly(6, {name: turn(show.at(name), (0, 0), 100) for name in show.names}, cuts=6)
show.hold(1)
show.fly(6, {name: turn(show.at(name), (0, 0), -100) for name in show.names}, cuts=6)
show.fly(3, {name: straight(show.at(name), rows[k]) for k, name in enumerate(show.names)}, cuts=2)
print(show.text(), end="")
