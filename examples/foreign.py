#!/usr/bin/env python3
"""Writes the examples of trajectories that other programs make, for ./show import: one of each format that it reads.

    examples/foreign.py [FOLDER]       into examples/ without a folder

- rising.skyc, Skybrush: four drones take off a second after one another, open a square, shift it and land.
- eight_left.csv, eight_right.csv, uav_trajectories: two figures of eight beside one another, from rest to rest.
- relay.csv, waypoints with a drone's column: three drones hand a place on. Corners: for --waypoints --smooth.

They are made from memory of the formats. No file of Skybrush or of uav_trajectories was there to compare them with.
"""
import json
import math
import os
import sys
import zipfile

AXES = ("x", "y", "z", "yaw")
HOMES = [(0, 0), (1.25, 0), (1.25, 1.25), (0, 1.25)]
RELAY = [("north", 0, 0, 1), ("middle", 0, -1, 1), ("south", 0, -2, 1)]


def rising(path):
    """The .skyc: its first two trajectories in members of their own, the others within show.json."""
    drones, members = [], {}
    for k, (x, y) in enumerate(HOMES):
        late, high = round(0.83 * k, 3), [x, y, 1.2 + 0.2 * (k % 2)]
        floor, aside = [x, y, 0], [round(1.3 * x - 0.18, 3), round(1.3 * y - 0.18, 3), high[2]]
        beside = [round(aside[0] + 0.311, 3), *aside[1:]]
        way = [(0, floor, []), (2, high, [floor, high]), (6 - late, high, []), (9 - late, aside, [high, aside]),
               (10.5 - late, beside, [aside, beside]), (11.5 - late, beside, []), (14 - late, high, [beside, high]),
               (16.5 - late, floor, [high, floor])]
        points = [[round(t, 3), place, inner] for t, place, inner in way]
        trajectory = {"version": 1, "points": points, "takeoffTime": late}
        if k < 2:
            where = "drones/drone-%d/trajectory.json" % (k + 1)
            members[where], trajectory = json.dumps(trajectory), {"$ref": "./%s#" % where}
        turns = [[points[j][0], v] for j, v in ((0, 0), (2, 0), (3, 90 * (k % 2)), (7, 0))]
        yaw = {"version": 1, "setpoints": turns, "autoYaw": False}
        drones.append({"type": "generic", "settings": {
            "name": "Drone %d" % (k + 1), "home": floor, "landAt": floor, "trajectory": trajectory, "yawControl": yaw,
            "lights": {"version": 1, "data": ""}}})
    show = {"version": 1, "settings": {}, "environment": {"type": "indoor"}, "meta": {"title": "Rising"},
            "swarm": {"drones": drones}, "media": {}}
    with zipfile.ZipFile(path, "w") as archive:
        for where, text in [*members.items(), ("show.json", json.dumps(show))]:
            archive.writestr(zipfile.ZipInfo(where), text)


def at(u, side):
    """A place of a figure of eight at a part of its time: from rest to rest, one metre high."""
    s = u ** 4 * (35 - 84 * u + 70 * u * u - 20 * u ** 3) if 0 < u < 1 else float(u >= 1)
    return [0.8 * math.sin(2 * math.pi * s), side * (1 + 0.4 * math.sin(4 * math.pi * s)), 1, 0]


def rates(f, t, h=0.02):
    """A function's value, and its first three derivatives by differences."""
    a, b, c, d, e = (f(t + k * h) for k in (-2, -1, 0, 1, 2))
    return c, (8 * (d - b) - (e - a)) / (12 * h), (d - 2 * c + b) / (h * h), (e - 2 * d + 2 * b - a) / (2 * h ** 3)


def polynomial(start, end, length):
    """The eight coefficients of the polynomial with these values and derivatives at both ends."""
    p, v, a, j = start
    low = [p, v, a / 2, j / 6]
    left = [sum(low[k] * math.perm(k, d) * length ** (k - d) for k in range(d, 4)) for d in range(4)]
    g, h, i, k = ((b - own) * length ** d for d, (b, own) in enumerate(zip(end, left)))
    high = [35 * g - 15 * h + 5 * i / 2 - k / 6, -84 * g + 39 * h - 7 * i + k / 2, 70 * g - 34 * h + 13 * i / 2 - k / 2,
            -20 * g + 10 * h - 2 * i + k / 6]
    return low + [c / length ** (4 + n) for n, c in enumerate(high)]


def eight(path, side, seconds=10, count=20):
    """A figure of eight as polynomials, with six decimals as such files have."""
    length, lines = seconds / count, ["Duration," + ",".join("%s^%d" % (axis, k) for axis in AXES for k in range(8))]
    for n in range(count):
        row = ["%g" % length]
        for axis in range(4):
            ends = [rates(lambda t: at(t / seconds, side)[axis], length * k) for k in (n, n + 1)]
            row += ["%.6f" % (c + 0.0) for c in polynomial(*ends, length)]
        lines.append(",".join(row))
    with open(path, "w") as file:
        file.write("\n".join(lines) + "\n")


def relay(path):
    """Waypoints: each drone goes ahead, aside and back, the next one two seconds later."""
    rows = ["# Three drones hand a place on. Lines between waypoints have corners, which no drone flies at speed: run",
            "# ./show import --smooth examples/relay.csv > relay.choreo", "drone,t,x,y,z,yaw"]
    for k, (name, x, y, z) in enumerate(RELAY):
        t0 = 1 + 2 * k
        for t, dx, dz in ((0, 0, 0), (t0, 0, 0), (t0 + 2, 1, 0.2), (t0 + 4, 1, 0.5), (t0 + 6, 0, 0), (13, 0, 0)):
            rows.append("%s,%g,%g,%g,%g,0" % (name, t, x + dx, y, z + dz))
    with open(path, "w") as file:
        file.write("\n".join(rows) + "\n")


def main():
    folder = sys.argv[1] if len(sys.argv) > 1 else os.path.dirname(os.path.abspath(__file__))
    rising(os.path.join(folder, "rising.skyc"))
    eight(os.path.join(folder, "eight_left.csv"), 1)
    eight(os.path.join(folder, "eight_right.csv"), -1)
    relay(os.path.join(folder, "relay.csv"))


main()
