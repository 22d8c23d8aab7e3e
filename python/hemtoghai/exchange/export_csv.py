"""Writes the trajectories of a plan or a show as CSV files that Crazyswarm2 and the uav_trajectories tools read: one a
drone, NAME.csv.

    ./show export csv PLAN|SHOW FOLDER

A show is compiled by the proved program first, and isn't written where that refuses it.

Each line after the head is a segment: its duration in seconds, then for x, y, z (metres) and yaw (radians) the
coefficients of t^0 to t^7, t in seconds from the segment's begin. They are worked out in whole numbers and then
rounded to doubles; how far the rounded polynomial may leave the exact curve is written for each drone. The evaluation
in doubles or floats comes on top. Nothing is proved of these files. Status 0: all files are written. 3, 4, 5: a show
that is refused so. 70: a file can't be read or written, or isn't a plan.
"""
from __future__ import annotations

import os
from fractions import Fraction

from hemtoghai import outputs
from hemtoghai.companion import many, parser
from hemtoghai.exchange.plans import drones_of
from hemtoghai.geometry.curves import powers
from hemtoghai.geometry.paths import PI
from hemtoghai.language.choreo import Row, Segment
from hemtoghai.streams import shown

# A segment is uploaded as 132 bytes, its duration and 32 coefficients as floats, into 4,096 bytes.
MOST_PIECES = 31
SCALES = [Fraction(1, 1000)] * 3 + [PI / 1800]
HEAD = "Duration," + ",".join(f"{axis}^{k}" for axis in ("x", "y", "z", "yaw") for k in range(8))


def polynomial(row: Row, scale: Fraction, duration: Fraction) -> list[Fraction]:
    """The eight coefficients of a curve by its control values, in the time that has passed."""
    out = [power * scale / duration ** k for k, power in enumerate(reversed(powers(row)))]
    return out + [Fraction(0)] * (8 - len(row))


def lines_of(segments: list[Segment]) -> tuple[list[str], Fraction, Fraction]:
    """A drone's lines, and by how much the rounded polynomials may leave the exact curves: in metres and radians."""
    lines, worst = [HEAD], [Fraction(0)] * 4
    for milliseconds, elements in segments:
        duration, words = Fraction(milliseconds, 1000), ["%.17g" % (milliseconds / 1000)]
        for axis, row in enumerate(elements):
            exact = polynomial(row, SCALES[axis], duration)
            error = sum((abs(Fraction(float(c)) - c) * duration ** k for k, c in enumerate(exact)), Fraction(0))
            worst[axis] = max(worst[axis], error)
            words += ["%.17g" % float(c) for c in exact]
        lines.append(",".join(words))
    return lines, max(worst[:3]), worst[3]


def main(words: list[str]) -> int:
    reader = parser(__doc__)
    outputs.add_force(reader)
    reader.add_argument("plan", metavar="PLAN|SHOW", help="what ./show compile wrote, or a show; - for standard input")
    reader.add_argument("folder", metavar="FOLDER", help="where the files go; it is made where it isn't there")
    options = reader.parse_args(words)
    drones = drones_of(options.plan)
    outputs.refuse((os.path.join(options.folder, name + ".csv") for name, _, _ in drones), options.force,
                   [options.plan])
    files, said = {}, []
    for name, _, segments in drones:
        lines, places, yaw = lines_of(segments)
        files[name + ".csv"] = ("\n".join(lines) + "\n").encode()
        lasts = sum(segment[0] for segment in segments) / 1000
        said.append(f"{os.path.join(options.folder, name)}.csv: {many(len(segments), 'segment')}, {lasts:.3f} s; a "
                    f"double may differ by {float(places):.1e} m on an axis and {float(yaw):.1e} rad of yaw")
        if len(segments) > MOST_PIECES:
            said.append(f"  more than the {MOST_PIECES} segments that fit into 4,096 bytes as polynomials")
    outputs.write_below(options.folder, files, options.force)
    print(shown("\n".join(said)))
    return 0
