"""Runs of `boxes`, `speed`, `explain` and `dynamics`."""
from typing import Dict

from cases.texts import APART, CROSSING, MARKER, Rows, SHOW, WITHOUT_ROOM

# The show of a drone that flies a metre along x in two seconds, before a text of regions.
FLOWN = SHOW + MARKER

REGIONS: Rows = [
    ("boxes", FLOWN + b"keepout 400 200 0 600 400 2000\n", 0, b"kept regions 1\n"),
    ("boxes", FLOWN + b"keepout 400 100 0 600 300 2000\n", 15, b"error 15 region 1 drone solo cue 1 part 25 of 64\n"),
    ("boxes", FLOWN + b"volume -200 -200 500 1200 200 1500\n", 0, b"kept regions 1\n"),
    ("boxes", FLOWN + b"volume 0 -200 500 1200 200 1500\n", 15, b"error 15 region 1 drone solo cue 1 part 0 of 64\n"),
    ("boxes", FLOWN, 0, b"kept regions 0\n"),
    ("boxes", FLOWN + b"keepout 1 0 0 0 0 0\n", 11, b"error 11 line 1\n"),
    ("boxes", FLOWN + b"\nvolume -200 -200 500 1200 200 1500\n\nkeepout 400 100 0 600 300 2000\n", 15,
     b"error 15 region 2 drone solo cue 1 part 25 of 64\n"),
    ("boxes", FLOWN + b"keepout 400 200 0 600 400 2000 0\n", 11, b"error 11 line 1\n"),
    ("boxes", FLOWN + b"\nkeepout 400 200 0 600 400 40001\n", 11, b"error 11 line 2\n"),
    ("boxes", FLOWN + b"box 400 200 0 600 400 2000\n", 11, b"error 11 line 1\n"),
    ("boxes", FLOWN + b"keepout 400 200 0 600 400 2000 # shelf\n", 11, b"error 11 line 1\n"),
    ("boxes", FLOWN + b"keepout 400 200 0 600 400 2000\n%%\n", 11, b"error 11 line 2\n"),
    ("boxes", FLOWN + b"keepout 1 0 0 0 0 0\n%%\n", 11, b"error 11 line 1\n"),
]

DEPTHS: Rows = [
    ("boxes --depth 0", FLOWN + b"keepout 400 100 0 600 300 2000\n", 15,
     b"error 15 region 1 drone solo cue 1 part 0 of 1\n"),
    # A text without a marker line has no regions.
    ("boxes", SHOW, 0, b"kept regions 0\n"),
    # Drones that may meet are no reason to refuse.
    ("boxes", CROSSING, 0, b"kept regions 0\n"),
]

# The most regions, one more, and a text that is one byte too long.
MANY_REGIONS: Rows = [
    ("boxes", FLOWN + b"keepout 400 200 0 600 400 2000\n" * 64, 0, b"kept regions 64\n"),
    ("boxes", FLOWN + b"keepout 400 200 0 600 400 2000\n" * 65, 11, b"error 11 line 65\n"),
    ("boxes", FLOWN + b" " * 1_048_577, 11, b"error 11 too-large\n"),
]

# A quarter of a circle of a metre's radius in a second.
ARC = b"choreo 1\ndrone solo 1000000 0 1000000 0\ncue 1000\nsolo arc ccw 0 0 0\nend\n"

# A millimetre backwards in three milliseconds.
BACK = b"choreo 1\ndrone solo 0 0 1000000 0\ncue 3\nsolo line -1000 0 1000000 0\nend\n"

# Three in a row at rest: a and b are 200 mm apart, b and c 100 mm, of 240 mm at which they touch.
ROW = (b"choreo 1\ndrone a 0 0 1000000 0\ndrone b 200000 0 1000000 0\ndrone c 300000 0 1000000 0\n"
       b"cue 1000\nend\n")


def together(cues: int) -> bytes:
    """Two drones in one place, for so many cues."""
    return (b"choreo 1\ndrone a 0 0 1000000 0\ndrone b 0 0 1000000 0\nrepeat %d\ncue 1000\nend\nend\n" % cues)


def together_said(cues: int) -> bytes:
    """What `explain --all` says of them: at most 200 cues, and whether there are more."""
    lines = [b"blocked pair a b cue %d part 0 of 64 closest at 0 of 32 level 0\n" % k
             for k in range(1, min(cues, 200) + 1)]
    return (b"".join(lines) + b"blocked more than 200\n" * (cues > 200)
            + b"closest pair a b cue 1 at 0 of 32 level 0\ntouch pair a b cue 1 at 0 of 32\n")


STUDIES: Rows = [
    ("speed", SHOW, 0, b"speed solo 1093750 0 0\n"),
    ("speed --depth 0", SHOW, 0, b"speed solo 3500000 0 0\n"),
    ("speed", ARC, 0, b"speed solo 1656000 1656000 0\n"),
    ("speed --limit 1600000", ARC, 16, b"error 16 drone solo x speed 1656000\n"),
    ("speed --limit 1656000", ARC, 0, b"speed solo 1656000 1656000 0\n"),
    ("speed --limit 1655999", ARC, 16, b"error 16 drone solo x speed 1656000\n"),
    ("speed", BACK, 0, b"speed solo 333334 0 0\n"),
    ("speed", WITHOUT_ROOM, 4, b"error 4 drone solo bytes 28 room 27\n"),
    ("explain", CROSSING, 0,
     b"blocked pair a b cue 1 part 28 of 64\nclosest pair a b cue 1 at 16 of 32 level 0\n"
     b"touch pair a b cue 1 at 15 of 32\n"),
    ("explain", APART, 0, b"separated\nclosest pair a b cue 2 at 16 of 32 level 2777\n"),
    ("explain", b"choreo 1\nellipsoid 120 300\ndrone a 0 0 1000000 0\ndrone b 236000 56000 1000000 0\ncue 1000\nend\n",
     0,
     b"blocked pair a b cue 1 part 0 of 64\nclosest pair a b cue 1 at 0 of 32 level 1021\n"
     b"no-touch instants 33\n"),
    ("explain", SHOW, 0, b"separated\n"),
    ("explain", b"choreo 3\n", 3, b"error 3 line 1 header\n"),
    ("explain --fine 6", SHOW, 2, b"error 2 usage\n"),
    ("explain --all", CROSSING, 0,
     b"blocked pair a b cue 1 part 28 of 64 closest at 16 of 32 level 0\n"
     b"closest pair a b cue 1 at 16 of 32 level 0\ntouch pair a b cue 1 at 15 of 32\n"),
    ("explain --all", APART, 0, b"separated\nclosest pair a b cue 2 at 16 of 32 level 2777\n"),
    ("explain --all", SHOW, 0, b"separated\n"),
    # 1,000 times (200 / 240)^2 and (100 / 240)^2, rounded down; a and c are 300 mm apart, and separated.
    ("explain --all", ROW, 0,
     b"blocked pair a b cue 1 part 0 of 64 closest at 0 of 32 level 694\n"
     b"blocked pair b c cue 1 part 0 of 64 closest at 0 of 32 level 173\n"
     b"closest pair b c cue 1 at 0 of 32 level 173\ntouch pair a b cue 1 at 0 of 32\n"),
    ("explain --all --fine 0 --depth 0", ROW, 0,
     b"blocked pair a b cue 1 part 0 of 1 closest at 0 of 1 level 694\n"
     b"blocked pair b c cue 1 part 0 of 1 closest at 0 of 1 level 173\n"
     b"closest pair b c cue 1 at 0 of 1 level 173\ntouch pair a b cue 1 at 0 of 1\n"),
    ("explain", ROW, 0,
     b"blocked pair a b cue 1 part 0 of 64\nclosest pair b c cue 1 at 0 of 32 level 173\n"
     b"touch pair a b cue 1 at 0 of 32\n"),
    ("explain --all", together(199), 0, together_said(199)),
    ("explain --all", together(200), 0, together_said(200)),
    ("explain --all", together(201), 0, together_said(201)),
    ("explain --all --all", ROW, 2, b"error 2 usage\n"),
]

# A drone that stays.
STILL = b"choreo 1\ndrone solo 0 0 1000000 0\ncue 1000\nend\n"

# A drone that leaves its rest, and ends at speed.
END = (
    b"choreo 1\ndrone a 0 0 1000000 0\ncue 1000\na curve 0 0 1000000 500000 0 1000000 1000000 0 1000000 0\n"
    b"end\n"
)

# Holds that are joined, before each of two lines.
JOINED = (
    b"choreo 1\ndrone solo 0 0 1000000 0\ncue 1000\nend\ncue 500\nend\ncue 2000\n"
    b"solo line 0 1000000 1000000 0\nend\n"
    b"cue 700\nend\ncue 300\nend\ncue 4000\nsolo line 0 1000000 2000000 0\nend\n"
)

# Two drones: the first jumps later than the second one accelerates.
TWO = (
    b"choreo 1\ndrone a 0 0 1000000 0\ndrone b 0 5000000 1000000 0\ncue 1000\nb move 0 6000000 1000000 0\n"
    b"end\n"
    b"cue 1000\na line 1000000 0 1000000 0\nend\n"
)

# A drone that begins at speed and accelerates.
BOTH = (
    b"choreo 1\ndrone a 0 0 1000000 0\ncue 1000\n"
    b"a curve 0 500000 1000000 1000000 0 1000000 1000000 0 1000000 0\nend\n"
)

# A drone that accelerates more in a later cue than the one at whose beginning it jumps.
LATER = (
    b"choreo 1\ndrone a 0 0 1000000 0\ncue 1000\na line 0 0 2000000 0\nend\ncue 1000\n"
    b"a move 3000000 0 2000000 0\n"
    b"end\n"
)

# By fractions, from the definitions, outside the program: bench/dynamics.py.
DYNAMICS: Rows = [
    ("dynamics", SHOW, 0,
     b"dynamics solo acceleration 1878895 0 0 jump 0 cue 1 0 cue 1 0 cue 1 begins rest ends rest\n"
     b"greatest acceleration 1878895 0 0 jump 0 0 0\n"),
    ("dynamics --depth 0", SHOW, 0,
     b"dynamics solo acceleration 10500000 0 0 jump 0 cue 1 0 cue 1 0 cue 1 begins rest ends rest\n"
     b"greatest acceleration 10500000 0 0 jump 0 0 0\n"),
    ("dynamics --depth 8", SHOW, 0,
     b"dynamics solo acceleration 1878325 0 0 jump 0 cue 1 0 cue 1 0 cue 1 begins rest ends rest\n"
     b"greatest acceleration 1878325 0 0 jump 0 0 0\n"),
    ("dynamics", ARC, 0,
     b"dynamics solo acceleration 2688000 2688000 0 jump 1656000 cue 2 1656000 cue 1 0 cue 1 begins moving "
     b"ends moving\n"
     b"greatest acceleration 2688000 2688000 0 jump 1656000 1656000 0\n"),
    ("dynamics", BACK, 0,
     b"dynamics solo acceleration 0 0 0 jump 333334 cue 1 0 cue 1 0 cue 1 begins moving ends moving\n"
     b"greatest acceleration 0 0 0 jump 333334 0 0\n"),
    ("dynamics", STILL, 0,
     b"dynamics solo acceleration 0 0 0 jump 0 cue 1 0 cue 1 0 cue 1 begins rest ends rest\n"
     b"greatest acceleration 0 0 0 jump 0 0 0\n"),
    ("dynamics", END, 0,
     b"dynamics a acceleration 3000000 0 0 jump 1500000 cue 2 0 cue 1 0 cue 1 begins rest ends moving\n"
     b"greatest acceleration 3000000 0 0 jump 1500000 0 0\n"),
    ("dynamics --jump 1499", END, 18, b"error 18 drone a cue 2 jump x 1500000\n"),
    ("dynamics", JOINED, 0,
     b"dynamics solo acceleration 0 0 0 jump 0 cue 1 500000 cue 3 250000 cue 6 begins rest ends moving\n"
     b"greatest acceleration 0 0 0 jump 0 500000 250000\n"),
    ("dynamics --jump 500", JOINED, 0,
     b"dynamics solo acceleration 0 0 0 jump 0 cue 1 500000 cue 3 250000 cue 6 begins rest ends moving\n"
     b"greatest acceleration 0 0 0 jump 0 500000 250000\n"),
    ("dynamics --jump 499", JOINED, 18, b"error 18 drone solo cue 3 jump y 500000\n"),
    ("dynamics --accel 1879", SHOW, 0,
     b"dynamics solo acceleration 1878895 0 0 jump 0 cue 1 0 cue 1 0 cue 1 begins rest ends rest\n"
     b"greatest acceleration 1878895 0 0 jump 0 0 0\n"),
    ("dynamics --accel 1878", SHOW, 18, b"error 18 drone solo cue 1 accel x 1878895\n"),
    ("dynamics --depth 0 --accel 10500 --jump 0", SHOW, 0,
     b"dynamics solo acceleration 10500000 0 0 jump 0 cue 1 0 cue 1 0 cue 1 begins rest ends rest\n"
     b"greatest acceleration 10500000 0 0 jump 0 0 0\n"),
    ("dynamics --depth 0 --accel 10499", SHOW, 18, b"error 18 drone solo cue 1 accel x 10500000\n"),
    ("dynamics --accel 5000 --jump 300", TWO, 18, b"error 18 drone a cue 2 jump x 1000000\n"),
    ("dynamics --accel 5000 --jump 300", BOTH, 18, b"error 18 drone a cue 1 accel x 6000000\n"),
    ("dynamics --accel 5000 --jump 300", LATER, 18, b"error 18 drone a cue 1 jump z 1000000\n"),
    ("dynamics --accel 5000", LATER, 18, b"error 18 drone a cue 2 accel x 22546729\n"),
    ("dynamics", WITHOUT_ROOM, 4, b"error 4 drone solo bytes 28 room 27\n"),
    ("dynamics --limit 5", SHOW, 2, b"error 2 usage\n"),
]

# 32 drones in a row, of which the last one moves.
MANY = (b"choreo 1\n" + b"".join(b"drone d%02d 0 %02d000000 1000000 0\n" % (d, d) for d in range(32))
        + b"cue 2000\nd31 move 1000000 31000000 1000000 0\nend\n")

DYNAMICS_OF_MANY: Rows = [
    ("dynamics", MANY, 0,
     b"".join(b"dynamics d%02d acceleration %d 0 0 jump 0 cue 1 0 cue 1 0 cue 1 begins rest ends rest\n" % (
         d, 1_878_895 if d == 31 else 0) for d in range(32)) + b"greatest acceleration 1878895 0 0 jump 0 0 0\n"),
]

MARKER_LINES: Rows = [
    (command, SHOW + MARKER, 11, b"error 11 line 6\n") for command in ("speed", "explain", "dynamics")
]

GROUPS: Dict[str, Rows] = {
    "regions": REGIONS, "regions at other depths": DEPTHS, "too many regions": MANY_REGIONS,
    "speeds and explanations": STUDIES, "accelerations and jumps": DYNAMICS, "dynamics of many": DYNAMICS_OF_MANY,
    "marker lines that are refused": MARKER_LINES,
}
