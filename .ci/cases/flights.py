"""Flights by `direct`. The frames were written out by hand from docs/PROMISES.md, "Its frames"."""
from typing import Dict

from cases.texts import CROSSING, Rows

# A metre up, a metre along x and back, and a metre down, each a text that a marker line ends.
TEXTS = (
    b"choreo 1\nstray 100\ndrone solo 0 0 0 0\ncue 2000\nsolo move 0 0 1000000 0\nend\n%%\n"
    b"choreo 1\nstray 100\ndrone solo 0 0 1000000 0\ncue 2000\nsolo move 1000000 0 1000000 0\nend\n"
    b"cue 2000\nsolo move 0 0 1000000 0\nend\n%%\n"
    b"choreo 1\ndrone solo 0 0 1000000 0\ncue 2000\nsolo move 0 0 0 0\nend\n%%\n"
)

# The same way up, and as the show the way up once more, which doesn't begin where that ended.
GAP = (
    b"choreo 1\nstray 100\ndrone solo 0 0 0 0\ncue 2000\nsolo move 0 0 1000000 0\nend\n%%\n"
    b"choreo 1\nstray 100\ndrone solo 0 0 0 0\ncue 2000\nsolo move 0 0 1000000 0\nend\n%%\n"
    b"choreo 1\ndrone solo 0 0 1000000 0\ncue 2000\nsolo move 0 0 0 0\nend\n%%\n"
)

# The way up alone, and then a faulty show.
SECOND_FAULTY = b"choreo 1\nstray 100\ndrone solo 0 0 0 0\ncue 2000\nsolo move 0 0 1000000 0\nend\n%%\nchoreo 3\n%%\n"

# The drone is ready on its pad, and answers that it is in the group. Go; armed, it rises in two seconds. Settled, and go: the show, with a sample on its
# curve each second. It lands, disarms, and is seen so. It is sure of its place in each sample, and flies above the pad.
LIFT_OFF = (
    b"\x02\x00\x00\x00\x00\x00\x00\x00\x00\x00\x21\x03\x00\x00\x04\x00"
    b"\x02\x00\x00\x00\x00\x00\x00\x00\x00\x00\x23"
)
EVENTS = LIFT_OFF + (
    b"\x01\xE8\x03\x02\x00\x00\x00\x00\x00\x00\x00\xF4\x01\x32\x01\xE8\x03"
    b"\x02\x00\x00\x00\x00\x00\x00\x00\xE8\x03\x32\x01\xE8\x03\x02\x00\x00\x00\x00\x00\x00\x00\xE8\x03\x32"
    b"\x04\x00\x01\xE8\x03\x02\x00\x00\x00\xF4\x01\x00\x00\xE8\x03\x32\x01\xE8\x03"
    b"\x02\x00\x00\x00\xE8\x03\x00\x00\xE8\x03\x32\x01\xE8\x03\x02\x00\x00\x00\xF4\x01\x00\x00\xE8\x03\x32"
    b"\x01\xE8\x03\x02\x00\x00\x00\x00\x00\x00\x00\xE8\x03\x32\x01\xE8\x03"
    b"\x02\x00\x00\x00\x00\x00\x00\x00\xE8\x03\x32\x01\xE8\x03\x02\x00\x00\x00\x00\x00\x00\x00\xF4\x01\x32"
    b"\x01\xE8\x03\x02\x00\x00\x00\x00\x00\x00\x00\x00\x00\x2A\x01\xE8\x03"
    b"\x02\x00\x00\x00\x00\x00\x00\x00\x00\x00\x28"
)

# Group 1, arm, rise to 1,000 mm in 2,000 ms, start of group 1, land at 0 mm in 2,000 ms, disarm; flown and kept; and
# the end frame.
FLOWN = (
    b"\x01\x00\x07\x01\x01\x00\x00\x01\x00\x01\xE8\x03\xD0\x07\x00\x00\x02\x04\x01"
    b"\x01\x00\x03\x00\x00\xD0\x07\x00\x00\x02\x06\x04\x03\x45\x00"
)

# Told to rise, it is heard 300 mm aside, as far as the room goes, and then 301: a note, and it lands at 0 mm in
# 4,000 ms. The events end before the flight.
OUTSIDE = LIFT_OFF + (
    b"\x02\x00\x00\x00\x00\x00\x2C\x01\x00\x00\x33"
    b"\x02\x00\x00\x00\x00\x00\x2D\x01\x00\x00\x33"
)
LANDED = (
    b"\x01\x00\x07\x01\x01\x00\x00\x01\x00\x01\xE8\x03\xD0\x07\x00\x00"
    b"\x03\x00\x06\x01\x00\x03\x00\x00\xA0\x0F\x00\x00\x45\x08"
)

FLIGHTS: Rows = [
    ("direct", TEXTS + EVENTS, 0, FLOWN),
    ("direct", TEXTS + OUTSIDE, 8, LANDED),
    # A stop on the pad, and then a sample of a drone that isn't armed.
    ("direct", TEXTS + b"\x04\x02\x02\x00\x00\x00\x00\x00\x00\x00\x00\x00\x01", 20, b"\x02\x05\x04\x00\x45\x14"),
    ("direct", TEXTS, 8, b"\x45\x08"),
    ("direct", TEXTS + b"\x09", 11, b"\x45\x0B"),
    # A drone that isn't there.
    ("direct", TEXTS + b"\x03\x01\x00", 11, b"\x45\x0B"),
    # The gap of drone 0 between its way up and the show.
    ("direct", GAP + EVENTS, 19, b"\x05\x01\x00\x00\x00\x00\x45\x13"),
    ("direct", b"choreo 3\n%%\n" + EVENTS, 3, b"\x45\x03"),
    ("direct", SECOND_FAULTY + EVENTS, 3, b"\x45\x03"),
    ("direct", b"", 3, b"\x45\x03"),
    ("direct", CROSSING + b"%%\n", 5, b"\x45\x05"),
]

# Drones that may stand farther from their pads than they may stray aren't flown.
WIDE_STARTS: Rows = [
    ("direct --near 101", TEXTS + EVENTS, 19, b"\x05\x05\x00\x00\x00\x00\x45\x13"),
    ("direct --near 100", TEXTS + EVENTS, 0, FLOWN),
]

GROUPS: Dict[str, Rows] = {"flights": FLIGHTS, "flights of a wide start": WIDE_STARTS}
