"""Texts that several files of cases give the program, and the form of a case."""
from typing import List, NamedTuple, Tuple, Union


class Around(NamedTuple):
    """What an output begins with and ends with, and how many bytes it has, if that is known."""

    front: bytes = b""
    end: bytes = b""
    size: int = -1


# The words, the input, the status, and what is written.
Rows = List[Tuple[str, bytes, int, Union[bytes, Around]]]

START = b"choreo 1\ndrone solo 0 0 1000000 0\n"

CUE = b"cue 2000\nsolo move 1000000 0 1000000 0\nend\n"

SHOW = b"choreo 1\ndrone solo 0 0 1000000 0\ncue 2000\nsolo move 1000000 0 1000000 0\nend\n"

PLAN = (
    b"plan 1\ndrone solo bytes 28 pieces 1\n"
    b"data 00 00 00 00 E8 03 00 00 03 D0 07 00 00 00 00 00 00 E8 03 E8 03 E8 03 E8 03 00 00 00\n"
    b"write 4E 02 00 00 00 00 00 00 00 00 E8 03 00 00 03 D0 07 00 00 00 00 00 00 E8 03 E8 03 E8 03 E8\n"
    b"write 4E 02 18 00 00 00 03 00 00 00\ndefine 8C 06 00 01 01 00 00 00 00 01\n"
    b"start 8C 05 00 00 00 00 00 00 80 3F\nend\n"
)

# Two drones that change places, one of them a metre higher than the other.
APART = (
    b"choreo 1\nellipsoid 120 300\ndrone a 0 0 1000000 0\ndrone b 1000000 0 1000000 0\n"
    b"cue 3000\nb move 1000000 0 2000000 0\nend\ncue 3000\na move 1000000 0 1000000 0\n"
    b"b move 0 0 2000000 0\nend\n"
    b"cue 3000\nb move 0 0 1000000 0\nend\n"
)

# Two drones that change places at one height.
CROSSING = (
    b"choreo 1\nellipsoid 120 300\ndrone a 0 0 1000000 0\ndrone b 1000000 0 1000000 0\n"
    b"cue 3000\na move 1000000 0 1000000 0\nb move 0 0 1000000 0\nend\n"
)

# A drone whose trajectory has one byte more than there is room for.
WITHOUT_ROOM = b"choreo 1\nmemory 2 4069\ndrone solo 0 0 1000000 0\ncue 2000\nsolo move 1000000 0 1000000 0\nend\n"

MARKER = b"%%\n"
