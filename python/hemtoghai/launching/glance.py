"""Whether an accepted show may be one that no drone flies, found out without reading it as a show: the program's
`dynamics` and `boxes` are asked, and the lines of its drones are looked at. Where it may be, `flyable` has the words.
For ./show, which has to be fast.
"""
from __future__ import annotations

import os
from math import hypot

from hemtoghai import texts
from hemtoghai.launching import running

ACCEL, JUMP = 10000, 30  # as flyable.MOST
SMALL = 40  # millimetres, as flyable.SMALL
GROUND, LIFT = 50, 200  # millimetres, as flyable has them
ABOVE = b"volume -40000 -40000 %d 40000 40000 40000\n" % GROUND


def rounded(micrometres: int) -> int:
    """The nearest millimetre, and of two that are equally near the upper one."""
    return (micrometres + 500) // 1000


def whole(word: bytes) -> bool:
    """Whether a word is a number of the language."""
    return word.removeprefix(b"-").isdigit()


def begin_badly(text: bytes) -> bool:
    """Whether drones may begin above each other, near to the floor, or all of them within some millimetres of the
    origin; also where that isn't clear from lines that begin with `drone`."""
    radius, stray, places = 120, 0, []
    for line in text.split(b"\n"):
        words = line.partition(b"#")[0].split()
        if words[:1] == [b"drone"]:
            if len(words) != 6 or not all(map(whole, words[2:])):
                return True
            places.append([rounded(int(word)) for word in words[2:5]])
        elif words[:1] == [b"ellipsoid"] and len(words) == 3 and whole(words[1]):
            radius = int(words[1])
        elif words[:1] == [b"stray"] and len(words) == 2 and whole(words[1]):
            stray = int(words[1])
    near = any(hypot(x - u, y - v) <= 2 * (radius + stray)
               for k, (x, y, _) in enumerate(places) for u, v, _ in places[:k])
    return near or any(z < LIFT for _, _, z in places) or all(abs(v) <= SMALL for place in places for v in place)


ARCS = b"arc", b"swing", b"arc_in", b"arc_out"


def may_stay(text: bytes) -> bool:
    """Whether a drone may be at the centre of its own quarter circle: where that is a place that is written for it, or
    it flies around several centres, or a figure has such acts."""
    places: dict[bytes, set[bytes]] = {}
    centres: dict[bytes, set[bytes]] = {}
    has_figure = False
    for line in text.split(b"\n"):
        words = line.partition(b"#")[0].split()
        has_figure = has_figure or words[:1] == [b"figure"]
        if words[:1] in ([b"drone"], [b"at"]) and len(words) == 6:
            places.setdefault(words[1], set()).add(b" ".join(words[2:4]))
        elif words[1:2] and words[1] in ARCS:
            centres.setdefault(words[0], set()).add(b" ".join(words[3:5]))
        elif words[1:2] and words[1] in (b"move", b"line", b"curve"):
            places.setdefault(words[0], set()).add(b" ".join(words[8:10] if words[1] == b"curve" else words[2:4]))
    return any(has_figure or len(own) > 1 or own & places.get(name, set()) for name, own in centres.items())


def may_be_unflyable(file: str, text: bytes) -> bool:
    """Whether something of an accepted show may be nothing that drones fly; also where the program doesn't say."""
    null = os.open(os.devnull, os.O_WRONLY)
    try:
        return (begin_badly(text) or may_stay(text)
                or running.fed(file, ["dynamics", "--accel", str(ACCEL), "--jump", str(JUMP)], [text], null) != 0
                or running.fed(file, ["boxes"], [texts.joined(text, ABOVE)], null) != 0)
    finally:
        os.close(null)
