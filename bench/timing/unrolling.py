"""A table of how long `check` takes over texts of many kinds, and of the memory that it takes for them.

Lines as people write them: `drill` (32 drones, a `move` each in each cue), `curves` (the same with `curve`),
`formations` (one place each), `figures` (one `move` each); and, read whole but refused when they are unrolled, `moves`
(one drone, a cue a `move`) and `performs`, which have too many cues. Texts of the shortest lines: `short moves`,
`least figures`, `cues` (no act), `holds` (32 drones); and, refused likewise, `places` and `one cue` (an act line for
each seven bytes).
"""
from __future__ import annotations

import os
from typing import Callable, Dict

from timing import shows
from timing.measures import Run, row, timed

SIZES = 64 << 10, 256 << 10, 1 << 20
ONE_CUE = "choreo 1\ndrone a 0 0 1000000 0\ncue 1\nend\n"
FIGURE = "choreo 1\ndrone a 0 0 1000000 0\nfigure g p\ncue 1000\np move 100000 200000 1000000 0\nend\nend\n"


def filled(size: int, head: str, part: Callable[[int], str], tail: str = "") -> str:
    """A head, parts as long as they fit, each made from its number, and a tail."""
    texts, left, number = [head], size - len(head) - len(tail), 0
    while len(part(number)) <= left:
        texts.append(part(number))
        left -= len(texts[-1])
        number += 1
    return "".join(texts) + tail


def flown(size: int, act: Callable[[int, int], str]) -> str:
    """A show of 32 drones in a grid that each do this in each of at most 255 cues."""
    places = shows.grid(32, 1000000)
    head = shows.show(places, [], ()).decode()
    cue = "cue 3000\n" + "".join("d%d %s\n" % (i + 1, act(x, y)) for i, (x, y) in enumerate(places)) + "end\n"
    return head + cue * min(255, (size - len(head)) // len(cue))


KINDS: Dict[str, Callable[[int], str]] = {
    "drill": lambda size: flown(size, lambda x, y: "move %d %d 1000000 0" % (x, y)),
    "curves": lambda size: flown(size, lambda x, y: "curve" + " %d %d 1000000" % (x, y) * 3 + " 0"),
    "moves": lambda size: filled(size, "choreo 1\ndrone a1 0 0 1000000 0\n",
                                 lambda i: "cue 3000\na1 move 1500000 -250000 1000000 900\nend\n"),
    "formations": lambda size: filled(size, ONE_CUE, lambda i: "formation f%d\nat a 0 0 0 0\nend\n" % i),
    "figures": lambda size: filled(
        size, ONE_CUE, lambda i: "figure g%d p\ncue 1000\np move 100000 200000 1000000 0\nend\nend\n" % i),
    "performs": lambda size: filled(size, FIGURE, lambda i: "perform g x 1 0 0 500000 a\n"),
    "places": lambda size: filled(size, ONE_CUE + "formation f\n", lambda i: "at a 0 0 0 0\n", "end\n"),
    "short moves": lambda size: flown(size, lambda x, y: "move 0 0 0 0"),
    "least figures": lambda size: filled(size, ONE_CUE, lambda i: "figure g%d p\ncue 1\nend\nend\n" % i),
    "cues": lambda size: filled(size, ONE_CUE + "figure g p\n", lambda i: "cue 1\nend\n", "end\n"),
    "holds": lambda size: flown(size, lambda x, y: "hold"),
    "one cue": lambda size: filled(size, "choreo 1\ndrone a 0 0 0 0\ncue 1\n", lambda i: "a hold\n", "end\n"),
}

def unroll(program: str) -> None:
    """`check` of twelve kinds of texts of 64 KiB to 1 MiB: times, and memory beyond what a text of comments takes."""
    # Without spare room at the heap's top, so that the least address space is exact to a page.
    os.environ["MALLOC_TOP_PAD_"] = "0"
    row("text", "bytes", "check ms", "more KiB", "times", "status", "answer")
    for name, kind in KINDS.items():
        for text in dict.fromkeys(kind(size) for size in SIZES):  # at most 255 cues
            comments = ONE_CUE + "#" * (len(text) - len(ONE_CUE))
            run, plain = (Run([program, "check"], it.encode()) for it in (text, comments))
            timed(run)
            status, said = run.answer()
            more = run.least_kib(4) - plain.least_kib(4)
            row(name, len(text), run.ms, more, 1024 * more / len(text), status, said.decode().strip())
    del os.environ["MALLOC_TOP_PAD_"]
