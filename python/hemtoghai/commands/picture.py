"""Draws a show: one HTML page that needs nothing else, to be looked at in any browser.

    ./show picture [OPTIONS] SHOW > PAGE.html
    ./show picture --svg SHOW > DRAWING.svg

It has a view in space that turns with the mouse, also from above and from the sides, with paths, names, ellipsoids and
regions; the heights, the nearest pair over time as a share of what the ellipsoids need, and a slider that moves the
drones. Positions of an accepted show are those that the program's `play` writes; the tool computes those of a show that
is refused for nearness or room, and marks the refused places, the pair that comes nearest first. With --svg it is one
drawing, with positions that the tool computes. The page looks at single instants and proves nothing. Status 0: the page
is written, even for a show that is refused with 4 or 5; 3: the show is faulty. 70: no answer.
"""
from __future__ import annotations

import argparse
import json
import os
import sys
from typing import Any

from hemtoghai import program
from hemtoghai.companion import (add_depth, ask_check, ask_dynamics, missing, parser, whole, without_program,
                                 words_and_show)
from hemtoghai.language.choreo import Flown
from hemtoghai.seeing import drawing
from hemtoghai.seeing.page import page_of
from hemtoghai.seeing.sampling import (blocked_marks, boxes_said, flight_of, Mark, regions_of, rows_of_play, shares,
                                       step_of, worked_out)


def motion_said(options: argparse.Namespace, text: bytes, flown: Flown) -> str:
    """What `dynamics` says of the show: for the drone with the greatest acceleration, and for that with the greatest
    jump of speed, a few words; that it wasn't asked where the program isn't there or refuses the show."""
    motions = ask_dynamics(text, options.program)
    if not motions:
        return "accelerations and jumps of speed were not asked: the program isn't built, or refuses the show"
    force, drone, axis = max((v, name, "xyz"[axis]) for name, (row, _, _) in motions.items()
                             for axis, v in enumerate(row))
    jump, cue, other, where = max((v, -cues[axis], name, "xyz"[axis]) for name, (_, row, cues) in motions.items()
                                  for axis, v in enumerate(row))
    when = "at the end" if -cue > len(flown.cues) else f"in cue {-cue}"
    jumps = f"the greatest jump of speed is {jump:.2f} m/s on {where}, of {other}, {when}"
    return "accelerations are at most %.2f m/s2 on %s, of %s; %s" % (
        force, axis, drone, jumps if jump else "no speed jumps")


def picture_of(options: argparse.Namespace, text: bytes, flown: Flown) -> dict[str, Any]:
    judge, (status, line) = "check", ask_check(text, options.depth, options.program) or (2, "")
    if status not in (0, 4, 5):
        judge, (status, line) = "this tool", without_program(text, options.program)
    step = step_of(flown, options.step)
    marks: list[Mark] = []
    if status == 5:
        marks, are_all = blocked_marks(flown, text, options.depth, options.program)
        line += "" if are_all else f" (more may be blocked than the {len(marks)} places that are marked)"
    rows = rows_of_play(text, options.program, options.depth, step) if status == 0 else None
    regions = regions_of(options.regions) if options.regions else []
    drawn, places = flight_of(flown, step, rows, {round(mark["nearest"]) for mark in marks}, regions)
    nearest, pairs = shares(flown, places)
    return {
        "title": "standard input" if options.show == "-" else os.path.basename(options.show), "line": line,
        "status": status, "judge": judge, "depth": options.depth, **drawn,
        "boxes": boxes_said(options.program, text, options.regions, options.depth) if options.regions else "",
        "motion": motion_said(options, text, flown), "nearest": nearest, "pairs": pairs, "marks": marks,
    }


def main(words: list[str]) -> int:
    reader = parser(__doc__)
    add_depth(reader)
    reader.add_argument("--step", type=whole("a step is %d to %d", 1, 60000), metavar="MS",
                        help="milliseconds from one sample to the next, 1 to 60000; without it by the show's length")
    reader.add_argument("--regions", metavar="FILE", help="boxes and volumes to draw: the regions of `boxes`")
    reader.add_argument("--svg", action="store_true", help="one drawing in place of a page")
    reader.add_argument("--program", default=program.PROGRAM, metavar="FILE",
                        help="the program to ask; without it that of ./show")
    options, text, flown = words_and_show(reader, words)
    if options.svg:
        step_ = step_of(flown, options.step)
        sys.stdout.write(drawing.drawing_of(flown, *worked_out(flown, step_)))
        return 0
    data = picture_of(options, text, flown)
    # In a script `<` could begin an end tag.
    said = json.dumps(data, separators=(",", ":")).replace("<", "\\u003C")
    sys.stdout.write(page_of("picture.html").replace("/*DATA*/", said))
    print("picture: %s; a sample every %d ms; positions by %s" % (
        data["line"], data["step"], "the program's play" if data["source"] == "play" else "this tool"), file=sys.stderr)
    if data["judge"] != "check":
        print("picture: " + missing(options.program), file=sys.stderr)
    return 0
