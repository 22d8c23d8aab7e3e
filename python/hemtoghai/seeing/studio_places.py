"""What stands around a line of a show's text, and where each drone is there: for the menu of ./show studio, that writes
new drones, cues and acts with these numbers. Of a text that is half written what stands before the line is taken."""
from __future__ import annotations

import contextlib
import itertools

from hemtoghai.language import choreo
from hemtoghai.language.lines import header, line_in

Places = dict[str, list[int]]  # by drone x, y and z in micrometres, and yaw in tenths of a degree
START = [0, 0, 1000000, 0]  # of a role whose place in its figure isn't known: a metre above the origin
DECLARED = ("drone", "formation", "figure", *choreo.SETTINGS)


def tree(lines: list[bytes]) -> choreo.Line:
    """The lines of a text as a tree, each with its further words as its values, right or not. In a cue and in a
    formation nothing opens a block: a drone may have any name. A block that nothing closes goes on after the last line.
    """
    blocks = [choreo.Line(0, "top", [])]
    for number, line in enumerate(lines, 1):
        words = line.partition(b"#")[0].decode(errors="replace").split()
        if words[:1] == ["end"] and len(blocks) > 1:
            blocks.pop().last = number
        elif words:
            place, new = blocks[-1], choreo.Line(number, words[0], words[1:])
            place.body.append(new)
            if new.kind in choreo.OPENING and place.kind in ("top", "figure", "repeat"):
                blocks.append(new)
    for block in blocks:
        block.last = len(lines) + 1
    return blocks[0]


def before(lines: list[bytes], line: int, opened: list[choreo.Line]) -> list[bytes]:
    """The lines that are flown before a line: a repeat that is open there is flown once so far, an open cue not yet."""
    end = opened[-1].number if opened and opened[-1].kind in ("cue", "formation") else line
    repeats = {block.number for block in opened if block.kind == "repeat"}
    return [b"" if number in repeats else it for number, it in enumerate(lines[:end - 1], 1)]


def read(lines: list[bytes], is_paused: bool = True) -> choreo.Flown | None:
    """What the drones of these lines fly, with a pause at the end so that there is a cue; without one where there is a
    cue and none is wanted. None if they are faulty."""
    pause = line_in(choreo.form_of(b"\n".join(lines)), "cue", 1).encode()
    pauses: list[list[bytes]] = [[pause, b"end"], []]
    for more in pauses if is_paused else pauses[::-1]:
        with contextlib.suppress(choreo.Refused):
            return choreo.flown_of(b"\n".join([*lines, *more, b""]))
    return None


def begun(text: bytes, line: int | None) -> choreo.Flown | None:
    """What the drones fly by the lines before a faulty one, or by all of them where none is named: a block that is open
    there is left out, but for a repeat, which is flown once so far. What is declared later counts, where it is right.
    Else the drones stay at their starts. Lines keep their numbers. None where there is no drone."""
    lines = text.split(b"\n")
    top, at = tree(lines), len(lines) + 1 if line is None else line
    opened = [block for block in choreo.inside(top) if block.number < at <= block.last]
    cut = opened[0].number if opened and opened[0].kind == "figure" else at
    flown_before = before(lines, cut, opened if cut == at else [])
    later = {number for it in top.body if it.kind in DECLARED and it.number >= cut
             for number in range(it.number, it.last + 1)} - {at}
    whole = [it if number in later else b"" for number, it in enumerate(lines, 1)]
    form = choreo.form_of(text)
    starts = [line_in(form, "drone", name, *place).encode() for name, place in starts_of(lines, form).items()]
    for wanted in ([*flown_before, *whole[len(flown_before):]], flown_before, [header(form).encode(), *starts]):
        if flown := read(wanted, False):
            return flown
    return None


def ends_of(flown: choreo.Flown) -> Places:
    """By drone where it is at the end of a show, in micrometres and tenths of a degree."""
    return {name: places[-1] for name, places in zip(flown.names, flown.places)}


def starts_of(lines: list[bytes], form: int) -> Places:
    """By drone where its line puts it, of a text in a form of the language that can't be read as a whole."""
    found: Places = {}
    for line in lines:
        words = line.partition(b"#")[0].decode("ascii", "replace").split()
        if len(words) == 6 and words[0] == "drone" and choreo.is_name(words[1]):
            slots = choreo.LINES["drone"][1:]
            numbers = [choreo.number_of(slot, word, form) for slot, word in zip(slots, words[2:])]
            known = [number for number in numbers if number is not None and abs(number) < 10 ** 9]
            if len(known) == len(numbers):
                found.setdefault(words[1], known)
    return dict(list(found.items())[:choreo.MOST_DRONES])


def in_figure(lines: list[bytes], line: int, opened: list[choreo.Line], form: int) -> Places:
    """By role where it is at a line of a figure, in the figure's own frame: the figure is flown by drones of its roles'
    names, each of which begins where its first line puts it, else a metre above the origin."""
    figure = opened[0]
    roles = [word for word in figure.roles if choreo.is_name(word)][:choreo.MOST_DRONES]
    inner = [b"" if number == figure.number else it
             for number, it in enumerate(before(lines, line, opened), 1) if number >= figure.number]
    begins = [line_in(form, "drone", role, *START).encode() for role in dict.fromkeys(roles)]
    flown = read([header(form).encode(), *begins, *inner])
    return ends_of(flown) if flown else {role: list(START) for role in roles}


def acts_in(block: choreo.Line) -> list[choreo.Line]:
    """The lines of an open cue or formation, as far as such lines follow one another."""
    def fits(line: choreo.Line) -> bool:
        if block.kind == "formation":
            return line.kind == "at"
        return line.kind == "form" or bool(line.values) and line.values[0] in choreo.ACTS
    return [line for line in itertools.takewhile(fits, block.body) if line.values]


def names_declared(top: choreo.Line, kind: str) -> list[str]:
    return [line.name for line in top.body if line.kind == kind and line.values]


def places_at(text: bytes, line: int) -> dict[str, object]:
    """What stands around a line, and where each drone is: the kind of the innermost block, the drones or roles with
    their places in micrometres and tenths of a degree, who has a line in that block, the names of formations and
    figures, and whether the places could be computed or are the starts."""
    lines = text.split(b"\n")
    top, at = tree(lines), min(line, len(lines) + 1)
    opened = [block for block in choreo.inside(top) if block.number < at <= block.last]  # those outside first
    where, exact, form = opened[-1].kind if opened else "top", True, choreo.form_of(text)
    if opened and opened[0].kind == "figure":
        places = in_figure(lines, line, opened, form)
    else:
        flown_before = before(lines, line, opened)
        later = [row for it in top.body if it.kind in DECLARED and it.number >= line
                 for row in lines[it.number - 1:it.last]]
        flown = read([*flown_before, *later]) or read(flown_before)
        places, exact = (ends_of(flown), True) if flown else (starts_of(lines, form), False)
    acts = acts_in(opened[-1]) if where in ("cue", "formation") else []
    has_lines = [line.name if where == "formation" else line.kind for line in acts if line.kind != "form"]
    if where == "cue" and opened[0].kind != "figure":
        names = {line.name for line in acts if line.kind == "form"}
        has_lines += [place.name for it in choreo.inside(top) if it.kind == "formation" and it.values
                      and it.name in names for place in it.body if place.kind == "at" and place.values]
    return {"where": where, "in_figure": bool(opened) and opened[0].kind == "figure", "exact": exact,
            "drones": [[name, *place] for name, place in places.items()], "acted": has_lines,
            "formations": names_declared(top, "formation"), "figures": names_declared(top, "figure")}
