"""What was looked at when the program was found to be that of its sources: what stat said of each file and folder, its
time of change among it. Where that is all the same nothing is read again. For ./show.
"""
from __future__ import annotations

import os

SEEN = ".seen"  # stands after a program's name
SETTLED = 3  # seconds: a younger file may change again without a new time


def marks_of(paths: list[str]) -> str:
    """What changes where one of these files and folders changes, appears or goes: number, size, time of change."""
    out, stat = [], os.stat
    for path in paths:
        try:
            found = stat(path)
            out.append(f"{found[1]} {found[6]} {found.st_ctime_ns}")
        except OSError:
            out.append("-")
    return "\n".join(out)


def noted(path: str, most: int = -1) -> list[str]:
    """What was noted of a program, as far as it is read: how it looked, all paths, and their marks."""
    try:
        with open(path + SEEN, encoding="utf-8", errors="surrogateescape") as file:
            return file.read(most).split("\0\0")
    except OSError:
        return []


def is_as_seen(path: str) -> bool:
    """Whether all files are, by what stat says, those of which it was found that they are the program's."""
    found = noted(path)
    paths = found[1].split("\0") if len(found) == 3 else []
    return paths[:1] == [path] and marks_of(paths) == found[2]


def is_same(path: str, looks: tuple[int, ...]) -> bool:
    """Whether a program that was read looked as it did when it was found to be that of its sources."""
    return noted(path, 500)[:1] == [repr(looks)]


def places_of(below: dict[str, list[str]], path: str) -> list[str]:
    """All that a program is made from, itself first, and its record."""
    from hemtoghai.launching.records import walk
    from hemtoghai.program import RECORD, TOP
    places = [path, path + RECORD, os.path.join(TOP, "crates.txt")]
    for crate in below:
        for folder, files in walk(crate):
            places += [folder, *files]
    return places


def is_known_current(path: str) -> bool:
    """Whether the program is that of the sources: by what was noted, or by reading them all, which is noted then."""
    if is_as_seen(path):
        return True
    from hemtoghai.launching.records import LAST, crates_below, is_current
    from hemtoghai.program import RECORD, looks
    below = crates_below(LAST)
    if not os.path.exists(path) or not os.path.exists(path + RECORD):
        return False
    places, before = places_of(below, path), looks(path)
    marks = marks_of(places)
    if not is_current(below, path):
        return False
    import time
    young = 10 ** 9 * (int(time.time()) - SETTLED)
    if all(int(row.split(" ")[2]) < young for row in marks.split("\n") if row != "-") and (
            places == places_of(below, path) and marks == marks_of(places)):
        note(path, "\0\0".join((repr(before), "\0".join(places), marks)))
    return True


def note(path: str, text: str) -> None:
    """Notes what was looked at; nothing where that can't be written."""
    new = f"{path}{SEEN}.{os.getpid()}"
    try:
        with open(new, "w", encoding="utf-8", errors="surrogateescape") as file:
            file.write(text)
        os.replace(new, path + SEEN)
    except OSError:
        pass
