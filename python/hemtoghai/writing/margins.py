"""What a show still bears: the greatest ellipsoid, stray or lateness with which it is accepted. For ./show summary and
./show studio."""
from __future__ import annotations

import re
from collections.abc import Callable, Iterator
from functools import partial

from hemtoghai.companion import ask_check, missing, stop
from hemtoghai.language import choreo
from hemtoghai.language.lines import line_in

MOST = 1000  # millimetres of a stray, and milliseconds of lateness, in the language


def with_setting(text: bytes, word: str, *numbers: int) -> bytes:
    """The show's text with another setting: its word and its numbers, which are written in the form of the text."""
    line = line_in(choreo.form_of(text), word, *numbers).encode()
    old = rb"(?m)^[ \t\r]*%s(?:[ \t\r]+-?[0-9][^\s#]*)+(?=[ \t\r]*(#|$))" % word.encode()
    new, found = re.subn(old, line, text)
    return new if found else text.rstrip(b"\n") + b"\n" + line + b"\n"


def greatest(deep: int, high: int, changed: Callable[[int], bytes],
             program: str | None = None) -> tuple[int | None, str]:
    """The greatest number below `high` with which the program accepts the show, by halving, and the refusal above it;
    None where it isn't with the least, and what is said then. The tool ends where the program doesn't answer."""
    low, refusal = -1, ""
    while high - low > 1:
        k = (low + high) // 2
        text = changed(k)
        status, line = ask_check(text, deep, program) or stop(missing(program))
        if status not in (0, 5):
            return None, line
        low, high, refusal = (k, high, refusal) if status == 0 else (low, k, line)
    return (None if low < 0 else low), refusal


def margins_of(flown: choreo.Flown, text: bytes, deep: int) -> Iterator[tuple[str, int | None, str]]:
    """How far the ellipsoid can grow, in percent, and stray and lateness, in mm and ms, each while the others are as
    they are: the setting, the greatest number that the program accepts, or None, and the refusal above it."""
    r, h = flown.show.settings["ellipsoid"]
    yield ("ellipsoid", *greatest(deep, 100 * 2000 // max(r, h) + 1, lambda k: with_setting(
        text, "ellipsoid", max(1, r * k // 100), max(1, h * k // 100))))
    for word in ("stray", "late"):
        yield (word, *greatest(deep, MOST + 1, partial(with_setting, text, word)))
