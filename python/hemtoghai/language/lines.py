"""Lines of a show's text in a form of the language, for tools that write them: a tool that changes a text writes in the
form of that text, and one that makes a new text in the newest form."""
from __future__ import annotations

import itertools
import re
from collections.abc import Collection

from hemtoghai.language import choreo

NEWEST = max(choreo.FORMS.values())  # the form of the language in which new texts are written


def header(form: int) -> str:
    return f"choreo {form}"


def line_in(form: int, kind: str, *values: object) -> str:
    """A line of a kind with these values, each a word or a whole number of what its place counts. An act has the kind
    `act`, and the drone and the act as its first two values."""
    return " ".join(choreo.words_of(choreo.Line(0, kind, list(values)), form))


def with_words(line: bytes, words: str) -> bytes:
    """A line of a text with other words; blanks before them, a comment and the line's end stay."""
    return re.sub(rb"\A(\s*)[^#]*?(\s*(?:#.*)?)\Z", lambda found: found[1] + words.encode() + found[2], line,
                  flags=re.S)


def with_words_at(line: bytes, new: dict[int, str]) -> bytes:
    """A line in which the words of these places, from 0, are others; every other byte stays."""
    found = list(re.finditer(rb"[^ \t\r]+", line.partition(b"#")[0]))
    for at in sorted(new, reverse=True):
        line = line[:found[at].start()] + new[at].encode() + line[found[at].end():]
    return line


def free_name(name: str, taken: Collection[str]) -> str:
    """A name that none has, made from another one; it has at most 16 letters."""
    names = (name[:15 - len(str(number))] + f"_{number}" for number in itertools.count(2))
    return next(it for it in names if it not in taken)
