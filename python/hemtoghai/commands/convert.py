"""Writes a show's text in the other form of the language: `choreo 1` in whole numbers, `choreo 2` with units.

    ./show convert [--to 1|2] SHOW > NEW

The header changes, and each number that is a length, a time or an angle; every other byte stays, with comments, blanks
and the order of lines. Nothing is rounded: both texts are of the same show. Without --to the text is written in the
other form. With --to and its own form it is written unchanged. docs/LANGUAGE.md, Quantities, has both forms.

The new text goes to standard output. Status 0: it was written. 2: wrong words. 3: the show is faulty, and nothing is
written. 70: no answer, for example if the new text would be longer than a show may be.
"""
from __future__ import annotations

import sys

from hemtoghai.companion import flown_of, parser, stop
from hemtoghai.language.converting import converted
from hemtoghai.texts import TooLong


def main(words: list[str]) -> int:
    reader = parser(__doc__)
    reader.add_argument("--to", type=int, choices=(1, 2), metavar="FORM", help="1 or 2; without it the other one")
    reader.add_argument("show", metavar="SHOW", help="a show's file, or - for standard input")
    options = reader.parse_args(words)
    text, flown = flown_of(options.show)
    try:
        sys.stdout.buffer.write(converted(text, options.to or 3 - flown.show.form))
    except TooLong as fault:
        stop(f"{options.show}: {fault}")
    return 0
