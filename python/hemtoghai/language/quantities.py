"""Quantities: numbers with a unit, as people write them (`1.5m`, `30cm`, `2s`, `90deg`), in whole numbers of what their
places count. For texts of `choreo 2`; docs/LANGUAGE.md, Quantities, has the rules.

A value is exact, of words with any number of digits; none is ever rounded or cut off. `written` has one way for each
value: metres, or millimetres where a place counts millimetres; seconds from one second on, and milliseconds below;
degrees; with no digit more than it takes, and `0` without a unit.
"""
from __future__ import annotations

import re
from collections.abc import Iterable
from typing import NamedTuple

FAR = 10 ** 12  # a number of more than twelve digits, which is beyond every range of the language
WORD = re.compile(r"(-?)([0-9]+)(?:\.([0-9]+))?([a-z]+)")


class Counts(NamedTuple):
    """What a place counts: its name, the kind of its quantities, the unit in which they are written, and for each unit
    the power of ten that one unit is."""

    name: str
    kind: str
    usual: str
    units: dict[str, int]


MICROMETRES = Counts("micrometres", "length", "m", {"m": 6, "cm": 4, "mm": 3, "um": 0})
MILLIMETRES = Counts("millimetres", "length", "mm", {"m": 3, "cm": 1, "mm": 0, "um": -3})
MILLISECONDS = Counts("milliseconds", "time", "s", {"s": 3, "ms": 0})
TENTHS = Counts("tenths of a degree", "angle", "deg", {"deg": 1})
KINDS = {unit: counts.kind for counts in (MICROMETRES, MILLISECONDS, TENTHS) for unit in counts.units}


def listed(words: Iterable[str]) -> str:
    """Words in a row, as the units of a place."""
    *others, last = words
    return ", ".join(others) + " or " * bool(others) + last


def number_of(digits: str) -> int:
    """The number of some digits, or FAR where it has more than twelve."""
    digits = digits.lstrip("0") or "0"
    return int(digits) if len(digits) <= 12 else FAR


def moved(digits: str, places: int) -> str | None:
    """The digits of a number times ten to the power of `places`; None where that isn't whole."""
    return digits + "0" * places if places >= 0 else digits[:places] if not digits[places:].strip("0") else None


def value_of(counts: Counts, word: str) -> int | None:
    """The quantity that a word is, in whole numbers of what its place counts, or None where it is none there. A value
    that is beyond every range is FAR or -FAR."""
    if re.fullmatch("-?0+", word):
        return 0
    found = WORD.fullmatch(word)
    if found is None or found[4] not in counts.units:
        return None
    fraction = found[3] or ""
    digits = moved(found[2] + fraction, counts.units[found[4]] - len(fraction))
    return None if digits is None else -number_of(digits) if found[1] else number_of(digits)


def in_unit(counts: Counts, value: int, unit: str) -> str:
    """A value in a unit, exactly, with no digit more than it takes."""
    places = counts.units[unit]
    digits = str(abs(value) * 10 ** max(0, -places)).rjust(places + 1, "0")
    whole, fraction = (digits[:-places], digits[-places:].rstrip("0")) if places > 0 else (digits, "")
    return f"{'-' if value < 0 else ''}{whole}{'.' if fraction else ''}{fraction}{unit}"


def written(counts: Counts, value: int) -> str:
    """A value as a word of `choreo 2`, in the one way that is said above."""
    if value == 0:
        return "0"
    return in_unit(counts, value, "ms" if counts.kind == "time" and abs(value) < 1000 else counts.usual)
