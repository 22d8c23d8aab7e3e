"""The words of the language as the page of ./show studio needs them: for colours, the menu and the field of numbers.
They are taken from language/choreo.py, so a new act is known here once it is known there."""
from __future__ import annotations

from typing import Any

from hemtoghai.language import choreo, quantities

# By the unit in which a text in whole numbers has a number, what a place in a text with units counts.
COUNTS = {"um": quantities.MICROMETRES, "mm": quantities.MILLIMETRES, "ms": quantities.MILLISECONDS,
          "deg10": quantities.TENTHS}
PLAIN = {("cue", 1): ("length", "ms"), ("late", 1): ("late", "ms"), ("stray", 1): ("stray", "mm"),
         ("ellipsoid", 1): ("to the side", "mm"), ("ellipsoid", 2): ("up and down", "mm"),
         ("repeat", 1): ("turns", "count"), ("perform", 3): ("quarter turns", "count")}


def coordinates(count: int) -> list[str]:
    """The names of so many coordinates of a line, in their order: of a centre, of one place, or of several."""
    if count == 2:
        return ["centre x", "centre y"]
    return ["%s%s" % ("xyz"[k % 3], k // 3 + 1 if count > 3 else "") for k in range(count)]


def slots_of(word: str, slots: list[Any]) -> list[Any]:
    """For each word of a line after its first ones what it is: "name", a list of the words that may stand there, or the
    name and the unit of a number, "um", "deg10", "ms", "mm" or "count"."""
    out: list[Any] = []
    names = coordinates(sum(slot == choreo.COORDINATE for slot in slots))
    for at, slot in enumerate(slots, 1):
        if slot == choreo.COORDINATE:
            out.append([names.pop(0), "um"])
        elif slot == choreo.YAW:
            out.append(["yaw", "deg10"])
        elif isinstance(slot, tuple):
            out.append(list(PLAIN.get((word, at), ("number", "count"))))
        else:
            out.append(sorted(slot) if isinstance(slot, set) else "name")
    return out


def words_of_language() -> dict[str, Any]:
    """All words that have a meaning of their own; by the first word of a line, and by act, what stands there; and the
    units of the second form of the language, as studio_quantities.js needs them."""
    lines = {word: slots_of(word, slots) for word, slots in choreo.LINES.items()}
    acts = {word: slots_of(word, slots) for word, slots in choreo.ACTS.items()}
    fixed = {word for slots in [*choreo.LINES.values(), *choreo.ACTS.values()]
             for slot in slots if isinstance(slot, set) for word in slot}
    mirrors = {"x", "y"}  # more often the names of drones
    counts = {word: {"kind": it.kind, "usual": it.usual, "units": it.units} for word, it in COUNTS.items()}
    return {"words": sorted({"choreo", *lines, *acts, *fixed} - mirrors), "lines": lines, "acts": acts,
            "counts": counts}
