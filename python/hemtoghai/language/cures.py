"""What a faulty line of a show needs, by the table 'Faults' of docs/LANGUAGE.md; of a number that is none, or is out of
its range, by the number that it is, in the form of the language that the text has; of words, names and blocks by the
text around the line (text_cures.py). For ./show and the tools.
"""
from __future__ import annotations

import os
import re
import sys
from collections.abc import Iterator
from fractions import Fraction

from hemtoghai.language.choreo import ACTS, form_of, is_name, LINES, Number, number_of, parts_of, YAW
from hemtoghai.language.quantities import Counts, FAR, in_unit, KINDS, listed, value_of, written
from hemtoghai.language.text_cures import (alone_row, around, block_row, byte_row, count_row, fixed_row, header_row,
                                           length_row, LONGEST_SHOWN, name_row, names_row, open_row, Row,
                                           show_row, unit_row, word_row, words_of)
from hemtoghai.program import TOP

Meaning = tuple[str, str, str, str]  # of a number: what it is, its unit, a cause of being out of range, the cure

LANGUAGE = "docs/LANGUAGE.md"
METRES = "a coordinate", "micrometres", "a number that was multiplied twice", \
    "one metre is 1000000, and no drone flies farther than 32 m from the origin"
DEGREES = "a yaw", "tenths of a degree", "a yaw that goes on counting for more than nine turns", \
    "90 degrees are 900; turn back before, or say the same direction by a smaller number"
# By the first word of a line and the place of a number in it: what the number is, its unit, the commonest cause that it
# is out of range, and the cure.
NUMBERS = {
    ("cue", 1): ("the length of a cue", "milliseconds", "a cue of more than 65,535 ms",
                 "one second is 1000; split a longer cue: a cue without lines is a pause"),
    ("late", 1): ("`late`", "milliseconds", "microseconds in place of milliseconds",
                  "at most 1000, which is one second; drones that start farther apart can't be judged"),
    ("stray", 1): ("`stray`", "millimetres", "micrometres in place of millimetres, which coordinates are in",
                   "at most 1000, which is one metre"),
    **{("ellipsoid", at): (
        f"{axis} of `ellipsoid`", "millimetres", "micrometres in place of millimetres, which coordinates are in",
        f"the half axis {way}, at most 2000, which is two metres: `ellipsoid 120 300`")
       for at, axis, way in ((1, "R", "to the side"), (2, "H", "up and down"))},
    ("repeat", 1): ("the count of a `repeat`", "turns", "",
                    "take a count of at least 1; a show has at most 1,000 cues"),
    ("perform", 3): ("TURNS of `perform`", "quarter turns counter-clockwise", "degrees in place of quarter turns",
                     "take 0, 1, 2 or 3: three quarter turns are one clockwise"),
    ("memory", 1): ("ID of `memory`", "a memory's number", "", "leave the line out: without it `memory 2 0` holds"),
    ("memory", 2): ("OFFSET of `memory`", "bytes", "", "take 0: the whole memory is for the show then"),
    ("trajectory", 1): ("ID of `trajectory`", "an entry's number", "",
                        "leave the line out: without it `trajectory 0` holds"),
}


# The commonest cause and the cure where they are others in `choreo 2`, whose numbers have units.
IN_UNITS = {
    "a coordinate": ("a unit too large", "no drone flies farther than 32m from the origin"),
    "a yaw": (DEGREES[2], "turn back before, or say the same direction by a smaller number"),
    "the length of a cue": ("a cue of more than 65.535s", "split a longer cue: a cue without lines is a pause"),
    "`late`": ("a unit too large", "at most 1s; drones that start farther apart can't be judged"),
    "`stray`": ("a unit too large", "at most 1m"),
    "R of `ellipsoid`": ("a unit too large", "the half axis to the side, at most 2m: `ellipsoid 120mm 300mm`"),
    "H of `ellipsoid`": ("a unit too large", "the half axis up and down, at most 2m: `ellipsoid 120mm 300mm`"),
}


def row_of(word: str) -> Row | None:
    """What a fault of a line means, its commonest cause or nothing, and its cure; None where the table hasn't it."""
    with open(os.path.join(TOP, LANGUAGE), encoding="utf-8") as lines:
        for line in lines:
            cells = [cell.strip() for cell in line.strip().strip("|").split("|")]
            if cells[0] == f"`{word}`" and len(cells) == 4:
                return cells[1:]
    return None


def short(digits: str) -> str:
    return digits if len(digits) <= 24 else f"{digits[:12]}.. ({len(digits.lstrip('-'))} digits)"


def numbers_of(line: bytes) -> Iterator[tuple[str, Number, Meaning]]:
    """The numbers of a line of a text: for each its word, its slot, and its row as NUMBERS has it."""
    words = line.partition(b"#")[0].decode("ascii", "replace").split()
    is_act = len(words) > 1 and words[1] in ACTS
    slots = ["name", "act", *ACTS[words[1]]] if is_act else ["word", *LINES.get("".join(words[:1]), [])]
    for at, (word, slot) in enumerate(zip(words, slots)):
        if isinstance(slot, Number):
            usual = DEGREES if slot == YAW else METRES
            yield word, slot, usual if is_act else NUMBERS.get((words[0], at), usual)


def range_row(line: bytes, form: int = 1) -> Row | None:
    """The row of the number of a line that is out of its range; None where none is found. `line` is a line of a text,
    in bytes, in a form of the language."""
    for word, slot, (name, unit, cause, cure) in numbers_of(line):
        value = number_of(slot, word, form)
        if value is None or slot.has(value):
            continue
        if value < 0 <= slot.least:
            cause, cure = "a `-` before it", f"write {word[1:]}" if slot.has(-value) else cure
            limits = f"{slot.least} to {slot.most} ({unit})" if form == 1 or slot.counts is None else \
                f"{written(slot.counts, slot.least)} to {written(slot.counts, slot.most)}"
            return [f"{name} is {short(word)}, and may be {limits}", cause, cure]
        if form == 1 or slot.counts is None:
            return ["%s is %s, and may be %d to %d (%s)" % (name, short(word), *slot[:2], unit), cause, cure]
        read = "" if value == 0 or abs(value) == FAR else f" ({value} {unit})"
        limits = f"{written(slot.counts, slot.least)} to {written(slot.counts, slot.most)}"
        return [f"{name} is {short(word)}{read}, and may be {limits}", *IN_UNITS[name]]
    return None


def number_row(line: bytes, form: int) -> Row | None:
    """The row of the word of a line that stands in place of a number and is none; None if no more is known of it."""
    for word, slot, (name, *_) in numbers_of(line):
        if number_of(slot, word, form) is None:
            if len(word) > LONGEST_SHOWN:
                return None
            if slot.counts and line.split()[0] == b"perform" and is_name(word) and word not in KINDS:
                return [f"{name} is {word}, which has no digits", "a number is missing before it",
                        "write `perform` and then FIGURE MIRROR TURNS DX DY DZ and the drones"]
            if slot.counts is None:
                found = re.fullmatch("(-?[0-9]+)([a-z]+)", word)
                if found and found[2] == "deg" and name == "TURNS of `perform`":
                    turns, rest = divmod(int(found[1]), 90)
                    return [f"{name} is {word}, and counts quarter turns", "",
                            "write 0, 1, 2 or 3" if rest else f"write {turns % 4}"]
                if found:
                    return [f"{name} is {word}, and has no unit", "", f"write {found[1]}"]
                return odd_row(name, word, "[0-9]+") or [
                    f"{name} is {word}, which is no whole number", "",
                    f"write digits alone, without a unit: {slot.least} to {slot.most}"]
            return (quantity_row if form == 2 else whole_row)(name, slot, slot.counts, word)
    return None


def kind_of(unit: str) -> str:
    """The kind of quantities that have a unit, with its article; empty where there is no such unit."""
    return {"length": "a length", "time": "a time", "angle": "an angle"}.get(KINDS.get(unit, ""), "")


def whole_row(name: str, slot: Number, counts: Counts, word: str) -> Row | None:
    """The row of a word that is no whole number, in `choreo 1`."""
    found = re.fullmatch("-?[0-9]+([.][0-9]+)?([a-z]*)", word)
    if not found or found[2] and not kind_of(found[2]):
        cause = "a comma between thousands" if re.fullmatch("-?[0-9]{1,3}(,[0-9]{3})+", word) else ""
        return odd_row(name, word, "[0-9]+") or [
            f"{name} is {word}, which is no whole number", cause, f"write {word.replace(',', '')}" if cause else
            f"write digits alone, with a `-` before them if it is below zero: here of {counts.name}"]
    kind, meant = kind_of(found[2]), word if found[2] else word + next(iter(counts.units))
    value = value_of(counts, meant)
    what = f"{name} is {word}, which is {kind}" if kind else f"{name} is {word}, which isn't whole"
    cause = "a number with a unit, as in `choreo 2`: this text is in `choreo 1`" if kind else f"{meant} is meant"
    if not slot.has(value):
        return [what, cause, f"write whole numbers, here of {counts.name}"]
    return [what, cause, f"write whole numbers: {meant} is {value} {counts.name}. Or begin the text with "
                         f"`choreo 2`, and write {meant}: there each length, time and angle has a unit"]


def odd_row(name: str, word: str, number: str) -> Row | None:
    """The row of a word that is nearly a number, by the form of one without its sign: with a comma or a `+`, with its
    unit in front, with an exponent, with two points, or a letter in place of a digit; None where it is none of
    these."""
    bare = word.strip(",;:+")
    if bare != word and re.fullmatch(f"-?(?:{number})", bare):
        cause = "a `+`" if word[0] == "+" else \
            f"{'a `:`' if ':' in word else 'commas'} between words, where a blank is enough"
        return [f"{name} is {word}", cause, f"write {bare}"]
    found = re.fullmatch("([a-z]+)(-?[0-9.]+)", word)
    if found and re.fullmatch(f"-?(?:{number})", found[2] + found[1]):
        return [f"{name} is {word}, with its unit in front", "", f"write {found[2]}{found[1]}"]
    found = re.fullmatch("(-?[0-9]+)([.][0-9]+)?[eE]([+]?[0-9]|-[1-9])([a-z]*)", word)
    if found:
        value = Fraction(found[1] + (found[2] or "")) * Fraction(10) ** int(found[3])
        there = f"{int(value)}{found[4]}" if value.denominator == 1 else ""
        is_one = re.fullmatch(f"-?(?:{number})", there)
        return [f"{name} is {word}, which has an exponent", "", f"write {there}" if is_one else
                "write the number out" + ", with its unit" * ("(" in number)]
    if word.count(".") > 1:
        return [f"{name} is {word}, which has two points", "", "write one number with at most one point"]
    return [f"{name} is {word}", "a letter in place of a digit", "write the digit"] if word in list("oOlI") else None


def quantity_row(name: str, slot: Number, counts: Counts, word: str) -> Row:
    """The row of a word that is no quantity in its place, in `choreo 2`."""
    units = counts.units
    if row := odd_row(name, word, f"0+|[0-9]+([.][0-9]+)?({'|'.join(units)})"):
        return row
    (sign, whole, point, fraction, unit), = re.findall(r"\A([+-]?)([0-9]*)([.,]?)([0-9]*)(.*)\Z", word, re.S)
    if not whole + fraction or re.search("[-0-9/*+.,]", unit):
        return [f"{name} is {word}, which {'is no number' if re.search('[0-9]', word) else 'has no digits'}",
                "a fraction with a `/`: a number has a point" if "/" in unit else "",
                f"write a number with its unit: {listed(units)}"]
    if not unit:
        return bare_row(name, slot, counts, word, point == "")
    if unit not in units:
        kind, zero = kind_of(unit), "" if (whole + fraction).strip("0") else "; zero needs no unit: write 0"
        return [f"{name} is {word}, which is {kind}" if kind else f"{name} is {word}, and {unit} is no unit here", "",
                f"{name} is {kind_of(counts.usual)}: write its number with {listed(units)} right after it{zero}"]
    plain = sign.replace("+", "") + (whole or "0") + ("." + fraction if fraction else "") + unit
    if plain != word:
        cause = "a `+`" if sign == "+" else "a comma in place of the point" if point == "," else \
            "no digit before the point or after it"
        return [f"{name} is {word}", cause, f"write {plain}"]
    return finer_row(name, slot, counts, word, unit)


def finer_row(name: str, slot: Number, counts: Counts, word: str, unit: str) -> Row:
    """The row of a quantity that isn't whole in its place: it lies between two that are, of which those are named that
    may stand there."""
    size = Fraction(word[:-len(unit)]) * Fraction(10) ** counts.units[unit]
    below = size.numerator // size.denominator
    near = [in_unit(counts, value, unit) if value else "0" for value in (below, below + 1) if slot.has(value)]
    return [f"{name} is {word}, which is no whole number of {counts.name}",
            f"more digits than fit: the next after 0 is {in_unit(counts, 1, unit)}", f"write {listed(near)}" if near
            else "see the ranges of numbers"]


def bare_row(name: str, slot: Number, counts: Counts, word: str, is_whole: bool) -> Row:
    """The row of a number without a unit: with the units that may be meant, and what `choreo 1` reads."""
    what, digits = f"{name} is {word}, without a unit", word.lstrip("+").replace(",", ".")
    if not digits.strip("-0."):
        return [what, "", "write 0: zero alone needs no unit"]
    fitting = [digits + unit for unit in counts.units if slot.has(number_of(slot, digits + unit, 2))]
    value = int(digits) if is_whole else slot.least - 1
    meant = ", whichever is meant" * (len(fitting) > 1)
    if not slot.has(value):
        cure = f"write {listed(fitting)}" if fitting else f"write {listed(counts.units)} right after the number"
        return [what, "", cure + meant]
    first = written(counts, value)
    if all(value_of(counts, it) == value for it in fitting):
        same = [in_unit(counts, value, unit) for unit in list(counts.units)[:3]]
        return [what, f"a number of `choreo 1`, which reads it as {first}", f"write {listed(same)}"]
    return [what, "", f"write {listed(fitting)}{meant}; `choreo 1` reads it as {first}"]


def cure_of(word: str, line: bytes, form: int = 1) -> Row | None:
    """What a fault of a line means, its commonest cause or nothing, and its cure, by the line alone; None where there
    is none. `form` is that of the text: choreo.form_of gives it. `cure_in` looks at the text around the line too."""
    row = None
    if word == "range":
        row = range_row(line, form)
    elif word == "bad-number":
        row = number_row(line, form)
    elif word == "bad-count":
        row = (unit_row(line) if form == 2 else None) or length_row(words_of(line))
    elif word == "bad-word":
        row = fixed_row(words_of(line))
    elif word == "header":
        row = header_row(line)
    elif word == "bad-byte" and (place := shown(line)[1]) is not None:
        row = byte_row(line, place)
    return row or row_of(word)


def row_in(text: bytes, number: int, word: str) -> Row | None:
    """The row of a fault of a line, by the text around it; None where that says no more than the line does."""
    if word == "no-end":
        return open_row(text)
    if word in ("no-cue", "too-many-cues", "out-of-range"):
        return show_row(text, word)
    if word in ("unknown-name", "double-act", "double-name", "role-count"):
        return names_row(text, number)
    if word in ("bad-byte", "header") or (at := around(text, number)) is None:
        return None
    if word == "bad-word":
        return word_row(at)
    if word == "bad-name":
        return name_row(at)
    if word == "bad-count":
        return alone_row(at) or count_row(at)
    return block_row(at, word)


def cure_in(text: bytes, number: int, word: str) -> Row | None:
    """What a fault of a line of a show's text means, its commonest cause or nothing, and its cure; None where there is
    none. The line counts from 1, and the word is the one of the fault line."""
    text = parts_of(text)[0]
    return row_in(text, number, word) or cure_of(word, b"".join(text.split(b"\n")[number - 1:number]), form_of(text))


def shown(line: bytes) -> tuple[str, int | None]:
    """A line of a text as it can be printed, and the place of its first byte that may not stand there, or None."""
    comment = line.find(b"#")
    text: list[str] = []
    place = None
    for at, byte in enumerate(line):
        if place is None and (comment < 0 or at <= comment) and byte not in (9, 13) and not 32 <= byte <= 126:
            place = at
        text.append(chr(byte) if 32 <= byte <= 126 else " " if byte in (9, 13) else f"\\x{byte:02X}")
    return "".join(text), place


def print_cure(who: str, number: int, word: str, text: bytes) -> None:
    """Writes the line of a text and what helps to standard error."""
    line = b"".join(text.split(b"\n")[number - 1:number])
    words, place = shown(line)
    print(f"{number:6d} | {words[:200]}", file=sys.stderr)
    if word == "bad-byte" and place is not None:
        print(f"{who}: byte {place + 1} of the line is {line[place]:02X}", file=sys.stderr)
    if row := cure_in(text, number, word):
        for label, cell in zip((word, "most often", "cure"), row):
            if cell:
                print(f"{who}: {label}: {cell}", file=sys.stderr)
    print(f"{who}: read on: {LANGUAGE}, Faults", file=sys.stderr)
