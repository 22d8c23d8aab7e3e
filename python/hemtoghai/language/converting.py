"""Writes a show's text in the other form of the language, `choreo 1` in whole numbers or `choreo 2` with units.

The header changes, and each number that is a length, a time or an angle; every other byte stays, with comments, blanks
and the order of lines. Nothing is rounded: both texts are of the same show. docs/LANGUAGE.md, Quantities, has both
forms.
"""
from __future__ import annotations

from hemtoghai.language import choreo
from hemtoghai.language.lines import with_words_at
from hemtoghai.texts import TooLong


def new_words(number: int, words: list[str], blocks: list[choreo.Line], form: int) -> dict[int, str]:
    """By their places the words of a line that are others in this form; then the line is among the open blocks."""
    _, front, slots = choreo.slots_of(number, words, blocks)
    line = choreo.line_of(number, words, blocks)
    choreo.add_line(line, blocks)
    first, values = len(words) - len(slots), line.values[len(front):]
    return {first + k: choreo.word_of(slot, values[k], form) for k, slot in enumerate(slots)
            if isinstance(slot, choreo.Number) and slot.counts}


def in_form(text: bytes, form: int) -> bytes:
    """A text in a form, where it is in the other one. Its lines have to be right; names and cues aren't looked at.
    Raises choreo.Refused for a faulty line."""
    blocks, out, begun = [choreo.Line(0, "top", choreo.read(text).values)], [], False
    for number, line in enumerate(text.split(b"\n"), 1):
        words, new = line.partition(b"#")[0].decode().split(), {}
        if words:
            new = new_words(number, words, blocks, form) if begun else {1: str(form)}
            begun = True
        out.append(with_words_at(line, new))
    return b"\n".join(out)


def converted(text: bytes, form: int) -> bytes:
    """A show's text in a form, which is 1 or 2: the same show, with the same comments, blanks and order. A text that is
    in that form already stays as it is. Raises choreo.Refused where the reader refuses the text, and texts.TooLong
    where the new one would be longer than a show may be."""
    if form not in choreo.FORMS.values():
        raise ValueError(f"there is no form {form} of the language")
    choreo.flown_of(text)
    new = text if choreo.form_of(text) == form else in_form(text, form)
    if len(new) > choreo.LONGEST_TEXT:
        raise TooLong(f"the new text would have {len(new)} bytes, and a show has at most {choreo.LONGEST_TEXT}")
    return new
