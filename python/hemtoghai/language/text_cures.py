"""What a faulty line of a show needs, by the words of the line and by the text around it: the block in which it stands,
the names that there are, and the earlier lines with which it doesn't go. For cures.py, which has the rest.
"""
from __future__ import annotations

import difflib
import re
import unicodedata
from collections.abc import Iterable, Sequence
from typing import NamedTuple

from hemtoghai.language import choreo
from hemtoghai.language.choreo import ACTS, ARCS, is_name, Line, LINES, PLACES
from hemtoghai.language.quantities import KINDS, listed

Row = list[str]  # what a fault means, its commonest cause or nothing, and its cure

LONGEST_SHOWN = 40  # bytes of a word of which other ways of writing it are named
MOST_SHOWN = 8  # of names that are listed
# The words after an act, or after the first word of a line.
AFTER = {
    **{act: "X Y Z YAW" for act in ("line", "move")}, "hold": "", "turn": "YAW", "curve": "X Y Z X Y Z X Y Z YAW",
    **{act: "SENSE CX CY YAW" for act in ARCS}, "memory": "ID OFFSET", "trajectory": "ID", "ellipsoid": "R H",
    "stray": "DISTANCE", "late": "TIME", "drone": "NAME X Y Z YAW", "formation": "NAME", "at": "NAME X Y Z YAW",
    "cue": "TIME", "repeat": "COUNT", "form": "NAME line, or NAME move", "end": "",
}
LISTS = {"figure": ("NAME and 1 to 32 roles", 2, 33),  # after it at least and at most so many words
         "perform": ("FIGURE MIRROR TURNS DX DY DZ and 1 to 32 drones", 7, 38)}


class Around(NamedTuple):
    """A line's own words, the blocks that are open where it stands, from outside in, and the lines of the text."""

    number: int
    words: list[str]
    blocks: list[Line]
    text: bytes

    @property
    def place(self) -> str:
        """The kind of the innermost open block, or `top`."""
        return self.blocks[-1].kind

    def where(self) -> str:
        """Where the line stands, in words."""
        return "at the top level" if self.place == "top" else f"in the {self.place} of line {self.blocks[-1].number}"

    def line(self, number: int) -> str:
        """The words of another line, as they are shown."""
        return short_word(" ".join(words_of(self.text.split(b"\n")[number - 1])))


def words_of(line: bytes) -> list[str]:
    """The words of a line without its comment."""
    return line.partition(b"#")[0].decode("ascii", "replace").split()


def short_word(word: str) -> str:
    return word if len(word) <= LONGEST_SHOWN else word[:LONGEST_SHOWN] + ".."


def names_listed(names: Sequence[str]) -> str:
    return ", ".join(names[:MOST_SHOWN]) + (" .." if len(names) > MOST_SHOWN else "")


def form_of_line(word: str) -> str:
    """A line's first word, or an act, with the words that follow it."""
    return f"{word} {AFTER[word] if word in AFTER else LISTS[word][0]}".rstrip()


def nearest(word: str, known: Iterable[str]) -> str | None:
    """The one of the known words that is most like a word, or None where none is."""
    near = difflib.get_close_matches(word[:LONGEST_SHOWN].lower(), list(known), 1, 0.6)
    return near[0] if near else None


def meant(word: str, known: Sequence[str], kind: str) -> str:
    """What to write in the place of a word: the known one that is near to it, and else which there are."""
    if near := nearest(word, known):
        return f"write `{near}`"
    return f"there is no {kind} yet" if not known else f"the only {kind} is {known[0]}" if len(known) == 1 else (
        f"the {kind}s are {names_listed(known)}")


def around(text: bytes, number: int) -> Around | None:
    """What stands around a line of which all lines before it are right; None where they aren't."""
    lines = [words_of(line) for line in text.split(b"\n")[:number]]
    blocks, begun = [Line(0, "top", [1])], False
    try:
        for at, words in enumerate(lines[:number - 1], 1):
            if words and begun:
                choreo.add_line(choreo.line_of(at, words, blocks), blocks)
            elif words:
                blocks[0].values, begun = [choreo.FORMS.get(tuple(words), 1)], True
    except choreo.Refused:
        return None
    return Around(number, lines[number - 1] if number <= len(lines) else [], blocks, text)


# ---- words

def header_row(line: bytes) -> Row | None:
    """The row of a first line that begins nearly as a header does; None where it doesn't."""
    words, forms = words_of(line), "write `choreo 2` where numbers have units, and `choreo 1` where they are whole"
    if not any(word.lower().startswith("choreo") or nearest(word, ["choreo"]) for word in words[:2]):
        return None
    what = f"the first line is `{short_word(' '.join(words))}`"
    if words[0] == "choreo" and words[1:2] and words[1].isdigit() and words[1].strip("0") not in ("1", "2"):
        return [what, "another version of the language: this program reads 1 and 2", forms]
    if words[:2] in (["choreo", "1"], ["choreo", "2"]):
        return [what, "more words in the first line", f"write `choreo {words[1]}` alone; a comment begins with `#`"]
    return [what, "", forms + ": there is no other form"]


def fixed_row(words: list[str]) -> Row | None:
    """The row of a word that has to be one of a few, and isn't: the way of a `form`, a sense, a mirror."""
    if words[:1] == ["form"] and words[2:]:
        act = words[2]
        if act in ACTS and act not in LINES["form"][1]:
            return [f"`form` takes `line` or `move`, not `{act}`", "", f"give each drone a line of its own, as "
                    f"`NAME {form_of_line(act)}`"]
        if act not in LINES["form"][1]:
            return [f"`form` takes `line` or `move`, not `{short_word(act)}`", "", f"write `form {words[1]} move`, "
                    "from rest to rest"]
    if words[1:2] and words[1] in ARCS and words[2:] and words[2] not in ("ccw", "cw"):
        return [f"the sense of `{words[1]}` is {short_word(words[2])}", "",
                f"write `{words[1]} ccw ..` for a turn counter-clockwise as seen from above, or `{words[1]} cw ..`"]
    if words[:1] == ["perform"] and words[2:] and words[2] not in LINES["perform"][1]:
        return [f"the mirror of `perform` is {short_word(words[2])}", "",
                "write `none`, or `x` or `y` for the axis whose sign changes"]
    return None


def act_row(at: Around) -> Row | None:
    """The row of a line of a cue whose second word is no act."""
    first, second = at.words[0], short_word(at.words[1])
    cue = at.blocks[-1].number
    if first in LINES and first not in ("form", "end", "at"):
        return [f"{at.where()} `{first} {second} ..` is taken for an act of a drone called `{first}`",
                f"the `end` of the cue in line {cue} is missing", "write `end` before this line"]
    if first in ACTS and is_name(second):
        return ["the drone comes before its act", "", f"write `{second} {form_of_line(first)}`"]
    if second == "end":
        return [f"`end` closes the cue of line {cue} only by itself", "",
                f"write `end` alone, and no `{short_word(first)}` before it"]
    if second in LINES["form"][1] | {"none"} or at.words[1] in LINES:
        return [f"`{second}` is no act", "", f"the acts are {', '.join(ACTS)}"]
    near = nearest(second, ACTS) or next((word for word in at.words[2:] if word in ACTS), None)
    return [f"there is no act `{second}`", "",
            f"write `{first} {form_of_line(near)}`" if near else f"the acts are {', '.join(ACTS)}"]


def place_row(at: Around) -> Row | None:
    """The row of a line whose first word may not stand where it does."""
    first, own = at.words[0], [word for word in PLACES[at.place] if word != "perform" or at.place != "figure"]
    what = f"`{short_word(first)}` may not stand {at.where()}"
    if first == "end":
        return ["`end` closes a block, and none is open here", "one `end` too many" + last_closed(at),
                "remove this line, or look for a block above that was closed too early"]
    if first == "choreo":
        return ["the first line of the text says already in which form it is", "", "remove this line"]
    if len(at.words) > 1 and at.words[1] in ACTS and is_name(first):
        before = at.blocks[-1].body[-1:]
        is_cut = before and before[0].kind == "cue" and not before[0].body
        return [f"an act stands in a cue, and this line stands {at.where()}", "one `end` too many" + last_closed(at)
                if is_cut else "", "remove that `end`" if is_cut else
                "write `cue TIME` before it, and `end` after the acts of the cue" + (
                    f"; or remove the `end` of line {before[0].last}, if it belongs to the cue of line "
                    f"{before[0].number}"
                    if before and before[0].kind == "cue" else "")]
    if first == "perform" and at.place != "formation":
        return [f"{what}: a figure performs no other", f"the `end` of line {at.blocks[-1].number} is missing",
                "write `end` before this line; or write the cues of that figure into this one"]
    if first in LINES:
        inner = [kind for kind in PLACES if first in PLACES[kind]]
        if at.place in ("formation", "repeat", "figure") and "top" in inner:
            return [what, f"the `end` of line {at.blocks[-1].number} is missing", "write `end` before this line"]
        is_after = at.blocks[-1].body and at.blocks[-1].body[-1].kind in inner
        return [what, "one `end` too many" + last_closed(at) if is_after else "", f"write it in a {listed(inner)}"
                if "top" not in inner else "write it outside of the block"]
    what = f"no line {at.where()} begins with `{short_word(first)}`"
    if near := nearest(first, own) or next((word for word in at.words[1:] if word in own), None):
        return [what, "", f"write `{form_of_line(near)}`" + ", that word first" * (near in at.words)]
    if "cue" in own and len(at.words) < 3 and re.fullmatch("[0-9.]+m?s", at.words[-1]):
        return [what, "", f"write `cue {at.words[-1]}`: a drone without a line holds in it"]
    return [what, "", f"here a line begins with {listed(own)}; a comment begins with `#`"]


def last_closed(at: Around) -> str:
    """Which block was closed last, in words."""
    if not at.blocks[-1].body or at.blocks[-1].body[-1].kind not in choreo.OPENING:
        return ""
    line = at.blocks[-1].body[-1]
    return f": the {line.kind} of line {line.number} was closed in line {line.last}"


def in_cue(at: Around) -> bool:
    """Whether a line is the act of a drone or of a role by where it stands."""
    in_figure = any(block.kind == "figure" for block in at.blocks)
    return at.place == "cue" and at.words[:1] != ["end"] and (in_figure or at.words[:1] != ["form"])


def word_row(at: Around) -> Row | None:
    """The row of a word that may not stand where it does."""
    if not at.words:
        return None
    if in_cue(at):
        return fixed_row(at.words) if at.words[1:2] and at.words[1] in ACTS else act_row(at)
    is_known = at.words[0] in PLACES[at.place] and (at.words[0] != "perform" or not any(
        block.kind == "figure" for block in at.blocks))
    return fixed_row(at.words) if is_known else place_row(at)


def names_in(at: Around) -> list[str]:
    """The words of a line that stand in places of names."""
    if in_cue(at):
        return at.words[:1]
    slots = LINES.get(at.words[0], [])
    slots = slots[:-1] + ["names"] * (len(at.words) - len(slots)) if slots[-1:] == ["names"] else slots
    return [word for word, slot in zip(at.words[1:], slots) if slot in ("name", "names")]


def name_row(at: Around) -> Row | None:
    """The row of a word in the place of a name that is none."""
    word = next((word for word in names_in(at) if not is_name(word)), None)
    if word is None:
        return None
    if word.startswith("//"):
        return ["a line begins with //", "a comment as in other languages", "begin a comment with `#`"]
    if word == "form" and in_cue(at):
        figure = next(block.number for block in at.blocks if block.kind == "figure")
        return ["in a figure no formation is formed", f"the `end` of the figure in line {figure} is missing",
                "write that `end`; or, in the figure, give each role a line of its own"]
    if not in_cue(at) and re.fullmatch(r"-?[0-9]+([.][0-9]+)?(%s)?" % "|".join(KINDS), word):
        return [f"`{short_word(word)}` is a number, and here stands a name", "", f"write `{form_of_line(at.words[0])}`"]
    if in_cue(at) and at.words[1:] == ["end"]:
        return act_row(at)
    if in_cue(at) and re.sub("[^a-z]", "", word.lower()) == "end":
        return [f"`{short_word(word)}` is no name, and doesn't close the cue", "", "write `end`"]
    new = re.sub("[^a-z0-9_]", "_", word.lower())[:16]
    new = new if not new[:1].isdigit() and new[:1] != "_" else "d" + new[:15]
    why = ("it is a word of the language" if word in ("form", "end") else
           f"it has {len(word)} letters, and a name at most 16" if re.fullmatch("[a-z][a-z0-9_]*", word) else
           "it has a capital letter" if re.fullmatch("[a-z][a-z0-9_]*", word.lower()) else
           "a name begins with a lower-case letter" if re.fullmatch("[a-z0-9_]*", word) else
           "a name has a-z, 0-9 and `_` alone")
    return [f"`{short_word(word)}` is no name: {why}", "",
            f"write `{new}`, here and wherever it is used" if is_name(new) else "use 1 to 16 of a-z, 0-9 and `_`"]


def unit_row(line: bytes) -> Row | None:
    """The row of a line that has a word too many, since a unit stands alone; None where none does."""
    found = re.search(rb"(?<!\S)(-?[0-9.]+)\s+(" + "|".join(KINDS).encode() + rb")(?!\S)", line.partition(b"#")[0])
    if not found:
        return None
    number, unit = found[1].decode(), found[2].decode()
    return ["the line has too many or too few words",
            f"a blank between a number and its unit, which makes two words: `{number} {unit}`",
            f"write {number}{unit}"]


def length_row(words: list[str], may_act: bool = True) -> Row | None:
    """The row of a line that has too many or too few words, of an act where it may be one; None where it isn't known
    how many are wanted."""
    is_act = may_act and words[1:] and words[1] in ACTS
    what, given = (words[1], words[2:]) if is_act else ("".join(words[:1]), words[1:])
    aside = [at for at, word in enumerate(words) if word.startswith("//")]
    if aside:
        return ["the line has too many words", "a comment that begins with //", "write `#` before a comment"]
    have = f"here {'is' if len(given) == 1 else 'are'} {len(given)}"
    if what in LISTS and not LISTS[what][1] <= len(given) <= LISTS[what][2]:
        return [f"`{what}` takes {LISTS[what][1]} to {LISTS[what][2]} words after it, and {have}", "",
                f"write `{what}` and then {LISTS[what][0]}"]
    if what not in AFTER:
        return None
    wanted = 2 if what == "form" else len(AFTER[what].split())
    if len(given) == wanted:
        return None
    cause = "" if len(given) != wanted - 1 or not AFTER[what].endswith("YAW") else (
        "a number before the yaw is missing" if given[-1:] and given[-1].endswith("deg") else "the yaw is missing")
    return [f"`{what}` takes {wanted} word{'s' * (wanted != 1)} after it, and {have}", cause,
            f"write `{what}` and then {AFTER[what]}" if AFTER[what] else f"write `{what}` and no word after it"]


def count_row(at: Around) -> Row | None:
    """The row of a line outside of cues whose second word is one of an act."""
    return length_row(at.words, False) if at.words[1:] and at.words[1] in ACTS and not in_cue(at) else None


def alone_row(at: Around) -> Row | None:
    """The row of a line of a cue that has a name and no act."""
    if not in_cue(at) or len(at.words) != 1:
        return None
    figures = [block.roles for block in at.blocks if block.kind == "figure"]
    names = figures[0] if figures else [line.name for line in at.blocks[0].body if line.kind == "drone"]
    if names and at.words[0] not in names:
        near = nearest(at.words[0], [*names, "end"])
        cure = "`end`" if near == "end" else f"`{near or names[0]}` and its act, or `end` to close the cue"
        kind = "role" if figures else "drone"
        return [f"`{short_word(at.words[0])}` stands alone in a cue, and no {kind} is called so", "",
                f"write {cure}; a {kind} without a line holds"]
    return [f"`{at.words[0]}` has no act", "", f"write `{at.words[0]} hold`, or another act: {', '.join(ACTS)}; or "
            "remove the line, since a drone without a line holds"]


def byte_row(line: bytes, place: int) -> Row | None:
    """The row of a byte that may not stand where it does, by the character that it belongs to."""
    while place and 0x80 <= line[place] < 0xC0:
        place -= 1
    size = 1 if line[place] < 0xC0 else 2 if line[place] < 0xE0 else 3 if line[place] < 0xF0 else 4
    char = line[place:place + size].decode("utf-8", "replace")[:1]
    name = "a byte-order mark" if char == "\uFEFF" else unicodedata.name(char, "").lower()
    if not name or char == "\uFFFD":
        return None
    plain = {"\uFEFF": "save the text without it, as plain ASCII", "\u00A0": "write a blank",
             "\u2212": "write `-`", "\u2013": "write `-`", "\u2014": "write `-`", "\u00B0": "write `deg`",
             "\u00B5": "write `um`", "\u03BC": "write `um`"}
    spelled = unicodedata.normalize("NFD", char)[:1]
    cure = plain.get(char) or (f"write `{spelled}`" if spelled.isascii() and spelled.isalpha() else
                               "take it out: outside comments a text has plain ASCII alone")
    return [f"U+{ord(char):04X}, {name}, stands in column {len(line[:place].decode('utf-8', 'replace')) + 1}", "", cure]


# ---- blocks

def block_row(at: Around, word: str) -> Row | None:
    """The row of a setting that stands twice, of a block without a line, of one that isn't closed, or of one repeat too
    many inside others."""
    lines = [block.number for block in at.blocks[1:]]
    if word == "double-setting":
        other = next((line for line in at.blocks[0].body if line.kind == at.words[0]), None)
        return None if other is None else [
            f"line {other.number} has `{other.kind}` already: {at.line(other.number)}", "", "keep one of the two lines"]
    if word == "empty-block":
        return [f"the {at.place} of line {lines[-1]} has no line in it", "one `end` too many above",
                "put a line in, or remove the block"]
    if word == "nesting":
        return [f"this `repeat` stands inside eight others, the first of them in line {lines[0]}", "",
                "multiply the counts of two of them"]
    return None


def open_row(text: bytes) -> Row | None:
    """The row of a text that ends while blocks are open."""
    at = around(text, text.count(b"\n") + 2)
    if at is None or len(at.blocks) < 2:
        return None
    lines, last = [block.number for block in at.blocks[1:]], at.blocks[-1]
    what = f"the {last.kind} of this line isn't closed where the text ends"
    if len(lines) == 1:
        return [what, "the last `end` is missing", "write `end` at the end of the text, or where the block ends"]
    return [what, f"{len(lines)} blocks are open, those of the lines {', '.join(map(str, lines))}",
            f"write `end` {len(lines)} times, once for each of them"]


# ---- names

def earlier(show: choreo.Show, number: int, kinds: Sequence[str], name: str) -> Line | None:
    """The first line before another one that has this name and is of one of these kinds."""
    return next((line for line in show.top.body if line.kind in kinds and line.number < number
                 and line.name == name), None)


def line_at(show: choreo.Show, number: int) -> tuple[Line, list[Line]]:
    """A line of a show by its number, and the blocks that it is in, from outside in."""
    inside: list[Line] = []
    lines = show.top.body
    while True:
        found = next(line for line in reversed(lines) if line.number <= number)
        if found.number == number:
            return found, inside
        inside.append(found)
        lines = found.body


def unknown_row(show: choreo.Show, line: Line, inside: list[Line], row: str) -> Row:
    """The row of a name that nothing has."""
    name, drones = line.name, show.names
    if row in ("unknown-name form", "unknown-name figure"):
        kind, known = ("formation", show.formations) if row.endswith("form") else ("figure", show.figures)
        return [f"no {kind} is called `{name}`", "", meant(name, list(known), kind)]
    if row == "unknown-name act in a figure":
        roles, figure = inside[0].roles, inside[0].name
        cause = f"a drone's name inside the figure `{figure}`" if name in drones else ""
        return [f"no role of the figure `{figure}` is called `{name}`", cause, meant(name, roles, "role")]
    if row == "unknown-name performer":
        name = next(it for it in line.players if it not in drones)
    what = {"unknown-name at": ", which has a place here",
            "unknown-name performer": ", which shall perform"}.get(row, "")
    if not what and name in ("all", "everyone", "each"):
        return [f"no drone is called `{name}`", "", f"write a line for each drone: {names_listed(drones)}"]
    return [f"no drone is called `{name}`{what}", "", meant(name, drones, "drone") +
            f"; or declare it: `drone {name} X Y Z YAW`"]


def doubled_row(at: Around, show: choreo.Show, line: Line, inside: list[Line], row: str) -> Row | None:
    """The row of a drone that gets a second act or place: with the line of the first."""
    name = line.name
    if row == "double-act perform":
        names = line.players
        name = next(it for k, it in enumerate(names) if it in names[:k])
        return [f"`{name}` stands twice in this `perform`", "", "give each role another drone"]
    others = [it for it in inside[-1].body if it.number < line.number]
    if row == "double-act at":
        first = next(it for it in others if it.name == name)
        return [f"line {first.number} has a place for `{name}` already: {at.line(first.number)}", "",
                "keep one of the two"]
    mine = {place.name for place in show.formations[name].body} if row == "double-act form" else {name}
    for first in others:
        its = {first.name} if first.kind == "act" else {
            place.name for place in show.formations[first.name].body}
        if mine & its:
            who = sorted(mine & its)
            return [f"line {first.number} has an act for `{who[0]}` already: {at.line(first.number)}",
                    "" if first.kind == line.kind == "act" else "a drone's own line beside a `form` that places it",
                    "remove one of the two, or make two cues of it"]
    return None


def named_row(at: Around, show: choreo.Show, line: Line, row: str) -> Row | None:
    """The row of a name that stands twice, or of a figure with another number of roles."""
    name = line.name
    if row == "double-name role":
        roles = line.roles
        name = next(it for k, it in enumerate(roles) if it in roles[:k])
        return [f"the role `{name}` stands twice in this figure", "", "give each role a name of its own"]
    if row.startswith("double-name"):
        first = earlier(show, line.number, [line.kind], name)
        return None if first is None else [f"line {first.number} has the name already: {at.line(first.number)}",
                                           "a line was copied", f"give this {line.kind} another name"]
    roles, drones = show.figures[name].roles, line.players
    return [f"the figure `{name}` has {len(roles)} role{'s' * (len(roles) != 1)} ({names_listed(roles)}), and here "
            f"{'is' if len(drones) == 1 else 'are'} {len(drones)} drone{'s' * (len(drones) != 1)}", "",
            "name as many drones as the figure has roles"]


def names_row(text: bytes, number: int) -> Row | None:
    """The row of the fault of names in a line of a text whose lines are all right by themselves."""
    try:
        show = choreo.Show(choreo.read(text))
    except choreo.Refused:
        return None
    rows = [choreo.NAME_FAULTS.index(row) for at, row in choreo.faults_of_names(show) if at == number]
    at = around(text, number)
    if not rows or at is None:
        return None
    row = choreo.NAME_FAULTS[min(rows)]
    line, inside = line_at(show, number)
    if row.startswith("unknown-name"):
        return unknown_row(show, line, inside, row)
    if row.startswith("double-act"):
        return doubled_row(at, show, line, inside, row)
    return named_row(at, show, line, row)


def show_row(text: bytes, word: str) -> Row | None:
    """The row of a fault of the show as a whole."""
    try:
        show = choreo.Show(choreo.read(text))
        if word == "no-cue" and show.figures:
            figure = next(iter(show.figures.values()))
            return [f"nothing is flown: the figure `{figure.name}` is never performed", "",
                    f"write `perform {figure.name} none 0 0 0 0` and the drones of its roles: "
                    f"{names_listed(figure.roles)}"]
        if word == "too-many-cues":
            total = sum(choreo.count(show, [line]) for line in show.body)
            return [f"the show has {total} cues, repeats and figures written out, and may have {choreo.MOST_CUES}", "",
                    "use fewer turns, or longer cues"]
        if word == "out-of-range":
            choreo.Flown(show)
    except choreo.Refused as refusal:
        found = re.match(r"line \d+ out-of-range (\w+) (-?\d+)", str(refusal).partition("error 3 ")[2])
        return far_row(found[1], int(found[2])) if found else None
    return None


def far_row(axis: str, value: int) -> Row:
    """The row of a value that fits into no trajectory."""
    if axis == "yaw":
        return [f"yaw would be {value / 10:g} degrees, and may be -3276.8 to 3276.7",
                "yaw that grows with each turn of a repeat", "turn back before yaw grows too far"]
    return [f"{axis} would be {value / 1e6:g} m, and may be -32.768 to 32.767",
            "a figure shifted far away, or a number in another unit", "move it nearer to the origin"]
