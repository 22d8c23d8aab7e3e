"""Deals the places of formations anew to their drones, by the least sum of squared ways, and writes the show's text.

At each `form` line the places of the formation are assigned to the drones so that the sum of all squared ways from the
drones' present places is least; such ways seldom cross. In a repeat the sum is that of all turns. Among several
assignments with the least sum `deal` takes one in which the most drones keep their places. A formation that is formed
differently later on is written once more for that, as NAME_2. Acts and performs up to the next formation go with their
places: in their lines the names of the drones change. Other lines stay. A `form` line at which each drone would get the
place that it already has stays as it is written, since no drone would move.

The new text goes to standard output, the list of changes and the answer of `check` to standard error. The status is
that of `check`, or 71 if a `form` line stays since no drone would move. 70: no answer.
"""
from __future__ import annotations

from collections.abc import Callable

from hemtoghai.companion import add_depth, parser, put_show, say, stop, words_and_show
from hemtoghai.language import choreo
from hemtoghai.language.lines import free_name, with_words, with_words_at
from hemtoghai.writing.dealing import deal, Dealt, form_lines, names_of, on_their_own, State, state, Words, words_of

NOBODY_MOVES = 71


def listed(numbers: list[int]) -> str:
    return "line" + ("s " if len(numbers) > 1 else " ") + ", ".join(map(str, numbers[:8])) + (
        " .." if len(numbers) > 8 else "")


def report(made: Dealt, before: list[State]) -> None:
    """Says of each `form` line how many places were dealt anew, and how many drones stay where they are."""
    for (line, _), old, new in zip(form_lines(made.flown), before, state(made.flown)):
        formation, (before_sum, _, written), (sum_, stay, places) = made.flown.show.formations[line.name], old, new
        moved = sum(mine != theirs for mine, theirs in zip(places, written))
        say("%s, line %d: %d of %d places dealt anew; the squared ways sum to %.2f m2, before %.2f%s" % (
            formation.name, line.number, moved, len(written), sum_ / 1e12, before_sum / 1e12,
            "; %d drone%s where %s" % (stay, " stays" if stay == 1 else "s stay", "it is" if stay == 1 else "they are")
            if stay else ""))
        if line.number in made.still:
            say("%s, line %d: no drone would move: each place would go to the drone that already has it. The places "
                "stay as they are written" % (formation.name, line.number))


def block(lines: list[bytes], written: choreo.Line, dealt: choreo.Line, name: str, form: int) -> list[bytes]:
    """The lines of a formation's block as it is dealt, under this name and in this form."""
    out = lines[written.number - 1:written.last]
    if name != written.name:
        out[0] = with_words(out[0], "formation " + name)
    for old, new in zip(written.body, dealt.body):
        if old.values != new.values:
            at = old.number - written.number
            out[at] = with_words(out[at], " ".join(choreo.words_of(new, form)))
    return out


def rewritten(text: bytes, made: Dealt) -> tuple[bytes, Callable[[int], int]]:
    """The show's text with the places as they are dealt, a further block for each further way in which a formation is
    formed, and the acts that go with their places; and by the number of a line in the old text that in the new one."""
    flown, lines = made.flown, text.split(b"\n")
    names = {line.name for line in flown.show.top.body if line.kind == "formation"}
    new = [[line] for line in lines]  # what stands in the place of each line
    known: dict[str, list[tuple[list[Words], str]]] = {}
    for line, _ in form_lines(flown):
        formation = flown.show.formations[line.name]
        name, places = formation.name, words_of(formation)
        ways = known.setdefault(name, [])
        if places not in [way for way, _ in ways]:
            called = name if not ways else free_name(name, names)
            names.add(called)
            ways.append((places, called))
            written = flown.show.formations[name]
            own = block(lines, written, formation, called, flown.show.form)
            if called == name:
                new[written.number - 1:written.last] = [[row] for row in own]
            else:
                new[written.last - 1] += own
        called = next(called for way, called in ways if way == places)
        if called != name:
            new[line.number - 1] = [with_words(lines[line.number - 1], "form %s %s" % (called, line.values[1]))]
    for line in made.renamed():
        names_at = dict(enumerate(names_of(line), 0 if line.kind == "act" else 7))
        new[line.number - 1] = [with_words_at(lines[line.number - 1], names_at)]
    return b"\n".join(it for row in new for it in row), lambda number: 1 + sum(map(len, new[:number - 1]))


def say_carried(made: Dealt, new_line: Callable[[int], int]) -> None:
    """Says which acts go with their places, and which can't."""
    if carried := sorted(line.number for line in made.renamed()):
        say("%s of the new text: the acts go with their places, so other drones fly them" % listed(
            [new_line(number) for number in carried]))
    if made.unsure:
        say("look at %s of the new text: the turns of a repeat begin there with other drones at the places, so the "
            "names stay" % listed([new_line(number) for number in made.unsure]))
    for number in sorted(made.lost):
        say(f"look at the lines after line {new_line(number)} of the new text: the formation there has places for "
            "other drones than the one before, so from there on each drone flies its own acts")


def main(words: list[str]) -> int:
    reader = parser(__doc__)
    add_depth(reader)
    reader.add_argument("--keep", action="append", default=[], metavar="NAME",
                        help="a formation whose places stay as they are; may be given several times")
    options, text, flown = words_and_show(reader, words)
    for name in options.keep:
        if name not in flown.show.formations:
            stop("--keep %s: the show has no formation of this name" % name)
    if not form_lines(flown):
        stop("%s: the show forms no formation, so there is nothing to deal" % options.show)
    on_their_own(flown)
    before, made = state(flown), deal(flown, options.keep)
    text, new_line = rewritten(text, made)
    report(made, before)
    say_carried(made, new_line)
    status = put_show(text, options.depth)
    return NOBODY_MOVES if made.still else status
