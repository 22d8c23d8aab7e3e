"""Says where and when drones of a show come too close, or why a show has no room, and lists changes that help.

The first line is the answer of the program's `check`. The pairs and cues are those that its `explain --all` names, and
so are those that stay blocked with a change: each is tried as a show. Distances and room are computed here.
With --cured it writes the show with remedies, place by place, and takes among several the one that adds the least time;
no file is written where something stays blocked, or `check` refuses the new show.
The status is that of the show: 0 if it is accepted, 5 or 4 if it is refused. 70: no answer.
"""
from __future__ import annotations

from hemtoghai import outputs
from hemtoghai.companion import (add_depth, ask, ask_check, many, missing, no_verdict, parser, seconds, stop,
                                 words_and_show)
from hemtoghai.language import choreo
from hemtoghai.language.choreo import Flown
from hemtoghai.program import COMMAND
from hemtoghai.streams import shown
from hemtoghai.writing.dealing import costs, dealt, form_lines, total
from hemtoghai.writing.flyable import small
from hemtoghai.writing.meetings import Meeting, meetings_of
from hemtoghai.writing.places import print_place
from hemtoghai.writing.remedies import cures_of, first_places, layers, MOST_CURES, written
from hemtoghai.writing.trials import Trials


def alike(flown: Flown, found: list[Meeting]) -> list[list[Meeting]]:
    """The blocked places in groups in which the same pair flies the same: in the turns of a repeat."""
    groups: dict[object, list[Meeting]] = {}
    for it in found:
        flights = [tuple(tuple(row) for row in flown.by_cue[k][it.cue][1][:3]) for k in (it.i, it.j)]
        groups.setdefault((it.i, it.j, flown.cues[it.cue].number, *flights), []).append(it)
    return list(groups.values())


def print_counts(deep: int, found: list[Meeting], more: str) -> None:
    """Prints how many pairs, cues and places are blocked, and how near they are there."""
    if more:
        print(more)
    touching = sum(it.touch for it in found)
    cues = sorted({it.cue + 1 for it in found})
    pairs = len({(it.i, it.j) for it in found})
    listed = ", ".join(map(str, cues[:12])) + (" .." if len(cues) > 12 else "")
    print("At depth %d %s blocked in %s (%s)." % (
        deep, many(pairs, "pair") + (" is" if pairs == 1 else " are"), many(len(cues), "cue"), listed))
    caused = sum(it.cause is not None for it in found)
    print("Of %s, %d too near, %d apart but along no direction%s." % (
        many(len(found), "place"), touching, len(found) - touching - caused,
        f", {caused} apart but for `stray` or `late`" if caused else ""))
    print("Cues are counted with repeats and figures written out.\n")


def explain_separation(flown: Flown, text: bytes, deep: int, most: int) -> int:
    """Prints pairs and cues that are blocked, in the order of time, of a show that the program refuses; the number of
    them."""
    told, lines = meetings_of(ask, flown, text, deep), text.split(b"\n")
    if told is None:
        stop(no_verdict())
    found, are_all = told
    if not found:
        return 0
    print_counts(deep, found, "" if are_all else (
        f"More are blocked: these are the first {len(found)}, by pair and then by cue."))
    found.sort(key=lambda it: (it.cue, it.share))
    groups, trials = alike(flown, found), Trials(ask, flown, deep)
    for group in groups[:most]:
        print_place(trials, lines, group[0], [it.cue for it in group[1:]])
    if len(groups) > most:
        print(f"and {len(groups) - most} more: --most N shows them")
    if trials.may_ask:
        print_together(trials, groups)
    return len(found)


def print_together(trials: Trials, groups: list[list[Meeting]]) -> None:
    """Prints what helps all pairs of a cue at once, where there are several."""
    for cue in sorted({group[0].cue for group in groups}):
        together = [(it.i, it.j) for group in groups for it in group if it.cue == cue]
        remedy = layers(trials, cue, together) if 1 < len(together) <= MOST_CURES else None
        if remedy:
            print(f"What helps all of cue {cue + 1} at once ({seconds(remedy.takes)} more):")
            print("    " + remedy.words)
        for line in crossing_forms(trials.flown, cue) if len(together) > 1 else []:
            print(f"Line {line.number} forms a formation whose ways cross: {COMMAND} deal deals its places anew.")


def crossing_forms(flown: Flown, cue: int) -> list[choreo.Line]:
    """The `form` lines of a cue whose places can be dealt so that the sum of the squared ways is less."""
    out = []
    for line, cues in form_lines(flown):
        if cue in cues:
            cost = costs(flown, flown.show.formations[line.name].body, cues)
            ways = dealt(cost)
            # With a sum of nothing each drone would stay where it is.
            out += [line] if any(j != k for k, j in ways.items()) and total(cost, ways) > 0 else []
    return out


def explain_room(flown: Flown) -> None:
    """Prints what the drones take of their memories that take too much."""
    room = flown.room()
    for name, data, segments, flight in zip(flown.names, flown.data(), flown.sent, flown.by_cue):
        if len(data) <= room and len(segments) <= choreo.MOST_SEGMENTS:
            continue
        print("%s takes %d bytes of %d, in %d segments of at most %d (%d cues)" % (
            name, len(data), room, len(segments), choreo.MOST_SEGMENTS, len(flight)))
        kinds: dict[str, tuple[int, int]] = {}
        for milliseconds, elements in segments:
            kind = " ".join("%s %s" % (axis, {2: "line", 4: "cubic", 8: "move"}[len(e)])
                            for axis, e in zip(choreo.AXES, elements) if len(e) > 1) or "hold"
            often, taken = kinds.get(kind, (0, 0))
            kinds[kind] = often + 1, taken + len(choreo.segment_bytes(milliseconds, elements))
        for kind, (often, taken) in sorted(kinds.items(), key=lambda it: -it[1][1])[:6]:
            print(f"  {taken:5d} bytes in {many(often, 'segment')}: {kind}")
    print("What saves most: in place of `move X Y Z YAW`, 14 bytes an axis, from (X0, Y0, Z0)")
    print("`curve X0 Y0 Z0 X Y Z X Y Z YAW` is from rest to rest too, with 6. docs/LANGUAGE.md, What a cue costs.")


def cured(text: bytes, deep: int, flown: Flown | None = None) -> tuple[bytes, list[str], str | None]:
    """The show's text, which flies this, with what helps in each place that is blocked, in the order of time, and what
    was done; it ends where nothing is blocked, or nothing helps that can be written."""
    done: list[str] = []
    while len(done) < MOST_CURES:
        flown = flown if not done and flown else choreo.flown_of(text)
        trials = Trials(ask, flown, deep)
        found = first_places(trials, text)
        if not found:
            return text, done, None
        cue, pairs = found
        for remedy in cures_of(trials, cue, pairs):
            if (new := written(text, flown, cue, remedy)) is not None:
                text = new
                done.append(f"cue {cue + 1}: {remedy.words} ({seconds(remedy.takes)} more)")
                break
        else:
            return text, done, "%s and %s in cue %d" % (*(flown.names[k] for k in pairs[0]), cue + 1)
    return text, done, f"more than {MOST_CURES} places"


def write_cured(path: str, text: bytes, flown: Flown, deep: int, force: bool) -> None:
    """Writes the cured show, and says what was done, how long it lasts, and what `check` says of it; where it isn't
    cured nothing is written."""
    try:
        new, done, left = cured(text, deep, flown)
        before, after = flown.milliseconds, choreo.flown_of(new).milliseconds if done else flown.milliseconds
    except choreo.Refused as refusal:
        stop(f"the cured show is refused for another reason: {refusal}")
    for line in done:
        print("cured in " + line)
    if left:
        print("nothing that helps could be written for " + left)
    answer = ask_check(new, deep)
    if left or not done or answer and answer[0]:
        print("no file is written: the show isn't cured%s" % (", and `check` says " + answer[1] if answer else ""))
        return
    print(f"the show lasts {seconds(after)}, before {seconds(before)}")
    outputs.write_all({path: new}, force)
    print("%s: %s" % (shown(path), answer[1] if answer else missing()))


def main(words: list[str]) -> int:
    reader = parser(__doc__)
    add_depth(reader)
    reader.add_argument("--most", type=int, default=20, metavar="N", help="show at most N places, without it 20")
    reader.add_argument("--cured", metavar="FILE", help="write the show with remedies to FILE")
    outputs.add_force(reader)
    options, text, flown = words_and_show(reader, words)
    outputs.refuse(filter(None, [options.cured]), options.force, [options.show])
    answer = ask_check(text, options.depth)
    print("check: " + answer[1] if answer else missing(), end="\n\n")
    if smallness := small(flown):
        print(smallness + "\n")
    try:
        choreo.judge_room(flown)
    except choreo.Refused as refusal:
        print(refusal)
        explain_room(flown)
        if options.cured:
            print("no file is written: only nearness is cured")
        return 4
    if answer is None:
        stop(no_verdict())
    blocked = explain_separation(flown, text, options.depth, options.most) if answer[0] else 0
    own = 5 if blocked else 0
    if blocked and options.cured:
        write_cured(options.cured, text, flown, options.depth, options.force)
    if answer[0] == own == 0:
        print("Nothing is blocked at depth %d: all drones are apart." % options.depth)
        if options.cured:
            print("no file is written: there is nothing to cure")
    elif answer[0] != own:
        stop(f"check ends with {answer[0]} and this tool with {own}: one of them is wrong; please report the show")
    return own
