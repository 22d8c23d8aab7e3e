"""What is said of a place in which two drones are blocked: where it is, what both fly there, and what helps them. For
./show why and ./show import."""
from __future__ import annotations

from math import hypot

from hemtoghai.companion import begins, cue_words, place, seconds
from hemtoghai.geometry.nearest import reach_of
from hemtoghai.language.choreo import Flown
from hemtoghai.writing.meetings import Meeting
from hemtoghai.writing.remedies import ENOUGH, helps
from hemtoghai.writing.trials import cause_of, Helped, Trials


def act_words(flown: Flown, lines: list[bytes], drone: int, cue: int) -> str:
    """A drone's line in a cue, or that it holds."""
    name = flown.names[drone]
    acts = flown.cues[cue].acts
    if name not in acts:
        return "%s has no line and holds" % name
    number, act, _ = acts[name]
    text = lines[number - 1].partition(b"#")[0].decode(errors="replace").strip()
    return "line %d: %s%s" % (number, text, "" if text.split()[:1] == [name] else " (for %s)" % name)


def both_words(flown: Flown, i: int, j: int, cue: int, u: float) -> tuple[str, float, float]:
    """Where two drones are at a fraction of a cue, and how far apart."""
    first, second = place(flown, i, cue, u), place(flown, j, cue, u)
    x, y, z = (b - a for a, b in zip(first, second))
    places = ["%s at (%s)" % (flown.names[k], ", ".join(str(round(v)) for v in at)) for k, at in (
        (i, first), (j, second))]
    side, up = hypot(x, y), abs(z)
    return f"{places[0]}, {places[1]} mm: {side:.0f} mm to the side, {up:.0f} mm up or down", side, up


def more_room(flown: Flown, side: float, up: float) -> str:
    """How much farther apart, to the side alone or up and down alone, leaves room enough: by the half axes of what is
    kept clear around a drone, with the stray and half of its way while it is late."""
    (own, own_up), (stray,) = [flown.show.settings[word] for word in ("ellipsoid", "stray")]
    x, y, z = reach_of(flown)
    r, h = own + stray + max(x, y) / 2, own_up + stray + z / 2
    wide = r * max(0, 4 * ENOUGH ** 2 - (up / h) ** 2) ** 0.5
    high = h * max(0, 4 * ENOUGH ** 2 - (side / r) ** 2) ** 0.5
    return "%.0f mm to the side where they now have %.0f, or %.0f mm up and down where they now have %.0f" % (
        wide, side, high, up)


def print_help(flown: Flown, i: int, j: int, cue: int, ends: list[str], tried: list[Helped]) -> None:
    for word in ends:
        words, side, up = both_words(flown, i, j, cue, 0 if word == "begins" else 1)
        print(f"  they are already blocked where the cue {word}: {words}")
        print("    no other way between the same places helps: give one of the two another %s; room enough there is" % (
            "start, or another end of the cue before" if word == "begins" else "end of this cue"))
        print("    " + more_room(flown, side, up))
    if ends:
        return
    if not tried:
        print("  nothing that was tried helps these two: waiting, going first, flying it higher or lower. Give one of "
              "them another way")
        return
    least = len(tried[0][1])
    print("  what helps%s:" % (", tried in this cue against all drones" if least == 0 else " these two, but not all"))
    for remedy, left in tried[:3]:
        if len(left) == least:
            print("    %s%s (%s more)" % (remedy.words, f" (still blocked: {', '.join(left)})" if left else "",
                                          seconds(remedy.takes)))


def print_place(trials: Trials, lines: list[bytes], found: Meeting, others: list[int]) -> None:
    """Prints what is known of one pair in one cue, and what helps; `others` are later cues with the same."""
    flown, may_try = trials.flown, trials.may_ask
    i, j, cue, index = found.i, found.j, found.cue, found.index
    begin, time, parts = begins(flown)[cue], flown.cues[cue].milliseconds, 2 ** trials.deep
    ends, tried = helps(trials, i, j, cue, index == 0) if may_try else ([], [])
    print("%s and %s in cue %d, %s" % (flown.names[i], flown.names[j], cue + 1, cue_words(flown.cues[cue])))
    if others:
        print("  and the same in cue %s" % ", ".join(str(other + 1) for other in others))
    print(f"  the cue is flown from {seconds(begin)} to {seconds(begin + time)} of the show")
    for drone in (i, j):
        print("  " + act_words(flown, lines, drone, cue))
    print("  first blocked part: %d of %d" % (index, parts))
    for u, word in ((index / parts, "begins"), ((index + 1) / parts, "ends")):
        print(f"    it {word} at {seconds(begin + time * u)}: {both_words(flown, i, j, cue, u)[0]}")
    words, side, up = both_words(flown, i, j, cue, found.at)
    print(f"  nearest at {seconds(found.nearest)}: {words}")
    print(f"  there they have {100 * found.share:.1f} % of the distance at which their ellipsoids touch")
    if found.touch:
        print("  TOO NEAR: no depth helps")
    elif found.cause:
        cause = may_try and cause_of(trials, i, j, cue) or found.cause
        print(f"  APART WHILE THEY FLY EXACTLY: the cause is {cause}")
    else:
        print("  APART, BUT ALONG NO DIRECTION: none of the 98 directions shows it for a whole part%s"
              % ("; --depth 8 may do" if trials.deep < 8 and not ends else ""))
    print("  room enough at this instant: " + more_room(flown, side, up))
    if may_try:
        print_help(flown, i, j, cue, ends, tried)
    else:
        print("  no remedy was tried here: those above took too long")
    print()
