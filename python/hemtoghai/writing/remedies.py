"""What could help a drone that is blocked in a cue: how it and the others then fly, which of that helps, as the program
says of each as a show, and the show's text with it. For ./show why, its --json and ./show studio."""
from __future__ import annotations

from collections.abc import Iterator
from itertools import combinations

from hemtoghai.language import choreo
from hemtoghai.language.lines import line_in
from hemtoghai.writing.meetings import meetings_of
from hemtoghai.writing.trials import FORM, Helped, Remedy, Stage, stage_of, Trials

LOW = 300  # millimetres; nothing is advised that flies below
# With a tenth more than the ellipsoids need a direction is found: docs/LANGUAGE.md, How much room is enough.
ENOUGH = 1.1
MOST_CURES = 40
LEAST_LIFT, EASY_LIFT = 2000, 700  # milliseconds for a way up or down of so many millimetres: less than 1 m/s


def lift_time(by: int) -> int:
    """The milliseconds of a way up or down by so many millimetres: as fast as the easy one, or slower."""
    return max(LEAST_LIFT, -(-LEAST_LIFT * abs(by) // EASY_LIFT // 100) * 100)


def lifted(flown: choreo.Flown, cue: int, lifts: dict[int, int]) -> list[Stage]:
    """The stages in which drones rise, fly a cue so much higher, and sink again."""
    milliseconds, acts = stage_of(flown, cue)
    for drone, by in lifts.items():
        if (name := flown.names[drone]) in acts:
            acts[name] = higher(acts[name], 1000 * by, FORM).split()
    slow = max(map(lift_time, lifts.values()))
    return [(slow, way_of(flown, cue, lifts, True, FORM)), (milliseconds, acts),
            (slow, way_of(flown, cue, lifts, False, FORM))]


def lift_all(flown: choreo.Flown, cue: int, lifts: dict[int, int]) -> Remedy:
    """The remedy by which several drones fly a cue higher."""
    words = "fly it higher, with a cue before to get there and one after to come back: " + ", ".join(
        "%s %d mm" % (flown.names[drone], by) for drone, by in sorted(lifts.items()))
    return Remedy("lift", lifts, words, lifted(flown, cue, lifts), 2 * lift_time(max(lifts.values())))


def remedies(flown: choreo.Flown, drone: int, cue: int) -> Iterator[Remedy]:
    """What a drone could do else in a cue."""
    (time, acts), (_, h) = stage_of(flown, cue), flown.show.settings["ellipsoid"]
    name, high = flown.names[drone], -(-int(2 * h * ENOUGH) // 50) * 50
    number, out = flown.cues[cue].acts.get(name, (0,))[0], "leave it out of this cue"
    if any(line.kind == "form" and line.number == number for line in flown.cues[cue].line.body):
        out = f"write the places of line {number} as acts, and leave it out"
    if name in acts:
        alone, others = (time, {name: acts.pop(name)}), (time, acts)
        yield Remedy("wait", {drone: 0}, "let %s wait: %s, and let it fly alone in a cue after it" % (name, out),
                     [others, alone], time)
        yield Remedy("first", {drone: 0}, "let %s go first: %s here, and let it fly alone in a cue before this one" % (
            name, out.replace(" of this cue", "")), [alone, others], time)
    for by in (high, -high):
        if min(flown.by_cue[drone][cue][1][2]) + by >= LOW:
            words = "let %s fly this cue %d mm %s: a cue before it to get there, and one after it to come back" % (
                name, abs(by), "higher" if by > 0 else "lower")
            yield Remedy("lift", {drone: by}, words, lifted(flown, cue, {drone: by}), 2 * lift_time(by))


def layers(trials: Trials, cue: int, pairs: list[tuple[int, int]]) -> Remedy | None:
    """The remedy by which drones fly a cue in which many are blocked so much higher that none is, or None."""
    flown = trials.flown
    _, h = flown.show.settings["ellipsoid"]
    step = -(-int(2 * h * ENOUGH) // 50) * 50
    level: dict[int, int] = {}
    drones = range(len(flown.names))
    for drone in sorted(drones, key=lambda k: -sum(k in pair for pair in pairs)):
        others = {a + b - drone for a, b in pairs if drone in (a, b)}
        used = {level[other] for other in others if other in level}
        level[drone] = min(k for k in range(len(drones) + 1) if k not in used)
    if max(level.values()) > 3:
        return None
    for high in (step, 3 * step // 2, 2 * step):
        remedy = lift_all(flown, cue, {k: high * level[k] for k in drones if level[k]})
        every = list(combinations(drones, 2))
        told = trials.told(cue, remedy.stages, every)
        if told and all(told.get((i, j, stage)) for i, j in every for stage in range(3)):
            return remedy
    return None


def helps(trials: Trials, i: int, j: int, cue: int, begins_so: bool) -> tuple[list[str], list[Helped]]:
    """At which ends of a cue two drones would be blocked if they stood there, in words, of two that may be where it
    begins; and, where at none, what helps them, tried against all others of the cue: each remedy with the names of
    those that are still blocked. Those that help most come first, and of these the ones that make the show least
    longer."""
    flown, known = trials.flown, trials.helped
    stands: list[Stage] = [(1, {}), stage_of(flown, cue), (1, {})]
    standing = trials.told(cue, stands, [(i, j)]) or {} if begins_so else {}
    if not begins_so or standing.get((i, j, 0)):
        new = {drone: list(remedies(flown, drone, cue)) for drone in (i, j) if (drone, cue) not in known}
        others = {drone: [k for k in range(len(flown.names)) if k != drone] for drone in new}
        ways = [stands, *(remedy.stages for own in new.values() for remedy in own)]
        standing, *told = trials.each(cue, ways, list(dict.fromkeys(
            [(i, j), *((drone, other) for drone in new for other in others[drone])])))
        for drone, own in new.items():
            known[drone, cue] = [(remedy, [flown.names[other] for other in others[drone] if not all(
                said.get((drone, other, stage)) for stage in range(len(remedy.stages)))])
                for remedy, said in zip(own, told)]
            told = told[len(own):]
    ends = [word for word, stage in (("begins", 0), ("ends", 2)) if standing.get((i, j, stage)) is False]
    names = {flown.names[i], flown.names[j]}
    found = [row for drone in (i, j) for row in known.get((drone, cue), ()) if not names & set(row[1])]
    return ends, [] if ends else sorted(found, key=lambda row: (len(row[1]), row[0].takes))


def cures_of(trials: Trials, cue: int, pairs: list[tuple[int, int]]) -> Iterator[Remedy]:
    """What helps in a cue, that first which makes the show least longer: what helps one drone of the first pair, and
    where no drone is in all pairs, what helps them all at once."""
    shared = set.intersection(*(set(pair) for pair in pairs))
    remedy = layers(trials, cue, pairs) if not shared and len(pairs) <= MOST_CURES else None
    if remedy:
        yield remedy
    tried = [remedy for remedy, left in helps(trials, *pairs[0], cue, False)[1] if not left]
    yield from sorted(tried, key=lambda remedy: remedy.takes)


def first_places(trials: Trials, text: bytes) -> tuple[int, list[tuple[int, int]]] | None:
    """The first cue of this text in which the program names pairs that are blocked, and these; None where it names
    none."""
    found, _ = meetings_of(trials.ask, trials.flown, text, trials.deep) or ([], True)
    cue = min((it.cue for it in found), default=0)
    return (cue, [(it.i, it.j) for it in found if it.cue == cue]) if found else None


def higher(words: list[str], by: int, form: int) -> str:
    """The words of an act, so many micrometres higher, in the form of the language that it is in."""
    numbers = {"line": [4], "move": [4], "curve": [4, 7, 10]}.get(words[1], [])
    return " ".join(choreo.word_of(choreo.COORDINATE, choreo.value_of(0, choreo.COORDINATE, word, form) + by, form)
                    if k in numbers else word for k, word in enumerate(words))


def acts_of(flown: choreo.Flown, lines: list[bytes], cue: int,
            names: set[str]) -> tuple[list[bytes], dict[str, list[str]]]:
    """The lines of a cue without the acts of some drones, and by name the words of these acts; a `form` line becomes
    acts, where it is for one of the drones."""
    others: list[bytes] = []
    own: dict[str, list[str]] = {}
    numbers = {flown.cues[cue].acts[name][0]: name for name in names if name in flown.cues[cue].acts}
    for line in flown.cues[cue].line.body:
        if line.kind == "form" and line.number in numbers:
            for place in flown.show.formations[line.name].body:
                words = line_in(flown.show.form, "act", place.name, line.values[1], *place.values[1:])
                if place.name in names:
                    own[place.name] = words.split()
                else:
                    others.append(words.encode())
        elif line.number in numbers:
            own[numbers[line.number]] = lines[line.number - 1].split(b"#")[0].decode().split()
        else:
            others.append(lines[line.number - 1].rstrip(b"\r"))
    return others, own


def way_of(flown: choreo.Flown, cue: int, lifts: dict[int, int], up: bool, form: int) -> dict[str, list[str]]:
    """The acts by which drones go to their heights where a cue begins, or come back where it ends."""
    places = {drone: flown.places[drone][cue if up else cue + 1] for drone in sorted(lifts)}
    return {name: line_in(form, "act", name, "move", x, y, z + (1000 * lifts[drone] if up else 0), yaw).split()
            for drone, (x, y, z, yaw) in places.items() for name in [flown.names[drone]]}


def written(text: bytes, flown: choreo.Flown, cue: int, remedy: Remedy) -> bytes | None:
    """The show's text with a remedy, or None where it can't be written: a way up or down inside a repeat or a figure,
    whose turns begin at different places, or an act that isn't there."""
    lines, start, form = text.split(b"\n"), flown.cues[cue].number - 1, flown.show.form
    names = {flown.names[drone]: by for drone, by in sorted(remedy.lifts.items())}
    others, own = acts_of(flown, lines, cue, set(names))
    rest = [lines[start], *others]
    if remedy.how == "lift":
        if flown.cues[cue].within:
            return None
        acts = [higher(own[name], 1000 * by, form).encode() for name, by in names.items() if name in own]
        slow = line_in(form, "cue", max(map(lift_time, remedy.lifts.values()))).encode()
        up, down = ([" ".join(words).encode() for words in way_of(flown, cue, remedy.lifts, is_up, form).values()]
                    for is_up in (True, False))
        new = [slow, *up, b"end", *rest, *acts, b"end", slow, *down, b"end"]
    else:
        if not own:
            return None
        acts = [" ".join(words).encode() for words in own.values()]
        alone = [line_in(form, "cue", flown.cues[cue].milliseconds).encode(), *acts, b"end"]
        new = [*rest, b"end", *alone] if remedy.how == "wait" else [*alone, *rest, b"end"]
    return b"\n".join([*lines[:start], *new, *lines[flown.cues[cue].line.last:]])
