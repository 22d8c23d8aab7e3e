"""Which places of a formation go to which drones, so that the sum of the squared ways is least, and which later acts
change hands with them: for ./show deal and ./show why."""
from __future__ import annotations

from collections.abc import Collection, Sequence
from typing import Any

from hemtoghai.language import choreo
from hemtoghai.writing.figures import least

Words = tuple[Any, ...]  # of a place: its drone, and its numbers
# Of a `form` line the sum of its squared ways, how many drones stay at their places there, and the places.
State = tuple[int, int, list[Words]]
MOST_PASSES = 3  # over the lines of a repeat, whose first one begins where the last one ends


def form_lines(flown: choreo.Flown) -> list[tuple[choreo.Line, list[int]]]:
    """The show's `form` lines in the order of their first use, each with the cues in which it is played."""
    found: dict[int, tuple[choreo.Line, list[int]]] = {}
    for k, cue in enumerate(flown.cues):
        for line in cue.line.body:
            if line.kind == "form":
                found.setdefault(line.number, (line, []))[1].append(k)
    return list(found.values())


def costs(flown: choreo.Flown, places: Sequence[choreo.Line], cues: list[int]) -> list[list[int]]:
    """For each place's drone and each place the sum of the squared ways to it over these cues, in micrometres."""
    drones = [flown.names.index(place.name) for place in places]
    goals = [place.values[1:4] for place in places]
    begins = [[[1000 * row[0] for row in flown.by_cue[drone][cue][1][:3]] for cue in cues] for drone in drones]
    return [[sum((a - b) ** 2 for at in ats for a, b in zip(at, goal)) for goal in goals] for ats in begins]


def dealt(cost: list[list[int]]) -> dict[int, int]:
    """Which place each drone gets: the sum is least, and as many as can keep theirs."""
    size = len(cost)
    return least([[(size + 1) * cost[k][j] + (j != k) for j in range(size)] for k in range(size)])


def total(cost: list[list[int]], ways: dict[int, int] | None = None) -> int:
    """The sum of the squared ways as they are dealt, or as the places are written."""
    return sum(cost[k][ways[k] if ways else k] for k in range(len(cost)))


class Place(choreo.Line):
    """A place of a formation that is dealt: `owner` is the drone for which it is written, also where another one gets
    it, and `written` the name that stands in its line."""

    def __init__(self, line: choreo.Line) -> None:
        super().__init__(line.number, "at", list(line.values))
        self.owner: str = line.name
        self.written: str = line.name


def on_their_own(flown: choreo.Flown) -> None:
    """Gives each `form` line a formation of its own, with the places as they are written."""
    for line, _ in form_lines(flown):
        old = flown.show.formations[line.name]
        new = choreo.Line(old.number, "formation", list(old.values))
        new.body += [Place(place) for place in old.body]
        line.values[0] = str(line.number)  # which no name is
        flown.show.formations[line.name] = new


def places_of(flown: choreo.Flown, line: choreo.Line) -> list[Place]:
    """The places of a `form` line that has a formation of its own."""
    return [place for place in flown.show.formations[line.name].body if isinstance(place, Place)]


def naming_lines(flown: choreo.Flown) -> list[choreo.Line]:
    return [line for line in choreo.inside(flown.show.top) if line.kind in ("act", "perform")]


def span_of(line: choreo.Line) -> slice:
    """Where the names of an act or a perform stand among its values."""
    return slice(1) if line.kind == "act" else slice(6, None)


def names_of(line: choreo.Line) -> list[str]:
    return list(line.values[span_of(line)])


def performers(flown: choreo.Flown, lost: set[int] | None = None) -> list[dict[str, str]]:
    """For each cue, by the drone for which something is written, the drone that stands where that one would stand. A
    formation that is dealt anew changes it; until the next one the acts of each drone go with its place. `lost` gets
    the `form` lines after which that can't be followed, since a drone would fly for two: there each flies its own."""
    plays, out = {name: name for name in flown.names}, []
    for cue in flown.cues:
        out.append(plays)
        for line in cue.line.body:
            if line.kind == "form":
                plays = {**plays, **{place.owner: place.name for place in places_of(flown, line)}}
                if len(set(plays.values())) < len(plays):
                    plays = {name: name for name in flown.names}
                    if lost is not None:
                        lost.add(line.number)
    return out


def carry(flown: choreo.Flown, written: dict[int, list[str]]) -> list[int]:
    """Renames the acts and performs after each formation, so that they go with the places, by the names written in
    them; the lines that can't be renamed, since their turns of a repeat are flown by different drones."""
    plays, unsure = performers(flown), []
    groups: dict[int, list[int]] = {}  # by the line of a perform, or of a cue outside of figures, the cues that it is
    for k, cue in enumerate(flown.cues):
        performed = [number for kind, number, *_ in cue.within if kind == "perform"]
        groups.setdefault((performed or [cue.number])[0], []).append(k)
    performs = {line.number: line for line in choreo.inside(flown.show.top) if line.kind == "perform"}
    for number, played in groups.items():
        lines = [performs[number]] if number in performs else [
            line for line in flown.cues[played[0]].line.body if line.kind == "act"]
        names = [name for line in lines for name in written[line.number]]
        alike = len({tuple(plays[k][name] for name in names) for k in played}) == 1
        for line in lines:
            own = written[line.number]
            line.values[span_of(line)] = [plays[played[0]][name] for name in own] if alike else own
        # A drone that stays where it is may come from anywhere.
        unsure += [line.number for line in lines if not alike and line.values[1] not in ("hold", "turn")]
    return sorted(unsure)


def settle(places: list[Place]) -> None:
    """Puts each drone into the line that was written for it, as far as there is one."""
    held = {place.name: (place.owner, place.values) for place in places}
    written = {place.written for place in places}
    others = [name for name in held if name not in written]
    for place in places:
        name = place.written if place.written in held else others.pop(0)
        place.owner, place.values = held[name]


class Dealt:
    """What was dealt: the show as it is then flown, the `form` lines at which nobody would move, the lines whose acts
    can't go with their places, the `form` lines after which no act can, and by its line the names that were written
    there in an act or a perform."""

    def __init__(self, flown: choreo.Flown) -> None:
        self.flown = flown
        self.still: set[int] = set()
        self.unsure: list[int] = []
        self.lost: set[int] = set()
        self.written = {line.number: names_of(line) for line in naming_lines(flown)}

    def renamed(self) -> list[choreo.Line]:
        """The lines of acts and performs that are flown by other drones than were written."""
        return [line for line in naming_lines(self.flown) if names_of(line) != self.written[line.number]]


def deal(flown: choreo.Flown, keep: Collection[str]) -> Dealt:
    """Deals the places at each `form` line but those of formations to keep, until nothing changes. A line at which
    every drone would get the place where it already is stays as it is written: else nobody would move."""
    made = Dealt(flown)
    for _ in range(MOST_PASSES):
        changed = [deal_line(made, line, cues, keep) for line, cues in form_lines(flown)]
        if not any(changed):
            break
    performers(made.flown, made.lost)
    return made


def deal_line(made: Dealt, line: choreo.Line, cues: list[int], keep: Collection[str]) -> bool:
    """Deals the places at a `form` line; whether something changed."""
    formation = made.flown.show.formations[line.name]
    if formation.name in keep:
        return False
    places, before, plays = places_of(made.flown, line), words_of(formation), performers(made.flown)
    # The places are those of the drones that stand where the ones with places were to stand; where these differ from
    # turn to turn of a repeat the names stay as they are.
    players = {tuple(plays[k][place.owner] for place in places) for k in cues}
    for place, name in zip(places, players.pop() if len(players) == 1 else ()):
        place.values[0] = name
    cost = costs(made.flown, places, cues)
    ways = dealt(cost)
    if total(cost, ways) == 0 < total(cost):
        made.still.add(line.number)
    else:
        made.still.discard(line.number)
        goals = [(place.owner, place.values[1:]) for place in places]
        for k, place in enumerate(places):
            place.owner, place.values[1:] = goals[ways[k]]
    settle(places)
    if words_of(formation) == before:
        return False
    made.unsure = carry(made.flown, made.written)
    made.flown = choreo.Flown(made.flown.show)
    return True


def words_of(formation: choreo.Line) -> list[Words]:
    """A formation's places, as they are compared and written."""
    return [tuple(place.values) for place in formation.body]


def state(flown: choreo.Flown) -> list[State]:
    out = []
    for line, cues in form_lines(flown):
        formation = flown.show.formations[line.name]
        cost = costs(flown, formation.body, cues)
        out.append((total(cost), sum(cost[k][k] == 0 for k in range(len(cost))), words_of(formation)))
    return out
