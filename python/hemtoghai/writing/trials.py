"""What the program says of a cue that is flown otherwise: the show is written out for that, without repeats, figures
and formations, and asked about. For ./show why and ./show studio."""
from __future__ import annotations

from collections import Counter
from collections.abc import Callable
from dataclasses import dataclass, field
from functools import cached_property
from itertools import accumulate

from hemtoghai.language.choreo import Flown
from hemtoghai.language.lines import header, line_in
from hemtoghai.writing.meetings import Ask, asked, Slot

# A cue of a text in `choreo 1`: milliseconds, and by drone the words of its act.
Stage = tuple[int, dict[str, list[str]]]
FORM = 1
MOST_SLOTS = 5000000  # pairs in cues that are asked about for one show, some seconds of work


def stage_of(flown: Flown, cue: int) -> Stage:
    """A cue as the show has it, written out."""
    acts = {}
    for name, (_, act, goal) in flown.cues[cue].acts.items():
        values = [v for it in goal or () for v in (it if isinstance(it, list) else [it])]  # points are lists there
        acts[name] = line_in(FORM, "act", name, act, *values).split()
    return flown.cues[cue].milliseconds, acts


def rows_of(stage: Stage) -> str:
    """The lines of a cue."""
    return "\n".join([f"cue {stage[0]}", *map(" ".join, stage[1].values()), "end"])


@dataclass(frozen=True)
class Remedy:
    """What drones do else in a cue."""
    how: str  # it is written: "wait", "first" or "lift"
    lifts: dict[int, int]  # by drone how many millimetres it flies higher: 0 where it waits or goes first
    words: str
    stages: list[Stage]  # what all fly in place of the cue
    takes: int  # milliseconds


Helped = tuple[Remedy, list[str]]  # what helps, and the names of those that are still blocked then


@dataclass
class Trials:
    """Asks the program about a show whose cues are flown otherwise; `slots` counts the pairs in cues that it was asked
    about, by which what would take too long is left out, the same on every machine."""
    ask: Ask
    flown: Flown
    deep: int
    slots: int = 0
    helped: dict[tuple[int, int], list[Helped]] = field(default_factory=dict)  # what is known, by a drone and a cue

    @property
    def may_ask(self) -> bool:
        """Whether more may be asked."""
        return self.slots < MOST_SLOTS

    @cached_property
    def whole(self) -> list[str]:
        """The lines of each cue of the show."""
        return [rows_of(stage_of(self.flown, cue)) for cue in range(len(self.flown.cues))]

    def text(self, cue: int, stages: list[Stage], order: list[int], settings: dict[str, list[int]]) -> bytes:
        """The text in which stages are flown in place of a cue, by drones in this order. Other cues are in it only
        where their speed counts, since drones may be late."""
        flown, late = self.flown, settings["late"][0]
        rows = [header(FORM), *(line_in(FORM, word, *settings[word]) for word in ("ellipsoid", "stray", "late"))]
        rows += [line_in(FORM, "drone", flown.names[k], *flown.places[k][0 if late else cue]) for k in order]
        front, rest = (self.whole[:cue], self.whole[cue + 1:]) if late else ([], [])
        return "\n".join([*rows, *front, *map(rows_of, stages), *rest, ""]).encode()

    def told(self, cue: int, stages: list[Stage], pairs: list[tuple[int, int]],
             **settings: list[int]) -> dict[Slot, bool] | None:
        """By two drones and a stage whether the program separates them, with these settings in place of the show's; as
        far as it says so, or None where it doesn't answer."""
        flown, often = self.flown, Counter(k for pair in pairs for k in pair)
        order = sorted(range(len(flown.names)), key=lambda k: -often[k])  # pairs of these are named first
        known = {**flown.show.settings, **settings}
        before, after = (cue, len(flown.cues) - cue - 1) if known["late"][0] else (0, 0)
        self.slots += len(order) * (len(order) - 1) // 2 * (before + len(stages) + after)
        answer = asked(self.ask, self.text(cue, stages, order, known), self.deep, [flown.names[k] for k in order])
        if answer is None:
            return None
        blocked, out = {it.slot for it in answer[0]}, {}
        last = max(blocked, default=(0, 0, 0))  # of those after it nothing is said where there are more
        for i, j in pairs:
            first, second = sorted((order.index(i), order.index(j)))
            for stage in range(len(stages)):
                slot = first, second, before + stage
                if answer[1] or slot <= last:
                    out[i, j, stage] = slot not in blocked
        return out

    def each(self, cue: int, ways: list[list[Stage]], pairs: list[tuple[int, int]]) -> list[dict[Slot, bool]]:
        """The same of several ways to fly a cue. It is one question where speed doesn't count and the program names all
        that is blocked: between two ways all fly back."""
        flown = self.flown
        back = 1000, {name: line_in(FORM, "act", name, "line", *flown.places[k][cue]).split()
                      for k, name in enumerate(flown.names) if name in flown.cues[cue].acts}
        whole = [stage for way in ways for stage in (*way, back)]
        told = None if flown.show.settings["late"][0] else self.told(cue, whole, pairs)
        if told is None or len(told) < len(pairs) * len(whole):
            return [self.told(cue, way, pairs) or {} for way in ways]
        begins = accumulate((len(way) + 1 for way in ways), initial=0)
        return [{(i, j, stage): told[i, j, begin + stage] for i, j in pairs for stage in range(len(way))}
                for begin, way in zip(begins, ways)]


def most_borne(most: int, is_borne: Callable[[int], bool]) -> int:
    """The greatest number below `most` that is borne, where 0 is."""
    low, high = 0, most
    while high - low > 1:
        middle = (low + high) // 2
        low, high = (middle, high) if is_borne(middle) else (low, middle)
    return low


def cause_of(trials: Trials, i: int, j: int, cue: int) -> str | None:
    """In words, which of `stray` and `late` is the cause that two drones are blocked in a cue in which the program
    separates them without both, and how much of it they bear there; None where it doesn't say."""
    flown = trials.flown
    (stray,), (late,) = flown.show.settings["stray"], flown.show.settings["late"]

    def are_apart(stray_: int, late_: int) -> bool:
        told = trials.told(cue, [stage_of(flown, cue)], [(i, j)], stray=[stray_], late=[late_])
        return (told or {})[i, j, 0]

    def line(word: str, number: int) -> str:
        return f"`{line_in(flown.show.form, word, number)}`"
    borne: list[tuple[str, int, str, int, Callable[[int], bool]]] = [
        ("stray", stray, "late", late, lambda k: are_apart(k, late)),
        ("late", late, "stray", stray, lambda k: are_apart(stray, k))]
    try:
        words = ["%s: with%s they bear %s here" % (
            line(word, number), " " + line(other, beside) if beside else "", line(word, most_borne(number, borne_with)))
            for word, number, other, beside, borne_with in borne if number and borne_with(0)]
    except KeyError:
        return None
    return ", or ".join(words).replace("with they", "they") or (
        f"{line('stray', stray)} and {line('late', late)}, and each of them alone is too much here")
