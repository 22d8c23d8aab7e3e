"""The places in which two drones of a show are blocked, as the program's `explain --all` names them: the pairs and cues
with the first part that is blocked, and where the two are nearest at the instants that were looked at.

What stands here is the program's word, parsed: nothing else of the package judges whether drones are apart.
"""
from __future__ import annotations

import re
from collections.abc import Callable, Sequence
from dataclasses import dataclass
from typing import NamedTuple, Optional

from hemtoghai.language.choreo import Flown
from hemtoghai.language.lines import line_in
from hemtoghai.program import Unusable
from hemtoghai.writing.margins import with_setting

MOST_PLACES = 200  # pairs and cues that have a line: docs/COMMANDS.md, explain
PLACE = re.compile(r"blocked pair (\S+) (\S+) cue (\d+) part (\d+) of (\d+) closest at (\d+) of (\d+) level (\d+)\n")
MORE = "blocked more than 200\n"
ALL = re.compile(r"(?:separated\n|((?:%s)+)(%s)?)(?:closest pair .*\n)?(?:touch pair .*\n|no-touch instants \d+\n)?"
                 % (re.sub(r"\((?!\?)", "(?:", PLACE.pattern), MORE))
Ask = Callable[[list[str], bytes], Optional[tuple[int, str]]]  # the status and the output of a command on a text
Slot = tuple[int, int, int]  # two drones and a cue, numbered from 0


@dataclass(frozen=True)
class Meeting:
    """Two drones that are blocked in a cue, numbered from 0, with the first of its parts in which they are: the
    milliseconds of the show at which that part begins and ends and at which they are nearest, at which fraction of the
    cue that is, how far apart they are there as a share of the distance at which their ellipsoids touch, whether these
    touch there, and the cause in words where they are apart there by the show's `stray` or `late`."""
    i: int
    j: int
    cue: int
    index: int
    begin: float
    end: float
    nearest: float
    at: float
    share: float
    touch: bool
    cause: Optional[str]


class Said(NamedTuple):
    """What a line says: two drones and a cue, numbered from 0, and the first of its parts that is blocked; at how many
    of its parts of time they are nearest; and there 1,000 times the square of their distance, as a share of the
    distance at which their ellipsoids touch, rounded down."""
    i: int
    j: int
    cue: int
    part: int
    parts: int
    at: int
    of: int
    level: int

    @property
    def slot(self) -> Slot:
        """The pair and the cue."""
        return self[:3]

    def meeting(self, flown: Flown, cause: str | None) -> Meeting:
        """The place as values; below level 1,000 the two ellipsoids share a point at that instant."""
        begin, lasts = flown.begins[self.cue], flown.cues[self.cue].milliseconds
        begins, ends = (begin + lasts * part / self.parts for part in (self.part, self.part + 1))
        return Meeting(*self.slot, self.part, begins, ends, begin + lasts * (self.at / self.of), self.at / self.of,
                       (self.level / 1000) ** 0.5, self.level < 1000, cause)


def said_in(output: str, names: Sequence[str]) -> tuple[list[Said], bool]:
    """The places that `explain --all` names, in its order, and whether these are all; raises Unusable where this is no
    answer of it."""
    found, number = ALL.fullmatch(output), {name: k for k, name in enumerate(names)}
    if found is None:
        raise Unusable("what was run isn't the program: it gave no answer of `explain --all`")
    rows = PLACE.findall(found[1] or "")
    if not all({first, second} <= number.keys() for first, second, *_ in rows):
        raise Unusable("what was run isn't the program: it names drones that the show doesn't have")
    return [Said(number[first], number[second], int(cue) - 1, *map(int, rest))
            for first, second, cue, *rest in rows], not found[2]


def asked(ask: Ask, text: bytes, deep: int, names: Sequence[str]) -> tuple[list[Said], bool] | None:
    """The same of a show's text; None where the program can't be asked or refuses the text."""
    answer = ask(["explain", "--all", "--depth", str(deep)], text)
    return said_in(answer[1], names) if answer and answer[0] == 0 else None


def named_settings(flown: Flown) -> str:
    """The show's `stray` and `late`, as far as it has them, in the words of its text."""
    words = ["`%s`" % line_in(flown.show.form, word, *flown.show.settings[word])
             for word in ("stray", "late") if flown.show.settings[word][0]]
    return " and ".join(words)


def causes_of(ask: Ask, flown: Flown, text: bytes, deep: int, found: list[Said]) -> set[tuple[int, int, int]]:
    """The pairs and cues among these in which the program separates the two where nobody strays and nobody is late."""
    apart = [it for it in found if it.level >= 1000]
    if not apart or not named_settings(flown):
        return set()
    exact = asked(ask, with_setting(with_setting(text, "stray", 0), "late", 0), deep, flown.names)
    if exact is None:
        return set()
    blocked, are_all = {it.slot for it in exact[0]}, exact[1]
    last = max(blocked, default=(0, 0, 0))  # of those after it nothing is said where there are more
    return {it.slot for it in apart if it.slot not in blocked and (are_all or it.slot <= last)}


def meetings_of(ask: Ask, flown: Flown, text: bytes, deep: int) -> tuple[list[Meeting], bool] | None:
    """The places in which drones of a show are blocked, that first which `check` names, and whether these are all; None
    where the program can't be asked. It is asked at most twice."""
    answer = asked(ask, text, deep, flown.names)
    if answer is None:
        return None
    found, are_all = answer
    caused = causes_of(ask, flown, text, deep, found)
    return [it.meeting(flown, named_settings(flown) if it.slot in caused else None) for it in found], are_all
