"""The stages of a way up or down, as shows that the proved program's `check` judges. For ./show legs and ./show fly.

In a stage some drones fly one command of the firmware's planner, from rest to rest, which is the act `move`: a take-off
straight up, a go-to, or a landing straight down. All others hold, and a stage begins when the one before has ended. So
a leg is a show in the project's language, and `check` judges it, with the show's own ellipsoid. To the show's `stray`
comes how far a drone may have moved since its place was measured, and `late` is at least that of commands that go out
drone by drone.

Where `check` refuses a leg as a whole, each stage is judged by itself, by several shows of which each pair is in one.
`check` gives all pairs what the fastest flies in the time by which drones may be late. So two that both hold in a
stage are judged without those who move, and these with all who hold. Two that both stand on their pads aren't judged
with each other: their pads have to be PADS mm apart. Millimetres and milliseconds.
"""
import concurrent.futures
import subprocess
import threading
from itertools import combinations
from math import ceil, dist, inf
from typing import (Callable, Dict, Iterable, Iterator, List, Mapping, NamedTuple, Optional, Sequence, Tuple, TypeVar,
                    Union)

from hemtoghai import program
from hemtoghai.companion import missing, no_program
from hemtoghai.flying import clock

AIM = 30  # how far a drone's estimate may have moved since its place was measured
LATE = 300  # how far apart commands to single drones may be
SAME_FLOOR = 30  # between floors up to which one broadcast may land all
PADS = 150  # between two that both stand
LEAST, CLIMB, GO, SINK = 2000, 500, 500, 400  # of a stage; mean speeds, in mm a second
PEAK = 2.19  # the greatest speed of a move, in mean speeds
TAKE_OFF, GO_TO, LAND = "take-off", "go-to", "landing"
PATIENCE = 10  # seconds in which `check` has to answer
AT_ONCE = 4  # texts that `check` is asked about side by side
ROUND = 8 * AT_ONCE  # questions after which others get their turn
TAKES = 0.02  # seconds that a question to `check` takes in a simulated flight
MOST = 1000  # of a stray and of lateness, in the language

Place = Tuple[int, int, int]
Asked = TypeVar("Asked")
Found = TypeVar("Found")


class NoWay(Exception):
    """Why there is no leg: words for people."""


class Stage(NamedTuple):
    """Drones that fly one command each, to a place each, all in the same time."""
    kind: str
    milliseconds: int
    to: Dict[int, Place]

    def without(self, drones: Iterable[int]) -> "Stage":
        return Stage(self.kind, self.milliseconds, {k: place for k, place in self.to.items() if k not in drones})


class Rules:
    """What a leg is judged by: a show's ellipsoid, stray and late, and what legs add to them. A stray that is larger
    than the language has is refused by `check`."""

    def __init__(self, settings: Mapping[str, Sequence[int]], aim: float = AIM, ceiling: Optional[int] = None) -> None:
        (self.radius, self.height), (stray,), (late,) = [settings[word] for word in ("ellipsoid", "stray", "late")]
        self.show_late, self.show_stray = late, stray
        self.aim, self.ceiling = ceil(aim), ceiling
        self.stray, self.late = stray + self.aim, min(MOST, max(late, LATE))

    def words(self) -> str:
        return "ellipsoid %d %d, stray %d (the show's %d, and %d for the pads), late %d (the show's %d)" % (
            self.radius, self.height, self.stray, self.show_stray, self.aim, self.late, self.show_late)

    def spend(self, questions: int) -> None:
        """Is told how many questions to `check` a search is about to ask: one that is bounded raises NoWay."""

    def side(self) -> int:
        """How far apart from above two places are that need no further look; a check says so only from here on."""
        return 2 * (self.radius + self.stray)


def text_of(names: Sequence[str], at: Dict[int, Place], yaws: Sequence[int], stages: Iterable[Stage], rules: Rules, *,
            head: Sequence[str] = (), stray: Optional[int] = None, late: Optional[int] = None,
            begin: Optional[Sequence[int]] = None) -> bytes:
    """A show's text: where drones begin, and a cue for each stage. Further lines for its `head`, another `stray` and
    `late` than the rules', and other yaws for the begin, are given by name."""
    rows = ["choreo 1", *head, "ellipsoid %d %d" % (rules.radius, rules.height),
            "stray %d" % (rules.stray if stray is None else stray), "late %d" % (rules.late if late is None else late)]
    rows += ["drone %s %d %d %d %d" % (names[k], 1000 * x, 1000 * y, 1000 * z, (begin or yaws)[k])
             for k, (x, y, z) in at.items()]
    for stage in stages:
        rows += ["cue %d" % stage.milliseconds]
        rows += ["%s move %d %d %d %d" % (names[k], 1000 * x, 1000 * y, 1000 * z, yaws[k])
                 for k, (x, y, z) in stage.to.items()]
        rows += ["end"]
    return ("\n".join(rows) + "\n").encode()


ANSWERS: Dict[bytes, Optional[str]] = {}
CLAIMED, CLAIMS = set[bytes](), threading.Lock()  # the texts that were asked about, each of which takes its time once


def said_of(text: bytes) -> Tuple[int, str]:
    """The status of `check`, and its line, of a text, by the file that was hashed; raises OSError, program.Unusable
    where that gave no answer, or subprocess.TimeoutExpired where it takes too long. It has a process group of its own:
    Ctrl-C ends the terminal's."""
    done = subprocess.run([program.runs(), "check"], input=text, stdout=subprocess.PIPE, stderr=subprocess.DEVNULL,
                          timeout=clock.used().patience(PATIENCE), start_new_session=True)
    program.need_answer(["check"], done.returncode, done.stdout)
    return done.returncode, done.stdout.decode(errors="replace").strip()


def refusal_of(text: bytes) -> Optional[str]:
    """Why `check` doesn't accept a text, or None where it does. It is asked once; where it can't be asked, or doesn't
    answer, that is why."""
    if text in ANSWERS:
        return ANSWERS[text]
    if no_program():
        return missing()
    with CLAIMS:
        is_new = text not in CLAIMED
        CLAIMED.add(text)
    if is_new:
        clock.used().owe(TAKES)
    try:
        status, line = said_of(text)
    except (OSError, subprocess.TimeoutExpired, program.Unusable) as error:
        return "`check` doesn't answer: %s" % error
    if status not in (0, 3, 4, 5):
        return "`check` ended with %d: %s" % (status, line)
    ANSWERS[text] = (line or "`check` ended with %d" % status) if status else None
    return ANSWERS[text]


def side_by_side(work: Callable[[Asked], Found], items: Iterable[Asked]) -> List[Found]:
    """What a function that asks `check` gives for each of these, some at a time."""
    wanted, found = list(items), list[Found]()
    with concurrent.futures.ThreadPoolExecutor(AT_ONCE) as pool:
        for n in range(0, len(wanted), ROUND):
            found += pool.map(work, wanted[n:n + ROUND])
            clock.used().pay(AT_ONCE)
    return found


def place_of(values: Iterable[float]) -> Place:
    x, y, z = (round(v) for v in values)
    return x, y, z


def apart(one: Sequence[float], other: Sequence[float]) -> float:
    """How far two places are from each other as seen from above."""
    return dist(one[:2], other[:2])


def off_line(place: Sequence[float], a: Sequence[float], b: Sequence[float]) -> float:
    """How far a place is from the straight line between two others."""
    way = [w - v for v, w in zip(a, b)]
    square = sum(v * v for v in way)
    share = sum((p - v) * w for p, v, w in zip(place, a, way)) / square if square > 0 else 0.0
    return dist(place, [v + min(1.0, max(0.0, share)) * w for v, w in zip(a, way)])


class Leg:
    """A way of all drones: where they begin, and its stages. Drones turn to `yaws` in it, from `first_yaws`. `whole` is
    whether `check` accepts it as one show, `why_below` why it doesn't lead to the pads, where it doesn't, and `hint`
    what would make it shorter, or None."""

    def __init__(self, names: Sequence[str], at: Dict[int, Place], yaws: Sequence[int], rules: Rules) -> None:
        self.names, self.begin, self.yaws, self.rules = names, dict(at), yaws, rules
        self.first_yaws = yaws
        self.stages: List[Stage] = []
        self.whole, self.late = False, rules.late
        self.why_below: Optional[NoWay] = None
        self.hint: Optional[str] = None

    def places(self, count: Optional[int] = None) -> Dict[int, Place]:
        """Where drones are after so many stages, or all."""
        at = dict(self.begin)
        for stage in self.stages[:count]:
            at.update(stage.to)
        return at

    def milliseconds(self) -> int:
        """How long the leg takes, without the waits between stages."""
        return sum(stage.milliseconds for stage in self.stages)

    def text(self, head: Sequence[str] = ()) -> bytes:
        return text_of(self.names, self.begin, self.yaws, self.stages, self.rules, late=self.late, head=head,
                       begin=self.first_yaws)

    def reversed(self) -> "Leg":
        """The same way back: a move from rest to rest is the same curve backwards."""
        back = Leg(self.names, self.places(), self.yaws, self.rules)
        for number in reversed(range(len(self.stages))):
            stage, before = self.stages[number], self.places(number)
            kind = {TAKE_OFF: LAND, LAND: TAKE_OFF}.get(stage.kind, GO_TO)
            back.stages.append(Stage(kind, stage.milliseconds, {k: before[k] for k in stage.to}))
        return back

    def rest(self, count: int, at: Dict[int, Place], hold: Iterable[int] = ()) -> "Leg":
        """What is left of a leg after so many stages, from other places; some hold in it."""
        leg = Leg(self.names, at, self.yaws, self.rules)
        leg.stages = [stage for stage in (it.without(hold) for it in self.stages[count:]) if stage.to]
        return leg

    def judge(self, pads: Dict[int, Place]) -> Optional[str]:
        """Judges the leg, as a whole or else stage by stage; the refusal, or None."""
        self.late = self.rules.late
        self.rules.spend(1)
        self.whole = refusal_of(self.text()) is None
        if self.whole:
            return None
        refusal = judge_stages(self, self.stages, pads, self.begin)
        self.late = self.late if refusal else 0
        return refusal

    def all_places(self) -> List[Place]:
        """Where drones begin, and where they go to in each stage."""
        return [place for at in [self.begin, *(stage.to for stage in self.stages)] for place in at.values()]

    def top(self) -> int:
        """The highest that the leg goes, in mm."""
        return max(place[2] for place in self.all_places())

    def lines(self, top: float = inf) -> Iterator[str]:
        """Its stages for people, and what is to be said of it beside a show that goes up so high."""
        for number, stage in enumerate(self.stages, 1):
            at = self.places(number - 1)
            rows = ["%s to (%.2f, %.2f, %.2f)" % (self.names[k], x / 1000, y / 1000, z / 1000)
                    for k, (x, y, z) in stage.to.items() if stage.kind != LAND or (x, y, z) != at[k]]
            yield "%3d. %-8s %5.1f s  %s" % (number, stage.kind, stage.milliseconds / 1000, "; ".join(rows))
        if self.hint:
            yield "  it would be shorter so: %s" % self.hint
        if self.top() > top:
            yield f"  goes up to {self.top() / 1000:.2f} m, and the show to {top / 1000:.2f}: --ceiling keeps it lower"


def stage_texts(names: Sequence[str], yaws: Sequence[int], stage: Stage, standing: Iterable[int],
                at: Dict[int, Place], rules: Rules, stray: int, late: int) -> List[bytes]:
    """The texts by which a stage is judged by itself, from places, with a stray and a lateness: those who move with
    some of those who hold, and those who hold with some of those who stand."""
    stand = {k: at[k] for k in standing if k in at}
    hold = {k: place for k, place in at.items() if k not in stage.to}
    move = {k: place for k, place in at.items() if k in stage.to}

    def text(rows: Dict[int, Place], to: Dict[int, Place], late: int) -> bytes:
        cue = Stage(stage.kind, stage.milliseconds, to)
        return text_of(names, {k: rows[k] for k in at if k in rows}, yaws, [cue], rules, stray=stray, late=late)
    hover = {k: place for k, place in hold.items() if k not in stand}
    moved, held = standing_apart(hold, rules, stray, late) if move else [], standing_apart(stand, rules, stray, 0)
    return [*(text({**move, **{k: at[k] for k in row}}, stage.to, late) for row in moved),
            *(text({**hover, **{k: at[k] for k in row}}, {}, 0) for row in (held if hover else []))]


def standing_apart(standing: Dict[int, Place], rules: Rules, stray: int, late: int) -> List[List[int]]:
    """Those who hold, in lists in which `check` refuses no two: it adds to all what the fastest flies in that time."""
    side = 2.12 * (rules.radius + stray) + PEAK * late * max(CLIMB, GO, SINK) / 1000 + 10
    out: List[List[int]] = []
    for k, place in standing.items():
        row = next((row for row in out if all(apart(place, standing[other]) > side for other in row)), None)
        if row is None:
            out.append([k])
        else:
            row.append(k)
    return out or [[]]


def judge_stages(leg: Leg, stages: Iterable[Stage], pads: Dict[int, Place], at: Dict[int, Place]) -> Optional[str]:
    """Judges stages that follow each other from places, each by itself; the first refusal, or None."""
    found: List[Union[bytes, str]] = []  # texts to ask about, and refusals without that
    at = dict(at)
    for stage in stages:
        standing = [k for k in at if k in pads and k not in stage.to and at[k] == tuple(pads[k])]
        found += ["pads of %s and %s are %.0f mm apart, and %d are wanted" % (
            leg.names[i], leg.names[j], dist(at[i], at[j]), PADS)
            for i, j in combinations(standing, 2) if dist(at[i], at[j]) < PADS]
        is_alone = sum(place != at[k] for k, place in stage.to.items()) < 2  # where one drone moves, nobody is late
        found += stage_texts(leg.names, leg.yaws, stage, standing, at, leg.rules, leg.rules.stray,
                             0 if is_alone else leg.rules.late)
        at.update(stage.to)
    leg.rules.spend(len(found))
    return next(filter(None, side_by_side(lambda it: it if isinstance(it, str) else refusal_of(it), found)), None)


def milliseconds_for(kind: str, ways: Sequence[float]) -> int:
    """How long a stage takes with these ways, a multiple of a hundred milliseconds."""
    speed = {TAKE_OFF: CLIMB, GO_TO: GO, LAND: SINK}[kind]
    return max(LEAST, 100 * ceil(max(ways or [0]) / speed * 10))
