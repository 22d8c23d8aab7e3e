"""The rows of bench/flights --faults: by a name what is wrong in a flight, drawn by its seed.

A fault comes in one of four phases, so many seconds after somebody says its words. Nothing here is a real drone.
"""
import random
from typing import Any, Callable, Dict, List, NamedTuple, Tuple

# By a phase the words after which it begins, and the least and greatest seconds after them.
PHASES = {"going up": ("taking off", 0.2, 2.0), "waiting": ("at the first places", 0.3, 4.0),
          "in the show": ("started: ", 0.3, 5.0), "coming down": ("flown:", 1.3, 2.6)}
WAITS = 6.0  # seconds until the crew says to start, where a fault comes while it is asked
SHOWS = ("crossed", "eight", "grid", "under")
# The place of a pad beside all of each show's, for a drone that was left out of it.
BESIDE = "-3000000 -3000000 0"


class Fault(NamedTuple):
    """A fault of a drone, by its number in the show, so many seconds after some words."""
    drone: int
    kind: str
    words: str
    seconds: float


class Row(NamedTuple):
    """A kind of flight: its faults by chance, further words of `fly`, what the crew presses after the fault, and
    whether nobody may take off."""
    faults: Callable[[random.Random], List[Fault]] = lambda chance: []
    words: Callable[[random.Random], List[str]] = lambda chance: []
    press: str = ""
    is_refused: bool = False
    at_rest: Tuple[str, ...] = ()  # faults that a drone has from the beginning


def one(kind: str, phase: str) -> Row:
    """A fault of one drone in a phase."""
    return Row(lambda chance: [at(chance, kind, phase)])


def at(chance: random.Random, kind: str, phase: str, drone: int = 0, after: float = 0.0) -> Fault:
    """A fault in a phase, or so long after an instant of it where one is given."""
    words, least, most = PHASES[phase]
    return Fault(drone, kind, words, round(after or chance.uniform(least, most), 2))


def gap_then(kind: str, phase: str) -> Row:
    """A gap of half a second in the radio of one, and a fault of another in it."""
    def faults(chance: random.Random) -> List[Fault]:
        _, least, most = PHASES[phase]
        begin = chance.uniform(least, most)
        return [at(chance, "blinks", phase, 1, begin), at(chance, kind, phase, 0, begin + chance.uniform(0.3, 0.5))]
    return Row(faults)


def leap(phase: str) -> Row:
    """An estimate that leaps by 0.2 to 0.8 m."""
    return one("leaps", phase)._replace(words=lambda chance: ["--sim", f"leap={chance.uniform(0.2, 0.8):.2f}"])


def hall(*words: str) -> Callable[[random.Random], List[str]]:
    return lambda chance: list(words)


ROWS: Dict[str, Row] = {
    **{f"leaves, {phase}": one("leaves", phase) for phase in PHASES},
    "leaves, coming down, and Ctrl-C": one("leaves", "coming down")._replace(press="Ctrl-C"),
    **{f"positioning lost, {phase}": one("doubts", phase) for phase in PHASES},
    **{f"estimate leaps by 0.2 to 0.8 m, {phase}": leap(phase) for phase in PHASES},
    **{f"estimate leaps by 25 m, {phase}": one("misled", phase) for phase in PHASES},
    **{f"estimate leaps down by 1 m, {phase}": one("lower", phase) for phase in PHASES},
    **{f"places of two exchanged, {phase}": one("swapped", phase) for phase in PHASES if phase != "waiting"},
    **{f"frozen samples, {phase}": one("frozen", phase) for phase in ("going up", "in the show")},
    **{f"samples a second late, {phase}": one("lags", phase) for phase in ("going up", "in the show")},
    **{f"radio chip alone answers, {phase}": one("numb", phase) for phase in ("going up", "in the show")},
    "answers late": Row(at_rest=("slow",)),
    "old cell, going up": one("sinks", "going up"), "old cell, in the show": one("sinks", "in the show"),
    "weak cell, going up": one("drains", "going up"),
    "gap, then another tumbles, going up": gap_then("falls", "going up"),
    "gap, then another tumbles, in the show": gap_then("falls", "in the show"),
    "gap, then Ctrl-C": one("blinks", "in the show")._replace(press="Ctrl-C"),
    "stranger with a trajectory": Row(words=hall("--sim", "strangers=2"), is_refused=True),
    "stranger with a trajectory, let through": Row(words=hall("--sim", "strangers=2", "--strangers")),
    "left-out drone": Row(words=hall("--fault", "left:left"), is_refused=True),
    "left-out drone, let through": Row(words=hall("--fault", "left:left", "--strangers")),
    "blank stranger, let through": Row(words=hall("--sim", "blanks=2", "--strangers")),
    **{name: Row(at_rest=(kind,), is_refused=True) for name, kind in (
        ("nobody switched it on", "dead"), ("two of one address", "twin"), ("exchanged on their pads", "trades"),
        ("one under two names", "double"), ("memory that refuses", "small"), ("old protocol", "outdated"))},
}


def plan_of(name: str, seed: int, shows: Dict[str, Tuple[str, Any]]) -> Dict[str, Any]:
    """A flight of a row, by its seed."""
    row, chance = ROWS[name], random.Random(f"{name} {seed}")
    show = chance.choice(SHOWS)
    text, pads = shows[show]
    names = [line.split()[1] for line in text.split("\n") if line.startswith("drone ")]
    order = list(names)
    chance.shuffle(order)
    faults = [fault._replace(drone=names.index(order[fault.drone])) for fault in row.faults(chance)]
    words = ["--simulate", "--yes", "--silence", "1.5", "--patience", "2", "--sim", f"seed={chance.randint(1, 999)}",
             "--sim", f"stray={chance.randint(0, 25)}", "--sim", f"late={chance.randint(0, 40)}", *row.words(chance)]
    words += [word for kind in row.at_rest for word in ("--fault", f"{order[0]}:{kind}")]
    if "left:left" in words:
        places = [line.split()[2:5] for line in text.split("\n") if line.startswith("drone ")]
        pads = pads or "".join(f"{it} {x} {y} 0\n" for it, (x, y, _) in zip(names, places))
        pads += f"left {BESIDE}\n"
    waits = WAITS if any(fault.words == PHASES["waiting"][0] for fault in faults) else 0.0
    press = [row.press, faults[0].words, faults[0].seconds + 0.4] if row.press else None
    return {"row": name, "seed": seed, "kind": None, "show": show, "text": text, "pads": pads, "names": names,
            "words": words, "faults": [], "inject": [list(fault) for fault in faults], "waits": waits, "press": press,
            "is_refused": row.is_refused, "bytes": 0, "at": 0.0}


def good_plan(seed: int, shows: Dict[str, Tuple[str, Any]]) -> Dict[str, Any]:
    """A flight in which nothing is wrong: drones stray, are late and lose packets as each fleet does."""
    chance = random.Random(f"good {seed}")
    show = chance.choice(sorted(shows))
    text, pads = shows[show]
    names = [line.split()[1] for line in text.split("\n") if line.startswith("drone ")]
    words = ["--simulate", "--yes", "--silence", "1.5", "--patience", "2", "--sim", f"seed={chance.randint(1, 999)}",
             "--sim", f"stray={chance.randint(0, 30)}", "--sim", f"late={chance.randint(0, 30)}",
             "--sim", f"loss={chance.choice((0, 0, 2, 5))}", *chance.choice(([], [], ["--every", "50"]))]
    faults = [f"{chance.choice(names)}:{chance.choice(('fast', 'auto'))}"] if chance.random() < 0.4 else []
    words += [word for fault in faults for word in ("--fault", fault)]
    return {"row": "no fault", "seed": seed, "kind": None, "show": show, "text": text, "pads": pads, "names": names,
            "words": words, "faults": faults, "inject": [], "waits": 0.0, "press": None, "is_refused": False,
            "bytes": 0, "at": 0.0}
