"""Simulated drones in place of real ones: for ./show fly --simulate."""
import argparse
import os
import random
import sys
from typing import Dict, Iterator, List, Optional, Sequence, Set, Tuple

from hemtoghai.companion import stop
from hemtoghai.flying import finite, legs
from hemtoghai.language.choreo import Flown
from hemtoghai.program import PACKAGE

# What --sim can set, and its greatest number.
SETTINGS = {"stray": 1e4, "late": 1e4, "loss": 100, "seed": 1e9, "speed": 100, "rate": 1e6, "dongles": 32,
            "blocks": 1e6, "dies": 1e6, "usb": 1e6, "noise": 1e6, "strangers": 32, "blanks": 32, "leap": 100}
ADDRESS = "radio://%d/80/2M/E7E7E7E7%02X"  # of a dongle's drone
STRANGER = 0x80  # the first stranger's last byte

Faults = Dict[str, Dict[str, float]]  # by a drone's name its faults, and their numbers


def set_simulation(flown: Flown, pads: Sequence[Tuple[int, int, int]], options: argparse.Namespace) -> Dict[str, str]:
    """Puts the simulated library where Bitcraze's would be, with drones on their pads; the addresses of all that the
    hall has: of the show's drones, and of those that PADS has besides."""
    sys.path.insert(0, os.path.join(PACKAGE, "flying", "simulated"))
    from cflib import air
    settings, hall = settings_of(options.sim), legs.pads_by_name(options.pads) if options.pads else {}
    names = [*flown.names, *(name for name in hall if name not in flown.names)]
    faults, rising = faults_of(options.fault, flown.names, names, air.FAULTS)
    random.seed(int(settings["seed"] or 1))
    dongles = int(settings["dongles"] or 1)
    uris = {name: ADDRESS % (k % dongles, k + 1) for k, name in enumerate(names)}
    air.WORLD.reset({uris[name]: [v / 1000 for v in pad] for name, pad in zip(flown.names, pads)},
                    {uris[name]: row for name, row in faults.items()},
                    stray=settings["stray"] or 0.0, late=settings["late"] or 0.0, loss=(settings["loss"] or 0.0) / 100,
                    rate=settings["rate"] or 900.0, seed=int(settings["seed"] or 1), leap=settings["leap"] or 0.5,
                    rising={uris[name]: row for name, row in rising.items()},
                    **{it: settings[it] for it in air.TROUBLES})
    for name, start in zip(flown.names, flown.starts):
        air.WORLD.drones[uris[name]].yaw = start[3] / 10
    data, pieces, (trajectory,) = flown.data(), list(map(len, flown.sent)), flown.show.settings["trajectory"]
    for k, name in enumerate(names[len(flown.names):]):
        if "left" in faults.get(name, {}):
            n = k % len(data)
            air.WORLD.add_stranger(uris[name], [v / 1000 for v in hall[name]], trajectory, data[n], pieces[n], name)
    count = int(settings["strangers"] or 0)
    for k in range(count + int(settings["blanks"] or 0)):
        n, back = k % len(flown.names), 0.5 * (1 + k // len(flown.names))
        home = [pads[n][0] / 1000, pads[n][1] / 1000 - back, pads[n][2] / 1000]
        air.WORLD.add_stranger(ADDRESS % (n % dongles, STRANGER + k), home, trajectory,
                               *((data[n], pieces[n]) if k < count else (b"", 0)))
    air.WORLD.watch()
    return uris


def settings_of(words: Sequence[str]) -> Dict[str, Optional[float]]:
    """The settings of words KEY=N; None where nothing is set."""
    out: Dict[str, Optional[float]] = dict.fromkeys(SETTINGS)
    for word in words:
        key, _, number = word.partition("=")
        try:
            out[key] = finite.number(number, 0, SETTINGS[key])
        except (KeyError, ValueError):
            stop("--sim %s: one of %s, as in stray=30" % (word, ", ".join(SETTINGS)), 2)
    return out


def faults_of(words: Sequence[str], shown: Sequence[str], names: Sequence[str],
              kinds: Dict[str, str]) -> Tuple[Faults, Dict[str, Set[str]]]:
    """The faults of words NAME:KIND, NAME:KIND:SECONDS and NAME:KIND:SECONDS:up, by name, and those of the last form,
    whose seconds count from the take-off. A drone that the show hasn't and the hall has is on where it was left out."""
    out: Faults = {}
    rising: Dict[str, Set[str]] = {}
    for word in words:
        name, kind, number, *rest = word.split(":") + ["", "0"][word.count(":"):]
        if name not in (names if kind == "left" else shown):
            stop("--fault %s: the show has no drone %s" % (word, name), 2)
        if kind == "left" and name in shown:
            stop(f"--fault {word}: the show has {name}, and one is wanted that PADS alone has", 2)
        try:
            seconds = finite.number(number, 0, 1e6)
            kinds[kind]
            if rest not in ([], ["up"]):
                raise ValueError
        except (KeyError, ValueError):
            stop("--fault %s: NAME:KIND, NAME:KIND:SECONDS, or NAME:KIND:SECONDS:up from the take-off; kinds: %s" % (
                word, "; ".join("%s, %s" % it for it in kinds.items())), 2)
        out.setdefault(name, {})[kind] = seconds
        rising.setdefault(name, set()).update({kind} if rest else set())
    return out, rising


def simulated(names: Sequence[str]) -> Iterator[str]:
    """What the simulated drones are doing in the end: lines for people."""
    from cflib import air
    yield from air.WORLD.lines(names)
