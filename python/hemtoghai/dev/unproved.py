"""The words of the companions over the sources without a proof: for `./show --unproved WORD ..`. The program of the
sources is made where it isn't there, and asked in the place of the proved one until this process ends; its record says
nothing of a proof. No real drone is flown so, and nothing is released."""
from __future__ import annotations

import os

from hemtoghai import program
from hemtoghai.dev import building
from hemtoghai.launching import launcher, records, running

OF_PROOF = "release", "library"  # words that are about what is proved
RADIO = "--radio", "--link"  # options that lead to real drones


def fault(words: list[str]) -> str | None:
    """Why these words aren't carried out without a proof, or None."""
    if os.path.exists(program.MANIFEST):
        return "a release has no sources to run"
    if words[0] in OF_PROOF:
        return f"{words[0]} is about what is proved: leave --unproved out"
    options = [word.partition("=")[0] for word in words[1:]]  # a tool takes a short form of an option too
    if any(len(option) > 3 and name.startswith(option) for option in options for name in RADIO):
        return "no real drone is flown by a program without a proof: leave --unproved out"
    return None


def take(word: str) -> None:
    """Has the program of the sources without a proof be asked from now on, and made before that where it isn't
    there."""
    if word != "studio_work":  # a process of the studio, which said so
        launcher.say("nothing is proved in this run")
    if launcher.file_if_current(program.UNPROVED) is None:
        running.watch_signals()
        building.need_rt()
        with open(os.devnull, "rb") as nothing:
            building.tried(["version"], nothing, records.crates_below(records.LAST))
        if launcher.file_if_current(program.UNPROVED) is None:
            launcher.stop("the program that rt makes for a try wasn't found: --unproved goes with the program's own "
                          "commands alone here")
    program.PROGRAM = program.UNPROVED
