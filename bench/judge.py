"""Judges texts of shows from the documents alone: their first fault, or what the commands answer.

For bench/language and bench/random, behind scripts.py. `language/choreo.py` of the package reads texts and writes cues
out, separation.py searches for directions; this module puts their refusals into the order of docs/COMMANDS.md.
"""
from __future__ import annotations

from hemtoghai.language import choreo
from hemtoghai.language.choreo import Refused
import separation
import trees
from plans import plan_of


class Verdict:
    """What the program must write at a depth, and the outcome that it counts as."""

    def __init__(self, whole: bytes, depth: int = choreo.DEPTH, version: int = 2) -> None:
        self.depth, self.version = depth, version
        self.show: choreo.Show | None = None
        self.sizes: list[int] = []
        self.refusal: Refused | None = None
        try:
            self.judge(whole)
        except Refused as refusal:
            self.refusal = refusal
        self.outcome = self.refusal.outcome if self.refusal else "accepted"

    def judge(self, whole: bytes) -> None:
        """Refuses an input, or not."""
        text, _, markers = choreo.parts_of(whole)
        self.flown = choreo.flown_of(text)
        self.show = self.flown.show
        if markers:
            raise Refused(11, "line %d" % markers[0], "marker line")
        self.sizes = [len(data) for data in self.flown.data()]
        choreo.judge_room(self.flown)
        separation.judge_separation(self.flown, self.depth, self.version)

    def answer(self, command: str) -> tuple[int, str]:
        """The status and the output of `check`, `compile` or `certify`."""
        if self.refusal:
            return self.refusal.status, self.refusal.output
        if command == "compile":
            return 0, plan_of(self.flown)
        if command == "certify":
            return 0, trees.certificate(self.flown, self.depth, self.version)
        counts = len(self.flown.names), len(self.flown.cues), self.flown.milliseconds
        return 0, "ok drones %d cues %d duration_ms %d\n" % counts
