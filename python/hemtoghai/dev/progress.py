"""How far a first build is, and in which order its crates are proved: by how long the proof of each crate took once."""
from __future__ import annotations

import os
import time

from hemtoghai.launching.records import sources

# Processor seconds of each crate's proof in one first build. The processors had other work too, so the numbers were
# divided by 2.3; those of show_run and show_cli are by one job. What counts is how they compare.
SECONDS = {
    "bezier_core": 37, "byte_streams": 96, "certificate_checker": 44, "choreo_lines": 113, "choreo_reader": 78,
    "choreo_show": 9, "command_words": 59, "crtp_packets": 30, "cue_grid": 158, "drill_show": 17, "dynamics_bound": 44,
    "figure_expand": 82, "firmware_memory": 22, "fleet_curves": 37, "fleet_world": 65, "flight_director": 75,
    "flight_link": 68, "flight_model": 30, "flight_steps": 97, "integer_player": 49, "keepout_boxes": 70,
    "link_dialogue": 9, "link_frames": 16, "link_upload": 56, "listed": 3, "mm_rounding": 29, "pair_search": 121,
    "refusals": 32, "rehearsal": 34, "report_text": 17, "sep_certificate": 24, "sep_parts": 116, "show_cli": 100,
    "show_direct": 67, "show_judge": 94, "show_looks": 80, "show_plan": 78, "show_run": 95, "show_studies": 94,
    "show_uploads": 80, "show_verify": 65, "speed_bound": 21, "text_lines": 25, "touch_witness": 56, "traj_codec": 58,
    "upload_core": 77, "upload_model": 18, "whole_numbers": 10,
}

Crates = dict[str, list[str]]  # each with the ones right below it
FIRST = 60.0  # seconds of the table that count as seen when nothing is


def costs(below: Crates) -> dict[str, float]:
    """The seconds of each crate; those of one that isn't in the table by the size of its sources."""
    size = {crate: sum(map(os.path.getsize, sources(crate))) for crate in below}
    known = [crate for crate in below if crate in SECONDS]
    each = sum(SECONDS[crate] for crate in known) / max(1, sum(size[crate] for crate in known)) if known else 1.0
    return {crate: float(SECONDS.get(crate, max(1.0, each * size[crate]))) for crate in below}


def ahead(below: Crates, cost: dict[str, float]) -> dict[str, float]:
    """The seconds of the longest chain of crates that begins with each one, up to the last."""
    above: dict[str, list[str]] = {crate: [it for it in below if crate in below[it]] for crate in below}
    found: dict[str, float] = {}

    def of(crate: str) -> float:
        if crate not in found:
            found[crate] = cost[crate] + max(map(of, above[crate]), default=0.0)
        return found[crate]
    for crate in below:
        of(crate)
    return found


def span(below: Crates, left: dict[str, float], begun: set[str], most: int) -> float:
    """How long it takes until all crates are proved, so many at a time, where each has these seconds left; those that
    were begun go on, and of the others the one with the longest chain begins first."""
    chain, now = ahead(below, left), 0.0
    waiting = {crate for crate in below if left[crate] > 0}
    ends: dict[str, float] = {}
    while waiting or ends:
        ready = [it for it in waiting if not any(other in waiting or other in ends for other in below[it])]
        ready.sort(key=lambda it: (it in begun, chain[it]), reverse=True)
        for crate in ready[:max(0, most - len(ends))]:
            waiting.remove(crate)
            ends[crate] = now + left[crate]
        crate = min(ends, key=lambda it: ends[it])
        now = ends.pop(crate)
    return now


class Progress:
    """What is proved of a build, and how fast this machine is."""

    def __init__(self, below: Crates, most: int) -> None:
        self.below, self.most, self.cost = below, most, costs(below)
        self.begun: dict[str, float] = {}  # the times at which those began that aren't proved yet
        self.took: dict[str, float] = {}
        self.told = time.monotonic()

    def begin(self, crate: str) -> None:
        self.begun[crate] = time.monotonic()

    def end(self, crate: str) -> None:
        self.took[crate] = time.monotonic() - self.begun.pop(crate)

    def pace(self) -> float:
        """Seconds of the clock for one of the table. A crate that ended at once was kept from earlier, and says
        nothing; one that takes longer than it should says so before it ends. A minute of the table counts as if this
        machine had kept to it, so that the first small crates, most of whose time is the start of `rt`, don't decide
        alone."""
        took = {crate: it for crate, it in self.took.items() if it > self.cost[crate] / 5}

        def pace() -> float:
            return (FIRST + sum(took.values())) / (FIRST + sum(self.cost[crate] for crate in took))
        first = pace()
        for crate, began in self.begun.items():
            if (passed := time.monotonic() - began) > self.cost[crate] * first:
                took[crate] = passed
        return pace()

    def left(self, pace: float) -> dict[str, float]:
        """The seconds of the table that each crate has left; one that was begun has some until it ends."""
        now = time.monotonic()

        def of(crate: str) -> float:
            if crate in self.took:
                return 0.0
            passed = (now - self.begun[crate]) / pace if crate in self.begun else 0.0
            return max(self.cost[crate] - passed, self.cost[crate] / 20)
        return {crate: of(crate) for crate in self.below}

    def words(self) -> str:
        """How much is proved, and how long the rest takes."""
        pace = self.pace()
        left, whole = self.left(pace), sum(self.cost.values())
        minutes = round(pace * span(self.below, left, set(self.begun), self.most) / 60)
        clock = f"{minutes} minutes" if minutes > 1 else "a minute"
        return f"proof {100 * (whole - sum(left.values())) / whole:.0f} %, about {clock} left"

    def is_due(self) -> bool:
        """Whether a minute went by since something was last said, which is then noted as said."""
        if (now := time.monotonic()) - self.told < 60:
            return False
        self.told = now
        return True
