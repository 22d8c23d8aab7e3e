"""Writes the trajectories of a plan or a show as files of other programs.

    ./show export csv PLAN|SHOW FOLDER                       Crazyswarm2 and uav_trajectories: NAME.csv a drone
    ./show export skyc [--tolerance MM] PLAN|SHOW OUT.skyc   Skybrush

Each format says more: ./show export csv --help. Status 0: written. 2: wrong words. 3, 4, 5: the show is refused with
this status. 70: a file can't be read or written, or isn't a plan.
"""
from __future__ import annotations

import importlib

from hemtoghai.companion import parser, set_tool


def main(words: list[str]) -> int:
    if words[:1] in (["csv"], ["skyc"]):
        set_tool("export " + words[0])
        return int(importlib.import_module("hemtoghai.exchange.export_" + words[0]).main(words[1:]))
    reader = parser(__doc__)
    reader.add_argument("format", choices=("csv", "skyc"), help="the program that reads the files")
    reader.parse_args(words)
    return 2
