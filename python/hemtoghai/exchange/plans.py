"""The plan that is written as a file of another program: one that `compile` wrote, or that of a show."""
from __future__ import annotations

from hemtoghai import program, texts
from hemtoghai.companion import decoded, many, parts_of_plan, read_file, stop
from hemtoghai.language.choreo import Row, Segment


def drones_of(path: str) -> list[tuple[str, Row, list[Segment]]]:
    """The drones of a plan, or of a show, which the program compiles: names, starts and segments."""
    text = read_file(path, texts.PLAN)
    if not text.startswith(b"plan 1"):
        try:
            status, text = program.ask(["compile"], text)
        except program.Unusable as why:
            return stop(f"the show can't be compiled: {why}")
        if status:
            stop(f"{path}: {text.decode(errors='replace').strip()}", status)
    out = []
    for name, data, pieces, _ in parts_of_plan(text, path):
        out.append((name, *(decoded(data, pieces) or stop(
            f"{path}: the bytes of {name} are no trajectory of {many(pieces, 'segment')}"))))
    return out
