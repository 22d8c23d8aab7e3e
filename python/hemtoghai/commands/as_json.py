"""The answers of ten commands as one line of JSON, for programs.

    ./show check --json [--depth D] SHOW
    ./show compile --json [--depth D] SHOW
    ./show certify --json [--depth D] SHOW
    ./show verify --json SHOW CERTIFICATE
    ./show explain --json [--depth D] [--fine E] [--all] SHOW
    ./show dynamics --json [--depth D] [--accel A] [--jump J] SHOW
    ./show speed --json [--depth D] [--limit V] SHOW
    ./show boxes --json [--depth D] SHOW REGIONS
    ./show why --json [--depth D] [--most N] SHOW
    ./show summary --json [--depth D] SHOW

Instants are milliseconds from the begin of the show, places micrometres, speeds and accelerations micrometres per
second and per second squared. Bytes are hexadecimal. The status is that of the command. Where words or files are wrong,
or there is no answer, the line has `error` with the words that standard error has, and `ok` is false.
"""
from __future__ import annotations

import argparse
import contextlib
import io
import json
import re
import sys
from math import hypot
from typing import Any

from hemtoghai import companion, judging, streams, texts
from hemtoghai.geometry.nearest import nearest_pairs
from hemtoghai.language import choreo
from hemtoghai.launching import launcher, words as commands
from hemtoghai.program import NAME, Unusable
from hemtoghai.seeing.sampling import look, places_in
from hemtoghai.writing.margins import margins_of
from hemtoghai.writing.meetings import ALL, MORE, PLACE
from hemtoghai.writing.remedies import helps
from hemtoghai.writing.trials import Trials


def put(command: str, verdict: judging.Verdict, **more: Any) -> int:
    """Writes an answer, and says too why there is none; its status."""
    sys.stdout.write(json.dumps({"command": command, **verdict.as_data(), **more}) + "\n")
    if verdict.status == streams.NO_ANSWER:
        streams.tell(companion.tool_name(), verdict.line)
    return verdict.status


def put_failure(command: str, status: int, said: str) -> int:
    """Writes that there is no answer, and why: the last line of what was said."""
    words = said.strip().split("\n")[-1]
    for who in (NAME, companion.tool_name()):
        words = words[len(who) + 2:] if words.startswith(who + ": ") else words
    line = "error 2 usage" if status == 2 else words
    sys.stdout.write(json.dumps({"command": command, "status": status, "ok": False, "line": line, "proved": False,
                                 "error": words}) + "\n")
    return status


EXPLAINED = re.compile(r"(?:separated|blocked pair (\S+) (\S+) cue (\d+) part (\d+) of (\d+))\n"
                       r"(?:closest pair (\S+) (\S+) cue (\d+) at (\d+) of (\d+) level (\d+)\n)?"
                       r"(?:touch pair (\S+) (\S+) cue (\d+) at (\d+) of (\d+)\n|no-touch instants (\d+)\n)?")


def pair_of(words: tuple[str | None, ...], *numbers: str) -> dict[str, Any] | None:
    """Two drones and what is said of them; None where nothing is."""
    if words[0] is None:
        return None
    return {"first": words[0], "second": words[1], **{name: int(it or 0) for name, it in zip(numbers, words[2:])}}


def explained(output: str) -> dict[str, Any]:
    """What `explain` writes. `ok` is whether all drones are separated: it ends with 0 of others too."""
    rows, more = list(PLACE.finditer(output)), {}
    if rows and ALL.fullmatch(output):  # --all: each pair and cue has a line
        is_cut = output.startswith(MORE, rows[-1].end())
        more = {"blocked_parts": [pair_of(row.groups(), "cue", "part", "parts", "at", "of", "level") for row in rows],
                "more_blocked": is_cut}
        output = "blocked pair %s %s cue %s part %s of %s\n" % rows[0].groups()[:5] + output[
            rows[-1].end() + len(MORE) * is_cut:]
    found = EXPLAINED.fullmatch(output)
    if found is None:
        raise Unusable("what was run isn't the program: it gave no answer of `explain`")
    row = found.groups()
    return {**more, "ok": output.startswith("separated\n"), "blocked_part": pair_of(row[:5], "cue", "part", "parts"),
            "closest": pair_of(row[5:11], "cue", "at", "of", "level"),
            "touch": pair_of(row[11:16], "cue", "at", "of"), "no_touch_instants": int(row[16]) if row[16] else None}


def compiled(output: bytes) -> dict[str, Any]:
    """What `compile` writes: each drone's bytes and packets."""
    return {"drones": [{"name": name, "pieces": pieces, "data": data.hex(), "packets": [
        {"kind": kind, "data": bytes.fromhex(digits).hex()} for kind, digits in packets]}
        for name, data, pieces, packets in companion.parts_of_plan(output, "the plan")]}


def more_of(command: str, verdict: judging.Verdict) -> dict[str, Any]:
    """The values that a command has beside its verdict."""
    output = verdict.output
    if command == "check":
        row = verdict.line.split(" ")[1:] if verdict.ok else []  # drones, cues and duration_ms, each with its number
        return {**dict(zip(row[::2], map(int, row[1::2]))),
                "cautions": [dict(vars(caution)) for caution in verdict.cautions]}
    if not verdict.ok or command == "boxes":
        return {}
    if command == "certify":
        return {"certificate": output.decode()}
    if command == "verify":
        row = verdict.line.split(" ")[1:]  # depth and trees
        return {name: int(number) for name, number in zip(row[::2], row[1::2])}
    if command == "explain":
        return explained(output.decode())
    if command == "compile":
        return compiled(output)
    return {"drones": (companion.motions_in if command == "dynamics" else companion.speeds_in)(output.decode())}


def by_program(words: list[str]) -> int:
    """Asks the program, which is proved and built first where it isn't the one of these sources."""
    front, files, fault = commands.split(words)
    fault = fault or launcher.fault_of_files(front, files)
    if fault:
        streams.tell(NAME, fault)
        sys.exit(2)
    launcher.file_for(False)
    if len(files) == 2:
        most = texts.CERTIFICATE if front[0] == "verify" else texts.SHOW
        whole = texts.joined(texts.front_of(files[0], texts.SHOW + 1), texts.front_of(files[1], most + 1))
    else:
        whole = texts.front_of(files[0] if files else "-", texts.SHOW + (
            texts.CERTIFICATE if front[0] == "verify" else texts.SHOW))
    depth = int(front[front.index("--depth") + 1]) if "--depth" in front else choreo.DEPTH
    verdict = judging.verdict_of(front, choreo.parts_of(whole)[0], whole, depth)
    return put(front[0], verdict, **more_of(front[0], verdict))


def shown(reader: argparse.ArgumentParser, words: list[str]) -> tuple[argparse.Namespace, bytes, choreo.Flown | None]:
    """Reads a tool's words, of which the last is the file of a show, and that show; None where it is faulty."""
    reader.add_argument("show", metavar="SHOW", help="a file with a show, or - for standard input")
    options = reader.parse_args(words)
    text = companion.read_show(options.show)
    try:
        return options, text, choreo.flown_of(text)
    except choreo.Refused:
        return options, text, None


def verdict_of(text: bytes, depth: int) -> judging.Verdict:
    """The verdict on a show. Where the program can't be run the companions refuse a faulty one, or one without room."""
    try:
        return judging.check(text, depth)
    except Unusable:
        status, line = companion.without_program(text)
        return judging.Verdict(status, line.encode() + b"\n", None, text, depth)


def helped(trials: Trials, place: judging.Blocked) -> dict[str, Any]:
    """What helps two drones in a cue: each remedy with the names of those that are still blocked then."""
    i, j = trials.flown.names.index(place.first), trials.flown.names.index(place.second)
    begins = place.begin_ms == trials.flown.begins[place.cue - 1]
    ends, rows = helps(trials, i, j, place.cue - 1, begins)
    return {"blocked_where_the_cue": ends, "helps": [
        {"words": remedy.words, "takes_ms": remedy.takes, "still_blocked": left} for remedy, left in rows[:3]]}


def by_why(words: list[str]) -> int:
    """Says of a refused show who is blocked, where, when, and what helps."""
    reader = companion.parser(__doc__)
    companion.add_depth(reader)
    reader.add_argument("--most", type=int, default=20, metavar="N",
                        help="remedies for at most N places, without it 20")
    options, text, flown = shown(reader, words)
    verdict = verdict_of(text, options.depth)
    if flown is None:
        return put("why", verdict)
    trials = Trials(judging.told, flown, options.depth)
    places = [{**vars(place), **(helped(trials, place) if number < options.most and trials.may_ask else {})}
              for number, place in enumerate(verdict.blocked)]
    room = [{"drone": name, "bytes": len(data), "room": flown.room(), "pieces": len(segments)}
            for name, data, segments in zip(flown.names, flown.data(), flown.sent)]
    return put("why", verdict, **{"blocked": places, **({"room": room} if verdict.status == 4 else {})})


def drone_data(flown: choreo.Flown, drone: int, places: int, motions: dict[str, dict[str, Any]]) -> dict[str, Any]:
    fastest, box = look(flown, drone, places)
    return {"name": flown.names[drone], "bytes": len(flown.data()[drone]), "room": flown.room(),
            "pieces": len(flown.sent[drone]), "top_speed": round(1e6 * fastest),
            "box": [[round(1000 * low), round(1000 * high)] for low, high in box],
            **motions.get(flown.names[drone], {})}


def pair_data(flown: choreo.Flown, share: float, i: int, j: int, cue: int, u: float) -> dict[str, Any]:
    first, second = (companion.place(flown, k, cue, u) for k in (i, j))
    return {"first": flown.names[i], "second": flown.names[j], "share": share, "cue": cue + 1,
            "at_ms": companion.begins(flown)[cue] + flown.cues[cue].milliseconds * u,
            "to_the_side": round(1000 * hypot(first[0] - second[0], first[1] - second[1])),
            "up": round(1000 * abs(first[2] - second[2]))}


def by_summary(words: list[str]) -> int:
    reader = companion.parser(__doc__)
    companion.add_depth(reader)
    reader.add_argument("--margin", action="store_true", help="how far ellipsoid, stray and lateness can grow")
    options, text, flown = shown(reader, words)
    verdict = verdict_of(text, options.depth)
    if flown is None:
        return put("summary", verdict)
    times = companion.begins(flown)
    try:
        motions = judging.dynamics(text)
    except (Unusable, judging.Refused):
        motions = {}
    cues = [{"from_ms": begin, "to_ms": end, "line": cue.number,
             "acts": {name: act for name, (_, act, _) in cue.acts.items()}}
            for cue, begin, end in zip(flown.cues, times, times[1:])]
    settings = {word: list(row) for word, row in flown.show.settings.items()}
    places, (pairs, left_out) = places_in(flown), nearest_pairs(flown)
    more = {"duration_ms": flown.milliseconds, "settings": settings,
            "drones": [drone_data(flown, k, places, motions) for k in range(len(flown.names))], "instants": places,
            "cues": cues, "pairs": [pair_data(flown, *row) for row in pairs], "pairs_maybe_nearer": left_out}
    if options.margin:
        more["margin"] = None if companion.no_program() else {
            "ellipsoid_percent" if word == "ellipsoid" else word: most
            for word, most, _ in margins_of(flown, text, options.depth)}
    return put("summary", verdict, **more)


class Tee(io.StringIO):
    """Keeps what is said, and says it all the same."""

    def __init__(self, out: Any) -> None:
        super().__init__()
        self.out = out

    def write(self, text: str) -> int:
        self.out.write(text)
        return super().write(text)


def main(words: list[str]) -> int:
    left = [word for word in words if word != "--json"]
    call = {"why": by_why, "summary": by_summary}.get(left[0])
    with contextlib.redirect_stderr(Tee(sys.stderr)) as said:
        try:
            return call(left[1:]) if call else by_program(left)
        except SystemExit as ended:
            if not ended.code:  # --help
                raise
            return put_failure(left[0], ended.code if isinstance(ended.code, int) else streams.NO_ANSWER,
                               said.getvalue())
        except (OSError, Unusable) as error:
            streams.tell(NAME, streams.fault_of(error))
            return put_failure(left[0], streams.NO_ANSWER, streams.fault_of(error))
