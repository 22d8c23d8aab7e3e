"""What ./show studio shows of a text beside its verdict, in a process of its own, so that it can be ended when a newer
text comes:

    python3 seeing/studio_work.py DEPTH [REGIONS]
    python3 seeing/studio_work.py --tool PROGRAM TOOL [WORDS]

The second form runs a tool of the page's buttons that asks PROGRAM in the place of the one of ./show.

Standard input has a line of JSON and then the show's text. The line has the path of the `program` or null, and what
the page `want`s: "places", with a `line`, is what stands around that line (seeing/studio_places.py); "preview" is what
a text would fly that isn't the page's yet; "remedies" is what helps in the first cue in which two are blocked, "formed"
are the names of formations that are formed; "motion" is how fast `drones` fly, by their numbers; "flight", with the
status and the words of `check` as `answer`, or null where it wasn't asked, is all the rest. Each line of
standard output is a stage in JSON, as soon as it is known: `verdict` where `check` wasn't asked, `flight`, which is
that of the longest right beginning where the text is faulty, and then nothing follows, `explained` of a
show that is refused for nearness, `regions` where there is a file of them for `boxes`, `lines`, `notes`, `marks` of a
show that is refused for nearness, `margin` of one that is accepted. It is trusted for nothing: only what the program
says is proved.
"""
from __future__ import annotations

import importlib
import itertools
import json
import os
import re
import sys
import time
from collections.abc import Iterator
from functools import partial
from typing import Any

from hemtoghai import program as proved
from hemtoghai.companion import ask, ask_dynamics, begins, set_tool, speeds_in, stop, without_program
from hemtoghai.language import choreo
from hemtoghai.seeing.sampling import blocked_marks, boxes_said, flight_of, Mark, regions_of, rows_of_play, step_of
from hemtoghai.seeing.studio_motion import motion_of
from hemtoghai.seeing.studio_places import begun, places_at
from hemtoghai.streams import NO_ANSWER
from hemtoghai.writing.dealing import form_lines
from hemtoghai.writing.flyable import below, MOST as FASTEST, motion_if_known, small
from hemtoghai.writing.margins import greatest, MOST, with_setting
from hemtoghai.writing.remedies import cures_of, first_places, written
from hemtoghai.writing.trials import Trials

TOOLS = "why", "deal", "fly"  # of the page's buttons
MOST_PLACES = 32000  # of all drones together: the page has to keep up with typing
MOST_PREVIEW = 16000  # of a preview, which follows each step of a number
MOST_REMEDIES = 6  # that are offered for a cue
QUIET = 0.6  # seconds before the margins are looked for, which take many checks


def put(stage: str, **more: object) -> None:
    sys.stdout.write(json.dumps({"stage": stage, **more}, separators=(",", ":")) + "\n")
    sys.stdout.flush()


def refused(text: bytes, program: str) -> tuple[int, str]:
    """What is said where `check` can't be asked; a marker line is refused as the program does."""
    show, second, markers = choreo.parts_of(text)
    answer = without_program(show, program)
    return answer if second is None or answer[0] == 3 else (11, f"error 11 line {markers[0]}")


def formed_lines(flown: choreo.Flown, cue: choreo.Cue) -> list[list[int]]:
    """The lines that stand for a cue, its own and those of performs and formations, as (first, last)."""
    forms = [flown.show.formations[line.name] for line in cue.line.body if line.kind == "form"]
    return [[line.number, line.last] for line in [cue.line, *forms]] + [
        [number, number] for kind, number, *_ in cue.within if kind == "perform"]


def drone_lines(flown: choreo.Flown) -> dict[str, object]:
    """For each drone its `drone` line, and by cue the line of its act, or of its place in a formation; 0 for none."""
    return {"drones": [line.number for line in flown.show.drones],
            "acts": [[cue.places.get(name, 0) for cue in flown.cues] for name in flown.names]}


def lines_of(cue: choreo.Cue, names: list[str]) -> list[int]:
    """The lines by which drones fly in a cue: their acts, or the `form` line and their places; else that of the cue."""
    lines = {number for name in names if name in cue.acts for number in (cue.acts[name][0], cue.places[name])}
    return sorted(lines or {cue.number})


def explained(flown: choreo.Flown, text: bytes, program: str, deep: int) -> dict[str, object] | None:
    """What the program's `explain` says of a show that is refused for nearness: the two whose ellipsoids share a point
    at an instant, with their cue and the instant in milliseconds, which is proved where the program is; or at how many
    instants none do. None where the program can't be asked."""
    answer = ask(["explain", "--depth", str(deep)], text, program)
    if not answer or answer[0]:
        return None
    if touch := re.search(r"^touch pair (\S+) (\S+) cue (\d+) at (\d+) of (\d+)$", answer[1], re.M):
        cue, at, parts = int(touch[3]) - 1, int(touch[4]), int(touch[5])
        return {"pair": [flown.names.index(touch[k]) for k in (1, 2)], "cue": cue,
                "at": begins(flown)[cue] + flown.cues[cue].milliseconds * at / parts}
    looked = re.search(r"^no-touch instants (\d+)$", answer[1], re.M)
    return {"pair": None, "instants": int(looked[1])} if looked else None


def regions_said(flown: choreo.Flown, text: bytes, program: str, path: str, deep: int) -> dict[str, object]:
    """What the program's `boxes` says of the regions, and of a refusal the region and the drone by number, the cue, the
    part of it in milliseconds, and the lines by which the drone flies there."""
    said = boxes_said(program, text, path, deep)
    found = re.fullmatch(r"error 15 region (\d+) drone (\S+) cue (\d+) part (\d+) of (\d+)", said)
    if not found:
        return {"line": said, "fault": None}
    region, cue, part, parts = (int(found[k]) for k in (1, 3, 4, 5))
    begin, flies = begins(flown)[cue - 1], flown.cues[cue - 1]
    return {"line": said, "fault": {
        "region": region - 1, "drone": flown.names.index(found[2]), "cue": cue - 1,
        "from": begin + flies.milliseconds * part / parts, "to": begin + flies.milliseconds * (part + 1) / parts,
        "lines": lines_of(flies, [found[2]])}}


def faults_of(flown: choreo.Flown, text: bytes, program: str) -> Iterator[dict[str, object]]:
    """What no drone flies, as ./show says it: by line, cue and words, each None where there is none."""
    found = [motion_if_known(program, flown, text), below(flown), small(flown)]
    for words in filter(None, found):
        where = re.fullmatch(r"line (\d+), (?:cue (\d+)|the end): (.*)", words)
        line, cue, rest = (where[1], where[2], where[3]) if where else (None, None, words)
        yield {"line": line and int(line), "cue": cue and int(cue) - 1, "words": rest.replace("m/s^2", "m/s²")}


def notes_of(flown: choreo.Flown, text: bytes, program: str) -> dict[str, object]:
    """Memory, speeds, accelerations, jumps, and what no drone flies."""
    motions, answer, room, drones = ask_dynamics(text, program), ask(["speed"], text, program), flown.room(), []
    speeds = speeds_in(answer[1]) if answer and answer[0] == 0 else {}
    for name, data, segments in zip(flown.names, flown.data(), flown.sent):
        forces, jumps, _ = motions[name] if motions else ([], [], [])
        drones.append({"name": name, "bytes": len(data), "left": room - len(data), "segments": len(segments),
                       "speed": max(speeds[name]) / 1e6 if name in speeds else None,
                       "force": max(forces) if motions else None,
                       "jump": max(jumps) if motions else None})
    return {"drones": drones, "room": room, "asked": motions is not None,
            "faults": list(faults_of(flown, text, program)), "small": small(flown),
            "most": {"force": FASTEST["accel"] / 1000, "jump": FASTEST["jump"] / 1000}}


def put_begun(text: bytes, said: str, path: str | None) -> None:
    """Writes the flight of the longest right beginning of a text that `check` calls faulty, with the line at which it
    ends, or null where only a cue is missing, and how many of its cues it has: without one the drones stand."""
    found = re.match(r"error 3 line (\d+) ([a-z-]+)", said)
    if not found:
        return
    line = None if found[2] in ("no-cue", "no-drone") else int(found[1])
    flown = begun(text, line)
    if flown is None:
        return
    drawn, _ = flight_of(flown, step_of(flown, None, MOST_PLACES), None, (), regions_of(path) if path else [])
    cues = len(flown.cues) if flown.milliseconds > 1 else 0  # a pause of a millisecond stands for none
    put("flight", flight={**drawn, "lines": [formed_lines(flown, cue) for cue in flown.cues], "marks": [],
                          "begun": {"line": line, "cues": cues}})
    put("lines", **drone_lines(flown))


def put_preview(text: bytes) -> None:
    """Writes what a text would fly, or the words of what is wrong with it. Nobody judges it."""
    try:
        flown = choreo.flown_of(choreo.parts_of(text)[0])
    except choreo.Refused as refusal:
        still = begun(text, None) if str(refusal).endswith(" no-cue") else None  # the drones at their starts
        if still is None:
            return put("preview", flight=None, words=str(refusal))
        flown = still
    drawn, _ = flight_of(flown, step_of(flown, None, MOST_PREVIEW), None, (), [])
    return put("preview", flight={**drawn, "marks": []})


def put_remedies(text: bytes, deep: int, program: str) -> None:
    """Writes what helps in the first cue in which two are blocked, each as a text, those first that make the show least
    longer."""
    text = choreo.parts_of(text)[0]
    trials = Trials(partial(ask, program=program), flown := choreo.flown_of(text), deep)
    if found := first_places(trials, text):
        cue, pairs = found
        for remedy in itertools.islice(cures_of(trials, cue, pairs), MOST_REMEDIES):
            if (new := written(text, flown, cue, remedy)) is not None:
                put("remedy", cue=cue, words=remedy.words, takes=remedy.takes,
                    text=new.decode("utf-8", "surrogateescape"))


def put_formed(text: bytes) -> None:
    """Writes the names of the formations that are formed, in their order."""
    flown = choreo.flown_of(choreo.parts_of(text)[0])
    for name in dict.fromkeys(line.name for line, _ in form_lines(flown)):
        put("formed", name=name)


def put_motion(text: bytes, drones: list[int]) -> None:
    """Writes how fast drones fly in a text that is right."""
    flown = choreo.flown_of(choreo.parts_of(text)[0])
    put("motion", **motion_of(flown, [k for k in drones if 0 <= k < len(flown.names)]))


def put_flight(text: bytes, deep: int, program: str, answer: list[Any] | None, path: str | None) -> None:
    """Writes all that is known of a text, given what `check` said of it, or null."""
    status, said = answer or refused(text, program)
    if answer is None:
        put("verdict", status=status, line=said, judge="tools")
    if status not in (0, 4, 5, NO_ANSWER):
        return put_begun(text, said, path)
    flown = choreo.flown_of(choreo.parts_of(text)[0])
    found, are_all = blocked_marks(flown, text, deep, program) if status == 5 else ([], True)
    marks: list[Mark] = [
        {**mark, "lines": lines_of(flown.cues[mark["cue"]], [flown.names[k] for k in mark["pair"]])} for mark in found]
    first = next((mark for mark in marks if mark["named"]), None)  # the place that `check` names
    step = step_of(flown, None, MOST_PLACES)
    rows = rows_of_play(text, program, deep, step) if status == 0 else None
    also = {round(first["nearest"])} if first else set()
    drawn, _ = flight_of(flown, step, rows, also, regions_of(path) if path else [])
    put("flight", flight={**drawn, "lines": [formed_lines(flown, cue) for cue in flown.cues],
                          "marks": [first] if first else []})
    if status == 5:
        put("explained", touch=explained(flown, text, program, deep))
    if path:
        put("regions", **regions_said(flown, text, program, path, deep))
    put("lines", **drone_lines(flown))
    put("notes", **notes_of(flown, text, program))
    if status == 5:
        put("marks", marks=marks, many=len(marks), all=are_all)
    if status == 0 and len(flown.names) > 1:
        time.sleep(QUIET)
        for name in ("stray", "late"):
            most, _ = greatest(deep, MOST + 1, partial(with_setting, text, name), program)
            put("margin", name=name, most=most)
    return None


def tool(path: str, word: str, *words: str) -> int:
    """Runs a tool that asks the program at a path. No real drone is flown by such a program."""
    if word not in TOOLS or word == "fly" and "--simulate" not in words:
        stop(f"{word} is no tool of the page")
    proved.PROGRAM, proved.as_it_is[0] = path, True
    set_tool(word)
    status: int = importlib.import_module("hemtoghai.commands." + word).main(list(words))
    return status


def main(words: list[str]) -> int:
    """Reads the text, and says what is shown of it."""
    if words[:1] == ["--tool"]:
        return tool(*words[1:])
    deep, path = int(words[0]), words[1] if len(words) > 1 else None
    line, text = sys.stdin.buffer.readline(), sys.stdin.buffer.read()
    if not line:
        return 0  # the studio has ended
    asked = json.loads(line)
    program = asked["program"] or os.devnull  # which is no program
    if asked["want"] == "places":
        put("places", **places_at(text, asked["line"]))
    elif asked["want"] == "preview":
        put_preview(text)
    elif asked["want"] == "remedies":
        put_remedies(text, deep, program)
    elif asked["want"] == "formed":
        put_formed(text)
    elif asked["want"] == "motion":
        put_motion(text, asked["drones"])
    else:
        put_flight(text, deep, program, asked["answer"], path)
    return 0
