"""Runs the program for ./show, on files and standard input. In a checkout it is proved and built first where it isn't
the one of these sources; in a release and where it is installed it is the one of the manifest.

No more is imported here than there has to be, so that ./show begins fast.
"""
from __future__ import annotations

import os
import sys

TYPE_CHECKING = False  # of a reader of types, for which `typing` needn't be imported
if TYPE_CHECKING:
    from collections.abc import Sequence
    from typing import NoReturn

from hemtoghai import program, streams, texts
from hemtoghai.launching import running, seen, table, words as commands

REFUSALS = (2, 3, 4, 5, 11, 12, 15, 16, 18)  # statuses with a fault line about the words or the input
STARTS = 3  # how often a program that is exchanged meanwhile is looked at anew


def say(text: str) -> None:
    streams.tell(program.NAME, text)


def stop(text: str) -> NoReturn:
    """Ends the launcher without an answer of the program."""
    say(text)
    sys.exit(streams.NO_ANSWER)


def file_if_current(path: str) -> str | None:
    """The file that runs for a program that was built from the sources as they are, or None where none is there. Its
    bytes are those that were looked at."""
    for _ in range(STARTS):
        if not seen.is_known_current(path):
            return None
        try:
            data, looks = program.read_program(path)
        except program.Unusable as why:
            stop(str(why))
        record = path + program.RECORD
        if seen.is_same(path, looks) or program.digest_of(data) == program.record_of(record).get("sha256"):
            return program.in_memory(data) or path
    stop("the program is exchanged while it is started: run it again")


def file_for(unproved: bool, words: Sequence[str] = (), files: Sequence[str] = ()) -> str | None:
    """The file that is to run for these words and files, or None where there is only the sources' own try."""
    is_release = os.path.exists(program.MANIFEST)
    if is_release and not program.demanded[0]:
        if unproved:
            stop("a release has no sources to run")
        if not os.access(program.PROGRAM, os.R_OK | os.X_OK):
            stop("the program isn't the one of MANIFEST.json: unpack the release anew")
    if is_release or program.demanded[0]:
        try:
            return program.runs()
        except program.Unusable as why:
            stop(str(why))
    if unproved:
        say("nothing is proved in this run")
        return file_if_current(program.UNPROVED)
    if (found := file_if_current(program.PROGRAM)) is None:
        from hemtoghai.dev import building
        building.build(list(words), list(files))
        found = file_if_current(program.PROGRAM) or stop("the program that was built isn't that of the sources")
    return found


def fault_of_demand(words: list[str]) -> str | None:
    """Has no program run from then on but the one whose record or manifest says that it was proved; in a checkout that
    is the one of the sources as they are. Why the words after --proved aren't carried out, or None: nothing is built
    for them, and what asks for help runs nothing."""
    program.demanded[0] = True
    options = [word.partition("=")[0] for word in words]  # a tool takes a short form of --program too
    if words[:1] == ["--unproved"] or any(len(option) > 2 and "--program".startswith(option) for option in options):
        return "--proved runs the proved program alone: it goes with neither --unproved nor --program"
    if not words or words == ["--version"] or {"-h", "--help"} & set(words):
        return None
    fault = program.fault()
    if fault is None and not os.path.exists(program.MANIFEST) and not seen.is_known_current(program.PROGRAM):
        fault = "the program isn't the one of these sources: ./show check FILE builds it"
    return fault


def fault_of_files(words: list[str], files: list[str]) -> str | None:
    """What is wrong with the files, or None; by a short look where a command reads a show alone, and all is usual."""
    if not (len(files) > 1 or words[0] in ("upload", "boxes") or words[0] in table.NO_INPUT) and all(
            file == "-" or os.path.isfile(file) and os.access(file, os.R_OK) for file in files):
        return None
    from hemtoghai.launching import help
    return help.fault_of_files(words, files)


def input_number(words: list[str], files: list[str]) -> int:
    """The open file that is the input of a command with one part."""
    if files and files != ["-"]:
        return os.open(files[0], os.O_RDONLY)
    if words[0] in table.NO_INPUT:
        return os.open(os.devnull, os.O_RDONLY)
    if os.isatty(0):
        say("reading standard input; Ctrl-D ends it")
    return 0


def text_of(number: int | None, begin: int, files: list[str]) -> bytes | None:
    """The show's text once more, to its limit, where it lies in a file whose bytes stay; else None."""
    if number is None:
        return texts.front_of(files[0], texts.SHOW + 1) if os.path.isfile(files[0]) else None
    return os.pread(number, texts.SHOW + 1, begin) if texts.is_plain(number) else None


def answer(found: str | None, words: list[str], files: list[str]) -> int:
    """Runs the program on its input, and helps where it refused, or where no drone flies what it accepted."""
    number = None if len(files) == 2 else input_number(words, files)
    begin = os.lseek(number, 0, os.SEEK_CUR) if number is not None and texts.is_plain(number) else 0
    if found is None:
        from hemtoghai.dev import building
        status = building.try_sources(words, number, files)
        found = file_if_current(program.UNPROVED)
    elif number is None:
        status = running.fed(found, words, running.joined(files))
    else:
        status = running.ended(running.started(found, words, number))
    if found and (status in REFUSALS or status == 0 and words[0] in ("check", "compile")):
        text = text_of(number, begin, files) if words[0] not in table.NO_INPUT else None
        if text is not None:
            if status:
                from hemtoghai.launching import help
                help.explain(found, text, status, files)
                return status
            from hemtoghai.launching import glance
            if glance.may_be_unflyable(found, text):
                from hemtoghai.writing.flyable import warning
                if said := warning(found, text):
                    say(said)
    return status


def main(words: list[str]) -> int:
    running.watch_signals()
    unproved = words[:1] == ["--unproved"]
    words = words[1:] if unproved else words
    if not words or words[0] in ("-h", "--help"):
        from hemtoghai.launching.help import help_text
        sys.stdout.write(help_text())
        return 0
    if words == ["--version"]:
        from hemtoghai.launching import records
        return records.print_version()
    if words[0] in table.FORMS and ("--help" in words or "-h" in words):
        from hemtoghai.launching.help import usage_of
        sys.stdout.write(usage_of(words[0]))
        return 0
    front, files, fault = commands.split(words)
    fault = fault or fault_of_files(front, files)
    if fault:
        from hemtoghai.launching import help
        return help.refuse(words, fault)
    return answer(file_for(unproved, front, files), front, files)
