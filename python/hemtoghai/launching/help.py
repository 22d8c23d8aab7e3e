"""The help of ./show and of each of the program's commands, and what the launcher says where words or files are wrong,
or where the program refused them."""
from __future__ import annotations

import contextlib
import os
import sys

from hemtoghai import program, texts
from hemtoghai.__main__ import COMMANDS, WITH_JSON
from hemtoghai.launching import running, table, words as commands
from hemtoghai.launching.launcher import file_for, file_if_current, say
from hemtoghai.program import COMMAND

USAGE = """Begin here:
       ./show studio SHOW             write a show in the browser, with the proof while you type
       ./show check SHOW              do the drones keep apart at every instant?
       ./show why SHOW                where not, and what helps
       ./show picture SHOW > F.html   see it; ./show summary SHOW: its numbers
       ./show compile SHOW > PLAN     each drone's trajectory and packets
       ./show fly --simulate SHOW     fly it without drones
The first show in ten minutes: docs/STUDIO.md, or docs/LANGUAGE.md with an editor.

usage: ./show COMMAND [OPTIONS] [FILE]
       ./show verify SHOW CERTIFICATE
       ./show rehearse SHOW SCHEDULE
       ./show boxes SHOW REGIONS
       ./show --proved COMMAND ..
       ./show --unproved COMMAND ..
       ./show COMMAND --help
       ./show --version

%s

Options may stand before and after the files. Without a file, or with -, the input is standard input; if there
are two parts a line %%%% is between them. --proved builds nothing, and runs the program only if its record says
that it was proved. --unproved runs the sources without a proof: in some two minutes the first time, at once
after that; it goes with every word but release and library, and flies no real drone. --version identifies the
build of the program: note it with each plan.

%s

The other words, each with its --help:

%s

The language of shows: docs/LANGUAGE.md. Commands, statuses and fault lines: docs/COMMANDS.md. The other words:
docs/TOOLS.md.
"""
# The words that aren't the program's own, as a user meets them, and the purpose of each.
PURPOSES = {
    "studio": "write a show in the browser, with the proof while you type",
    "why": "where and when drones come too close, and remedies",
    "summary": "room, speeds, jumps of speed, nearest pairs, settings",
    "picture": "the flight as one page for any browser",
    "figures": "rings, whole circles, helices and waves, as a show",
    "deal": "the show with formations dealt so that ways are short",
    "without": "the show without some of its drones",
    "convert": "the show in the other form of the language",
    "import": "a show from the files of other programs",
    "export": "a plan as files for other programs",
    "judge": "a second opinion on a certificate",
    "legs": "the ways up from the pads and down again, judged",
    "fly": "a flight, simulated or with drones",
    "flown": "whether the drones of a flight's log stayed within the premises of the proof",
    "bridge": "the upload alone, over a link",
    "library": "the judge as a library for C, C++ and Rust; of the repository",
    "manual": "the manual page, and completion for Bash, Zsh and Fish; of the repository",
    "release": "an archive and a wheel; of the repository",
}


def help_text() -> str:
    import textwrap
    return (USAGE % ("\n".join("%-44s  %s" % row for row in table.COMMANDS),
                     "\n".join(textwrap.fill("%-13s %s. Without it: %s." % tuple(row), 108, subsequent_indent=" " * 14)
                               for row in table.OPTIONS),
                     "\n".join("%-45s %s" % it for it in PURPOSES.items() if it[0] in COMMANDS))).replace(
        "./show", COMMAND)


def usage_of(command: str) -> str:
    second = table.SECOND.get(command)
    files = "" if command in table.NO_INPUT else " [SHOW]" if not second else f" [SHOW [{second.upper()}]]"
    lines = [f"usage: {COMMAND} {table.FORMS[command]}{files}", "", table.PURPOSES[command]]
    numbers = [commands.number_of(command), *commands.options_of(command).values()]
    lines += ["%s is %d to %d" % (name, *table.NUMBERS[name])
              for name in dict.fromkeys(numbers) if name and not commands.choices_of(name)]
    if command in WITH_JSON:
        lines.append("--json writes the answer as values, in one line of JSON")
    return "\n".join(lines) + f"\nMore: docs/COMMANDS.md#{command}\n"


# ---- where words or files are wrong, or the program refused them

def fault_of_file(file: str) -> str | None:
    if "\0" in file or os.path.isdir(file):
        return f"{file} is a directory"
    if not os.path.exists(file):
        near, folder = [], os.path.dirname(file)
        with contextlib.suppress(OSError, ValueError):
            near = [os.path.join(folder, name) for name in os.listdir(folder or ".")[:1000]]
        return f"there is no file {file}{commands.meant(file, near)}"
    return None if os.access(file, os.R_OK) else f"{file} can't be read: no permission"


def fault_of_files(words: list[str], files: list[str]) -> str | None:
    command, second = words[0], table.SECOND.get(words[0])
    for file in files:
        fault = fault_of_file(file) if file != "-" else None
        if fault:
            return fault
    if second == "frames" and len(files) > 1 and "-" in files:
        return f"upload reads frames while it writes: {{ cat SHOW; echo %%; cat; }} | {COMMAND} upload"
    if command in table.NO_INPUT and files:
        return f"{command} reads no file"
    if command == "upload" and len(files) == 1 and sys.stdout.isatty():
        return f"upload writes frames for a bridge, and nothing for people: {COMMAND} bridge {files[0]}"
    if len(files) > (2 if second else 1):
        return "%s reads %s" % (command, "two files: a show and its " + second if second else "one file")
    if files.count("-") > 1:
        return "standard input is one of the two files, not both"
    if command == "boxes" and len(files) == 1 and files[0] != "-" and os.path.isfile(files[0]) and not {
            b"%%", b"%%\r"} & set(texts.front_of(files[0], 2 * texts.SHOW).split(b"\n")):
        return f"boxes reads regions too: {COMMAND} boxes SHOW REGIONS"
    return None


def refuse(words: list[str], fault: str) -> int:
    """Says what is wrong with the words, and lets the program refuse them; nothing is built for that."""
    say(fault)
    found = file_for(False) if os.path.exists(program.MANIFEST) else file_if_current(program.PROGRAM)
    if found is None:
        return 2
    return running.ended(running.started(found, words, os.open(os.devnull, os.O_RDONLY)))


def explain(found: str, text: bytes, status: int, files: list[str]) -> None:
    """Says what helps after a refusal. The faulty line is asked for once more: the output went where it should."""
    if status == 3:
        output = running.said(found, ["check"], text)[1].split()
        if len(output) >= 5 and output[2] == b"line":
            from hemtoghai.language.cures import print_cure
            return print_cure(program.NAME, int(output[3]), output[4].decode(), text)
    if status in (4, 5):
        from hemtoghai.writing.flyable import small_text
        if small := small_text(text):
            say(small)
        return say("%s why %s explains the refusal and lists changes that help" % (
            COMMAND, files[0] if files else "SHOW"))
    return say("read on: docs/COMMANDS.md, Statuses and fault lines")
