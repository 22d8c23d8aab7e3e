"""The manual page of ./show and its completion for a shell, made from the table of commands, from those of options and
statuses in docs/COMMANDS.md, and from the words that each tool reads.

    ./show manual page > show.1; man ./show.1
    ./show manual completion > show.bash; . ./show.bash
    ./show manual completion zsh > show.zsh; . ./show.zsh
    ./show manual completion fish > show.fish; source show.fish

./show release puts the page and the completion for Bash into share/. Status 0: written. 2: wrong words.
"""
from __future__ import annotations

import os
import re
import sys

from hemtoghai.__main__ import WITH_JSON
from hemtoghai.companion import parser
from hemtoghai.dev.completion import all_words, completion as completion, SHELLS, Word
from hemtoghai.launching import records, table
from hemtoghai.launching.help import PURPOSES as OTHERS
from hemtoghai.program import TOP


def rows_of(document: str, head: str) -> list[list[str]]:
    """The rows of the table of a document that has this head; ValueError where it has none."""
    _, found, rest = ("\n" + document).partition(f"\n{head}\n")
    rows = []
    for line in rest.split("\n") if found else ():
        if not line.startswith("|"):
            break
        cells = line.replace("\\|", "\0").strip("|").split("|")
        rows.append([cell.strip().replace("\0", "|") for cell in cells])
    if len(rows) < 2:
        raise ValueError("docs/COMMANDS.md has no table " + head)
    return rows[1:]


def roff(text: str) -> str:
    text = re.sub(r"\[([^]]*)\]\([^)]*\)", r"\1", text).replace("\\", "\\e").replace("-", "\\-")
    text = re.sub(r"`([^`]*)`", r"\\fB\1\\fR", text).replace("**", "")
    return re.sub(r"^([.'])", r"\\&\1", text)


def options_of(word: Word) -> list[str]:
    """The line with the options of a word that is none of the program's own."""
    rows = [f"{it.name} {it.number}".strip() for it in word.options if it.name != "--help"]
    firsts = [f"The next word is {' or '.join(word.first)}."] if word.first else []
    listed = ", ".join("\\fB%s\\fR" % row.replace("-", "\\-") for row in rows)
    return [*firsts, *[".br", f"Options: {listed}."] * bool(rows)]


def page(version: str) -> str:
    with open(os.path.join(TOP, "docs", "COMMANDS.md"), encoding="utf-8") as file:
        document = file.read()
    out = [f'.TH SHOW 1 "" "hemtoghai {version}" "Hemtoghai"', ".SH NAME",
           "show \\- compiles and judges shows of drones", ".SH SYNOPSIS"]
    for form in table.FORMS.values():
        out += [f".B ./show {roff(form)}", ".br"]
    for option in ("proved COMMAND ..", "unproved COMMAND ..", "version"):
        out += [".B ./show \\-\\-" + option, ".br"]
    out[-1] = ".SH COMMANDS"
    for form, what in table.COMMANDS:
        second = table.SECOND.get(form.split()[0])
        out += [".TP", ".B " + roff(form), roff(what[0].upper() + what[1:]) + "."]
        if second:
            out.append("Link frames follow the show." if second == "frames" else f"The second part: {second}.")
        if form.split()[0] in WITH_JSON:
            out.append("With \\fB\\-\\-json\\fR it answers in one line of JSON.")
    words = {it.name: it for it in all_words()}
    out.append(".SH OTHER COMMANDS")
    for word, what in OTHERS.items():
        out += [".TP", ".B " + word, roff(what[0].upper() + what[1:]) + ".", *options_of(words[word])]
    out += [".SH OPTIONS", "Options may stand before and behind the files."]
    for option, number, without in rows_of(document, "| Option | Number | Without it |"):
        out += [".TP", roff(option), f"{roff(number[0].upper() + number[1:])}. Without it: {roff(without)}."]
    out.append(".SH EXIT STATUS")
    for status, said, happened, do in rows_of(document, "| Status | Output | What happened | What to do |"):
        out += [".TP", f"{roff(status)}: {roff(said)}", roff(happened[:1].upper() + happened[1:]) + "."]
        if do:
            out.append(f"What to do: {roff(do)}.")
    out += [".SH SEE ALSO", "docs/COMMANDS.md, docs/LANGUAGE.md and docs/TOOLS.md of the release."]
    return "\n".join(out) + "\n"


def main(words: list[str]) -> int:
    reader = parser(__doc__)
    reader.add_argument("kind", choices=("page", "completion"), help="the manual page, or the completion")
    reader.add_argument("shell", nargs="?", choices=tuple(SHELLS), default="bash",
                        help="the shell that reads the completion; without it bash")
    options = reader.parse_args(words)
    sys.stdout.write(page(records.version()) if options.kind == "page" else completion(options.shell))
    return 0
