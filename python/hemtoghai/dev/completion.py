"""The completion of ./show and of `hemtoghai`, for Bash, Zsh and Fish: all words, their options, and the words of which
an option takes one. Made from the table of commands, and from what each tool reads."""
from __future__ import annotations

import argparse
import importlib
from collections.abc import Callable
from typing import NamedTuple

from hemtoghai import companion
from hemtoghai.__main__ import COMMANDS, WITH_JSON
from hemtoghai.launching import table, words as commands
from hemtoghai.launching.help import PURPOSES

# Words after a tool's own, each with options of its own.
FORMATS = {"export": ("csv", "skyc"), "figures": ("ring", "rows", "turn", "wave")}
FRONT = "--help", "--version"  # beside the words
BEFORE = "--proved", "--unproved"  # before a word


class Option(NamedTuple):
    """An option: its name, the name of what follows it or nothing, the words of which that is one, and its purpose."""

    name: str
    number: str
    choices: list[str]
    text: str


class Word(NamedTuple):
    """A word of ./show: its purpose, its options, and the words of which the next one is one."""

    name: str
    text: str
    options: list[Option]
    first: list[str]


class Found(Exception):
    """The reader of a tool's words, in place of what it reads."""

    def __init__(self, reader: argparse.ArgumentParser) -> None:
        super().__init__()
        self.reader = reader


def reader_of(call: Callable[[list[str]], int], name: str, words: list[str]) -> argparse.ArgumentParser | None:
    """The reader with which a tool reads its words; None of a tool without one. The tool goes no further."""
    def found(reader: argparse.ArgumentParser, *_: object) -> None:
        raise Found(reader)
    before = companion.tool_name()
    companion.set_tool(name)
    setattr(companion.Parser, "parse_args", found)
    try:
        call(words)
    except Found as it:
        return it.reader
    finally:
        delattr(companion.Parser, "parse_args")
        companion.set_tool(before)
    return None


def readers_of(word: str) -> list[argparse.ArgumentParser]:
    """The readers of a tool's words: one, or those of its formats after it."""
    if word == "judge":  # which shares nothing with the others, and has no options
        return []
    call: Callable[[list[str]], int] = importlib.import_module(COMMANDS[word]).main
    calls: list[list[str]] = [[], *([it] for it in FORMATS.get(word, ()))]
    return [reader for it in calls if (reader := reader_of(call, word, it))]


def few_of(number: str) -> list[str]:
    """The numbers that may stand for a name of the table of options, where they are few."""
    low, high = table.NUMBERS[number]
    return [str(k) for k in range(low, high + 1)] if high < 10 else []


def options_in(reader: argparse.ArgumentParser) -> list[Option]:
    """The options of a reader of words."""
    out = []
    for action in reader._actions:
        names = [name for name in action.option_strings if name.startswith("--")]
        if names and names[0] != "--help":
            takes = "" if action.nargs == 0 else str(action.metavar or action.dest.upper())
            few = [str(it) for it in action.choices or ()] or (few_of(takes) if names[0] == "--depth" else [])
            out.append(Option(names[0], takes, few, action.help or ""))
    return out


def tool(name: str, text: str) -> Word:
    """A word of the companions."""
    options: dict[str, Option] = {}
    first: list[str] = []
    for reader in readers_of(name):
        options.update((it.name, it) for it in options_in(reader))
        own = next((action for action in reader._actions if not action.option_strings), None)
        first += [str(it) for it in own.choices or ()] if own else []
    return Word(name, text, list(options.values()), first)


def own_options(command: str) -> list[Option]:
    """The options of a command of the program."""
    texts = {row[0].split()[0]: row[1] for row in table.OPTIONS}
    out = []
    for name, number in commands.options_of(command).items():
        few = commands.choices_of(number) or few_of(number) if number else []
        out.append(Option(name, number or "", few, texts[name]))
    return out


def all_words() -> list[Word]:
    """All words of ./show, the program's own first."""
    own = [Word(name, table.PURPOSES[name], own_options(name), []) for name in table.FORMS]
    words = own + [tool(name, text) for name, text in PURPOSES.items()]
    json = Option("--json", "", [], "the answer as one line of JSON")
    end = Option("--help", "", [], "what the word does, and its options")
    return [Word(it.name, it.text, [*it.options, *[json] * (it.name in WITH_JSON), end], it.first) for it in words]


# ---- Bash

BASH = """# Completion of ./show for Bash: . show.bash
_show() {
  local word=${COMP_WORDS[COMP_CWORD]} command= at=1
  [[ ${COMP_WORDS[1]} != --@(proved|unproved) ]] || at=2
  [ "$COMP_CWORD" -le "$at" ] || command=${COMP_WORDS[at]}
  local options= first=
  case $command in
  '')
    options='%s'
    [ "$at" = 2 ] || options+=' %s' ;;
%s
  esac
  case "$command ${COMP_WORDS[COMP_CWORD-1]}" in
%s
  esac
  if [ -z "$command" ] || [ "${word:0:1}" = - ]; then
    mapfile -t COMPREPLY < <(compgen -W "$options" -- "$word")
  else
    [ "$COMP_CWORD" -ne $((at + 1)) ] || mapfile -t COMPREPLY < <(compgen -W "$first" -- "$word")
    [ -n "${COMPREPLY[*]}" ] || mapfile -t COMPREPLY < <(compgen -f -- "$word")
  fi
}
complete -o filenames -F _show show ./show hemtoghai
"""


def filled(words: list[Word], case: str, first: str, choice: str) -> tuple[str, str, str]:
    """All words in a row, and by these forms a line for the options of each word and one for those of few choices."""
    cases = [case % (it.name, " ".join(option.name for option in it.options),
                     first % " ".join(it.first) if it.first else "")
             for it in words]
    few = [choice % (it.name, option.name, " ".join(option.choices))
           for it in words for option in it.options if option.choices]
    return " ".join([*(it.name for it in words), *FRONT]), "\n".join(cases), "\n".join(few)


def bash(words: list[Word]) -> str:
    """The completion for Bash."""
    front, cases, few = filled(words, "  %s) options='%s'%s ;;", " first='%s'",
                               "  '%s %s') mapfile -t COMPREPLY < <(compgen -W '%s' -- \"$word\"); return ;;")
    return BASH % (front, " ".join(BEFORE), cases, few)


# ---- Zsh

ZSH = """#compdef show hemtoghai
# Completion of ./show for Zsh: . show.zsh after compinit, or as _show in a folder of fpath.
_show() {
  local at=2
  [[ $words[2] != --(proved|unproved) ]] || at=3
  local -a options first
  if (( CURRENT <= at )); then
    options=(%s)
    (( at == 3 )) || options+=(%s)
    compadd -a options
    return
  fi
  case "$words[at] $words[CURRENT-1]" in
%s
  esac
  case $words[at] in
%s
  esac
  if [[ $PREFIX == -* ]]; then
    compadd -a options
  elif (( CURRENT == at + 1 && $#first )); then
    compadd -a first
  else
    _files
  fi
}
if [[ $zsh_eval_context[-1] == loadautofunc ]]; then _show "$@"; else compdef _show show hemtoghai; fi
"""


def zsh(words: list[Word]) -> str:
    """The completion for Zsh."""
    front, cases, few = filled(words, "  (%s) options=(%s)%s ;;", " first=(%s)", "  ('%s %s') compadd %s; return ;;")
    return ZSH % (front, " ".join(BEFORE), few, cases)


# ---- Fish

FISH = """# Completion of ./show for Fish: source show.fish, or in ~/.config/fish/completions
function __show_word
    set -l words (commandline -opc)
    set -e words[1]
    if contains -- "$words[1]" %s
        set -e words[1]
    end
    echo -- "$words[1]"
end
function __show_is
    test (__show_word) = "$argv[1]"
end
function __show_first
    test (__show_word) = "$argv[1]"; and test (commandline -opc)[-1] = "$argv[1]"
end
for name in show hemtoghai
    complete -c $name -n '__show_is ""' -f
%s
end
"""


def quoted(text: str) -> str:
    return "'%s'" % text.replace("\\", "\\\\").replace("'", "\\'")


def fish(words: list[Word]) -> str:
    """The completion for Fish."""
    front, before = ["help", "version"], [it[2:] for it in BEFORE]
    rows = [f"    complete -c $name -n '__show_is \"\"' -l {it}" for it in [*front, *before]]
    for it in words:
        rows.append(f"    complete -c $name -n '__show_is \"\"' -a {it.name} -d {quoted(it.text)}")
        if it.first:
            rows.append(f"    complete -c $name -n '__show_first {it.name}' -f -a '{' '.join(it.first)}'")
        for option in it.options:
            takes = f" -x -a '{' '.join(option.choices)}'" if option.choices else " -r" * bool(option.number)
            rows.append(f"    complete -c $name -n '__show_is {it.name}' -l {option.name[2:]}{takes} -d "
                        f"{quoted(option.text.replace('`', ''))}")
    return FISH % (" ".join(BEFORE), "\n".join(rows))


SHELLS: dict[str, Callable[[list[Word]], str]] = {"bash": bash, "zsh": zsh, "fish": fish}


def completion(shell: str = "bash") -> str:
    """The text of the completion for a shell."""
    return SHELLS[shell](all_words())
