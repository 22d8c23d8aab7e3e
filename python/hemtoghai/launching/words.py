"""The words of a command line of ./show: the program's own, the files, and what is wrong with them; by the table of
commands (table.py)."""
from __future__ import annotations

from hemtoghai.launching.table import FORMS, NUMBERS
from hemtoghai.program import COMMAND

TYPE_CHECKING = False  # of a reader of types, for which `typing` needn't be imported
if TYPE_CHECKING:
    from collections.abc import Iterable


def options_of(command: str) -> dict[str, str | None]:
    """A command's options, each with the name of its number, or None where it has none."""
    words = [part.partition("]")[0].split() for part in FORMS[command].split("[")[1:]]
    return {word[0]: word[1] if len(word) > 1 else None for word in words if word[0].startswith("--")}


def choices_of(name: str) -> list[str]:
    """The words of which an option takes one, by the name of its number; none where it takes a number."""
    return name.split("|") if "|" in name else []


def number_of(command: str) -> str | None:
    """The name of the number that follows the command itself, or None."""
    words = FORMS[command].split()
    return words[1] if len(words) > 1 and words[1].isupper() else None


def meant(word: str, choices: Iterable[str]) -> str:
    """A question after a word that isn't known, where one that is known is near to it."""
    import difflib
    near = difflib.get_close_matches(word[:200], list(choices), 1, 0.7)
    return f"; did you mean {near[0]}?" if near else ""


def fault_of_number(name: str, word: str | None) -> str | None:
    """What is wrong with a number, or with a word in its place, or None."""
    if choices_of(name):
        return None if word in choices_of(name) else "it is %s%s" % (
            " or ".join(choices_of(name)), "" if word is None else f", not {word}")
    low, high = NUMBERS[name]
    if word is not None and word.isascii() and word.isdigit() and len(word) < 10 and low <= int(word) <= high:
        return None
    return "%s is %d to %d%s" % (name, low, high, "" if word is None else f", not {word}")


def fault_of_option(command: str, word: str, its: Iterable[str]) -> str:
    """What is wrong with an option that a command hasn't. Only the program that is proved answers as JSON."""
    from hemtoghai.__main__ import WITH_JSON
    if word == "--json" and command in WITH_JSON:
        return ("--unproved and --json don't go together, since JSON has the proved program's answer: "
                "leave one of them out")
    return f"{command} has no option {word}{meant(word.partition('=')[0], its)}"


def split(words: list[str]) -> tuple[list[str], list[str], str | None]:
    """The program's words, the files, and what is wrong with the words or None. Options may stand anywhere, and as
    --depth=6; after -- all words are files."""
    command, left = words[0], list(words[1:])
    if command not in FORMS:
        from hemtoghai.__main__ import COMMANDS
        better = meant(command, [*FORMS, *COMMANDS]) or f"; {COMMAND} --help lists them"
        return words, [], f"there is no command {command}{better}"
    front, its = [command], options_of(command)
    files: list[str] = []
    seen: set[str] = set()
    name, what = number_of(command), command + " N"  # of a number that comes next
    while name or left:
        if name:
            if fault := fault_of_number(name, left[0] if left else None):
                return words, [], f"{what}: {fault}"
            front.append(left.pop(0))
            name = None
            continue
        word = left.pop(0)
        option, equals, given = word.partition("=")
        if word == "--":
            files += left
            break
        if word == "-" or word[:1] != "-":
            files.append(word)
            continue
        if option not in its or equals and not its[option]:
            return words, [], fault_of_option(command, word, its)
        if option in seen:
            return words, [], f"{option} stands twice"
        seen.add(option)
        front.append(option)
        name, what = its[option], f"{option} {its[option]}"
        left[:0] = [given] if equals else []
    return front, files, None
