"""Words to a command: for ./show of a checkout or a release, `python3 -m hemtoghai`, and the script that pip installs.

The words of the program itself are handed to it; each other word is a module with a call `main` over the words after
it, which returns the status. Only here the process is ended.
"""
from __future__ import annotations

import os
import sys

if __name__ == "__main__" and not __package__:  # run as a file; so that none that was added is run
    PLACE = os.path.dirname(os.path.dirname(os.path.abspath(__file__)))
    with open(os.path.join(PLACE, "hemtoghai", "alone.py"), encoding="utf-8") as guard:
        exec(guard.read(), {"FOLDER": PLACE})

from hemtoghai import program, streams

COMMANDS = {
    **{word: "hemtoghai.commands." + word for word in (
        "bridge", "convert", "deal", "export", "figures", "flown", "fly", "judge", "legs", "picture", "studio",
        "summary", "why", "without")},
    **{word: "hemtoghai.dev." + word for word in ("library", "manual", "release")},
    "import": "hemtoghai.commands.importing",
    "studio_work": "hemtoghai.seeing.studio_work",  # a process of the studio
}
# As values, in place of lines.
WITH_JSON = "check", "compile", "certify", "verify", "explain", "dynamics", "speed", "boxes", "why", "summary"
WITH_INSTALLED = "bridge", "fly"  # they may need the radio's library, which was installed
DEV = os.path.join(os.path.dirname(os.path.abspath(__file__)), "dev")  # of a checkout alone


def add_installed() -> None:
    """Has installed modules be found too, where Python was started without them, as ./show is."""
    if not sys.flags.no_site:
        return
    import site
    site.main()
    user = site.getusersitepackages()
    if os.path.isdir(user):
        site.addsitedir(user)
    sys.path += filter(None, os.environ.get("PYTHONPATH", "").split(os.pathsep))


def needs_checkout(word: str) -> str | None:
    """Why a word isn't carried out here, or None: a release and an installed package have none of `dev`."""
    if not COMMANDS[word].startswith("hemtoghai.dev.") or os.path.isdir(DEV):
        return None
    return f"this is a release, and `{word}` is a word of the repository"


def main(words: list[str]) -> int:
    if words[:1] == ["--proved"]:
        from hemtoghai.launching import launcher
        words = words[1:]
        if fault := launcher.fault_of_demand(words):
            streams.tell(program.NAME, fault)
            return streams.NO_ANSWER
    if words[:1] == ["--unproved"] and words[1:2] and words[1] in COMMANDS:
        if not os.path.isdir(DEV):
            streams.tell(program.NAME, "a release has no sources to run")
            return streams.NO_ANSWER
        from hemtoghai.dev import unproved
        words = words[1:]
        if fault := unproved.fault(words):
            streams.tell(program.NAME, fault)
            return streams.NO_ANSWER
        if not {"-h", "--help"} & set(words):
            unproved.take(words[0])
    if words[:1] and words[0] in WITH_JSON and "--json" in words:
        from hemtoghai import companion
        from hemtoghai.commands import as_json
        companion.set_tool(words[0])
        return as_json.main(words)
    if words[:1] and words[0] in COMMANDS:
        if fault := needs_checkout(words[0]):
            streams.tell(words[0], fault)
            return streams.NO_ANSWER
        if words[0] in WITH_INSTALLED:
            add_installed()
        if words[0] != "judge":  # which shares nothing with the others
            from hemtoghai import companion
            companion.set_tool(words[0])
        status: int = __import__(COMMANDS[words[0]], fromlist=["main"]).main(words[1:])
        return status
    from hemtoghai.launching import launcher
    return launcher.main(words)


def drop_own_place() -> None:
    """Has no module be taken from the folder in which `python3 -m hemtoghai` is typed, or that of pip's script."""
    own = [os.path.realpath(place) for place in (os.curdir, os.path.dirname(sys.argv[0]))]
    if not sys.flags.isolated and os.path.realpath("".join(sys.path[:1])) in own:
        del sys.path[:1]


def run() -> None:
    """Runs the command of this process's words, and ends the process with its status."""
    drop_own_place()
    words = sys.argv[1:]
    command = "".join(words[1:2] if words[:1] in (["--proved"], ["--unproved"]) else words[:1])
    streams.run(lambda: main(words), command if command in COMMANDS else program.NAME)


if __name__ == "__main__":
    run()
