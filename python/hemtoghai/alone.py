"""Has a script import Python's own modules from where Python has them, and those of `hemtoghai` each from exactly the
file that bears its name. So a file that was added, as `json.py`, a folder `choreo` or kept bytecode, is never run in
their place. In a release the modules are those of its manifest; in a checkout those that lie in the package.

A script carries this text out, with `FOLDER` set to the folder that has the package, before it imports anything: an
import of it could be misled.
"""
from __future__ import annotations

import os
import sys

TYPE_CHECKING = False
if TYPE_CHECKING:
    from types import CodeType

from importlib.machinery import ModuleSpec, SourceFileLoader

PACKAGE = "hemtoghai"


class Plain(SourceFileLoader):
    """Takes a module from its source, and never from kept bytecode."""

    def get_code(self, fullname: str) -> CodeType | None:
        return self.source_to_code(self.get_data(self.path), self.path)


class Beside:
    """Finds the modules of the package in a folder: all, or those that are known of it by their paths."""

    def __init__(self, folder: str, known: set[str] | None) -> None:
        self.folder, self.known = folder, known

    def find_spec(self, name: str, path: object = None, target: object = None) -> ModuleSpec | None:
        """The module's own file, for a name of the package."""
        if name != PACKAGE and not name.startswith(PACKAGE + "."):
            return None
        place = name.replace(".", "/")
        for inside, is_package in ((place + ".py", False), (place + "/__init__.py", True)):
            file = self.folder + "/" + inside
            if (is_package or name != PACKAGE) and (
                    os.path.isfile(file) if self.known is None else inside in self.known):
                spec = ModuleSpec(name, Plain(name, file), origin=file, is_package=is_package)
                spec.has_location = True
                return spec  # of a package without a folder to look in: all that is found in it is found here
        raise ModuleNotFoundError(f"No module named {name!r}", name=name)


def end(words: str) -> None:
    """Ends the script without an answer."""
    if sys.stderr:
        print(words, file=sys.stderr)
    sys.exit(70)


def released_in(folder: str) -> set[str] | None:
    """The package's modules in a release, by its manifest, as paths from the folder; None where this is no release.
    Ends the script where a file of them isn't there."""
    manifest, front = os.path.join(os.path.dirname(folder), "MANIFEST.json"), os.path.basename(folder) + "/"
    if not os.path.exists(manifest):
        return None
    import json
    try:
        with open(manifest, encoding="utf-8") as file:
            files = json.load(file)["files"]
        own = {path[len(front):] for path in files if path.startswith(front + PACKAGE + "/")}
    except (OSError, ValueError, KeyError, TypeError, AttributeError, RecursionError):
        own = set()
    if PACKAGE + "/alone.py" not in own:
        end("MANIFEST.json can't be read: unpack the release anew")
    for name in sorted(own):
        if not os.path.isfile(os.path.join(folder, name)):
            end(f"{os.path.join(folder, name)} is missing: unpack the release anew")
    return own


def guard(folder: str) -> None:
    """Has all further imports go by this rule."""
    if not sys.flags.isolated:
        own = [os.path.join(folder, PACKAGE), folder, os.path.dirname(folder)]
        own += ["", *[os.path.realpath(place) for place in own]]
        sys.path[:] = [place for place in sys.path if place not in own]
    sys.dont_write_bytecode = True  # so that importing leaves no file beside the modules
    sys.meta_path.insert(0, Beside(folder, released_in(folder)))


if "FOLDER" in globals():
    guard(globals()["FOLDER"])
