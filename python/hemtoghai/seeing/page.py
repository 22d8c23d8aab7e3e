"""The pages of ./show studio and ./show picture. Each is one file: the modules of its script are in it, each under its
name in the page's import map, so that no request follows and the policy of the studio lets no other script run."""
from __future__ import annotations

import base64
import json
import os
import re

from hemtoghai import program
from hemtoghai.companion import read_file

FOLDER = os.path.join(program.PACKAGE, "seeing")
IMPORT = re.compile(r'^(import [^;]*? from |import )"\./([a-z_]+\.js)";$', re.M)


def read(name: str) -> str:
    """A file of the pages, with the command as it is called here."""
    return read_file(os.path.join(FOLDER, name)).decode().replace("./show ", program.COMMAND + " ")


def named(script: str) -> str:
    """A script whose imports are names of the import map: a module in a page has no folder in which another one is."""
    return IMPORT.sub(r'\1"page/\2";', script)


def modules_of(script: str) -> list[str]:
    """The modules that a script imports, and those that these import."""
    wanted, out = IMPORT.findall(script), list[str]()
    while wanted:
        _, name = wanted.pop()
        if name not in out:
            out.append(name)
            wanted += IMPORT.findall(read(name))
    return sorted(out)


def import_map(script: str) -> str:
    """The import map of a page with this script. A debugger shows each module under its own name."""
    def address(name: str) -> str:
        words = named(read(name)) + f"//# sourceURL={name}\n"
        return "data:text/javascript;base64," + base64.b64encode(words.encode()).decode()

    return json.dumps({"imports": {"page/" + name: address(name) for name in modules_of(script)}})


def page_of(name: str) -> str:
    """A page, with its script's modules in the place of the mark for them."""
    page = read(name)
    return named(page).replace("/*MODULES*/", import_map(page))
