"""The modules of the pages of ./show studio and ./show picture: their types fit where tsc is installed, each is used, and
the studio's page and a picture begin in a browser without a fault."""
from __future__ import annotations

import glob
import os
import re
import shutil
import subprocess
import tempfile
import unittest

import common

TSC = shutil.which("tsc")
FOLDER = os.path.join(common.PYTHON, "hemtoghai", "seeing")
MODULES = sorted(glob.glob(os.path.join(FOLDER, "*.js")))
OPTIONS = ["--noEmit", "--allowJs", "--checkJs", "--target", "es2022", "--module", "es2022", "--lib",
           "es2022,dom,dom.iterable", "--noUnusedLocals", "--noUnusedParameters"]
MOST_LINES, MOST_OF_FUNCTION = 500, 40


def checked(*files: str) -> tuple[int, str]:
    """The status of the checker of types, and what it says."""
    done = subprocess.run([str(TSC), *OPTIONS, *files], stdout=subprocess.PIPE, stderr=subprocess.STDOUT,
                          universal_newlines=True, timeout=300)
    return done.returncode, done.stdout


def lengths(text: str) -> dict[str, int]:
    """By name how many lines each function of a module has, of those that aren't within another one."""
    found = re.finditer(r"^(?:export )?(?:(?:async )?function (\w+)[^\n]*|const (\w+) = [^\n]*=> )\{\n.*?^\}", text, re.M | re.S)
    return {it[1] or it[2]: it[0].count("\n") + 1 for it in found}


class Modules(unittest.TestCase):
    @unittest.skipUnless(TSC, "no tsc")
    def test_types(self) -> None:
        """No name is unknown or unused, and no property or argument of another type."""
        self.assertEqual(checked(*MODULES), (0, ""))

    @unittest.skipUnless(TSC, "no tsc")
    def test_state_is_set(self) -> None:
        """Only `set` changes the state, and only what the state has, to what fits there."""
        wrong = {2: ("state.now = 1;", "read-only"), 3: ("set({noww: 1});", "noww"), 4: ("set({now: 'x'});", "'string'")}
        with tempfile.TemporaryDirectory() as folder:
            for name in ("state.js", "palettes.js"):
                shutil.copy(os.path.join(FOLDER, name), folder)
            with open(os.path.join(folder, "wrong.js"), "w") as file:
                file.write('import {set, state} from "./state.js";\n%s\nset({now: state.now});\n' % "\n".join(
                    line for line, _ in wrong.values()))
            status, said = checked(os.path.join(folder, "wrong.js"))
        self.assertNotEqual(status, 0)
        faults = dict(re.findall(r"wrong\.js\((\d+),\d+\): (.*)", said))
        self.assertEqual(sorted(map(int, faults)), sorted(wrong), said)
        for number, (_, words) in wrong.items():
            self.assertIn(words, faults[str(number)])

    def test_sizes(self) -> None:
        """No file is too long to be read at once."""
        for path in MODULES:
            with open(path) as file:
                self.assertLessEqual(len(file.readlines()), MOST_LINES, path)

    def test_functions(self) -> None:
        """No function is too long to be read at once."""
        self.assertEqual(lengths("export async function f() {\n  g();\n}\nconst h = k => {\n};\n"), {"f": 3, "h": 2})
        for path in MODULES:
            with open(path) as file:
                found = lengths(file.read())
            self.assertEqual([name for name, many in found.items() if many > MOST_OF_FUNCTION], [], path)

    def test_each_is_used(self) -> None:
        """Each module is one of the studio's page, and those that a picture needs are in it."""
        from hemtoghai.seeing import page
        names = [os.path.basename(path) for path in MODULES]
        self.assertEqual(page.modules_of(page.read("studio.html")), names)
        shared = page.modules_of(page.read("picture.html"))
        self.assertEqual([name for name in shared if name.startswith("studio")], [])
        self.assertIn("charts.js", shared)


if __name__ == "__main__":
    unittest.main()
