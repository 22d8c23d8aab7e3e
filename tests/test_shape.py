"""The shape of the code: how long the package's functions and files are, that its syntax is that of Python 3.9, and
which names of types two crates have."""
import ast
import collections
import glob
import os
import re
import unittest

from common import PYTHON, TOP

FUNCTION, FILE = 40, 800  # lines at most
ABOVE = set()  # functions that are longer still, as FILE:NAME; none is added


def modules():
    """The package's modules by their paths in it, with their texts."""
    for path in sorted(glob.glob(os.path.join(PYTHON, "hemtoghai", "**", "*.py"), recursive=True)):
        with open(path, encoding="utf-8") as file:
            yield os.path.relpath(path, os.path.join(PYTHON, "hemtoghai")), file.read()


def long_functions(path, text):
    """The functions of a text that have too many lines, from `def` to their end."""
    return {"%s:%s" % (path, node.name) for node in ast.walk(ast.parse(text))
            if isinstance(node, (ast.FunctionDef, ast.AsyncFunctionDef)) and node.end_lineno - node.lineno >= FUNCTION}


def crates_by_name():
    """The product's crates that declare a type, by its name."""
    found = collections.defaultdict(set)
    for path in glob.glob(os.path.join(TOP, "crates", "*", "src", "**", "*.rt"), recursive=True):
        crate = os.path.relpath(path, os.path.join(TOP, "crates")).split(os.sep)[0]
        with open(path, encoding="utf-8") as file:
            for name in re.findall(r"^(?:pub(?:\(crate\))? )?(?:struct|enum|trait|type) (\w+)", file.read(), re.M):
                found[name] |= {crate} - {"definition_tests"} if not crate.endswith("_tests") else set()
    return found


def names_told():
    """The crates by the names of the table of docs/DEVELOPING.md."""
    with open(os.path.join(TOP, "docs", "DEVELOPING.md"), encoding="utf-8") as file:
        table = file.read().partition("### Names that two crates have")[2].partition("\n## ")[0]
    rows = [line.split("|") for line in table.split("\n") if line.startswith("| `")]
    return {row[1].strip(" `"): set(re.findall(r"`(\w+)`", row[2])) for row in rows}


class Shape(unittest.TestCase):
    def test_names_of_two_crates(self):
        self.assertEqual({name: crates for name, crates in crates_by_name().items() if len(crates) > 1}, names_told())

    def test_functions(self):
        self.assertEqual({name for path, text in modules() for name in long_functions(path, text)}, ABOVE)

    def test_files(self):
        self.assertEqual([path for path, text in modules() if text.count("\n") > FILE], [])

    def test_commands(self):
        # What several commands use is below them: none is imported but where words become a command, and for a type.
        found = {path for path, text in modules() if re.search(r"^ *(from|import) hemtoghai\.commands\b", text, re.M)}
        self.assertEqual(found, {"__main__.py", "seeing/studio_server.py"})

    def test_oldest_python(self):
        found = [path for path, text in modules() if ast.parse(text, path, feature_version=(3, 9))]
        self.assertGreater(len(found), 90)

    def test_what_is_long(self):
        body = "    pass\n" * (FUNCTION - 1)
        self.assertEqual(long_functions("a.py", "def f():\n" + body), set())
        self.assertEqual(long_functions("a.py", "class A:\n    def f(self):\n    " + body.replace("\n", "\n    ") + "    pass\n"),
                         {"a.py:f"})


if __name__ == "__main__":
    unittest.main()
