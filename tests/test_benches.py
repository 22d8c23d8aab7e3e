"""bench/all: each bench and each check that documents name stands in its table, with words that it knows; and what its
last lines say of benches that run, fail, are skipped or take too long."""
import argparse
import contextlib
import importlib.util
import io
import os
import re
import shutil
import subprocess
import tempfile
import unittest
from importlib.machinery import SourceFileLoader
from unittest import mock

import common
from common import TOP
import scripts


def module_of(name, *path):
    """A script as a module."""
    loader = SourceFileLoader(name, os.path.join(*path))
    module = importlib.util.module_from_spec(importlib.util.spec_from_loader(name, loader))
    loader.exec_module(module)
    return module


ALL = module_of("bench_all", TOP, "bench", "all")
FOLDERS = {"plain", "erasures.d", "held.d", "mutants.d", "timing"}  # of sources and edits, which benches read
OTHER = {"all", "RESULTS.md"}
CHECKS_WITHIN = {"run"}  # which bench/gate runs


def read(*path):
    with open(os.path.join(TOP, *path), encoding="utf-8", errors="replace") as file:
        return file.read()


def documents():
    """The texts of all documents by their names."""
    names = ["README.md", *(os.path.join("docs", name) for name in os.listdir(os.path.join(TOP, "docs")) if name.endswith(".md"))]
    return {name: read(name) for name in names}


class Table(unittest.TestCase):
    def test_each_file_of_bench(self):
        found = set(os.listdir(os.path.join(TOP, "bench"))) - FOLDERS - OTHER - {"__pycache__"}
        self.assertEqual(found, {os.path.basename(row.file) for row in ALL.ROWS if row.file.startswith("bench/")} | {*ALL.PARTS})
        for part, bench in ALL.PARTS.items():
            name = part[:-len(".py")]
            self.assertTrue(any(re.search(r"\bimport (\w+, )*%s\b|\bfrom %s import" % (name, name), read("bench", it))
                                for it in (bench, "language", "reference", "random")), part)

    def test_each_that_documents_name(self):
        rows = {row.file for row in ALL.ROWS}
        known = {*rows, *("bench/" + name for name in (*FOLDERS, *OTHER, *ALL.PARTS))}
        for document, text in documents().items():
            for name in re.findall(r"\bbench/[a-z_]+(?:\.(?:py|sh|d|md))?(?![\w.])|\bbench/RESULTS\.md", text):
                self.assertIn(name, known, document)
            for name in re.findall(r"(?<![\w/])\.ci/([a-z_]+)", text):
                if name != "cases":
                    self.assertTrue(".ci/" + name in rows or name in CHECKS_WITHIN, (document, name))
            # A list in a table of documents names the folder once: `bench/shows`, `texts`, ..
            for row in re.findall(r"^\| (`bench/[^|]*) \|", text, re.M):
                for name in re.findall(r"`(?:bench/)?([a-z_.]+)`", row):
                    self.assertIn("bench/" + name, known, (document, row))

    def test_the_gate_has_each_check(self):
        # What --quick runs one by one is in .ci/run, or in the check that .ci/run runs.
        within = read(".ci", "run") + read(".ci", "documents")
        for row in ALL.ROWS:
            if row.file.startswith(".ci/"):
                self.assertIn(row.file, within)
        self.assertIn(".ci/run", next(row.words for row in ALL.ROWS if row.name == "gate"))

    def test_words(self):
        # Each option of a row stands in its file, and each file can be run.
        for row in ALL.ROWS:
            text = read(*row.file.split("/"))
            self.assertTrue(text.startswith("#!") and os.path.exists(os.path.join(TOP, row.file)), row)
            for word in (row.words + " " + (row.quick or "")).partition("-- ")[0].split():
                if word.startswith("-"):
                    self.assertTrue(re.search(r"[\"'\[ ]%s\b" % re.escape(word), text), (row.file, word))

    def test_names_differ(self):
        self.assertEqual(len({row.name for row in ALL.ROWS}), len(ALL.ROWS))


class Words(unittest.TestCase):
    def words_of(self, *words, **more):
        with mock.patch("sys.argv", ["bench", *words]), contextlib.redirect_stderr(io.StringIO()):
            return vars(scripts.words_of("", more.pop("program", False), more.pop("names", ""), **more))

    def test_options(self):
        given = {"seed": 7, "minutes": 1.5, "quick": False, "form": [1, 2], "rows_of": (), "out": ""}
        self.assertEqual(self.words_of(**given), {**given, "form": None})
        words = "--seed 9 --minutes 2 --quick --form 2 --rows-of a b --out there".split()
        self.assertEqual(self.words_of(*words, **given),
                         {"seed": 9, "minutes": 2.0, "quick": True, "form": 2, "rows_of": ["a", "b"], "out": "there"})
        self.assertEqual(self.words_of("a", "--seed", "2", "b", names="NAME", seed=1), {"seed": 2, "names": ["a", "b"]})
        for words in (["--seed", "x"], ["--form", "3"], ["--quick", "a"], ["--none"]):
            with self.assertRaises(SystemExit):
                self.words_of(*words, **given)

    def test_program(self):
        self.assertEqual(self.words_of("/bin/sh", program=True), {"program": "/bin/sh"})
        with self.assertRaises(SystemExit) as ended:
            self.words_of("/none", program=True)
        self.assertEqual(ended.exception.code, "no program at /none: run ./show once, which builds it")
        self.assertEqual(self.words_of("/none", "--unproved", program=True, unproved=False)["unproved"], True)

    def test_differing(self):
        # The first job whose answer is another: its status, its output, or a line on standard error.
        jobs = [(["-c", "cat; exit 3"], b"a", (3, "a")), (["-c", "echo b"], b"", (0, "b\n"))]
        self.assertIsNone(scripts.differing("/bin/sh", jobs))
        for words, wanted, came in (("exit 1", (0, ""), (1, "")), ("echo b", (0, "c\n"), (0, "b\n")),
                                    ("echo b >&2", (0, ""), (0, "b\n"))):
            job = ["-c", words], b"", wanted
            self.assertEqual(scripts.differing("/bin/sh", [*jobs, job]), (*job, came))

    def test_needed(self):
        self.assertEqual(scripts.needed_by(["itoa"]), set())  # one of the toolchain's
        with mock.patch.object(scripts, "libraries", lambda: {"a": ("a: b", ["b", "std"]), "b": ("b:", []), "c": ("c: a", ["a"])}):
            self.assertEqual(scripts.needed_by(["a"]), {"a", "b"})
            self.assertEqual(scripts.needed_by(["c", "none"]), {"a", "b", "c"})


@unittest.skipUnless(shutil.which("rt"), "the toolchain isn't installed")
class Mutants(unittest.TestCase):
    def test_words_of_the_toolchain(self):
        # What bench/mutants looks for at the begin of a line on a mutant is what today's toolchain says there.
        mutants, rt = module_of("bench_mutants", TOP, "bench", "mutants"), read(shutil.which("rt"))
        said = [re.sub(r"^\{label\}: ", "", it) for it in re.findall(r'f"(\{label\}: [^"]*)"', rt)]
        self.assertGreater(len(said), 4)
        for line in said:
            self.assertTrue(any(line.startswith(begin) for begin in mutants.KINDS), line)
        for begin in mutants.KINDS:
            self.assertTrue(any(line.startswith(begin) for line in said), begin)
        self.assertEqual(mutants.TOLD.match("rt: must-fail low/a.edit: BAD EDIT: it").groups(), ("low/a.edit", "BAD EDIT: it"))


class Runs(common.Folder, unittest.TestCase):
    def run_all(self, rows, **more):
        options = argparse.Namespace(**{"quick": False, "seed": 7, "unproved": False, "hours": 1.0, "out": self.place, **more})
        with contextlib.redirect_stdout(io.StringIO()) as said:
            status = ALL.run_all(rows, options)
        return status, said.getvalue().split("\n")[:-1]

    def row(self, name, text, words="", quick="", needs=()):
        self.write(name, text, 0o755)
        return ALL.Row(self.path(name), words, quick, needs)

    def test_outcomes(self):
        with tempfile.TemporaryDirectory() as self.place:
            good = self.row("good", "#!/usr/bin/env python3\nimport sys\nprint(sys.argv[1:])\nprint()\n", "--seed SEED", "--few SEED")
            bad = self.row("bad", "#!/usr/bin/env bash\necho first; echo last\nexit 3\n")
            absent = self.row("absent", "#!/usr/bin/env python3\nimport sys\nsys.exit('no rustc on the PATH: nothing')\n")
            lacks = self.row("lacks", "#!/bin/sh\nexit 9\n", needs=("no-such-tool",))
            long = self.row("long", "#!/usr/bin/env python3\nimport time\nprint('begun', flush=True)\ntime.sleep(60)\n", quick=None)
            status, said = self.run_all([good, bad, absent, lacks])
            self.assertEqual((status, said[-4:-1]), (1, ["skipped absent: no rustc on the PATH: nothing",
                                                         "skipped lacks: no no-such-tool on the PATH", "failed bad: status 3: last"]))
            self.assertRegex(said[-1], r"^bench/all: 1 ran, 1 failed, 2 skipped, in 0\.0 hours; what they wrote is in %s$" % self.place)
            self.assertRegex(said[0], r"^ran +good +\d+ s  \['--seed', '7'\]$")
            with open(self.path("bad.txt")) as file:
                self.assertEqual(file.read(), "first\nlast\n")
            status, said = self.run_all([good, long], quick=True)
            self.assertEqual((status, said[-2]), (0, "skipped long: only without --quick"))
            self.assertIn("['--few', '7']", said[0])
            self.assertEqual(self.run_all([absent, lacks])[0], 1)  # where none ran nothing is shown
            status, said = self.run_all([long], hours=2 / 3600)
            self.assertEqual((status, said[-2][:12], said[-2][-13:]), (1, "failed long:", " hours: begun"))

    def test_program(self):
        # One without the record of its proof is taken where that is wanted, and one that can't be run isn't.
        with tempfile.TemporaryDirectory() as self.place:
            row = self.row("row", "#!/usr/bin/env python3\nprint('run')\n", needs=(ALL.PROGRAM,))
            for proof, unproved, wanted in ((lambda: "logic=proved", False, "ran"), (lambda: None, True, "ran"),
                                            (lambda: None, False, "skipped row: no record says that the program was proved")):
                with mock.patch.object(ALL.program, "proof", proof):
                    self.assertEqual(self.run_all([row], unproved=unproved)[1][-2][:len(wanted)], wanted)
            with mock.patch.object(ALL.program, "proof", side_effect=ALL.program.Unusable("it isn't built")):
                self.assertEqual(self.run_all([row], unproved=True)[1][-2], "skipped row: it isn't built")

    def test_command(self):
        with tempfile.TemporaryDirectory() as place:
            done = subprocess.run([os.path.join(TOP, "bench", "all"), "--quick", "--out", place, "--only", "edits", "director", "mutants"],
                                  stdout=subprocess.PIPE, stderr=subprocess.STDOUT, timeout=300, universal_newlines=True)
            self.assertEqual(done.returncode, 0, done.stdout)
            self.assertIn("bench/all: 2 ran, 0 failed, 1 skipped", done.stdout)
            self.assertEqual(sorted(os.listdir(place)), ["director.txt", "edits.txt"])
            self.assertEqual(subprocess.run([os.path.join(TOP, "bench", "all"), "--only", "none"], stderr=subprocess.DEVNULL).returncode, 2)

    def test_list(self):
        # Each row once, with its words, or why it isn't run; and nothing is.
        def said(*words):
            done = subprocess.run([os.path.join(TOP, "bench", "all"), "--list", "--unproved", *words], stdout=subprocess.PIPE,
                                  universal_newlines=True, timeout=60)
            self.assertEqual(done.returncode, 0)
            return done.stdout.split("\n")[:-1]
        self.assertEqual([line.split()[0] for line in said()], [row.name for row in ALL.ROWS])
        self.assertEqual([line.split()[1:] for line in said("--seed", "7", "--only", "director", "edits")],
                         [[".ci/edits"], ["bench/director"]])
        self.assertTrue(said("--seed", "7", "--only", "flight_lists")[0].split("  (")[0].endswith(" --seed 7 --lists 10000"))
        self.assertEqual(said("--quick", "--only", "mutants"), ["mutants        only without --quick"])


if __name__ == "__main__":
    unittest.main()
