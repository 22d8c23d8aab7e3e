"""How ./show library proves what isn't proved yet: what it says meanwhile, and how it ends. `rt` is a script here."""
import contextlib
import io
import os
import shutil
import signal
import subprocess
import sys
import tempfile
import time
import unittest
from unittest import mock

import common
from hemtoghai.dev import library

LINE = "logic=proved functions=3 axioms=3"
RT = """#!/bin/sh
echo "$@" >> %s
case $1 in
check) echo "checked hemtoghai::run, 1 of 2"; sleep 1 ;;
lib) echo "%s" ;;
esac
"""


class Watched(common.Folder, unittest.TestCase):
    def setUp(self):
        folder = tempfile.TemporaryDirectory()
        self.addCleanup(folder.cleanup)
        self.place, self.told = folder.name, io.StringIO()

    def watched(self, *words, **more):
        """What a command says, and what was told meanwhile."""
        with contextlib.redirect_stderr(self.told), mock.patch.object(library, "tool_name", lambda: "library"):
            return library.watched(*words, place=self.place, doing="at work", **more)

    def test_says_how_far(self):
        said = self.watched("sh", "-c", "echo one; printf 'two\nthr'; sleep 1; echo ee", every=0.3)
        self.assertEqual(said, "one\ntwo\nthree\n")
        self.assertEqual(self.told.getvalue().splitlines()[:2],
                         ["library: at work", "library: sh -c for 0 minutes so far; two"])

    def test_fails(self):
        for words, line in ((("sh", "-c", "echo why; exit 3"), "why\nsh -c echo why; exit 3 failed with status 3"),
                            (("no-such-command",), "no-such-command: No such file or directory")):
            with self.assertRaises(SystemExit) as ended:
                self.watched(*words)
            self.assertEqual(ended.exception.code, 70)
            self.assertIn(line, self.told.getvalue())

    def test_no_rt(self):
        with mock.patch.dict(os.environ, PATH=self.place), contextlib.redirect_stderr(self.told), mock.patch.object(
                library, "tool_name", lambda: "library"), mock.patch("hemtoghai.companion.tool_name", lambda: "library"):
            for call in (library.toolchain, lambda: library.watched("rt", "check", place=self.place, doing="at work")):
                with self.assertRaises(SystemExit) as ended:
                    call()
                self.assertEqual(ended.exception.code, 70)
        wanted = "library: no rt on the PATH: the Rattle toolchain is needed to build the library"
        self.assertEqual(self.told.getvalue().splitlines(), [wanted, "library: at work", wanted])

    def test_ended(self):
        # What it started is ended with it, also by a signal that only the tool gets.
        code = ("import sys; sys.path.insert(0, %r)\nfrom hemtoghai.dev import library\n"
                "from hemtoghai.launching import running\nrunning.watch_signals()\n"
                "library.watched('sh', '-c', 'echo $$ > started; exec sleep 300', place=%r, doing='')" % (common.PYTHON, self.place))
        for number in (signal.SIGTERM, signal.SIGINT):
            with subprocess.Popen([sys.executable, "-c", code], stderr=subprocess.DEVNULL) as process:
                while not os.path.exists(self.path("started")) or not os.path.getsize(self.path("started")):
                    time.sleep(0.05)
                with open(self.path("started")) as file:
                    child = int(file.read())
                os.remove(self.path("started"))
                process.send_signal(number)
                self.assertEqual(process.wait(60), 128 + number)
            with self.assertRaises(ProcessLookupError):
                os.kill(child, 0)

    def test_over_what_is_built(self):
        # What `check` keeps `lib` takes up; how many crates are built here is said.
        self.write("rt", RT % (self.path("words"), LINE), 0o755)
        path = self.place + os.pathsep + os.environ["PATH"]
        with mock.patch.dict(os.environ, PATH=path), contextlib.redirect_stderr(self.told), mock.patch.object(
                library, "over_kept", lambda room: None):
            archive, rests_on = library.prove(self.place)
        self.assertEqual((os.path.basename(archive), rests_on), ("libhemtoghai.a", LINE))
        with open(self.path("words")) as file:
            self.assertEqual(file.read(), "check\nlib\n")
        self.assertRegex(self.told.getvalue(), r"proving crates/hemtoghai over \d+ crates, of which \d+ are built here")

    def test_only_kept(self):
        with contextlib.redirect_stderr(self.told), mock.patch.object(library, "over_kept", lambda room: None):
            with self.assertRaises(SystemExit) as ended:
                library.prove(self.place, True)
        self.assertEqual(ended.exception.code, library.NOT_KEPT)


STUB = """#include <stddef.h>
#include <stdint.h>
uint8_t hemtoghai_run(const void *w, size_t n, const void *i, size_t m, void *o, size_t r, size_t *s) { *s = 0; return 5; }
"""


@unittest.skipUnless(shutil.which("cargo") and shutil.which("cc") and shutil.which("ar"), "there is no cargo, cc or ar")
class Rust(common.Folder, unittest.TestCase):
    """library/rust with another archive in the place of the library's, whose one answer is status 5."""

    def test_folders(self):
        # A relative folder is one of where cargo was called, or of the top of the repository.
        with tempfile.TemporaryDirectory() as self.place:
            self.write("stub.c", STUB)
            shutil.copytree(os.path.join(common.TOP, "library", "rust"), self.path("top/library/rust"))
            for folder in ("top/out/lib", "here"):
                os.makedirs(self.path(folder))
            subprocess.run(["cc", "-c", "stub.c", "-o", "stub.o"], cwd=self.place, check=True)
            subprocess.run(["ar", "rcs", "top/out/lib/libhemtoghai.a", "stub.o"], cwd=self.place, check=True)
            for named, called in ((self.path("top/out/lib"), "here"), ("top/out/lib", ""), ("../top/out/lib", "here"),
                                  ("out/lib", "here"), ("none", "here")):
                with self.subTest(named=named):
                    env = {**os.environ, "HEMTOGHAI_LIB": named, "PWD": self.path(called),
                           "CARGO_TARGET_DIR": self.path("target")}
                    done = subprocess.run(["cargo", "run", "-q", "--offline", "--manifest-path",
                                           self.path("top/library/rust/Cargo.toml"), "--", os.devnull], env=env,
                                          cwd=self.path(called), stdout=subprocess.PIPE, stderr=subprocess.PIPE, timeout=300)
                    self.assertEqual((done.returncode, b"where there is no libhemtoghai.a" in done.stderr),
                                     (101, True) if named == "none" else (5, False), done.stderr)


if __name__ == "__main__":
    unittest.main()
