"""./show release, the manual page and the completion; ./show, tools and library of a release, unpacked where there is
no rt and no repository. A repository is made for it with the files of this one, two small crates, and the program and
library that were built. Where the program isn't built here .ci/stand_in is in its place, and where the library isn't,
files of a few bytes are. Machines other than this one weren't tried."""
import hashlib
import importlib.util
import json
import marshal
import os
import platform
import re
import resource
import shutil
import subprocess
import sys
import tarfile
import tempfile
import unittest
import zipfile
from unittest import mock

from common import Folder, PROGRAM, TOP
from hemtoghai import program
from hemtoghai.language import choreo
from hemtoghai.dev import release
from hemtoghai.__main__ import COMMANDS
from hemtoghai.dev import manual
from hemtoghai.launching import table
from plans import plan_of

PROVED = "logic=proved functions=3 axioms=1"
STAND_IN = """#!/bin/sh
case $1 in check | compile | play | upload) exec %s %s "$@" ;; esac
echo error 2 usage
exit 2
""" % (sys.executable, os.path.join(TOP, ".ci", "stand_in"))
IS_BUILT = os.access(PROGRAM, os.X_OK)
LIBRARY = os.path.join(TOP, "library", "out")
HAS_LIBRARY = os.path.exists(os.path.join(LIBRARY, "MANIFEST.json"))
LIB = ["library/out/lib/libhemtoghai.so", "library/out/lib/libhemtoghai.so.0", "library/out/lib/libhemtoghai.so.7.8.9"]
NAME = "hemtoghai-7.8.9%s-x86_64-linux"


def done(words, place, **more):
    """The status, standard output and standard error of a command."""
    ended = subprocess.run(words, cwd=place, stdout=subprocess.PIPE, stderr=subprocess.PIPE, universal_newlines=True,
                           timeout=120, **more)
    return ended.returncode, ended.stdout, ended.stderr


def digest(path):
    """A file's SHA-256."""
    with open(path, "rb") as file:
        return hashlib.sha256(file.read()).hexdigest()


class Repository(Folder):
    """A repository from which a release can be made."""

    def __init__(self, room):
        self.place = os.path.join(room, "repository")
        for name in ("docs", "examples", "python", "tools", "library"):
            shutil.copytree(os.path.join(TOP, name), self.path(name),
                            ignore=shutil.ignore_patterns("__pycache__", "out", "target"))
        for name in ("show", "pyproject.toml"):
            shutil.copy(os.path.join(TOP, name), self.place)
        self.write("README.md", "of the repository\n")
        self.write("VERSION", "7.8.9\n")
        self.write("crates.txt", "show_cli:\nhemtoghai staticlib:\n")
        self.write(".gitignore", "out/\n")
        self.write("crates/show_cli/src/lib.rt", "fn f() {}\n")
        self.write("crates/hemtoghai/src/lib.rt", "fn h() {}\n")
        self.write("bin/rt", "#!/bin/sh\n[ \"$1\" = version ] && echo a toolchain\n", 0o755)
        os.symlink(sys.executable, self.path("bin/python3"))
        self.program = self.path("crates/show_cli/out/show_cli")
        self.write(self.program, STAND_IN, 0o755)
        if IS_BUILT:
            shutil.copy(PROGRAM, self.program)
        self.git("init", "-q")
        self.commit()
        self.record()
        self.library()

    def git(self, *words):
        """What git says."""
        named = ["-c", "user.name=a", "-c", "user.email=a@b", "-c", "commit.gpgsign=false"]
        ended = subprocess.run(["git", *named, *words], cwd=self.place, check=True, stdout=subprocess.PIPE)
        return ended.stdout.decode()

    def commit(self):
        """Commits all files; the commit."""
        self.git("add", "-A")
        self.git("commit", "-q", "-m", "a")
        return self.git("rev-parse", "HEAD").strip()

    def settings(self):
        """An environment in which rt is the stand-in of the place."""
        return {**os.environ, "PATH": self.path("bin") + os.pathsep + os.environ["PATH"]}

    def said(self, code):
        """What an expression over the records of ./show of the place is, as text."""
        code = "import sys; sys.dont_write_bytecode = True; sys.path[:0] = ['python']\nfrom hemtoghai.launching import records\nprint(%s)" % code
        return subprocess.run([sys.executable, "-c", code], cwd=self.place, check=True, stdout=subprocess.PIPE,
                              env=self.settings()).stdout.decode().strip()

    def library(self, said=PROVED):
        """Makes the files of the library, and notes their build, as ./show library does."""
        out = self.path("library/out")
        self.write(os.path.join(out, "include/hemtoghai.h"), "")
        shutil.copy(self.path("library/hemtoghai.h"), os.path.join(out, "include/hemtoghai.h"))
        for name, built in (("lib/libhemtoghai.a", "lib/libhemtoghai.a"),
                            ("lib/libhemtoghai.so.7.8.9", "lib/libhemtoghai.so"),
                            ("lib/pkgconfig/hemtoghai.pc", "lib/pkgconfig/hemtoghai.pc")):
            self.write(os.path.join(out, name), name)
            if HAS_LIBRARY:
                shutil.copy(os.path.join(LIBRARY, built), os.path.join(out, name))
        files = [os.path.join(folder, name) for folder, _, names in os.walk(out) for name in names]
        sums = {os.path.relpath(path, out): digest(path) for path in files if not path.endswith(".json")}
        self.write(os.path.join(out, "MANIFEST.json"), json.dumps({
            "version": "7.8.9", "rests_on": said, "files": sums,
            "stamp": self.said("records.stamp(records.crates_below('hemtoghai'))")}))

    def record(self, said=PROVED):
        """Has the launcher note a build of the program as it is."""
        self.said("records.write_record(%r, records.stamp(records.crates_below('show_cli')))" % said)

    def release(self, *words):
        """The status, standard output and standard error of ./show release."""
        return done(["./show", "release", "--out", os.path.dirname(self.place), *words], self.place, env=self.settings())

    def wheel(self, changed=""):
        """The path of the wheel."""
        return os.path.join(os.path.dirname(self.place), "hemtoghai-7.8.9%s-py3-none-manylinux_2_34_x86_64.whl" % changed)

    def packed(self, changed=""):
        """The path of the archive."""
        return os.path.join(os.path.dirname(self.place), NAME % changed + ".tar.gz")


class Refusals(unittest.TestCase):
    def setUp(self):
        room = tempfile.TemporaryDirectory()
        self.addCleanup(room.cleanup)
        self.repository = Repository(room.name)

    def refused(self, line, *words):
        """Says that no release is made, and why."""
        status, said, told = self.repository.release(*words)
        self.assertEqual((status, said), (70, ""), told)
        self.assertIn(line, told)
        self.assertFalse(os.path.exists(self.repository.packed()) or os.path.exists(self.repository.packed("-changed")))

    def test_another_program(self):
        source, program = self.repository.path("crates/show_cli/src/lib.rt"), self.repository.program
        # Sources that are others, though their file is the older one, and the same with a commit of them.
        self.repository.write("crates/show_cli/src/lib.rt", "fn g() {}\n")
        os.utime(source, (1, 1))
        self.refused("isn't the one of these sources", "--changed")
        self.repository.commit()
        self.refused("isn't the one of these sources")
        self.repository.write("crates/show_cli/src/lib.rt", "fn f() {}\n")
        self.repository.commit()
        with open(program, "ab") as file:
            file.write(b"\n")
        self.refused("isn't the one of these sources")
        os.remove(program + ".built")
        self.refused("isn't the one of these sources")
        os.remove(program)
        self.refused("the program isn't built: ./show check FILE builds it, then ./show library the library")

    def test_record(self):
        self.repository.record("nothing of a proof")
        self.refused("hasn't its last line")

    def test_another_library(self):
        out = self.repository.path("library/out")
        for path in ("lib/libhemtoghai.a", "lib/libhemtoghai.so.7.8.9", "include/hemtoghai.h"):
            with open(os.path.join(out, path), "ab") as file:
                file.write(b"\n")
            self.refused("the library isn't the one of these sources", "--changed")
            self.repository.library()
        self.repository.write("library/hemtoghai.h", "/* another */\n")
        self.refused("the library isn't the one of these sources", "--changed")
        self.repository.git("checkout", "library/hemtoghai.h")
        self.repository.write("crates/hemtoghai/src/lib.rt", "fn i() {}\n")
        self.refused("the library isn't the one of these sources", "--changed")
        self.repository.git("checkout", "crates/hemtoghai/src/lib.rt")
        self.repository.library("nothing of a proof")
        self.refused("the library's manifest hasn't the last line")
        shutil.rmtree(out)
        self.refused("the library isn't built: ./show library builds it")

    def test_files(self):
        self.repository.write("docs/more.md", "more\n")
        self.refused("files differ from the commit")
        self.assertEqual(self.repository.release("--changed")[0], 0)
        with tarfile.open(self.repository.packed("-changed")) as tar:
            manifest = json.load(tar.extractfile(NAME % "-changed" + "/MANIFEST.json"))
        self.assertIs(manifest["changed_since"], True)
        os.remove(self.repository.packed("-changed"))
        self.repository.write("VERSION", "seven\n")
        self.refused("VERSION isn't a version", "--changed")
        self.repository.write("VERSION", "7.8.9\n")
        self.refused("VERSION/none: Not a directory", "--changed", "--out", "VERSION/none")


class Release(unittest.TestCase):
    @classmethod
    def setUpClass(cls):
        room = tempfile.TemporaryDirectory()
        cls.addClassCleanup(room.cleanup)
        cls.repository = Repository(room.name)
        status, cls.said, error = cls.repository.release()
        if status:
            raise AssertionError(error)
        before = digest(cls.repository.packed())
        cls.again = cls.repository.release(), digest(cls.repository.packed()) == before
        with tarfile.open(cls.repository.packed()) as tar:
            tar.extractall(os.path.join(room.name, "unpacked"))
        os.rename(cls.repository.place, os.path.join(room.name, "elsewhere"))
        cls.top = os.path.join(room.name, "unpacked", NAME % "")
        cls.bin = os.path.join(room.name, "bin")
        os.mkdir(cls.bin)
        for name, path in (("python3", sys.executable), ("bash", shutil.which("bash")), ("env", shutil.which("env"))):
            os.symlink(os.path.realpath(path), os.path.join(cls.bin, name))

    def run_there(self, *words, text=None):
        """The status, standard output and standard error of a command of the release, without rt."""
        return done([os.path.join(self.top, words[0]), *words[1:]], self.top, input=text,
                    env={"PATH": self.bin, "LANG": "C"})

    def manifest(self):
        """The manifest."""
        with open(os.path.join(self.top, "MANIFEST.json")) as file:
            return json.load(file)

    def test_over_another(self):
        (status, _, told), is_same = self.again
        self.assertEqual((status, is_same), (70, True))
        self.assertIn("is there already: --force overwrites it", told)

    def test_no_rt(self):
        self.assertIsNone(shutil.which("rt", path=self.bin))
        for name in (".git", "crates.txt", "crates/show_cli/src", "crates/hemtoghai", "tests", "bin"):
            self.assertFalse(os.path.exists(os.path.join(self.top, name)), name)

    def test_manifest(self):
        manifest, found = self.manifest(), []
        for folder, folders, names in os.walk(self.top):
            folders[:] = [it for it in folders if it != "__pycache__"]  # of a tool that ran before this test
            found += [os.path.relpath(os.path.join(folder, name), self.top) for name in names]
        self.assertEqual(sorted([*manifest["files"], "MANIFEST.json"]), sorted(found))
        for path in ("README.md", "show", "docs/COMMANDS.md", "examples/solo.choreo", "python/hemtoghai/flying/simulated/cflib/air.py",
                     "share/show.1", "share/show.bash", "share/show.fish", "share/show.zsh",
                     "crates/show_cli/out/show_cli", "library/check.c",
                     "library/out/lib/libhemtoghai.a", *LIB, "library/out/include/hemtoghai.h",
                     "library/out/lib/pkgconfig/hemtoghai.pc"):
            self.assertIn(path, found)
        for path, wanted in manifest["files"].items():
            with open(os.path.join(self.top, path), "rb") as file:
                self.assertEqual(hashlib.sha256(file.read()).hexdigest(), wanted, path)
        elsewhere = os.path.join(os.path.dirname(self.repository.place), "elsewhere")
        head = done(["git", "rev-parse", "HEAD"], elsewhere)[1].strip()
        self.assertEqual([manifest[word] for word in ("version", "commit", "changed_since", "toolchain", "rests_on")],
                         ["7.8.9", head, False, "a toolchain", PROVED])
        self.assertEqual(manifest["sha256"], manifest["files"]["crates/show_cli/out/show_cli"])
        # One source and crates.txt, each by its own digest and name, in order.
        lines = ["%s  %s\n" % (hashlib.sha256(text).hexdigest(), name)
                 for name, text in (("crates.txt", b"show_cli:\nhemtoghai staticlib:\n"),
                                    ("crates/show_cli/src/lib.rt", b"fn f() {}\n"))]
        self.assertEqual(manifest["stamp"], hashlib.sha256("".join(lines).encode()).hexdigest())

    def test_library(self):
        for path in LIB[:2]:
            self.assertEqual(os.readlink(os.path.join(self.top, path)), os.path.basename(LIB[2]))
        with open(os.path.join(self.top, "library", "out", "MANIFEST.json")) as file:
            files = json.load(file)["files"]
        everything = self.manifest()["files"]
        for path, digest in files.items():
            self.assertEqual(everything["library/out/" + path], digest)
        for path in LIB[:2]:
            self.assertEqual(everything[path], everything[LIB[2]])

    def asked(self, **named):
        """What `import hemtoghai` of the release says of a show: by which of the two, its proof, and the answer."""
        ask = ("import hemtoghai\nwith open('examples/solo.choreo') as file:\n    verdict = hemtoghai.check(file.read())\n"
               "print(verdict.by, verdict.proof, verdict.line)\n")
        return done([os.path.join(self.bin, "python3"), "-c", ask], self.top,
                    env={"PATH": self.bin, "LANG": "C", "PYTHONPATH": os.path.join(self.top, "python"),
                         "PYTHONDONTWRITEBYTECODE": "1", **named})

    def test_module(self):
        by = "library" if HAS_LIBRARY else "process"  # files of a few bytes are no library
        for named, wanted in (({}, by), ({"HEMTOGHAI_BY": "process"}, "process")):
            self.assertEqual(self.asked(**named), (0, "%s %s ok drones 1 cues 1 duration_ms 2000\n" % (wanted, PROVED), ""))

    def test_another_library(self):
        path = os.path.join(self.top, LIB[2])
        self.addCleanup(self.unpack_again)
        with open(path, "ab") as file:
            file.write(b"\n")
        self.assertEqual(self.asked()[1].split(" ")[0], "process")
        status, _, error = self.asked(HEMTOGHAI_BY="library")
        self.assertEqual((status, "Unusable: the library isn't the one of its manifest" in error), (1, True))

    def test_version(self):
        status, out, error = self.run_there("show", "--version")
        self.assertEqual((status, error), (0, ""))
        manifest = self.manifest()
        self.assertEqual(out, "hemtoghai 7.8.9\nprogram sha256 %s\ncommit %s\nsources sha256 %s\n"
                              "toolchain a toolchain\nproof: %s\n" % (
                                  manifest["sha256"], manifest["commit"], manifest["stamp"], PROVED))
        page = os.path.join(self.top, "docs", "TOOLS.md")
        with open(page, "a") as file:
            file.write("more\n")
        self.assertEqual(self.run_there("show", "--version")[1], out + "not as released: docs/TOOLS.md\n")
        with open(page, "rb+") as file:
            file.truncate(os.path.getsize(page) - 5)
        self.assertEqual(self.run_there("show", "--version")[1], out)

    def test_proved(self):
        path, words = os.path.join(self.top, "MANIFEST.json"), ("show", "--proved", "check", "examples/solo.choreo")
        good = 0, "ok drones 1 cues 1 duration_ms 2000\n", ""
        self.assertEqual(self.run_there(*words), good)
        manifest = self.manifest()
        for more, why in (({"rests_on": ""}, "MANIFEST.json doesn't say that the program was proved"),
                          ({"sha256": "0" * 64}, "the program isn't the one of MANIFEST.json: unpack the release anew")):
            with open(path, "w") as file:
                json.dump({**manifest, **more}, file)
            self.assertEqual(self.run_there(*words), (70, "", "show: %s\n" % why))
        with open(path, "w") as file:
            json.dump(manifest, file)
        self.assertEqual(self.run_there(*words), good)

    def test_its_own_readme(self):
        with open(os.path.join(self.top, "README.md")) as file:
            text = file.read()
        self.assertTrue(text.startswith("# Hemtoghai 7.8.9\n"), text[:99])
        for word in ("rt check", "bench/", "@VERSION@", "of the repository"):
            self.assertNotIn(word, text)
        for path in re.findall(r"\]\(([^)#]*)\)", text) + re.findall(r"`((?:share|docs|python)/[a-z_.0-9/]+)", text):
            self.assertTrue(os.path.exists(os.path.join(self.top, path)), path)
        self.assertFalse(os.path.exists(os.path.join(self.top, "python", "hemtoghai", "dev")))

    def differing(self):
        """What --version says of files that aren't as released."""
        status, out, error = self.run_there("show", "--version")
        self.assertEqual((status, error), (0, ""))
        return [line for line in out.splitlines() if line.startswith("not ")]

    def test_one_byte_of_any_file(self):
        # The program and the manifest are judged by themselves.
        names = [name for name in self.manifest()["files"] if not os.path.islink(os.path.join(self.top, name))]
        fronts = ("docs/F", "examples/so", "share/", "VERSION", "README", "tools/f", "python/hemtoghai/flying/",
                  "library/out/lib/libhemtoghai.a")
        chosen = [name for name in sorted(names) if name.startswith(fronts)]
        self.assertGreater(len(chosen), 15)
        for name in chosen:
            path = os.path.join(self.top, name)
            with open(path, "rb") as file:
                before = file.read()
            with open(path, "wb") as file:
                file.write(bytes([before[0] ^ 1]) + before[1:])
        try:
            found = self.differing()
        finally:
            self.unpack_again()
        wanted = {"not as released: " + name for name in chosen}
        shared = "library/out/lib/libhemtoghai.so"
        self.assertEqual({line for line in found if shared not in line}, wanted)
        self.assertEqual(self.differing(), [])

    def unpack_again(self):
        """Has all files be as they were released."""
        with tarfile.open(self.repository.packed()) as tar:
            tar.extractall(os.path.dirname(self.top))

    def added(self, name, text, mode=0o644):
        """Adds a file to the release until the test ends."""
        path = os.path.join(self.top, name)
        folder = os.path.dirname(path)
        if not os.path.isdir(folder):
            os.makedirs(folder)
            self.addCleanup(shutil.rmtree, folder, ignore_errors=True)
        with open(path, "wb") as file:
            file.write(text)
        os.chmod(path, mode)
        self.addCleanup(lambda: os.path.exists(path) and os.remove(path))

    def test_added_files_are_named_and_never_run(self):
        # Each would leave a mark. Modules of Python and of the tools, as files, folders, kept bytecode and libraries.
        mark = os.path.join(self.top, "mark")
        code = ("open(%r, 'a').write(__name__ + '\\n')\n" % mark).encode()
        names = ["fcntl.py", "os.py", "json.py", "site.py", "sitecustomize.py", "commands.py", "records/__init__.py"]
        names += ["python/" + name for name in (
            "json.py", "re.py", "math.py", "argparse.py", "hashlib.py", "_sha2.py", "usercustomize.py", "__init__.py",
            "hemtoghai.py", "hemtoghai/json.py", "hemtoghai/language/re.py", "hemtoghai/language/choreo/__init__.py",
            "hemtoghai/companion/__init__.py", "hemtoghai/program/__init__.py", "hemtoghai/commands/why/__init__.py")]
        tag = sys.implementation.cache_tag
        for name in names:
            self.added(name, code)
        for module in ("language/choreo", "launching/words", "geometry/nearest"):
            folder, name = os.path.split("python/hemtoghai/" + module)
            source = os.path.join(self.top, folder, name + ".py")
            found = os.stat(source)
            head = importlib.util.MAGIC_NUMBER + bytes(4) + int(found.st_mtime).to_bytes(4, "little") + (
                found.st_size & 0xFFFFFFFF).to_bytes(4, "little")
            kept = "%s/__pycache__/%s.%s.pyc" % (folder, name, tag)
            self.added(kept, head + marshal.dumps(compile(code, name, "exec")))
            names.append(kept)
            self.added("%s/%s.abi3.so" % (folder, name), b"no library")
            names.append("%s/%s.abi3.so" % (folder, name))
        self.added("crates/show_cli/out/more", b"")
        os.symlink("nowhere", os.path.join(self.top, "docs", "link"))
        self.addCleanup(os.remove, os.path.join(self.top, "docs", "link"))
        names += ["crates/show_cli/out/more", "docs/link"]
        self.assertEqual(self.differing(), ["not in the release: " + name for name in sorted(names)])
        for words, statuses in ((("show", "check", "examples/crossing.choreo"), (5,)), (("show", "chek"), (2,)),
                                (("show", "why", "examples/crossing.choreo"), (5,)),
                                (("show", "summary", "examples/solo.choreo"), (0,)),
                                (("show", "deal", "examples/grid_to_ring.choreo"), (0,)),
                                (("show", "without", "examples/crossing_cured.choreo", "a"), (0,)),
                                (("show", "picture", "examples/solo.choreo"), (0,)), (("show", "export", "csv", "x", "y"), (70,)),
                                (("show", "import", "examples/relay.csv"), (0, 1)), (("show", "release",), (70,)),
                                (("show", "export", "skyc", "examples/solo.choreo", "/dev/null"), (0,)),
                                (("show", "judge", "a", "b", "c"), (70,)),
                                (("show", "bridge", "examples/solo.choreo"), (0,))):
            status, out, error = self.run_there(*words)
            self.assertIn(status, statuses, (words, out[-300:], error))
            self.assertFalse(os.path.exists(mark), words)
        # They would be run, if anything did import them.
        done([os.path.join(self.bin, "python3"), "-B", "-c", "import choreo"],
             os.path.join(self.top, "python", "hemtoghai", "language"))
        self.assertTrue(os.path.exists(mark))
        os.remove(mark)

    def test_damaged_manifest(self):
        path = os.path.join(self.top, "MANIFEST.json")
        with open(path, "rb") as file:
            before = file.read()
        self.addCleanup(self.unpack_again)
        for text in (b"", b"{", b"[]", b"{}", before[:200], b'{"files": 7}', b'{"sha256": 7, "files": {}}'):
            with open(path, "wb") as file:
                file.write(text)
            for words in (("show", "check", "examples/solo.choreo"), ("show", "why", "examples/solo.choreo")):
                status, out, error = self.run_there(*words)
                self.assertEqual((status, out, error.count("\n")), (70, "", 1), (text, words, error))
                self.assertNotIn("Traceback", error)

    def test_missing_module(self):
        os.rename(os.path.join(self.top, "python", "hemtoghai", "launching", "running.py"), os.path.join(self.top, "away"))
        self.addCleanup(os.rename, os.path.join(self.top, "away"), os.path.join(self.top, "python", "hemtoghai", "launching", "running.py"))
        for words in (("show", "check", "examples/solo.choreo"), ("show", "why", "examples/solo.choreo")):
            status, out, error = self.run_there(*words)
            self.assertEqual((status, out, error.count("\n")), (70, "", 1), error)
            self.assertIn("python/hemtoghai/launching/running.py is missing: unpack the release anew", error)

    def test_commands(self):
        self.assertEqual(self.run_there("show", "check", "examples/solo.choreo"),
                         (0, "ok drones 1 cues 1 duration_ms 2000\n", ""))
        self.assertEqual(self.run_there("show", "chek")[:2], (2, "error 2 usage\n"))
        status, out, error = self.run_there("show", "check", text="choreo 1\ndrone a 0 0 0\n")
        self.assertEqual((status, out), (3, "error 3 line 2 bad-count\n"))
        status, plan, _ = self.run_there("show", "compile", "examples/crossing_cured.choreo")
        with open(os.path.join(TOP, "examples", "crossing_cured.choreo"), "rb") as file:
            self.assertEqual((status, plan), (0, plan_of(choreo.flown_of(file.read()))))
        status, out, error = self.run_there("show", "release")
        self.assertEqual((status, out, "this is a release" in error), (70, "", True))
        status, _, error = self.run_there("show", "--unproved", "check", "examples/solo.choreo")
        self.assertEqual((status, "no sources" in error), (70, True))

    def test_first_command(self):
        # The first command of the README, with what stands below it.
        with open(os.path.join(self.top, "README.md")) as file:
            command, wanted = re.search(r"^ *\$ (\./show .*)\n(.*\n)", file.read(), re.M).groups()
        begun = resource.getrusage(resource.RUSAGE_CHILDREN)
        said = done(["bash", "-c", command], self.top, env={"PATH": self.bin, "LANG": "C"})
        self.assertEqual(said, (0, wanted, ""), command)
        ended = resource.getrusage(resource.RUSAGE_CHILDREN)
        if IS_BUILT:
            self.assertLess(ended.ru_utime + ended.ru_stime - begun.ru_utime - begun.ru_stime, 1)

    def test_flown(self):
        status, out, error = self.run_there("show", "bridge", "--loss", "20", "--start", "examples/solo.choreo")
        self.assertEqual(status, 0, error)
        self.assertIn("solo: 28 bytes from 0 on as the show has them; trajectory 0 started", out)
        if IS_BUILT:
            words = "--simulate", "--yes", "--sim", "speed=10", "examples/solo.choreo"
            status, out, error = self.run_there("show", "fly", *words)
            self.assertEqual((status, "landed" in out), (0, True), out + error)

    def test_tools(self):
        self.assertEqual(self.run_there("show", "why", "examples/crossing.choreo")[0], 5)
        self.assertEqual(self.run_there("show", "summary", "examples/ring.choreo")[0], 0)
        status, out, error = self.run_there("show", "picture", "examples/crossing_cured.choreo")
        self.assertEqual((status, "the program's play" in error), (0, True), error)

    def test_same_bytes(self):
        place = os.path.join(os.path.dirname(self.repository.place), "elsewhere")
        os.utime(os.path.join(place, "README.md"), (1, 1))
        os.chmod(os.path.join(place, "docs", "TOOLS.md"), 0o600)
        with tempfile.TemporaryDirectory() as room:
            status, said, told = done(["./show", "release", "--out", room], place, env={**os.environ, "TZ": "UTC+5"})
            self.assertEqual(status, 0, told)
            again = os.path.join(room, NAME % "" + ".tar.gz")
            with open(self.repository.packed(), "rb") as first, open(again, "rb") as second:
                self.assertEqual(first.read(), second.read())

    def test_another_program(self):
        program = os.path.join(self.top, "crates", "show_cli", "out", "show_cli")
        with open(program, "rb") as file:
            whole = file.read()
        try:
            with open(program, "ab") as file:
                file.write(b"\n")
            status, out, error = self.run_there("show", "check", "examples/solo.choreo")
            self.assertEqual((status, out, "isn't the one of MANIFEST" in error), (70, "", True))
            status, out, _ = self.run_there("show", "--version")
            self.assertEqual((status, "nothing is known of its proof" in out), (70, True))
        finally:
            with open(program, "wb") as file:
                file.write(whole)


@unittest.skipIf(release.lacking(), "this Python has no setuptools, or no wheel")
class Wheel(unittest.TestCase):
    """The wheel, unpacked as pip unpacks it, and installed by pip where that is there."""

    @classmethod
    def setUpClass(cls):
        room = tempfile.TemporaryDirectory()
        cls.addClassCleanup(room.cleanup)
        cls.repository = Repository(room.name)
        status, cls.said, error = cls.repository.release()
        if status:
            raise AssertionError(error)
        cls.top, cls.room = os.path.join(room.name, "installed"), room.name
        with zipfile.ZipFile(cls.repository.wheel()) as packed:
            packed.extractall(cls.top)
            for entry in packed.infolist():
                os.chmod(os.path.join(cls.top, entry.filename), entry.external_attr >> 16)

    def python(self, *words):
        """What Python says where the package is on its path."""
        return done([sys.executable, *words], self.room,
                    env={"PATH": "/usr/bin:/bin", "LANG": "C", "PYTHONPATH": self.top})

    def test_its_files(self):
        with open(os.path.join(self.top, "hemtoghai", "MANIFEST.json")) as file:
            manifest = json.load(file)
        found = {os.path.relpath(os.path.join(folder, name), os.path.join(self.top, "hemtoghai"))
                 for folder, _, names in os.walk(os.path.join(self.top, "hemtoghai")) for name in names
                 if "__pycache__" not in folder}
        self.assertEqual(found, {*manifest["files"], "MANIFEST.json"})
        for path in ("seeing/studio.html", "seeing/view.js", "flying/simulated/cflib/air.py", "docs/COMMANDS.md", "VERSION",
                     "library/out/MANIFEST.json", LIB[2]):
            self.assertIn(path, found)
        with zipfile.ZipFile(self.repository.wheel()) as packed:
            self.assertEqual(len({entry.date_time for entry in packed.infolist()}), 1)

    def test_same_bytes(self):
        with tempfile.TemporaryDirectory() as again:
            status, _, told = done(["./show", "release", "--out", again], self.repository.place, env=self.repository.settings())
            self.assertEqual(status, 0, told)
            self.assertEqual(digest(os.path.join(again, os.path.basename(self.repository.wheel()))),
                             digest(self.repository.wheel()))

    def test_command(self):
        show = os.path.join(TOP, "examples", "crossing.choreo")
        status, out, error = self.python("-m", "hemtoghai", "check", show)
        self.assertEqual((status, out), (5, "error 5 pair a b cue 1 part 28 of 64\n"))
        self.assertEqual(error, "hemtoghai: hemtoghai why %s explains the refusal and lists changes that help\n" % show)
        status, out, _ = self.python("-m", "hemtoghai", "--version")
        self.assertEqual((status, out.split("\n")[0], "proof: " + PROVED in out, "not as released" in out),
                         (0, "hemtoghai 7.8.9", True, False), out)
        self.assertIn("usage: hemtoghai COMMAND", self.python("-m", "hemtoghai", "--help")[1])
        self.assertIn("usage: hemtoghai why", self.python("-m", "hemtoghai", "why", "--help")[1])
        with open(os.path.join(self.room, "faulty"), "w") as file:
            file.write("choreo 1\ncue 1.5\n")
        status, out, error = self.python("-m", "hemtoghai", "check", "faulty")
        self.assertEqual((status, out, "hemtoghai: cure: " in error), (3, "error 3 line 2 bad-number\n", True), error)

    def test_companions(self):
        show = os.path.join(TOP, "examples", "crossing_cured.choreo")
        for words, wanted in ((["why", show], 0), (["summary", show], 0), (["picture", show], 0), (["without", show, "a"], 0),
                              (["bridge", show], 0), (["judge", "a", "b", "c"], 70), (["library"], 70), (["release"], 70)):
            status, out, error = self.python("-m", "hemtoghai", *words)
            self.assertEqual((status, "Traceback" in error), (wanted, False), (words, out, error))

    def test_module(self):
        code = ("import hemtoghai\nverdict = hemtoghai.check(open(%r).read())\n"
                "print(verdict.ok, verdict.proved, verdict.by, hemtoghai.__file__)" % os.path.join(TOP, "examples", "solo.choreo"))
        wanted = "True True %s %s\n" % ("library" if HAS_LIBRARY else "process", os.path.join(self.top, "hemtoghai", "__init__.py"))
        self.assertEqual(self.python("-c", code), (0, wanted, ""))

    def test_another_program(self):
        path = os.path.join(self.top, "hemtoghai", "crates", "show_cli", "out", "show_cli")
        self.addCleanup(shutil.copy, self.repository.program, path)
        with open(path, "ab") as file:
            file.write(b"\n")
        status, out, error = self.python("-m", "hemtoghai", "check", os.path.join(TOP, "examples", "solo.choreo"))
        self.assertEqual((status, out, "isn't the one of MANIFEST" in error), (70, "", True))

    def test_pip(self):
        if subprocess.run([sys.executable, "-m", "venv", "--help"], stdout=subprocess.DEVNULL).returncode:
            self.skipTest("this Python makes no environments")
        place = os.path.join(self.room, "environment")
        made = done([sys.executable, "-m", "venv", place], self.room)
        if made[0]:
            self.skipTest("this Python makes no environments: " + made[2][-200:])
        status, out, error = done([os.path.join(place, "bin", "pip"), "install", "--no-index", self.repository.wheel()], self.room)
        self.assertEqual(status, 0, out + error)
        show = os.path.join(TOP, "examples", "solo.choreo")
        self.assertEqual(done([os.path.join(place, "bin", "hemtoghai"), "check", show], self.room),
                         (0, "ok drones 1 cues 1 duration_ms 2000\n", ""))
        status, out, error = done([os.path.join(place, "bin", "hemtoghai"), "why", show], self.room)
        self.assertEqual((status, "check: ok drones 1" in out), (0, True), error)


class Checkout(unittest.TestCase):
    """What pip makes of a checkout, where the package has no program."""
    LINE = "hemtoghai: a checkout has no proved program to install. Take the wheel of a release, or make one by ./show release"

    def setUp(self):
        folder = tempfile.TemporaryDirectory()
        self.addCleanup(folder.cleanup)
        self.room, self.place = folder.name, os.path.join(folder.name, "checkout")
        os.mkdir(self.place)
        shutil.copytree(os.path.join(TOP, "python"), os.path.join(self.place, "python"),
                        ignore=shutil.ignore_patterns("__pycache__", "*.egg-info"))
        for name in ("pyproject.toml", "VERSION"):
            shutil.copy(os.path.join(TOP, name), self.place)

    def hook(self, name):
        """What a hook of pip's says of the checkout: its status, outputs, and the files that it left."""
        code = "import sys\nsys.path[:0] = ['python']\nimport checkout\nprint(checkout.%s(sys.argv[1]))" % name
        os.makedirs(os.path.join(self.room, "out"), exist_ok=True)
        status, out, error = done([sys.executable, "-B", "-c", code, os.path.join(self.room, "out")], self.place)
        return status, out, error, os.listdir(os.path.join(self.room, "out"))

    @unittest.skipIf(release.lacking(), "this Python has no setuptools, or no wheel")
    def test_refused(self):
        for name in ("build_wheel", "prepare_metadata_for_build_wheel"):
            status, out, error, made = self.hook(name)
            self.assertEqual((status, out, made, error.startswith(self.LINE)), (1, "", [], True), error)

    @unittest.skipIf(release.lacking(), "this Python has no setuptools, or no wheel")
    def test_editable(self):
        status, out, error, made = self.hook("build_editable")
        if "has no attribute 'build_editable'" in error:
            self.skipTest("this setuptools makes no editable wheels")
        self.assertEqual((status, len(made), made[0][-4:]), (0, 1, ".whl"), error)

    @unittest.skipIf(release.lacking(), "this Python has no setuptools, or no wheel")
    def test_pip(self):
        if subprocess.run([sys.executable, "-m", "pip", "--version"], stdout=subprocess.DEVNULL, stderr=subprocess.DEVNULL).returncode:
            self.skipTest("this Python has no pip")
        out = os.path.join(self.room, "out")
        status, said, error = done([sys.executable, "-m", "pip", "install", "--no-index", "--no-build-isolation", "--no-deps",
                                    "--target", out, self.place], self.room)
        self.assertNotEqual(status, 0)
        self.assertIn(self.LINE, said + error)
        self.assertFalse(os.path.exists(out))


class Machine(unittest.TestCase):
    def test_machines(self):
        # What the launcher and the tools of a release say, by the machine's processor and C library.
        for processor, library, wanted in (
                ("x86_64", ("glibc", "2.34"), None), ("x86_64", ("glibc", "2.40"), None),
                ("x86_64", ("glibc", "3.0"), None), ("x86_64", ("glibc", "2.31"), "x86_64, glibc 2.31"),
                ("x86_64", ("glibc", "2.4"), "x86_64, glibc 2.4"), ("x86_64", ("", ""), "x86_64, no glibc "),
                ("aarch64", ("glibc", "2.36"), "aarch64, glibc 2.36")):
            with mock.patch("os.path.exists", return_value=True), \
                    mock.patch("hemtoghai.program.c_library", return_value=library), \
                    mock.patch("os.uname", return_value=mock.Mock(machine=processor)):
                line = "this release needs an x86-64 machine with glibc 2.34 or later; here: %s"
                self.assertEqual(program.fault_of_machine(), wanted and line % wanted)
        with mock.patch("hemtoghai.program.c_library", return_value=("glibc", "2.31")):
            self.assertIsNone(program.fault_of_machine())  # here is no release
        self.assertEqual(program.c_library(), platform.libc_ver())


class Manual(unittest.TestCase):
    def test_page(self):
        text = manual.page("7.8.9")
        self.assertEqual(set(re.findall(r"^\.\S*", text, re.M)), {".TH", ".SH", ".B", ".br", ".TP"})
        for form, what in table.COMMANDS:
            self.assertIn("\n.TP\n.B %s\n%s" % (form.replace("-", "\\-"), what[:1].upper()), text)
        with open(os.path.join(TOP, "docs", "COMMANDS.md")) as file:
            page = file.read()
        part = page[page.index("## Statuses and fault lines"):page.index("These are the end frames of `upload`")]
        statuses = re.findall(r"^\| (\d+) \|", part, re.M)
        self.assertEqual(re.findall(r"^\.TP\n(\d+): ", text, re.M), statuses)
        self.assertGreater(len(statuses), 25)
        for option in ("--depth D", "--step MS", "--start", "--readback", "--limit V", "--fine E"):
            self.assertIn("\n.TP\n\\fB%s\\fR\n" % option.replace("-", "\\-"), text)
        for word in ("studio", "why", "import"):
            self.assertIn("\n.TP\n.B %s\n" % word, text)
        if shutil.which("groff"):
            self.assertEqual(done(["groff", "-ww", "-man", "-Tascii", "-z"], TOP, input=text), (0, "", ""))

    def completed(self, *words):
        """What the completion offers for the last of these words."""
        script = manual.completion() + 'COMP_WORDS=("$@") COMP_CWORD=$(($# - 1))\n_show\n' \
            'printf "%s\\n" "${COMPREPLY[@]}"\n'
        status, said, told = done(["bash", "-c", script, "bash", *words], TOP)
        self.assertEqual((status, told), (0, ""))
        return said.split("\n")[:-1]

    def test_completion(self):
        self.assertEqual(self.completed("./show", "")[:len(table.FORMS)], list(table.FORMS))
        for word in (word for word in COMMANDS if "_" not in word):
            self.assertIn(word, self.completed("./show", ""))
        for words, wanted in ((("sp",), ["speed"]), (("--un",), ["--unproved"]), (("--unproved", "dr"), ["drill"]),
                              (("--pr",), ["--proved"]), (("--proved", "dr"), ["drill"]),
                              (("stu",), ["studio"]),
                              (("why", "--"), ["--depth", "--most", "--cured", "--force", "--json", "--help"]),
                              (("check", "--d"), ["--depth"]), (("check", "examples/so"), ["examples/solo.choreo"]),
                              (("check", "--depth", ""), list("012345678")),
                              (("explain", "--fine", ""), list("012345")),
                              (("upload", "--"), ["--depth", "--start", "--readback", "--help"]),
                              (("verify", "examples/solo.choreo", "--"), ["--json", "--help"])):
            self.assertEqual(self.completed("./show", *words), wanted, words)


if __name__ == "__main__":
    unittest.main()
